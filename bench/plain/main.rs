//! The measuring stick of `bench/speed.py`: what `cga_city` does, as stock Rust without proofs, and without a town that is
//! kept from edit to edit: each edit derives all anew. Of refusals it knows OverBudget and TooManyLots. It takes no line
//! that is refused for another cause, no number that leaves the range, and no asset, bill, dump, judge, model or undo: it
//! ends with status 3 at most of these, and says something else at the others.

mod derive;
mod expand;
mod expressions;
mod fraction;
mod frame;
mod lexer;
mod parser;
mod parts;
mod reader;
mod report;
mod rule;
mod solid;
mod sources;
mod touched;
mod town;
mod values;
mod word;

use std::io::{BufRead, BufWriter, Result, Write};

use lexer::{tokens, Token};
use reader::Reader;
use report::Report;
use sources::{Grammar, Lot, Names, Sources};
use town::Town;

const MOST_LOTS: usize = 4096;

/// Ends the program.
pub fn fail(why: &str) -> ! {
    eprintln!("this program takes no script with {why}");
    std::process::exit(3)
}

/// A block that is open: the sources so far, and the priority of the next rules.
struct Block {
    sources: Sources,
    priority: u16,
}

struct Session<W: Write> {
    out: W,
    names: Names,
    sources: Sources,
    town: Town,
    /// The sources before the last edit.
    former: Sources,
    /// How many shapes the last edit touched, where it was asked.
    touched: Option<usize>,
    block: Option<Block>,
    budget: usize,
    quiet: bool,
}

impl<W: Write> Session<W> {
    fn new(out: W) -> Session<W> {
        let (names, town) = (Names::default(), Town::default());
        let (sources, former) = (Sources::default(), Sources::default());
        let (touched, block, budget, quiet) = (None, None, 100_000, false);
        Session { out, names, sources, town, former, touched, block, budget, quiet }
    }

    fn line(&mut self, line: &str) -> Result<()> {
        let tokens = tokens(line);
        match tokens.first() {
            None => Ok(()),
            Some(first) if self.block.is_some() => self.block_line(*first, &tokens),
            Some(Token::Word(word)) => self.command(word, &tokens),
            Some(_) => fail("a line without a command"),
        }
    }

    fn block_line(&mut self, first: Token, tokens: &[Token]) -> Result<()> {
        match self.block.take() {
            Some(block) if first == Token::Word("end") => self.edit(block.sources),
            Some(mut block) => {
                block.take_line(first, Reader::new(tokens, &mut self.names));
                self.block = Some(block);
                Ok(())
            }
            None => Ok(()),
        }
    }

    fn command(&mut self, word: &str, tokens: &[Token]) -> Result<()> {
        match word {
            "version" => {
                self.budget = 400_000;
                writeln!(self.out, "# ok")
            }
            "quiet" => {
                self.quiet = true;
                Ok(())
            }
            "rules" => self.open(Sources { grammar: Default::default(), ..self.sources.clone() }),
            "city" => self.open(Sources::default()),
            "print" | "faults" | "stats" | "trace" => self.report(word, tokens.get(1).copied()),
            _ => {
                let mut sources = self.sources.clone();
                change(&mut sources, word, Reader::new(&tokens[1..], &mut self.names));
                self.edit(sources)
            }
        }
    }

    fn open(&mut self, sources: Sources) -> Result<()> {
        self.block = Some(Block { sources, priority: 1 });
        Ok(())
    }

    /// Derives all anew.
    fn edit(&mut self, sources: Sources) -> Result<()> {
        if sources.lots.len() > MOST_LOTS {
            return writeln!(self.out, "# refused TooManyLots");
        }
        match derive::derive(&sources, &self.names, self.budget) {
            Some(town) => self.settle(sources, town),
            None => writeln!(self.out, "# refused OverBudget"),
        }
    }

    fn settle(&mut self, sources: Sources, town: Town) -> Result<()> {
        self.former = std::mem::replace(&mut self.sources, sources);
        self.town = town;
        self.touched = None;
        if self.quiet {
            Ok(())
        } else {
            writeln!(self.out, "# ok")
        }
    }

    fn report(&mut self, word: &str, named: Option<Token>) -> Result<()> {
        let touched = if word == "stats" { self.touched() } else { 0 };
        let report = Report { names: &self.names, sources: &self.sources, town: &self.town };
        match (word, named) {
            ("print", None) => report.print(&mut self.out, None),
            ("print", Some(Token::Word(name))) => {
                let lots = &self.sources.lots;
                let at = lots.iter().position(|lot| self.names.name(lot.name) == name);
                report.print(&mut self.out, Some(at.unwrap_or_else(|| fail("a lot that isn't there"))))
            }
            ("faults", _) => report.faults(&mut self.out),
            ("trace", _) => report.trace(&mut self.out),
            _ => report.stats(&mut self.out, touched),
        }
    }

    /// Found where it is asked: the former town is derived once more.
    fn touched(&mut self) -> usize {
        if let Some(touched) = self.touched {
            return touched;
        }
        let former = derive::derive(&self.former, &self.names, self.budget).unwrap_or_default();
        let touched = touched::touched((&self.former, &former), (&self.sources, &self.town), &self.names);
        self.touched = Some(touched);
        touched
    }
}

impl Block {
    fn take_line(&mut self, first: Token, mut reader: Reader) {
        match first {
            Token::Number(_) => self.sources.grammar().put(self.priority, reader.rule()),
            Token::Word(word) => {
                reader.next();
                match word {
                    "PRIORITY" => self.priority = reader.priority(),
                    "attr" => self.attribute(reader),
                    _ => change(&mut self.sources, word, reader),
                }
            }
            _ => fail("a line of a block that isn't known"),
        }
    }

    fn attribute(&mut self, mut reader: Reader) {
        let name = reader.name();
        reader.sign("=");
        self.sources.grammar().attributes.push((name, reader.value()));
    }
}

/// What an edit makes of the sources. Its first word is read.
fn change(sources: &mut Sources, word: &str, mut reader: Reader) {
    match word {
        "put" => sources.grammar().put(reader.priority(), reader.rule()),
        "drop" => drop_rule(sources.grammar(), reader.whole()),
        "attr" => set_attribute(sources.grammar(), reader),
        "priority" => set_priority(sources.grammar(), reader.name(), reader.priority()),
        "lot" => sources.set_lot(lot(reader)),
        "unlot" => sources.take_lot(reader.name()),
        "order" => sources.depth_first = reader.word() == "depth",
        _ => fail("a command that isn't known"),
    }
}

fn drop_rule(grammar: &mut Grammar, id: i64) {
    match grammar.place(id) {
        Ok(at) => drop(grammar.rules.remove(at)),
        Err(_) => fail("a rule that isn't there"),
    }
}

fn set_attribute(grammar: &mut Grammar, mut reader: Reader) {
    let name = reader.name();
    reader.sign("=");
    let found = grammar.attributes.iter_mut().find(|attribute| attribute.0 == name);
    found.unwrap_or_else(|| fail("an attribute that isn't there")).1 = reader.value();
}

fn set_priority(grammar: &mut Grammar, symbol: usize, priority: u16) {
    for entry in grammar.rules.iter_mut().filter(|(_, rule)| rule.symbol == symbol) {
        entry.0 = priority;
    }
}

fn lot(mut reader: Reader) -> Lot {
    let (name, seed) = (reader.name(), reader.whole() as u64);
    let (x, z, width, depth) = (reader.value(), reader.value(), reader.value(), reader.value());
    if !width.is_positive() || !depth.is_positive() {
        fail("a lot of no extent");
    }
    Lot { name, seed, x, z, width, depth, symbol: reader.name() }
}

/// A line without the carriage return before its line feed.
fn trimmed(line: &[u8]) -> &[u8] {
    match line.strip_suffix(b"\n") {
        Some(line) => line.strip_suffix(b"\r").unwrap_or(line),
        None => line,
    }
}

fn main() -> Result<()> {
    let (mut input, mut line) = (std::io::stdin().lock(), Vec::new());
    let mut session = Session::new(BufWriter::new(std::io::stdout().lock()));
    while input.read_until(b'\n', &mut line)? > 0 {
        session.line(&String::from_utf8_lossy(trimmed(&line)))?;
        line.clear();
    }
    session.out.flush()
}
