//! Reading the tokens of a line one after the other. What isn't as it must be ends the program.

use crate::fail;
use crate::fraction::Fraction;
use crate::lexer::Token;
use crate::rule::Target;
use crate::sources::Names;

pub const ROUND: [&str; 2] = ["(", ")"];
pub const CURLY: [&str; 2] = ["{", "}"];
pub const SQUARE: [&str; 2] = ["[", "]"];

pub struct Reader<'a> {
    tokens: &'a [Token<'a>],
    at: usize,
    pub names: &'a mut Names,
    /// Of the rule that is read: its parameters, what it mentions so far, and the number of its random values.
    pub parameters: Vec<usize>,
    pub attributes: Vec<usize>,
    pub targets: Vec<Target>,
    pub randoms: usize,
}

impl<'a> Reader<'a> {
    pub fn new(tokens: &'a [Token<'a>], names: &'a mut Names) -> Reader<'a> {
        let (parameters, attributes, targets) = (Vec::new(), Vec::new(), Vec::new());
        Reader { tokens, at: 0, names, parameters, attributes, targets, randoms: 0 }
    }

    /// The token behind the next ones, so many.
    pub fn peek(&self, behind: usize) -> Option<Token<'a>> {
        self.tokens.get(self.at + behind).copied()
    }

    pub fn next(&mut self) -> Token<'a> {
        let token = self.peek(0).unwrap_or_else(|| fail("a line that ends too early"));
        self.at += 1;
        token
    }

    pub fn is_at_end(&self) -> bool {
        self.at == self.tokens.len()
    }

    /// Takes the token where it is next.
    pub fn has(&mut self, token: Token) -> bool {
        let found = self.peek(0) == Some(token);
        self.at += usize::from(found);
        found
    }

    pub fn has_word(&mut self, word: &str) -> bool {
        self.has(Token::Word(word))
    }

    pub fn has_sign(&mut self, sign: &str) -> bool {
        self.has(Token::Sign(sign))
    }

    pub fn is_sign(&self, sign: &str) -> bool {
        self.peek(0) == Some(Token::Sign(sign))
    }

    pub fn sign(&mut self, sign: &str) {
        if !self.has_sign(sign) {
            fail("another sign than one that must be");
        }
    }

    pub fn word(&mut self) -> &'a str {
        match self.next() {
            Token::Word(word) => word,
            _ => fail("no word where one must be"),
        }
    }

    pub fn name(&mut self) -> usize {
        let word = self.word();
        self.names.number(word)
    }

    pub fn text(&mut self) -> &'a str {
        match self.next() {
            Token::Text(text) => text,
            _ => fail("no text where one must be"),
        }
    }

    pub fn number(&mut self) -> Fraction {
        match self.next() {
            Token::Number(number) => number,
            _ => fail("no number where one must be"),
        }
    }

    pub fn whole(&mut self) -> i64 {
        self.number().as_whole().unwrap_or_else(|| fail("no whole number where one must be"))
    }

    pub fn priority(&mut self) -> u16 {
        u16::try_from(self.whole()).unwrap_or_else(|_| fail("a priority past 65,535"))
    }

    /// A number, or two whole ones with a stroke between them, with a minus before it or without.
    pub fn value(&mut self) -> Fraction {
        let minus = self.has_sign("-");
        let mut value = self.number();
        if self.has_sign("/") {
            value = value / Fraction::whole(self.whole());
        }
        if minus {
            -value
        } else {
            value
        }
    }

    /// One member or more, with a separator between two of them.
    pub fn listed<T>(&mut self, separator: &str, read: fn(&mut Self) -> T) -> Vec<T> {
        let mut members = vec![read(self)];
        while self.has_sign(separator) {
            members.push(read(self));
        }
        members
    }

    /// What stands between an opening and a closing sign.
    pub fn within<T>(&mut self, signs: [&str; 2], read: impl FnOnce(&mut Self) -> T) -> T {
        self.sign(signs[0]);
        let said = read(self);
        self.sign(signs[1]);
        said
    }

    /// A list in round brackets, or none.
    pub fn bracketed<T>(&mut self, read: fn(&mut Self) -> T) -> Vec<T> {
        match self.is_sign("(") {
            true => self.within(ROUND, |reader| reader.listed(",", read)),
            false => Vec::new(),
        }
    }

    /// The meaning of a text that is next.
    pub fn one_of<T: Copy>(&mut self, known: &[(&str, T)]) -> T {
        let text = self.text();
        let found = known.iter().find(|(name, _)| *name == text);
        found.unwrap_or_else(|| fail("a text that isn't known")).1
    }
}
