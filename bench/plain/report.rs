//! The texts that are told of a town.

use std::io::{Result, Write};

use crate::frame::Point;
use crate::rule::Answer;
use crate::solid::{mesh, Mesh};
use crate::sources::{Names, Sources};
use crate::town::{Node, State, Town};

pub struct Report<'a> {
    pub names: &'a Names,
    pub sources: &'a Sources,
    pub town: &'a Town,
}

impl Report<'_> {
    /// The OBJ text of all lots, or of one.
    pub fn print(&self, out: &mut impl Write, lot: Option<usize>) -> Result<()> {
        out.write_all(b"# cga_city obj\n")?;
        let mut before = 0;
        for at in (0..self.sources.lots.len()).filter(|at| lot.is_none() || lot == Some(*at)) {
            writeln!(out, "o {}", self.names.name(self.sources.lots[at].name))?;
            self.print_from(out, at, &mut before)?;
        }
        Ok(())
    }

    /// The instances from a shape on. So many vertices stand before them.
    fn print_from(&self, out: &mut impl Write, at: usize, before: &mut usize) -> Result<()> {
        let node = &self.town.nodes[at];
        if let State::Instance(solid) = node.state {
            writeln!(out, "g {}", self.names.name(node.symbol))?;
            let mesh = mesh(solid, &node.scope);
            print_mesh(out, &mesh, *before)?;
            *before += mesh.vertices.len();
        }
        node.children.clone().try_for_each(|child| self.print_from(out, child, before))
    }

    pub fn faults(&self, out: &mut impl Write) -> Result<()> {
        writeln!(out, "# faults {}", self.count(|state| matches!(state, State::Faulted(_))))?;
        (0..self.town.roots).try_for_each(|root| self.faults_from(out, root))
    }

    fn faults_from(&self, out: &mut impl Write, at: usize) -> Result<()> {
        let node = &self.town.nodes[at];
        if let State::Faulted(fault) = node.state {
            writeln!(out, "# fault {} {fault:?}", self.place(at))?;
        }
        node.children.clone().try_for_each(|child| self.faults_from(out, child))
    }

    fn count(&self, test: impl Fn(State) -> bool) -> usize {
        self.town.nodes.iter().filter(|node| test(node.state)).count()
    }

    pub fn stats(&self, out: &mut impl Write, touched: usize) -> Result<()> {
        let (lots, shapes) = (self.sources.lots.len(), self.town.nodes.len());
        let instances = self.count(|state| matches!(state, State::Instance(_)));
        let faults = self.count(|state| matches!(state, State::Faulted(_)));
        writeln!(out, "# stats lots {lots} shapes {shapes} instances {instances} faults {faults} expanded {touched}")
    }

    pub fn trace(&self, out: &mut impl Write) -> Result<()> {
        writeln!(out, "# trace {}", self.town.steps.len())?;
        for at in &self.town.steps {
            let node = &self.town.nodes[*at];
            let [noparent, active] = node.answers.map(answer_text);
            writeln!(out, "# step {} {noparent} {active} {}", self.place(*at), outcome(node))?;
        }
        Ok(())
    }

    /// Lot, path and symbol.
    fn place(&self, at: usize) -> String {
        let node = &self.town.nodes[at];
        let line = self.town.line(at);
        let indices = line[1..].iter().map(|at| format!("/{}", self.town.nodes[*at].index));
        let path = if node.depth == 0 { "/".to_string() } else { indices.collect() };
        let lot = self.names.name(self.sources.lots[node.lot].name);
        format!("{lot} {path} {}", self.names.name(node.symbol))
    }
}

fn print_mesh(out: &mut impl Write, mesh: &Mesh, before: usize) -> Result<()> {
    for [x, y, z] in &mesh.vertices as &[Point] {
        writeln!(out, "v {x} {y} {z}")?;
    }
    for face in mesh.faces {
        out.write_all(b"f")?;
        face.iter().try_for_each(|corner| write!(out, " {}", before + corner))?;
        out.write_all(b"\n")?;
    }
    Ok(())
}

fn answer_text(answer: Option<Answer>) -> &'static str {
    match answer {
        None => "-",
        Some(Answer::None) => "none",
        Some(Answer::Part) => "part",
        Some(Answer::Full) => "full",
    }
}

fn outcome(node: &Node) -> String {
    match node.state {
        State::Faulted(fault) => format!("{fault:?}"),
        _ => node.children.len().to_string(),
    }
}
