//! The shapes of a town, and what a shape is answered by boxes around them.

use std::ops::Range;

use crate::expand::Child;
use crate::fraction::Fraction;
use crate::frame::{Bounds, Scope};
use crate::rule::Answer;
use crate::solid::Solid;
use crate::values::{Answers, Fault};
use crate::word::child_seed;

#[derive(Clone, Copy, PartialEq)]
pub enum State {
    Waiting,
    Done,
    Faulted(Fault),
    Instance(Solid),
}

/// A shape. The index is among its siblings; the lot is the place of its lot.
pub struct Node {
    pub lot: usize,
    pub parent: usize,
    pub index: usize,
    pub depth: usize,
    pub symbol: usize,
    pub arguments: Vec<Fraction>,
    pub scope: Scope,
    pub bounds: Bounds,
    pub seed: u64,
    pub state: State,
    pub answers: Answers,
    pub children: Range<usize>,
}

impl Node {
    pub fn root(lot: usize, symbol: usize, scope: Scope, seed: u64) -> Node {
        let (state, arguments, answers, bounds) = (State::Waiting, Vec::new(), [None; 2], scope.bounds());
        Node {
            lot,
            parent: lot,
            index: 0,
            depth: 0,
            symbol,
            arguments,
            scope,
            bounds,
            seed,
            state,
            answers,
            children: 0..0,
        }
    }

    pub fn child(parent: usize, elder: &Node, index: usize, child: Child) -> Node {
        let seed = child_seed(elder.seed, index);
        let state = child.solid.map_or(State::Waiting, State::Instance);
        let node = Node::root(elder.lot, child.symbol, child.scope, seed);
        Node { parent, index, depth: elder.depth + 1, arguments: child.arguments, state, ..node }
    }
}

/// The roots come first; siblings stand together, in order.
#[derive(Default)]
pub struct Town {
    pub roots: usize,
    pub nodes: Vec<Node>,
    /// In the order in which they were taken.
    pub steps: Vec<usize>,
}

impl Town {
    /// A shape and its ancestors, by their depths.
    pub fn line(&self, at: usize) -> Vec<usize> {
        let mut line = vec![at; self.nodes[at].depth + 1];
        for depth in (0..line.len() - 1).rev() {
            line[depth] = self.nodes[line[depth + 1]].parent;
        }
        line
    }
}

const ROOTS_OF_BLOCK: usize = 64;

/// For each shape the bounds of it and all below it, and for each so many roots the bounds of these.
#[derive(Default)]
pub struct Hulls {
    hulls: Vec<Bounds>,
    blocks: Vec<Bounds>,
}

impl Hulls {
    /// The next shape is there.
    pub fn add(&mut self, nodes: &[Node]) {
        let at = self.hulls.len();
        let bounds = nodes[at].bounds;
        self.hulls.push(bounds);
        if nodes[at].depth == 0 {
            self.join_block(at, &bounds);
        } else {
            self.grow(nodes, nodes[at].parent, &bounds);
        }
    }

    fn grow(&mut self, nodes: &[Node], mut at: usize, bounds: &Bounds) {
        while !self.hulls[at].holds(bounds) {
            self.hulls[at].join(bounds);
            if nodes[at].depth == 0 {
                return self.join_block(at, bounds);
            }
            at = nodes[at].parent;
        }
    }

    fn join_block(&mut self, root: usize, bounds: &Bounds) {
        match self.blocks.get_mut(root / ROOTS_OF_BLOCK) {
            Some(block) => block.join(bounds),
            None => self.blocks.push(*bounds),
        }
    }

    /// What a shape is answered, of all shapes or of those that wait.
    pub fn answer(&self, town: &Town, at: usize, of_waiting: bool) -> Answer {
        let (line, bounds) = (town.line(at), &town.nodes[at].bounds);
        let mut question = Question { town, hulls: &self.hulls, line, bounds, of_waiting, answer: Answer::None };
        for (number, _) in self.blocks.iter().enumerate().filter(|(_, block)| block.touches(bounds)) {
            let first = number * ROOTS_OF_BLOCK;
            question.visit_all(first..town.roots.min(first + ROOTS_OF_BLOCK));
        }
        question.answer
    }
}

struct Question<'a> {
    town: &'a Town,
    hulls: &'a [Bounds],
    line: Vec<usize>,
    bounds: &'a Bounds,
    of_waiting: bool,
    answer: Answer,
}

impl Question<'_> {
    fn visit_all(&mut self, range: Range<usize>) {
        for at in range {
            if self.answer < Answer::Full && self.hulls[at].touches(self.bounds) {
                self.compare(at);
                self.visit_all(self.town.nodes[at].children.clone());
            }
        }
    }

    /// The shape itself and its ancestors aren't asked.
    fn compare(&mut self, at: usize) {
        let node = &self.town.nodes[at];
        let is_asked = !self.of_waiting || node.state == State::Waiting;
        if is_asked && self.line.get(node.depth) != Some(&at) && node.bounds.meets(self.bounds) {
            let answer = if node.bounds.holds(self.bounds) { Answer::Full } else { Answer::Part };
            self.answer = self.answer.max(answer);
        }
    }
}
