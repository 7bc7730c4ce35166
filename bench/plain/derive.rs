//! The derivation: the waiting shape of least rank is expanded, until none waits.

use std::cmp::Reverse;
use std::collections::BinaryHeap;

use crate::expand::{expand, Child};
use crate::frame::Scope;
use crate::sources::{Names, Sources, Tables};
use crate::town::{Hulls, Node, State, Town};

/// A shape that waits, by its rank: in the mode Depth the depth is 0. The lot is its place by the bytes of the names.
#[derive(PartialEq, Eq, PartialOrd, Ord)]
struct Due {
    priority: u16,
    depth: u16,
    lot: u32,
    path: Box<[u16]>,
    node: usize,
}

struct Derivation {
    tables: Tables,
    depth_first: bool,
    asks: bool,
    /// Of the lots, by their names.
    ranks: Vec<u32>,
    town: Town,
    hulls: Hulls,
    agenda: BinaryHeap<Reverse<Due>>,
    emitted: Vec<Child>,
}

/// None where there are more shapes than the budget at some time.
pub fn derive(sources: &Sources, names: &Names, budget: usize) -> Option<Town> {
    let mut derivation = Derivation::new(sources, names);
    while let Some(Reverse(due)) = derivation.agenda.pop() {
        derivation.step(due);
        if derivation.town.nodes.len() > budget {
            return None;
        }
    }
    Some(derivation.town)
}

fn ranks(sources: &Sources, names: &Names) -> Vec<u32> {
    let mut order: Vec<usize> = (0..sources.lots.len()).collect();
    order.sort_by_key(|lot| names.name(sources.lots[*lot].name));
    let mut ranks = vec![0; order.len()];
    for (rank, lot) in (0..).zip(order) {
        ranks[lot] = rank;
    }
    ranks
}

impl Derivation {
    fn new(sources: &Sources, names: &Names) -> Derivation {
        let tables = Tables::new(&sources.grammar, names);
        let (asks, ranks, depth_first) = (tables.asks(), ranks(sources, names), sources.depth_first);
        let (town, hulls, agenda) = (Town::default(), Hulls::default(), BinaryHeap::new());
        let mut new = Derivation { tables, depth_first, asks, ranks, town, hulls, agenda, emitted: Vec::new() };
        new.town.roots = sources.lots.len();
        for (place, lot) in sources.lots.iter().enumerate() {
            let scope = Scope::ground(lot.x, lot.z, lot.width, lot.depth);
            new.add(Node::root(place, lot.symbol, scope, lot.seed), Box::default);
        }
        new
    }

    /// A shape that isn't an instance waits.
    fn add(&mut self, node: Node, path: impl FnOnce() -> Box<[u16]>) {
        if node.state == State::Waiting {
            let depth = if self.depth_first { 0 } else { node.depth as u16 };
            let (priority, lot) = (self.tables.group(node.symbol).priority, self.ranks[node.lot]);
            self.agenda.push(Reverse(Due { priority, depth, lot, path: path(), node: self.town.nodes.len() }));
        }
        self.town.nodes.push(node);
        if self.asks {
            self.hulls.add(&self.town.nodes);
        }
    }

    fn step(&mut self, due: Due) {
        let at = due.node;
        self.town.steps.push(at);
        self.ask(at);
        let mut emitted = std::mem::take(&mut self.emitted);
        match expand(&self.tables, &self.town.nodes[at], &mut emitted) {
            Ok(()) => self.done(&due, &mut emitted),
            Err(fault) => self.town.nodes[at].state = State::Faulted(fault),
        }
        emitted.clear();
        self.emitted = emitted;
    }

    fn ask(&mut self, at: usize) {
        for (target, is_asked) in self.tables.groups[self.town.nodes[at].symbol].asks.into_iter().enumerate() {
            if is_asked {
                self.town.nodes[at].answers[target] = Some(self.hulls.answer(&self.town, at, target == 1));
            }
        }
    }

    fn done(&mut self, due: &Due, emitted: &mut Vec<Child>) {
        let first = self.town.nodes.len();
        self.town.nodes[due.node].state = State::Done;
        self.town.nodes[due.node].children = first..first + emitted.len();
        for (index, child) in emitted.drain(..).enumerate() {
            let node = Node::child(due.node, &self.town.nodes[due.node], index, child);
            self.add(node, || [&due.path[..], &[index as u16]].concat().into());
        }
    }
}
