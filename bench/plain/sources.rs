//! What a town is derived from: attributes, rules, lots and the mode; and tables of it by numbers of names.

use std::collections::HashMap;
use std::rc::Rc;

use crate::fraction::Fraction;
use crate::rule::Rule;

/// Each name has a number for as long as the program runs.
#[derive(Default)]
pub struct Names {
    names: Vec<String>,
    numbers: HashMap<String, usize>,
}

impl Names {
    pub fn number(&mut self, name: &str) -> usize {
        if let Some(number) = self.numbers.get(name) {
            return *number;
        }
        let number = self.names.len();
        self.names.push(name.to_string());
        self.numbers.insert(name.to_string(), number);
        number
    }

    pub fn name(&self, number: usize) -> &str {
        &self.names[number]
    }

    pub fn count(&self) -> usize {
        self.names.len()
    }
}

#[derive(Clone)]
pub struct Lot {
    pub name: usize,
    pub seed: u64,
    pub x: Fraction,
    pub z: Fraction,
    pub width: Fraction,
    pub depth: Fraction,
    pub symbol: usize,
}

#[derive(Clone, Default)]
pub struct Grammar {
    pub attributes: Vec<(usize, Fraction)>,
    /// By rising id, each with its priority.
    pub rules: Vec<(u16, Rc<Rule>)>,
}

impl Grammar {
    pub fn put(&mut self, priority: u16, rule: Rule) {
        let entry = (priority, Rc::new(rule));
        match self.place(entry.1.id) {
            Ok(at) => self.rules[at] = entry,
            Err(at) => self.rules.insert(at, entry),
        }
    }

    /// The place of a rule, or that where it would be.
    pub fn place(&self, id: i64) -> Result<usize, usize> {
        self.rules.binary_search_by_key(&id, |(_, rule)| rule.id)
    }
}

#[derive(Clone, Default)]
pub struct Sources {
    pub grammar: Rc<Grammar>,
    pub lots: Vec<Lot>,
    /// The places of lots by their names.
    pub places: HashMap<usize, usize>,
    pub depth_first: bool,
}

impl Sources {
    pub fn grammar(&mut self) -> &mut Grammar {
        Rc::make_mut(&mut self.grammar)
    }

    /// In the place of the one of its name, or behind all others.
    pub fn set_lot(&mut self, lot: Lot) {
        match self.places.get(&lot.name) {
            Some(at) => self.lots[*at] = lot,
            None => {
                self.places.insert(lot.name, self.lots.len());
                self.lots.push(lot);
            }
        }
    }

    pub fn take_lot(&mut self, name: usize) {
        if !self.places.contains_key(&name) {
            crate::fail("a lot that isn't there");
        }
        self.lots.retain(|lot| lot.name != name);
        self.places = self.lots.iter().enumerate().map(|(at, lot)| (lot.name, at)).collect();
    }
}

/// The rules of a symbol by rising id.
#[derive(Clone, Default)]
pub struct Group {
    pub priority: u16,
    pub rules: Vec<Rc<Rule>>,
    /// Whether a rule mentions the target.
    pub asks: [bool; 2],
}

/// Values of attributes and groups of symbols, each by the number of its name.
pub struct Tables {
    pub attributes: Vec<Fraction>,
    pub groups: Vec<Group>,
}

impl Tables {
    pub fn new(grammar: &Grammar, names: &Names) -> Tables {
        let mut attributes = vec![Fraction::ZERO; names.count()];
        for (name, value) in &grammar.attributes {
            attributes[*name] = *value;
        }
        let mut groups = vec![Group::default(); names.count()];
        for (priority, rule) in &grammar.rules {
            groups[rule.symbol].add(*priority, rule);
        }
        Tables { attributes, groups }
    }

    /// Of a symbol that has rules.
    pub fn group(&self, symbol: usize) -> &Group {
        match &self.groups[symbol] {
            group if group.rules.is_empty() => crate::fail("a symbol without rules"),
            group => group,
        }
    }

    pub fn asks(&self) -> bool {
        self.groups.iter().any(|group| group.asks != [false; 2])
    }
}

impl Group {
    fn add(&mut self, priority: u16, rule: &Rc<Rule>) {
        self.priority = priority;
        self.rules.push(rule.clone());
        for target in &rule.targets {
            self.asks[*target as usize] = true;
        }
    }
}
