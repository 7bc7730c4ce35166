//! How many shapes an edit touched: those that aren't in the former town, or have other inputs in it.

use crate::sources::{Names, Sources, Tables};
use crate::town::{Node, State, Town};

struct Side<'a> {
    town: &'a Town,
    tables: Tables,
}

struct Pair<'a> {
    former: Side<'a>,
    new: Side<'a>,
    /// By symbols: whether the priorities and the settings agree.
    agreed: Vec<Option<(bool, bool)>>,
}

pub fn touched(former: (&Sources, &Town), new: (&Sources, &Town), names: &Names) -> usize {
    let all = new.1.steps.len();
    if former.0.depth_first != new.0.depth_first {
        return all;
    }
    let side = |(sources, town): (&Sources, _)| Side { town, tables: Tables::new(&sources.grammar, names) };
    let agreed = vec![None; names.count()];
    let mut pair = Pair { former: side(former), new: side(new), agreed };
    let lots = new.0.lots.iter().enumerate();
    let both = lots.filter_map(|(at, lot)| Some((*former.0.places.get(&lot.name)?, at)));
    all - both.map(|(former, new)| pair.untouched(former, new)).sum::<usize>()
}

fn is_instance(node: &Node) -> bool {
    matches!(node.state, State::Instance(_))
}

fn are_alike(former: &Node, new: &Node) -> bool {
    !is_instance(former)
        && !is_instance(new)
        && (former.symbol, former.seed) == (new.symbol, new.seed)
        && former.arguments == new.arguments
        && former.scope == new.scope
}

impl Pair<'_> {
    /// The number of shapes from here on that are kept with their inputs.
    fn untouched(&mut self, former: usize, new: usize) -> usize {
        let (old, now) = (&self.former.town.nodes[former], &self.new.town.nodes[new]);
        if !are_alike(old, now) {
            return 0;
        }
        let (priorities, settings) = self.agree(now.symbol);
        if !priorities {
            return 0;
        }
        let own = usize::from(settings && old.answers == now.answers);
        let children = old.children.clone().zip(now.children.clone());
        own + children.map(|(former, new)| self.untouched(former, new)).sum::<usize>()
    }

    fn agree(&mut self, symbol: usize) -> (bool, bool) {
        if let Some(agreed) = self.agreed[symbol] {
            return agreed;
        }
        let (former, new) = (&self.former.tables.groups[symbol], &self.new.tables.groups[symbol]);
        let is_same = |name: &usize| self.former.tables.attributes[*name] == self.new.tables.attributes[*name];
        let values = new.rules.iter().all(|rule| rule.attributes.iter().all(is_same));
        let agreed = (former.priority == new.priority, values && former.rules == new.rules);
        self.agreed[symbol] = Some(agreed);
        agreed
    }
}
