//! Which rule and which alternative a shape takes, and what it becomes.

use crate::fraction::Fraction;
use crate::frame::Scope;
use crate::parts::{components, repeat, subdivide};
use crate::rule::{Body, Expression, Item, Rule, Size};
use crate::solid::{lacks_size, Solid};
use crate::sources::Tables;
use crate::town::Node;
use crate::values::{holds, value, Fault, Known};
use crate::word::shape_word;

const MOST_DEPTH: usize = 256;
const MOST_CHILDREN: usize = 4096;
const MOST_PARTS: usize = 10_000;

/// An instance has a solid.
pub struct Child {
    pub symbol: usize,
    pub arguments: Vec<Fraction>,
    pub scope: Scope,
    pub solid: Option<Solid>,
}

/// The children of a shape in order.
pub fn expand(tables: &Tables, node: &Node, children: &mut Vec<Child>) -> Result<(), Fault> {
    if node.depth == MOST_DEPTH {
        return Err(Fault::TooDeep);
    }
    let known = Known { arguments: &node.arguments, attributes: &tables.attributes, seed: node.seed };
    let rule = chosen(&tables.groups[node.symbol].rules, node, known)?;
    let mut walk = Walk { symbol: node.symbol, known, parts: 0, children };
    walk.body(picked(rule, node.seed), node.scope)
}

/// The first rule whose condition holds.
fn chosen<'a>(rules: &'a [std::rc::Rc<Rule>], node: &Node, known: Known) -> Result<&'a Rule, Fault> {
    for rule in rules {
        match &rule.condition {
            Some(condition) if !holds(condition, known, &node.scope.size, &node.answers)? => continue,
            _ => return Ok(rule),
        }
    }
    Err(Fault::Unmatched)
}

/// The first alternative whose millionths, with those before it, are more than what is drawn.
fn picked(rule: &Rule, seed: u64) -> &Body {
    let mut drawn = ((shape_word(seed, 0) * 1_000_000) >> 32) as i64;
    for alternative in &rule.alternatives {
        drawn -= alternative.millionths;
        if drawn < 0 {
            return &alternative.body;
        }
    }
    crate::fail("probabilities that don't add up to 1")
}

struct Walk<'a> {
    symbol: usize,
    known: Known<'a>,
    parts: usize,
    children: &'a mut Vec<Child>,
}

impl Walk<'_> {
    /// Each item takes the current scope, and gives the next one.
    fn body(&mut self, items: &[Item], mut scope: Scope) -> Result<(), Fault> {
        for item in items {
            scope = self.item(item, scope)?;
        }
        Ok(())
    }

    fn item(&mut self, item: &Item, scope: Scope) -> Result<Scope, Fault> {
        match item {
            Item::Move([x, y, z]) => {
                return Ok(scope.moved([self.value(x, &scope)?, self.value(y, &scope)?, self.value(z, &scope)?]))
            }
            Item::Resize(sizes) => return self.resized(sizes, scope),
            Item::Turn(axis, quarters) => return Ok(scope.turned(*axis, *quarters)),
            Item::Scoped(items) => self.body(items, scope)?,
            Item::Solid(solid) => self.draw(*solid, scope)?,
            Item::Child(symbol, arguments) => self.grow(*symbol, arguments, scope)?,
            Item::Subdivide(axis, sizes, bodies) => self.subdivide(*axis, sizes, bodies, &scope)?,
            Item::Repeat(axis, length, body) => {
                let length = self.value(length, &scope)?;
                self.each(repeat(&scope, *axis, length)?, body)?
            }
            Item::Components(selector, body) => self.each(components(&scope, selector)?, body)?,
        }
        Ok(scope)
    }

    fn value(&self, expression: &Expression, scope: &Scope) -> Result<Fraction, Fault> {
        value(expression, self.known, &scope.size)
    }

    fn resized(&self, sizes: &[Size; 3], scope: Scope) -> Result<Scope, Fault> {
        let mut new = scope.size;
        for (axis, size) in sizes.iter().enumerate() {
            new[axis] = match size {
                Size::Relative(factor) => *factor * scope.size[axis],
                Size::Absolute(expression) => self.value(expression, &scope)?,
            };
        }
        match new.iter().any(|size| *size < Fraction::ZERO) {
            true => Err(Fault::NegativeSize),
            false => Ok(scope.resized(new)),
        }
    }

    fn draw(&mut self, solid: Solid, scope: Scope) -> Result<(), Fault> {
        if lacks_size(solid, &scope) {
            return Err(Fault::FlatScope);
        }
        self.emit(Child { symbol: self.symbol, arguments: Vec::new(), scope, solid: Some(solid) })
    }

    fn grow(&mut self, symbol: usize, arguments: &[Expression], scope: Scope) -> Result<(), Fault> {
        let arguments = arguments.iter().map(|argument| self.value(argument, &scope)).collect::<Result<_, _>>()?;
        self.emit(Child { symbol, arguments, scope, solid: None })
    }

    fn emit(&mut self, child: Child) -> Result<(), Fault> {
        if self.children.len() >= MOST_CHILDREN {
            return Err(Fault::TooManyChildren);
        }
        self.children.push(child);
        Ok(())
    }

    fn count(&mut self, parts: usize) -> Result<(), Fault> {
        self.parts += parts;
        if self.parts > MOST_PARTS {
            Err(Fault::TooManyParts)
        } else {
            Ok(())
        }
    }

    /// Parts are made, then counted, then done.
    fn each(&mut self, parts: Vec<Scope>, body: &[Item]) -> Result<(), Fault> {
        self.count(parts.len())?;
        parts.into_iter().try_for_each(|part| self.body(body, part))
    }

    fn subdivide(&mut self, axis: usize, sizes: &[Size], bodies: &[Body], scope: &Scope) -> Result<(), Fault> {
        let known = sizes.iter().map(|size| match size {
            Size::Relative(factor) => Ok((true, *factor)),
            Size::Absolute(expression) => Ok((false, self.value(expression, scope)?)),
        });
        let parts = subdivide(scope, axis, &known.collect::<Result<Vec<_>, _>>()?)?;
        self.count(parts.len())?;
        parts.into_iter().zip(bodies).try_for_each(|(part, body)| self.body(body, part))
    }
}
