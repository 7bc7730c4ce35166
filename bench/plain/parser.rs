//! How rules and their items are read.

use crate::fail;
use crate::fraction::Fraction;
use crate::frame::{X, Y, Z};
use crate::lexer::Token;
use crate::parts::Selector;
use crate::reader::{Reader, CURLY, ROUND, SQUARE};
use crate::rule::{Alternative, Body, Item, Rule, Size};
use crate::solid::Solid;

const MILLION: Fraction = Fraction::whole(1_000_000);
const SIDES: [(&str, usize); 6] = [("front", 0), ("right", 1), ("back", 2), ("left", 3), ("top", 4), ("bottom", 5)];

impl Reader<'_> {
    pub fn rule(mut self) -> Rule {
        let id = self.whole();
        self.sign(":");
        let symbol = self.name();
        self.parameters = self.bracketed(Self::name);
        let condition = self.has_sign(":").then(|| self.condition());
        let alternatives = self.alternatives();
        let Reader { parameters, attributes, targets, .. } = self;
        Rule { id, symbol, parameters, condition, alternatives, attributes, targets }
    }

    fn alternatives(&mut self) -> Vec<Alternative> {
        let mut alternatives = Vec::new();
        while !self.is_at_end() {
            self.sign("->");
            let body = self.body();
            let millionths = if self.has_sign(":") { self.number() * MILLION } else { MILLION };
            alternatives.push(Alternative { body, millionths: millionths.floor() });
        }
        alternatives
    }

    fn body(&mut self) -> Body {
        let mut items = Vec::new();
        if self.has_word("NIL") {
            return items;
        }
        while self.is_sign("[") || matches!(self.peek(0), Some(Token::Word(_))) {
            items.push(self.item());
        }
        items
    }

    fn item(&mut self) -> Item {
        if self.is_sign("[") {
            return Item::Scoped(self.within(SQUARE, Self::body));
        }
        match self.word() {
            "T" => Item::Move(self.three(Self::expression)),
            "S" => Item::Resize(self.three(Self::size)),
            "Rx" => Item::Turn(X, self.within(ROUND, Self::quarters)),
            "Ry" => Item::Turn(Y, self.within(ROUND, Self::quarters)),
            "Rz" => Item::Turn(Z, self.within(ROUND, Self::quarters)),
            "I" => Item::Solid(self.within(ROUND, Self::solid)),
            "Subdiv" => self.subdivide(),
            "Repeat" => self.repeat(),
            "Comp" => Item::Components(self.within(ROUND, Self::selector), self.within(CURLY, Self::body)),
            symbol => Item::Child(self.names.number(symbol), self.bracketed(Self::expression)),
        }
    }

    fn three<T>(&mut self, read: fn(&mut Self) -> T) -> [T; 3] {
        self.bracketed(read).try_into().unwrap_or_else(|_| fail("more or less than three members"))
    }

    fn quarters(&mut self) -> i64 {
        let sign = if self.has_sign("-") { -1 } else { 1 };
        (sign * self.whole() / 90).rem_euclid(4)
    }

    fn solid(&mut self) -> Solid {
        use Solid::*;
        self.one_of(&[("cube", Cube), ("quad", Quad), ("shed", Shed), ("gable", Gable), ("hip", Hip)])
    }

    fn axis(&mut self) -> usize {
        self.one_of(&[("X", X), ("Y", Y), ("Z", Z)])
    }

    fn subdivide(&mut self) -> Item {
        let (axis, sizes) = self.within(ROUND, |reader| {
            let axis = reader.axis();
            reader.sign(",");
            (axis, reader.listed(",", Self::size))
        });
        Item::Subdivide(axis, sizes, self.within(CURLY, |reader| reader.listed("|", Self::body)))
    }

    fn repeat(&mut self) -> Item {
        let (axis, length) = self.within(ROUND, |reader| {
            let axis = reader.axis();
            reader.sign(",");
            (axis, reader.expression())
        });
        Item::Repeat(axis, length, self.within(CURLY, Self::body))
    }

    fn selector(&mut self) -> Selector {
        match self.text() {
            "faces" => Selector::Faces,
            "sidefaces" => Selector::SideFaces,
            "edges" => Selector::Edges,
            "vertices" => Selector::Vertices,
            kind => {
                self.sign(",");
                if kind == "face" {
                    Selector::Face(self.one_of(&SIDES))
                } else {
                    Selector::Edge(self.whole() as usize)
                }
            }
        }
    }

    fn size(&mut self) -> Size {
        match self.peek(0) {
            Some(Token::Relative(factor)) => {
                self.next();
                Size::Relative(factor)
            }
            _ => Size::Absolute(self.expression()),
        }
    }
}
