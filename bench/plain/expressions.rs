//! How conditions and expressions are read.

use std::cmp::Ordering::{Equal, Greater, Less};

use crate::lexer::Token;
use crate::reader::{Reader, ROUND, SQUARE};
use crate::rule::{Answer, Condition, Expression, Operator, Relation, Target, Test};

const RELATIONS: [(&str, Relation); 6] = [
    ("==", &[Equal]),
    ("!=", &[Less, Greater]),
    ("<", &[Less]),
    ("<=", &[Less, Equal]),
    (">", &[Greater]),
    (">=", &[Greater, Equal]),
];
const SUMS: [(&str, Operator); 2] = [("+", Operator::Add), ("-", Operator::Subtract)];
const PRODUCTS: [(&str, Operator); 2] = [("*", Operator::Multiply), ("/", Operator::Divide)];

impl Reader<'_> {
    pub fn condition(&mut self) -> Condition {
        let mut condition = vec![self.all_of()];
        while self.has_word("or") {
            condition.push(self.all_of());
        }
        condition
    }

    fn all_of(&mut self) -> Vec<Test> {
        let mut tests = vec![self.test()];
        while self.has_word("and") {
            tests.push(self.test());
        }
        tests
    }

    fn test(&mut self) -> Test {
        if self.is_sign("[") {
            return Test::Group(self.within(SQUARE, Self::condition));
        }
        if self.has_word("not") {
            return Test::Not(self.within(SQUARE, Self::condition));
        }
        if self.peek(0) == Some(Token::Word("Scope")) && self.peek(2) == Some(Token::Word("occ")) {
            return self.occlusion();
        }
        let left = self.expression();
        let relation = self.relation();
        Test::Compare(left, relation, self.expression())
    }

    fn relation(&mut self) -> Relation {
        let found = RELATIONS.iter().find(|(sign, _)| self.has_sign(sign));
        found.unwrap_or_else(|| crate::fail("no relation where one must be")).1
    }

    /// `Scope.occ("..") == ".."`.
    fn occlusion(&mut self) -> Test {
        for _ in ["Scope", ".", "occ"] {
            self.next();
        }
        let target = self.within(ROUND, Self::target);
        self.targets.push(target);
        let equal = self.relation() == [Equal];
        let answer = self.one_of(&[("none", Answer::None), ("part", Answer::Part), ("full", Answer::Full)]);
        Test::Occlusion { target, equal, answer }
    }

    fn target(&mut self) -> Target {
        self.one_of(&[("noparent", Target::Noparent), ("active", Target::Active)])
    }

    pub fn expression(&mut self) -> Expression {
        self.combined(&SUMS, |reader| reader.combined(&PRODUCTS, Self::factor))
    }

    /// Members with operators between them, from the left.
    fn combined(&mut self, operators: &[(&str, Operator)], read: fn(&mut Self) -> Expression) -> Expression {
        let mut left = read(self);
        while let Some((_, operator)) = operators.iter().find(|(sign, _)| self.has_sign(sign)) {
            left = Expression::Combined(Box::new(left), *operator, Box::new(read(self)));
        }
        left
    }

    fn factor(&mut self) -> Expression {
        match self.has_sign("-") {
            true => Expression::Negative(Box::new(self.primary())),
            false => self.primary(),
        }
    }

    fn primary(&mut self) -> Expression {
        if self.is_sign("(") {
            return Expression::Group(self.inner());
        }
        if let Some(Token::Number(number)) = self.peek(0) {
            self.next();
            return Expression::Number(number);
        }
        match self.word() {
            "Scope" => self.scope_size(),
            "floor" => Expression::Floor(self.inner()),
            "ceil" => Expression::Ceil(self.inner()),
            "rand" => self.within(ROUND, Self::random),
            name => self.named(name),
        }
    }

    fn inner(&mut self) -> Box<Expression> {
        Box::new(self.within(ROUND, Self::expression))
    }

    fn scope_size(&mut self) -> Expression {
        self.sign(".");
        match self.word() {
            "sx" => Expression::Size(0),
            "sy" => Expression::Size(1),
            _ => Expression::Size(2),
        }
    }

    /// Numbered by the place of the word, so that an outer one has the smaller number.
    fn random(&mut self) -> Expression {
        self.randoms += 1;
        let number = self.randoms;
        let low = Box::new(self.expression());
        self.sign(",");
        let high = Box::new(self.expression());
        self.sign(",");
        Expression::Random { number, low, high, steps: self.whole() }
    }

    fn named(&mut self, name: &str) -> Expression {
        let name = self.names.number(name);
        if let Some(at) = self.parameters.iter().position(|parameter| *parameter == name) {
            return Expression::Parameter(at);
        }
        self.attributes.push(name);
        Expression::Attribute(name)
    }
}
