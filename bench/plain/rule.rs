//! The trees of rules. Names are numbers of `Names`.

use std::cmp::Ordering;

use crate::fraction::Fraction;
use crate::parts::Selector;
use crate::solid::Solid;

#[derive(Clone, Copy, PartialEq)]
pub enum Operator {
    Add,
    Subtract,
    Multiply,
    Divide,
}

#[derive(PartialEq)]
pub enum Expression {
    Number(Fraction),
    Parameter(usize),
    Attribute(usize),
    /// Of the scope, along an axis.
    Size(usize),
    Group(Box<Expression>),
    Negative(Box<Expression>),
    Floor(Box<Expression>),
    Ceil(Box<Expression>),
    /// Numbered from 1 in its rule, in reading order.
    Random {
        number: usize,
        low: Box<Expression>,
        high: Box<Expression>,
        steps: i64,
    },
    Combined(Box<Expression>, Operator, Box<Expression>),
}

#[derive(Clone, Copy, PartialEq)]
pub enum Target {
    Noparent,
    Active,
}

#[derive(Clone, Copy, PartialEq, Eq, PartialOrd, Ord)]
pub enum Answer {
    None,
    Part,
    Full,
}

/// How the left number may be to the right one.
pub type Relation = &'static [Ordering];

#[derive(PartialEq)]
pub enum Test {
    Group(Condition),
    Not(Condition),
    Occlusion { target: Target, equal: bool, answer: Answer },
    Compare(Expression, Relation, Expression),
}

/// Some of these hold, of one of which all tests hold.
pub type Condition = Vec<Vec<Test>>;

#[derive(PartialEq)]
pub enum Size {
    Relative(Fraction),
    Absolute(Expression),
}

pub type Body = Vec<Item>;

#[derive(PartialEq)]
pub enum Item {
    Move([Expression; 3]),
    Resize([Size; 3]),
    Turn(usize, i64),
    Scoped(Body),
    Solid(Solid),
    Child(usize, Vec<Expression>),
    Subdivide(usize, Vec<Size>, Vec<Body>),
    Repeat(usize, Expression, Body),
    Components(Selector, Body),
}

#[derive(PartialEq)]
pub struct Alternative {
    pub body: Body,
    /// Its probability in millionths.
    pub millionths: i64,
}

#[derive(PartialEq)]
pub struct Rule {
    pub id: i64,
    pub symbol: usize,
    pub parameters: Vec<usize>,
    pub condition: Option<Condition>,
    pub alternatives: Vec<Alternative>,
    /// The attributes and the targets that it mentions.
    pub attributes: Vec<usize>,
    pub targets: Vec<Target>,
}
