//! The value of an expression, and whether a condition holds.

use crate::fraction::Fraction;
use crate::frame::Point;
use crate::rule::{Answer, Condition, Expression, Operator, Test};
use crate::word::shape_word;

/// Why a shape has no children; a report writes the word.
#[derive(Clone, Copy, Debug, PartialEq)]
pub enum Fault {
    TooDeep,
    Unmatched,
    ZeroDivide,
    NegativeSize,
    FlatScope,
    PartNotPositive,
    SubdivSum,
    RepeatCount,
    TooManyParts,
    TooManyChildren,
}

/// What an expression reads beside itself.
#[derive(Clone, Copy)]
pub struct Known<'a> {
    pub arguments: &'a [Fraction],
    /// By the numbers of their names.
    pub attributes: &'a [Fraction],
    pub seed: u64,
}

/// By target, where its rules mention it.
pub type Answers = [Option<Answer>; 2];

pub fn value(expression: &Expression, known: Known, size: &Point) -> Result<Fraction, Fault> {
    let inner = |expression| value(expression, known, size);
    Ok(match expression {
        Expression::Number(number) => *number,
        Expression::Parameter(at) => known.arguments[*at],
        Expression::Attribute(name) => known.attributes[*name],
        Expression::Size(axis) => size[*axis],
        Expression::Group(expression) => inner(expression)?,
        Expression::Negative(expression) => -inner(expression)?,
        Expression::Floor(expression) => Fraction::whole(inner(expression)?.floor()),
        Expression::Ceil(expression) => Fraction::whole(inner(expression)?.ceil()),
        Expression::Random { number, low, high, steps } => {
            random(inner(low)?, inner(high)?, *steps, shape_word(known.seed, *number))
        }
        Expression::Combined(left, operator, right) => combined(inner(left)?, *operator, inner(right)?)?,
    })
}

fn random(low: Fraction, high: Fraction, steps: i64, word: u64) -> Fraction {
    let step = (word * (steps as u64 + 1)) >> 32;
    low + (high - low) * Fraction::new(step as i64, steps)
}

fn combined(left: Fraction, operator: Operator, right: Fraction) -> Result<Fraction, Fault> {
    match operator {
        Operator::Add => Ok(left + right),
        Operator::Subtract => Ok(left - right),
        Operator::Multiply => Ok(left * right),
        Operator::Divide if right.is_zero() => Err(Fault::ZeroDivide),
        Operator::Divide => Ok(left / right),
    }
}

pub fn holds(condition: &Condition, known: Known, size: &Point, answers: &Answers) -> Result<bool, Fault> {
    for tests in condition {
        if all_hold(tests, known, size, answers)? {
            return Ok(true);
        }
    }
    Ok(false)
}

fn all_hold(tests: &[Test], known: Known, size: &Point, answers: &Answers) -> Result<bool, Fault> {
    for test in tests {
        if !test_holds(test, known, size, answers)? {
            return Ok(false);
        }
    }
    Ok(true)
}

fn test_holds(test: &Test, known: Known, size: &Point, answers: &Answers) -> Result<bool, Fault> {
    Ok(match test {
        Test::Group(condition) => holds(condition, known, size, answers)?,
        Test::Not(condition) => !holds(condition, known, size, answers)?,
        Test::Occlusion { target, equal, answer } => (answers[*target as usize] == Some(*answer)) == *equal,
        Test::Compare(left, relation, right) => {
            let left = value(left, known, size)?;
            relation.contains(&left.cmp(&value(right, known, size)?))
        }
    })
}
