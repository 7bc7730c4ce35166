//! The tokens of a line.

use crate::fail;
use crate::fraction::Fraction;

#[derive(Clone, Copy, PartialEq)]
pub enum Token<'a> {
    Number(Fraction),
    Relative(Fraction),
    Word(&'a str),
    /// A name in quotes.
    Text(&'a str),
    Sign(&'a str),
}

fn is_name_byte(byte: u8) -> bool {
    byte.is_ascii_alphanumeric() || byte == b'_'
}

/// All tokens; spaces and tabs separate them, and a # begins a comment.
pub fn tokens(line: &str) -> Vec<Token<'_>> {
    let (mut tokens, mut rest) = (Vec::new(), line.trim_start_matches([' ', '\t']));
    while !rest.is_empty() && !rest.starts_with('#') {
        let (token, length) = token(rest);
        tokens.push(token);
        rest = rest[length..].trim_start_matches([' ', '\t']);
    }
    tokens
}

/// The token that begins here, and its length.
fn token(text: &str) -> (Token<'_>, usize) {
    match text.as_bytes()[0] {
        b'0'..=b'9' => number(text),
        b'"' => {
            let end = text[1..].find('"').unwrap_or_else(|| fail("an open text"));
            (Token::Text(&text[1..=end]), end + 2)
        }
        byte if is_name_byte(byte) => {
            let end = length_while(text, is_name_byte);
            (Token::Word(&text[..end]), end)
        }
        _ => sign(text),
    }
}

fn length_while(text: &str, goes_on: impl Fn(u8) -> bool) -> usize {
    text.bytes().position(|byte| !goes_on(byte)).unwrap_or(text.len())
}

fn sign(text: &str) -> (Token<'_>, usize) {
    let is_double = ["->", "==", "!=", "<=", ">="].iter().any(|sign| text.starts_with(sign));
    let length = if is_double { 2 } else { 1 };
    match text.get(..length) {
        Some(sign) if is_double || "()[]{},:|+-*/.=<>".contains(sign) => (Token::Sign(sign), length),
        _ => fail("a byte that begins no token"),
    }
}

/// Digits, with a point and digits or without, and an r directly behind them where it is relative.
fn number(text: &str) -> (Token<'_>, usize) {
    let whole = length_while(text, |byte| byte.is_ascii_digit());
    let decimals = match text[whole..].strip_prefix('.') {
        Some(behind) => length_while(behind, |byte| byte.is_ascii_digit()),
        None => 0,
    };
    let end = if decimals > 0 { whole + 1 + decimals } else { whole };
    let value = value_of(&text[..end], decimals);
    if text[end..].starts_with('r') {
        return (Token::Relative(value), end + 1);
    }
    (Token::Number(value), end)
}

fn value_of(text: &str, decimals: usize) -> Fraction {
    let digits = text.bytes().filter(u8::is_ascii_digit);
    if text.len() > 18 + usize::from(decimals > 0) {
        fail("a number of too many digits");
    }
    let all = digits.fold(0, |value, digit| 10 * value + (digit - b'0') as i64);
    Fraction::new(all, 10_i64.pow(decimals as u32))
}
