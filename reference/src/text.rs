//! The lines of a script: what they mean, how they are written, and why one is malformed.

use crate::window::{Code, Instruction, Sizes};
use std::fmt;

#[derive(Clone, Copy, PartialEq, Eq, Debug)]
pub enum Step {
    Issue,
    Execute(u32),
    Squash(u32),
    Commit,
    Finish(u32),
}

#[derive(Clone, Copy, PartialEq, Eq, Debug)]
pub enum Line {
    Sizes(Sizes),
    Instruction(Instruction),
    Step(Step),
}

/// A line without its line feed; None when it is malformed. Limits are not looked at.
pub fn parse(line: &[u8]) -> Option<Line> {
    let mut fields = line.split(|&byte| byte == b',');
    let letter = fields.next()?;
    let numbers: Vec<u32> = fields.map(number).collect::<Option<_>>()?;
    let instruction = |code| match numbers[..] {
        [d, s, imm] => Some(Line::Instruction(Instruction { code, d, s, imm })),
        _ => None,
    };
    match (letter, &numbers[..]) {
        (b"N", &[banks, rows, stages, words]) => Some(Line::Sizes(Sizes { banks, rows, stages, words })),
        (b"A", _) => instruction(Code::A),
        (b"P", _) => instruction(Code::P),
        (b"L", _) => instruction(Code::L),
        (b"S", _) => instruction(Code::S),
        (b"B", _) => instruction(Code::B),
        (b"H", _) => instruction(Code::H),
        (b"i", []) => Some(Line::Step(Step::Issue)),
        (b"e", &[k]) => Some(Line::Step(Step::Execute(k))),
        (b"q", &[k]) => Some(Line::Step(Step::Squash(k))),
        (b"c", []) => Some(Line::Step(Step::Commit)),
        (b"x", &[k]) => Some(Line::Step(Step::Finish(k))),
        _ => None,
    }
}

fn number(field: &[u8]) -> Option<u32> {
    let extra_zero = field.len() > 1 && field[0] == b'0';
    if field.is_empty() || extra_zero || !field.iter().all(u8::is_ascii_digit) {
        return None;
    }
    let add = |sum: u32, digit: &u8| sum.checked_mul(10)?.checked_add(u32::from(digit - b'0'));
    field.iter().try_fold(0, add)
}

/// The event that a malformed line counts for. Only counts depend on it, never what is printed.
pub fn why(line: &[u8]) -> &'static str {
    if line.is_empty() {
        return "line empty";
    }
    if let Some(event) = line.iter().find_map(|&byte| foreign(byte)) {
        return event;
    }
    let fields: Vec<&[u8]> = line.split(|&byte| byte == b',').collect();
    let Some(wanted) = fields_of(fields[0]) else { return why_letter(fields[0]) };
    if fields[1..].last().is_some_and(|field| field.is_empty()) {
        return "trailing comma";
    }
    if fields.iter().any(|field| field.is_empty()) {
        return "field empty";
    }
    if fields.len() != wanted {
        return if fields.len() < wanted { "field missing" } else { "field extra" };
    }
    fields[1..].iter().find_map(|field| why_number(field)).unwrap_or("number too large")
}

fn foreign(byte: u8) -> Option<&'static str> {
    match byte {
        b'\r' => Some("byte carriage return"),
        b' ' => Some("byte blank"),
        b'\t' => Some("byte tab"),
        0 => Some("byte NUL"),
        128.. => Some("byte 128 or more"),
        b'+' | b'-' => Some("number signed"),
        _ => None,
    }
}

/// How many fields a line of this letter has, the letter among them.
fn fields_of(letter: &[u8]) -> Option<usize> {
    match letter {
        b"N" => Some(5),
        b"A" | b"P" | b"L" | b"S" | b"B" | b"H" => Some(4),
        b"e" | b"q" | b"x" => Some(2),
        b"i" | b"c" => Some(1),
        _ => None,
    }
}

fn why_letter(letter: &[u8]) -> &'static str {
    let (upper, lower) = (letter.to_ascii_uppercase(), letter.to_ascii_lowercase());
    if fields_of(&upper).or(fields_of(&lower)).is_some() {
        return "letter in wrong case";
    }
    "letter unknown"
}

fn why_number(field: &[u8]) -> Option<&'static str> {
    if !field.iter().all(u8::is_ascii_digit) {
        Some("number with another byte")
    } else if field.len() > 1 && field[0] == b'0' {
        Some("number with leading zero")
    } else {
        None
    }
}

impl fmt::Display for Line {
    fn fmt(&self, out: &mut fmt::Formatter) -> fmt::Result {
        match *self {
            Line::Sizes(Sizes { banks, rows, stages, words }) => {
                write!(out, "N,{banks},{rows},{stages},{words}")
            }
            Line::Instruction(Instruction { code, d, s, imm }) => write!(out, "{code:?},{d},{s},{imm}"),
            Line::Step(Step::Issue) => write!(out, "i"),
            Line::Step(Step::Execute(k)) => write!(out, "e,{k}"),
            Line::Step(Step::Squash(k)) => write!(out, "q,{k}"),
            Line::Step(Step::Commit) => write!(out, "c"),
            Line::Step(Step::Finish(k)) => write!(out, "x,{k}"),
        }
    }
}
