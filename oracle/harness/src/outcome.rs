//! What comes of a call, and the line with it filled in.

use crate::lines::{Cell, Line, List, ShownCell, Span};
use std::fmt::{self, Display};

/// An answer; a fraction by its bits, so that answers compare bit by bit.
#[derive(Debug, Clone, PartialEq)]
pub enum Answer {
    Cell(Cell),
    Whole(u64),
    Fraction(u64),
}

impl Answer {
    pub fn fraction(x: f64) -> Answer {
        Answer::Fraction(x.to_bits())
    }
}

/// A refusal: number and place.
#[derive(Debug, Clone, Copy, PartialEq)]
pub struct Refusal(pub u32, pub usize);

#[derive(Debug, Clone, PartialEq)]
pub enum Outcome {
    Answers(Vec<Answer>),
    Groups(Vec<Span>),
    Answer(Answer),
    Refused(Refusal),
    Done,
    Mark(usize),
    Rows(usize),
    /// Finishing an open run.
    Open,
    /// Closing a closed run.
    Closed,
    /// The crate hands back an error.
    Error(String),
    /// The crate panics.
    Panic(String),
    /// The crate waits for more rows.
    Wait,
    /// The crate has no such call.
    Absent,
}

/// One outcome for the line, or one for each operation.
#[derive(Debug, Clone, PartialEq)]
pub enum Outcomes {
    One(Outcome),
    Each(Vec<Outcome>),
}

impl Display for Answer {
    fn fmt(&self, f: &mut fmt::Formatter<'_>) -> fmt::Result {
        match self {
            Answer::Cell(cell) => write!(f, "{}", ShownCell(cell)),
            Answer::Whole(n) => write!(f, "{n}"),
            Answer::Fraction(bits) => write!(f, "{bits:016x}"),
        }
    }
}

impl Display for Outcome {
    fn fmt(&self, f: &mut fmt::Formatter<'_>) -> fmt::Result {
        match self {
            Outcome::Answers(answers) => write!(f, "ok:{}", List(answers)),
            Outcome::Groups(groups) => {
                let groups: Vec<String> = groups.iter().map(|(s, e)| format!("{s}-{e}")).collect();
                write!(f, "ok:{}", List(&groups))
            }
            Outcome::Answer(answer) => write!(f, "ok:{answer}"),
            Outcome::Refused(Refusal(number, place)) => write!(f, "no:{number}:{place}"),
            Outcome::Done => f.write_str("ok"),
            Outcome::Mark(mark) => write!(f, "{mark}"),
            Outcome::Rows(rows) => write!(f, "ok:{rows}"),
            Outcome::Open => f.write_str("no:open"),
            Outcome::Closed => f.write_str("no:closed"),
            Outcome::Error(text) => write!(f, "err:{}", text.replace(' ', "_")),
            Outcome::Panic(text) => write!(f, "panic:{}", text.replace([' ', '\n'], "_")),
            Outcome::Wait => f.write_str("wait"),
            Outcome::Absent => f.write_str("absent"),
        }
    }
}

/// The line with its outcomes filled in.
pub fn filled(line: &Line, outcomes: &Outcomes) -> String {
    match (line, outcomes) {
        (Line::Run(run), Outcomes::Each(each)) => {
            let ops = run.ops.iter().zip(each);
            ops.fold(run.head(), |text, (op, outcome)| {
                format!("{text} {op}>{outcome}")
            })
        }
        (line, Outcomes::One(outcome)) => format!("{line} = {outcome}"),
        (line, Outcomes::Each(_)) => format!("{line}"),
    }
}
