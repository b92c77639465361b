//! What is measured: a function over rows, whole or row by row.

use crate::input::{Frames, Nulls};
use harness::lines::{Argument, Function, Shift};
use std::fmt;

#[derive(Debug, Clone, Copy, PartialEq)]
pub enum Manner {
    Whole,
    ByRow,
}

/// What beside the function and the rows a case is over.
#[derive(Debug, Clone, Copy, PartialEq)]
pub enum Over {
    /// A column with NULLs.
    Column(Nulls),
    /// A column with NULLs, and frames.
    Frames(Nulls, Frames),
    /// Peer groups of so many rows.
    Groups(usize),
}

#[derive(Debug, Clone, PartialEq)]
pub struct Case {
    pub function: Function,
    pub manner: Manner,
    pub over: Over,
}

pub fn shift(lead: bool, offset: i64, ignoring: bool) -> Function {
    Function::Shift(Shift {
        lead,
        offset: Argument::Signed(offset),
        reversed: false,
        ignoring,
        default: None,
    })
}

pub fn nth(n: i64, ignoring: bool) -> Function {
    let n = Argument::Signed(n);
    Function::Nth { n, ignoring }
}

/// A number with its thousands apart.
pub fn grouped(n: usize) -> String {
    let digits = n.to_string();
    let mut text = String::new();
    for (k, digit) in digits.chars().enumerate() {
        if k > 0 && (digits.len() - k).is_multiple_of(3) {
            text.push(',');
        }
        text.push(digit);
    }
    text
}

/// The argument after the column.
pub fn argument(function: &Function) -> Option<i64> {
    let argument = match function {
        Function::Shift(shift) => shift.offset,
        Function::Nth { n, .. } => *n,
        _ => return None,
    };
    match argument {
        Argument::Signed(n) => Some(n),
        _ => None,
    }
}

impl Case {
    /// The function's name in SQL.
    pub fn name(&self) -> &'static str {
        match &self.function {
            Function::Shift(shift) if shift.lead => "LEAD",
            Function::Shift(_) => "LAG",
            Function::First { .. } => "FIRST_VALUE",
            Function::Last { .. } => "LAST_VALUE",
            Function::Nth { .. } => "NTH_VALUE",
            Function::Rank => "RANK",
            Function::DenseRank => "DENSE_RANK",
            Function::RowNumber => "ROW_NUMBER",
            Function::PercentRank => "PERCENT_RANK",
            Function::CumeDist => "CUME_DIST",
        }
    }

    pub fn nulls(&self) -> Nulls {
        match self.over {
            Over::Column(nulls) | Over::Frames(nulls, _) => nulls,
            Over::Groups(_) => Nulls::None,
        }
    }

    pub fn frames(&self) -> Option<Frames> {
        match self.over {
            Over::Frames(_, frames) => Some(frames),
            _ => None,
        }
    }

    /// The offset of a shift is below the rows, and no frame is longer than they are. Over more than a million
    /// rows fewer arguments stand for all, so that the whole ends in time.
    pub fn fits(&self, rows: usize) -> bool {
        let argument = argument(&self.function);
        let is_many = rows > 1_000_000;
        match (&self.function, self.over) {
            (Function::Shift(_), _) => {
                argument.is_some_and(|m| (m as usize) < rows) && !(is_many && argument == Some(100))
            }
            (_, Over::Frames(_, Frames::Last(length))) => {
                length <= rows && (!is_many || length == 1000 && argument != Some(-3))
            }
            (_, Over::Frames(_, Frames::Growing)) => !is_many || argument != Some(-3),
            (_, Over::Groups(group)) => group <= rows || group == usize::MAX,
            _ => true,
        }
    }

    /// The rows of a group; all rows where they are one group.
    pub fn group(&self, rows: usize) -> usize {
        match self.over {
            Over::Groups(group) => group.min(rows),
            _ => 1,
        }
    }

    fn present(&self) -> f64 {
        match self.nulls() {
            Nulls::None => 1.0,
            Nulls::Quarter => 0.75,
            Nulls::Most => 0.001,
        }
    }

    /// About how many steps the crate takes over so many rows: the words and the present rows of a frame, the
    /// distances between present rows that are added up.
    pub fn crate_steps(&self, rows: usize) -> f64 {
        let n = rows as f64;
        let ignoring = self.function.ignores_nulls() && self.nulls() != Nulls::None;
        let frame = match self.frames() {
            Some(Frames::Growing) => n / 2.0,
            Some(Frames::Last(length)) => length as f64,
            None => 0.0,
        };
        let at_row = match &self.function {
            Function::Last { .. } if ignoring => frame / 12.0 + frame * self.present(),
            Function::Nth { .. } if ignoring && argument(&self.function) < Some(0) => {
                frame / 12.0 + frame * self.present()
            }
            _ if self.frames().is_some() && ignoring => frame / 64.0,
            Function::Shift(shift) if shift.ignoring && self.manner == Manner::ByRow => {
                argument(&self.function).map_or(0.0, |m| m as f64)
            }
            _ => 0.0,
        };
        n * (20.0 + at_row)
    }

    /// About how many steps this library takes: LEAD ignoring NULLs looks ahead anew at each row that is asked for.
    pub fn port_steps(&self, rows: usize) -> f64 {
        let n = rows as f64;
        let at_row = match &self.function {
            Function::Shift(shift)
                if shift.lead && shift.ignoring && self.manner == Manner::ByRow =>
            {
                let ahead = argument(&self.function).map_or(0.0, |m| m as f64) / self.present();
                ahead.min(n / 2.0)
            }
            _ => 0.0,
        };
        n * (20.0 + at_row)
    }
}

impl fmt::Display for Case {
    /// The cells of a table that say what it is over.
    fn fmt(&self, f: &mut fmt::Formatter<'_>) -> fmt::Result {
        write!(f, "{}", self.name())?;
        if let Some(n) = argument(&self.function) {
            let sign = if n < 0 { "−" } else { "" };
            write!(f, " {sign}{}", grouped(n.unsigned_abs() as usize))?;
        }
        if self.function.ignores_nulls() {
            write!(f, " IGNORE NULLS")?;
        }
        match self.over {
            Over::Column(nulls) => write!(f, " | {nulls}"),
            Over::Frames(nulls, Frames::Growing) => write!(f, " | {nulls} | growing"),
            Over::Frames(nulls, Frames::Last(length)) => {
                write!(f, " | {nulls} | last {}", grouped(length))
            }
            Over::Groups(usize::MAX) => write!(f, " | all rows"),
            Over::Groups(group) => write!(f, " | {group}"),
        }
    }
}

/// The cases of one table.
pub struct Table {
    pub title: &'static str,
    /// The names of the columns that say what a case is over.
    pub heads: &'static str,
    pub cases: Vec<Case>,
}

const SHIFT_HEADS: &str = "function | NULLs";
const FRAME_HEADS: &str = "function | NULLs | frames";
const RANK_HEADS: &str = "function | rows in a group";

fn shifts(manner: Manner, offsets: &[i64], quick: bool) -> Vec<Case> {
    let mut cases = vec![];
    for ignoring in [false, true] {
        for lead in [false, true] {
            for offset in offsets {
                for nulls in Nulls::ALL {
                    // NULLs that count as rows differ only in the bitmap's being there.
                    if !ignoring && nulls == Nulls::Most || quick && nulls == Nulls::None {
                        continue;
                    }
                    cases.push(Case {
                        function: shift(lead, *offset, ignoring),
                        manner,
                        over: Over::Column(nulls),
                    });
                }
            }
        }
    }
    cases
}

fn framed(manner: Manner, frames: &[Frames], quick: bool) -> Vec<Case> {
    let mut cases = vec![];
    for ignoring in [false, true] {
        let functions = [
            Function::First { ignoring },
            Function::Last { ignoring },
            nth(3, ignoring),
            nth(-3, ignoring),
        ];
        for function in functions {
            for frames in frames {
                for nulls in Nulls::ALL {
                    let is_same = !ignoring && nulls != Nulls::Quarter;
                    if is_same || quick && nulls != Nulls::Quarter {
                        continue;
                    }
                    cases.push(Case {
                        function: function.clone(),
                        manner,
                        over: Over::Frames(nulls, *frames),
                    });
                }
            }
        }
    }
    cases
}

fn ranked(manner: Manner, functions: &[Function], groups: &[usize]) -> Vec<Case> {
    let mut cases = vec![];
    for function in functions {
        for group in groups {
            if *function == Function::RowNumber && *group != groups[0] {
                continue;
            }
            cases.push(Case {
                function: function.clone(),
                manner,
                over: Over::Groups(*group),
            });
        }
    }
    cases
}

pub fn tables(quick: bool) -> Vec<Table> {
    let offsets: &[i64] = if quick {
        &[1, 1000]
    } else {
        &[1, 100, 100_000]
    };
    let by_row_offsets: &[i64] = if quick { &[1] } else { &[1, 100] };
    let frames: &[Frames] = match quick {
        true => &[Frames::Last(1000)],
        false => &[
            Frames::Growing,
            Frames::Last(10),
            Frames::Last(1000),
            Frames::Last(100_000),
        ],
    };
    let by_row_frames: &[Frames] = match quick {
        true => &[Frames::Last(10)],
        false => &[Frames::Growing, Frames::Last(10), Frames::Last(1000)],
    };
    let groups: &[usize] = if quick { &[10] } else { &[1, 10, usize::MAX] };
    let ranks = [
        Function::RowNumber,
        Function::Rank,
        Function::DenseRank,
        Function::PercentRank,
        Function::CumeDist,
    ];
    vec![
        Table {
            title: "LAG and LEAD over a whole partition",
            heads: SHIFT_HEADS,
            cases: shifts(Manner::Whole, offsets, quick),
        },
        Table {
            title: "LAG and LEAD row by row",
            heads: SHIFT_HEADS,
            cases: shifts(Manner::ByRow, by_row_offsets, quick),
        },
        Table {
            title: "FIRST_VALUE, LAST_VALUE and NTH_VALUE over a whole partition",
            heads: FRAME_HEADS,
            cases: framed(Manner::Whole, frames, quick),
        },
        Table {
            title: "FIRST_VALUE, LAST_VALUE and NTH_VALUE row by row",
            heads: FRAME_HEADS,
            cases: framed(Manner::ByRow, by_row_frames, quick),
        },
        Table {
            title: "Ranks over a whole partition",
            heads: RANK_HEADS,
            cases: ranked(Manner::Whole, &ranks, groups),
        },
        Table {
            title: "Ranks row by row",
            heads: RANK_HEADS,
            cases: ranked(Manner::ByRow, &ranks[..3], groups),
        },
    ]
}
