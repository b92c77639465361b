//! The definitions of the answers, of settled rows and of the checks, written for reading and not for speed.

use crate::lines::*;
use crate::outcome::{Answer, Outcome, Outcomes, Refusal};
use crate::runs::run_outcomes;

/// Which of a frame's rows is taken.
#[derive(Debug, Clone, Copy, PartialEq)]
pub enum Pick {
    First,
    Last,
    Nth(i64),
}

/// A function with its arguments read.
#[derive(Debug, Clone, PartialEq)]
pub enum Evaluator {
    /// A positive offset looks back, a negative one ahead.
    Shift {
        offset: i64,
        ignoring: bool,
        default: Cell,
    },
    Frames {
        pick: Pick,
        ignoring: bool,
    },
    Rank,
    DenseRank,
    RowNumber,
    PercentRank,
    CumeDist,
}

/// An argument as a signed number, none where it is missing.
fn signed_integer(argument: Argument) -> Result<Option<i64>, Refusal> {
    match argument {
        Argument::Missing => Ok(None),
        Argument::Null => Ok(Some(0)),
        Argument::NotInteger => Err(Refusal(1, 1)),
        Argument::Signed(n) => Ok(Some(n)),
        Argument::Unsigned(n) => i64::try_from(n).map(Some).map_err(|_| Refusal(2, 1)),
    }
}

fn shift_offset(shift: &Shift) -> Result<i64, Refusal> {
    let given = signed_integer(shift.offset)?.unwrap_or(1);
    let offset = if shift.lead {
        given.wrapping_neg()
    } else {
        given
    };
    Ok(if shift.reversed {
        offset.wrapping_neg()
    } else {
        offset
    })
}

fn nth_argument(argument: Argument) -> Result<i64, Refusal> {
    match signed_integer(argument)? {
        None => Err(Refusal(3, 1)),
        Some(i64::MIN) => Err(Refusal(4, 1)),
        Some(n) => Ok(n),
    }
}

/// The longest runs of rows that are the same as the run's first row.
pub fn peer_groups(rows: &[Cell]) -> Vec<Span> {
    let mut groups: Vec<Span> = vec![];
    for (i, cell) in rows.iter().enumerate() {
        match groups.last_mut() {
            Some(group) if rows[group.0] == *cell => group.1 = i + 1,
            _ => groups.push((i, i + 1)),
        }
    }
    groups
}

/// The rows of a span that count: all of them, or the present ones.
fn counted(rows: &[Cell], (start, end): Span, ignoring: bool) -> Vec<usize> {
    let span = start..end.max(start);
    span.filter(|r| !ignoring || rows[*r].is_some()).collect()
}

/// The m-th of the rows, counted from 1.
fn nth_row(rows: &[usize], m: u64) -> Option<usize> {
    let at = usize::try_from(m.checked_sub(1)?).ok()?;
    rows.get(at).copied()
}

impl Evaluator {
    pub fn make(function: &Function) -> Result<Evaluator, Refusal> {
        Ok(match function {
            Function::Shift(shift) => Evaluator::Shift {
                offset: shift_offset(shift)?,
                ignoring: shift.ignoring,
                default: shift.default.clone(),
            },
            Function::First { ignoring } => Evaluator::Frames {
                pick: Pick::First,
                ignoring: *ignoring,
            },
            Function::Last { ignoring } => Evaluator::Frames {
                pick: Pick::Last,
                ignoring: *ignoring,
            },
            Function::Nth { n, ignoring } => Evaluator::Frames {
                pick: Pick::Nth(nth_argument(*n)?),
                ignoring: *ignoring,
            },
            Function::Rank => Evaluator::Rank,
            Function::DenseRank => Evaluator::DenseRank,
            Function::RowNumber => Evaluator::RowNumber,
            Function::PercentRank => Evaluator::PercentRank,
            Function::CumeDist => Evaluator::CumeDist,
        })
    }

    /// The evaluator from the other end of a partition; those without a mirror stay.
    pub fn mirror(&self) -> Evaluator {
        let mut mirrored = self.clone();
        match &mut mirrored {
            Evaluator::Shift { offset, .. } => *offset = offset.wrapping_neg(),
            Evaluator::Frames { pick, .. } => {
                *pick = match pick {
                    Pick::First => Pick::Last,
                    Pick::Last => Pick::First,
                    Pick::Nth(n) => Pick::Nth(-*n),
                }
            }
            _ => {}
        }
        mirrored
    }

    /// The row that a shift reads for row i of the rows.
    pub fn shifted_row(offset: i64, ignoring: bool, rows: &[Cell], i: usize) -> Option<usize> {
        if offset == 0 {
            return Some(i);
        }
        let mut way = if offset > 0 {
            counted(rows, (0, i), ignoring)
        } else {
            counted(rows, (i + 1, rows.len()), ignoring)
        };
        if offset > 0 {
            way.reverse();
        }
        nth_row(&way, offset.unsigned_abs())
    }

    /// The row of a frame that is taken.
    fn framed_row(pick: Pick, ignoring: bool, rows: &[Cell], frame: Span) -> Option<usize> {
        let mut taken = counted(rows, frame, ignoring);
        match pick {
            Pick::First => nth_row(&taken, 1),
            Pick::Last => taken.last().copied(),
            Pick::Nth(n) => {
                if n < 0 {
                    taken.reverse();
                }
                nth_row(&taken, n.unsigned_abs())
            }
        }
    }

    /// The answer of row i of a partition.
    pub fn answer(&self, rows: &[Cell], frame: Span, i: usize) -> Answer {
        let n = rows.len();
        let group = || {
            let groups = peer_groups(rows);
            let at = groups.iter().position(|(_, end)| i < *end);
            let at = at.expect("each row has a group");
            (at, groups[at])
        };
        match self {
            Evaluator::Shift {
                offset,
                ignoring,
                default,
            } => Answer::Cell(match Self::shifted_row(*offset, *ignoring, rows, i) {
                Some(row) => rows[row].clone(),
                None => default.clone(),
            }),
            Evaluator::Frames { pick, ignoring } => Answer::Cell(
                Self::framed_row(*pick, *ignoring, rows, frame).and_then(|row| rows[row].clone()),
            ),
            Evaluator::Rank => Answer::Whole(1 + group().1.0 as u64),
            Evaluator::DenseRank => Answer::Whole(1 + group().0 as u64),
            Evaluator::RowNumber => Answer::Whole(i as u64 + 1),
            Evaluator::PercentRank => {
                let others = n.saturating_sub(1).max(1);
                Answer::fraction(group().1.0 as f64 / others as f64)
            }
            Evaluator::CumeDist => Answer::fraction(group().1.1 as f64 / n as f64),
        }
    }

    /// Whether the first rows settle row i.
    pub fn settled(&self, first: &[Cell], frame: Span, is_total: bool, i: usize) -> bool {
        let a = first.len();
        if i >= a {
            return false;
        }
        match self {
            Evaluator::Shift {
                offset, ignoring, ..
            } => {
                *offset >= 0
                    || is_total
                    || Self::shifted_row(*offset, *ignoring, first, i).is_some()
            }
            Evaluator::Frames { .. } => frame.1 <= a || is_total,
            Evaluator::Rank | Evaluator::DenseRank | Evaluator::RowNumber => true,
            Evaluator::PercentRank | Evaluator::CumeDist => is_total,
        }
    }
}

/// The first check of a whole partition that fails.
fn check_whole(w: &Whole) -> Result<(), Refusal> {
    check_column(&w.column, 0)?;
    let n = w.column.len();
    check_frames(&w.frames, n)?;
    check_groups(&w.groups, &w.column)?;
    let absent = (w.function.wants_frames() && w.frames.is_empty())
        || (w.function.wants_groups() && w.groups.is_empty());
    if n > 0 && absent {
        return Err(Refusal(10, 0));
    }
    if w.slots.len() < n {
        return Err(Refusal(11, w.slots.len()));
    }
    Ok(())
}

/// The checks of every column or window that begins at a row.
pub fn check_column(column: &Column, begin: usize) -> Result<(), Refusal> {
    let (values, marks) = (column.values.len(), column.marks.len());
    if values != marks {
        return Err(Refusal(5, values.min(marks)));
    }
    if begin.checked_add(values).is_none_or(|end| end > ROW_LIMIT) {
        return Err(Refusal(6, ROW_LIMIT));
    }
    Ok(())
}

fn check_frames(frames: &[Span], n: usize) -> Result<(), Refusal> {
    if frames.is_empty() {
        return Ok(());
    }
    let mut of_rows = frames.iter().take(n);
    if let Some(row) = of_rows.position(|(start, end)| start > end || *end > n) {
        return Err(Refusal(7, row));
    }
    if frames.len() != n {
        return Err(Refusal(7, frames.len().min(n)));
    }
    Ok(())
}

fn check_groups(groups: &[Span], column: &Column) -> Result<(), Refusal> {
    if groups.is_empty() {
        return Ok(());
    }
    let peers = peer_groups(&column.cells());
    let pairs = groups.iter().zip(&peers);
    let differing = pairs.into_iter().position(|(given, peer)| given != peer);
    let shorter = groups.len().min(peers.len());
    match differing {
        Some(at) => Err(Refusal(8, at)),
        None if groups.len() != peers.len() => Err(Refusal(8, shorter)),
        None => Ok(()),
    }
}

fn whole_outcome(w: &Whole) -> Result<Vec<Answer>, Refusal> {
    let made = Evaluator::make(&w.function)?;
    let evaluator = if w.mirror { made.mirror() } else { made };
    check_whole(w)?;
    let rows = w.column.cells();
    let frame = |i| w.frames.get(i).copied().unwrap_or((0, 0));
    let answers = (0..rows.len()).map(|i| evaluator.answer(&rows, frame(i), i));
    Ok(answers.collect())
}

fn groups_outcome(g: &Groups) -> Result<Vec<Span>, Refusal> {
    check_column(&g.column, 0)?;
    let groups = peer_groups(&g.column.cells());
    if groups.len() > g.slots {
        return Err(Refusal(9, g.slots));
    }
    Ok(groups)
}

/// What the definitions say of a line.
pub fn model(line: &Line) -> Outcomes {
    match line {
        Line::Whole(w) => Outcomes::One(match whole_outcome(w) {
            Ok(answers) => Outcome::Answers(answers),
            Err(refusal) => Outcome::Refused(refusal),
        }),
        Line::Groups(g) => Outcomes::One(match groups_outcome(g) {
            Ok(groups) => Outcome::Groups(groups),
            Err(refusal) => Outcome::Refused(refusal),
        }),
        Line::Run(run) => run_outcomes(run),
    }
}
