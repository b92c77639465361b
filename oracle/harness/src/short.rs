//! Every short case.

use crate::history::{closed_history, stream_history};
use crate::lines::*;
use kinds::{Kind, Value};

pub type Sink<'a> = &'a mut dyn FnMut(Line);

/// Every column of so many rows over NULL and two values; what stands at a NULL row is a third.
pub fn columns(len: usize) -> Vec<Column> {
    let count = 3usize.pow(len as u32);
    let digits = |c: usize| (0..len).map(move |i| c / 3usize.pow(i as u32) % 3);
    (0..count)
        .map(|c| Column {
            values: digits(c).map(|d| Value::Instant([77, 1, 2][d])).collect(),
            marks: digits(c).map(|d| d > 0).collect(),
        })
        .collect()
}

/// Offsets and counts round the length, and the extremes.
pub fn arguments(len: usize) -> Vec<Argument> {
    let last = len as i64 + 1;
    let near = (-last..=last).map(Argument::Signed);
    let far = [i64::MAX, i64::MIN, i64::MIN + 1].map(Argument::Signed);
    let unsigned = [0, 1, len as u64, i64::MAX as u64, 1 << 63, u64::MAX].map(Argument::Unsigned);
    let odd = [Argument::Missing, Argument::Null, Argument::NotInteger];
    near.chain(far).chain(unsigned).chain(odd).collect()
}

const FLAGS: [bool; 2] = [false, true];

fn defaults() -> [Cell; 2] {
    [None, Some(Value::Instant(9))]
}

pub fn shifts(len: usize) -> Vec<Function> {
    let mut shifts = vec![];
    for offset in arguments(len) {
        for (lead, reversed) in [(false, false), (false, true), (true, false), (true, true)] {
            for ignoring in FLAGS {
                for default in defaults() {
                    shifts.push(Function::Shift(Shift {
                        lead,
                        offset,
                        reversed,
                        ignoring,
                        default,
                    }));
                }
            }
        }
    }
    shifts
}

pub fn framed(len: usize) -> Vec<Function> {
    let mut functions = vec![];
    for ignoring in FLAGS {
        functions.push(Function::First { ignoring });
        functions.push(Function::Last { ignoring });
        functions.extend(
            arguments(len)
                .into_iter()
                .map(|n| Function::Nth { n, ignoring }),
        );
    }
    functions
}

pub const RANKS: [Function; 5] = [
    Function::Rank,
    Function::DenseRank,
    Function::RowNumber,
    Function::PercentRank,
    Function::CumeDist,
];

fn whole(
    mirror: bool,
    function: &Function,
    column: &Column,
    frames: &[Span],
    groups: &[Span],
) -> Line {
    Line::Whole(Whole {
        mirror,
        function: function.clone(),
        kind: Kind::Instant,
        column: column.clone(),
        frames: frames.to_vec(),
        groups: groups.to_vec(),
        slots: Slots::enough(function, column.len()),
    })
}

/// LAG and LEAD over every column, and their mirrors.
pub fn whole_shifts(max: usize, sink: Sink) {
    for len in 0..=max {
        let shifts = shifts(len);
        for column in columns(len) {
            for shift in &shifts {
                for mirror in FLAGS {
                    sink(whole(mirror, shift, &column, &[], &[]));
                }
            }
        }
    }
}

/// Every frame of a partition.
pub fn frames(len: usize) -> Vec<Span> {
    let ends = |start| (start..=len).map(move |end| (start, end));
    (0..=len).flat_map(ends).collect()
}

/// FIRST, LAST and NTH with every frame of every column, and their mirrors: as many frames a line as rows.
pub fn whole_frames(max: usize, sink: Sink) {
    for len in 0..=max {
        let functions = framed(len);
        let all = frames(len);
        for column in columns(len) {
            for function in &functions {
                for from in (0..all.len()).step_by(len.max(1)) {
                    let list: Vec<Span> = (0..len).map(|i| all[(from + i) % all.len()]).collect();
                    for mirror in FLAGS {
                        sink(whole(mirror, function, &column, &list, &[]));
                    }
                }
            }
        }
    }
}

/// Pairs that may be no spans of a partition.
fn pairs(len: usize) -> Vec<Span> {
    let ends = |start| (0..=len + 1).map(move |end| (start, end));
    (0..=len + 1).flat_map(ends).collect()
}

/// Frames and groups that may be wrong: every frame of the last row, every list of up to two groups.
pub fn wrong_spans(max: usize, sink: Sink) {
    for len in 0..=max {
        let pairs = pairs(len);
        let functions = framed(len);
        for column in columns(len) {
            for pair in &pairs {
                let frames: Vec<Span> = (0..len)
                    .map(|i| if i + 1 < len { (0, i) } else { *pair })
                    .collect();
                for function in &functions {
                    sink(whole(false, function, &column, &frames, &[]));
                }
                for function in &RANKS {
                    sink(whole(false, function, &column, &[], &[*pair]));
                    for other in &pairs {
                        sink(whole(false, function, &column, &[], &[*pair, *other]));
                    }
                }
            }
        }
    }
}

/// Every way to cut rows into groups.
pub fn groupings(len: usize) -> Vec<Vec<Span>> {
    if len == 0 {
        return vec![vec![]];
    }
    let cut = |cuts: usize| {
        let mut groups = vec![];
        let mut start = 0;
        for end in 1..=len {
            if end == len || cuts >> (end - 1) & 1 == 1 {
                groups.push((start, end));
                start = end;
            }
        }
        groups
    };
    (0..1usize << (len - 1)).map(cut).collect()
}

/// The ranks over every column with every grouping, the column's own and others.
pub fn whole_ranks(max: usize, sink: Sink) {
    for len in 0..=max {
        let groupings = groupings(len);
        for column in columns(len) {
            for function in &RANKS {
                for groups in &groupings {
                    sink(whole(false, function, &column, &[], groups));
                }
            }
            for slots in 0..=len {
                sink(Line::Groups(Groups {
                    kind: Kind::Instant,
                    column: column.clone(),
                    slots,
                }));
            }
        }
    }
}

/// Rows in order, with the total known from the start and with as few rows shown as settle them.
fn rows_of(function: &Function, column: &Column, frames: &[Span], from_zero: bool, sink: Sink) {
    for history in [closed_history, stream_history] {
        let ops = history(function, column, frames, from_zero);
        sink(Line::Run(Run {
            function: function.clone(),
            kind: Kind::Instant,
            from_zero,
            ops,
        }));
    }
}

/// LAG and LEAD row by row over every column.
pub fn shift_rows(max: usize, sink: Sink) {
    for len in 0..=max {
        for shift in shifts(len) {
            let Function::Shift(Shift { lead, reversed, .. }) = &shift else {
                continue;
            };
            if len > 3 && (*lead || *reversed) {
                continue;
            }
            for column in columns(len) {
                rows_of(&shift, &column, &[], false, sink);
            }
        }
    }
}

/// LEAD IGNORE NULLS by a few rows, row by row over longer columns.
pub fn lead_rows(max: usize, sink: Sink) {
    for len in 0..=max {
        for m in 1..=3 {
            let shift = Function::Shift(Shift {
                lead: true,
                offset: Argument::Signed(m),
                reversed: false,
                ignoring: true,
                default: Some(Value::Instant(0)),
            });
            for column in columns(len) {
                rows_of(&shift, &column, &[], false, sink);
            }
        }
    }
}

/// Every list of frames whose starts and ends never fall.
pub fn rising_frames(len: usize) -> Vec<Vec<Span>> {
    let all = frames(len);
    let mut lists: Vec<Vec<Span>> = vec![vec![]];
    for _ in 0..len {
        let longer = lists.iter().flat_map(|list| {
            let (s, e) = list.last().copied().unwrap_or((0, 0));
            let next = all.iter().filter(move |f| f.0 >= s && f.1 >= e);
            next.map(|frame| [list.as_slice(), &[*frame]].concat())
        });
        lists = longer.collect();
    }
    lists
}

/// FIRST, LAST and NTH row by row over every column with every rising list of frames; settled after
/// each row where all frames begin at 0, and once more without.
pub fn frame_rows(max: usize, sink: Sink) {
    for len in 0..=max {
        let functions = framed(len);
        for frames in rising_frames(len) {
            let from_zero = frames.iter().all(|frame| frame.0 == 0);
            for column in columns(len) {
                for function in &functions {
                    rows_of(function, &column, &frames, false, sink);
                    if from_zero {
                        rows_of(function, &column, &frames, true, sink);
                    }
                }
            }
        }
    }
}

/// Settled runs of the same functions over longer columns, with counts near the length.
pub fn settled_rows(len: usize, sink: Sink) {
    let near = |function: &Function| match function {
        Function::Nth { n, .. } => matches!(n, Argument::Signed(-5..=5)),
        _ => true,
    };
    let mut lists = rising_frames(len);
    lists.retain(|frames| frames.iter().all(|frame| frame.0 == 0));
    for function in framed(len).iter().filter(|f| near(f)) {
        for frames in &lists {
            for column in columns(len) {
                rows_of(function, &column, frames, true, sink);
            }
        }
    }
}

/// RANK, DENSE_RANK and ROW_NUMBER row by row over every column.
pub fn rank_rows(max: usize, sink: Sink) {
    for len in 0..=max {
        for column in columns(len) {
            for function in RANKS.iter().filter(|f| f.has_rows()) {
                rows_of(function, &column, &[], false, sink);
            }
        }
    }
}
