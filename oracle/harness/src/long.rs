//! Random cases of every kind: whole partitions, lists of calls that show one partition, and lists that show none.

use crate::history::true_request;
use crate::lines::*;
use crate::model::peer_groups;
use crate::outcome::Outcome;
use crate::random::Random;
use crate::runs::State;
use crate::short::arguments;
use kinds::{Kind, LoginOutcome, Value};

/// A number that is often small and sometimes extreme.
fn number(random: &mut Random) -> u64 {
    match random.below(8) {
        0 => random.bits(),
        1 => u64::MAX,
        2 => 1 << 63,
        _ => random.below(4) as u64,
    }
}

fn value(random: &mut Random, kind: &Kind) -> Value {
    match kind {
        Kind::Instant => Value::Instant(number(random) as i64),
        Kind::Pseudonym => Value::Pseudonym(number(random), number(random)),
        Kind::College => Value::College(number(random)),
        Kind::Outcome => Value::Outcome(match random.below(3) {
            0 => LoginOutcome::Granted,
            1 => LoginOutcome::Refused(number(random) as u16),
            _ => LoginOutcome::TimedOut,
        }),
        Kind::Pair(a, b) => {
            let first = value(random, a);
            Value::Pair(Box::new(first), Box::new(value(random, b)))
        }
    }
}

/// Values from a small stock, so that neighbours are often the same, and NULLs from none to nearly all.
fn column(random: &mut Random, kind: &Kind, len: usize) -> Column {
    let stock: Vec<Value> = (0..random.between(1, 5))
        .map(|_| value(random, kind))
        .collect();
    let present = *random.pick(&[1, 4, 8, 15, 16]);
    let values = (0..len).map(|_| random.pick(&stock).clone()).collect();
    let marks = (0..len).map(|_| random.below(16) < present).collect();
    Column { values, marks }
}

fn argument(random: &mut Random, len: usize) -> Argument {
    if random.one_in(3) {
        return *random.pick(&arguments(len.min(40)));
    }
    Argument::Signed(random.between(0, 6) as i64 - 3)
}

fn function(random: &mut Random, kind: &Kind, len: usize) -> Function {
    let ignoring = random.one_in(2);
    match random.below(14) {
        0..6 => Function::Shift(Shift {
            lead: random.one_in(2),
            offset: argument(random, len),
            reversed: random.one_in(4),
            ignoring,
            default: (!random.one_in(3)).then(|| value(random, kind)),
        }),
        6 => Function::First { ignoring },
        7 => Function::Last { ignoring },
        8 | 9 => Function::Nth {
            n: argument(random, len),
            ignoring,
        },
        10 => Function::Rank,
        11 => Function::DenseRank,
        12 => Function::RowNumber,
        _ => random
            .pick(&[Function::PercentRank, Function::CumeDist])
            .clone(),
    }
}

fn frame(random: &mut Random, len: usize) -> Span {
    let end = random.between(0, len);
    (random.between(0, end), end)
}

/// A frame a row, starts and ends never falling.
fn rising(random: &mut Random, len: usize, from_zero: bool) -> Vec<Span> {
    let mut starts: Vec<usize> = (0..len).map(|_| random.between(0, len)).collect();
    let mut ends: Vec<usize> = (0..len).map(|_| random.between(0, len)).collect();
    starts.sort();
    ends.sort();
    let pairs = starts.into_iter().zip(ends);
    pairs
        .map(|(s, e)| if from_zero { (0, e) } else { (s.min(e), e) })
        .collect()
}

/// Changes one thing of a call, so that a check may fail.
fn spoil(random: &mut Random, w: &mut Whole) {
    let n = w.column.len();
    let some_span = |random: &mut Random| (random.between(0, n + 1), random.between(0, n + 1));
    match random.below(9) {
        0 => drop(w.column.marks.pop()),
        1 => drop(w.column.values.pop()),
        2 => {
            w.frames = (0..random.between(0, n + 2))
                .map(|_| some_span(random))
                .collect()
        }
        3 => {
            w.groups = (0..random.between(0, n + 2))
                .map(|_| some_span(random))
                .collect()
        }
        4 => drop(w.frames.pop()),
        5 => drop(w.groups.pop()),
        6 => w.groups.push((n, n + 1)),
        7 => w.frames.push((0, random.between(0, n))),
        _ => {
            w.slots = match w.slots {
                Slots::Cells(..) => {
                    Slots::Cells(random.between(0, n + 2), random.between(0, n + 2))
                }
                Slots::Numbers(_) => Slots::Numbers(random.between(0, n + 2)),
            }
        }
    }
}

/// A call on a whole partition of at most so many rows.
pub fn whole(random: &mut Random, max: usize) -> Line {
    let kind = random.pick(&Kind::all()).clone();
    let len = random.between(0, max);
    let function = function(random, &kind, len);
    let column = column(random, &kind, len);
    let frames = match function.wants_frames() || random.one_in(4) {
        true => (0..len).map(|_| frame(random, len)).collect(),
        false => vec![],
    };
    let groups = match function.wants_groups() || random.one_in(4) {
        true => peer_groups(&column.cells()),
        false => vec![],
    };
    let mut call = Whole {
        mirror: function.has_mirror() && random.one_in(3),
        slots: Slots::enough(&function, len),
        function,
        kind,
        column,
        frames,
        groups,
    };
    while random.one_in(3) {
        spoil(random, &mut call);
    }
    Line::Whole(call)
}

/// What a list of calls is drawn from.
struct Source {
    kind: Kind,
    column: Column,
    frames: Vec<Span>,
}

/// A request that is likely refused by a check before the last.
fn odd_request(random: &mut Random, state: &State, source: &Source) -> Request {
    let mark = state.keep_mark();
    let begin = match random.below(6) {
        0 => mark + random.between(1, 3),
        1 => ROW_LIMIT - random.between(0, 3),
        2 => usize::MAX - random.between(0, 2),
        _ => random.between(0, mark),
    };
    let len = random.between(0, source.column.len() + 2);
    let mut column = column(random, &source.kind, len);
    match random.below(4) {
        0 => drop(column.marks.pop()),
        1 => drop(column.values.pop()),
        _ => {}
    }
    let n = source.column.len();
    let frame = match random.below(3) {
        0 => None,
        1 => Some((random.between(0, n + 1), random.between(0, n + 1))),
        _ => Some((0, ROW_LIMIT + random.between(0, 1))),
    };
    Request {
        begin,
        column,
        frame,
    }
}

/// A request that shows the partition, from the keep mark or below it.
fn fair_request(random: &mut Random, state: &State, source: &Source) -> Request {
    let n = source.column.len();
    let mark = state.keep_mark();
    let end = match random.below(4) {
        0 => n,
        1 => random.between(0, n),
        _ => (state.next + random.between(0, 3)).min(n),
    };
    let mut request = true_request(state, &source.column, &source.frames, end);
    if random.one_in(4) && end > 0 {
        let begin = random.between(0, mark.min(end));
        request.begin = begin;
        request.column.values = source.column.values[begin..end].to_vec();
        request.column.marks = source.column.marks[begin..end].to_vec();
    }
    request
}

/// The next call of a list that shows the source's partition.
fn next_op(random: &mut Random, state: &State, source: &Source) -> Op {
    let n = source.column.len();
    match random.below(16) {
        0 => Op::Settle,
        1 | 2 => Op::Mark,
        3 if random.one_in(3) => Op::Finish,
        4 if random.one_in(4) => Op::Close(n),
        5 => {
            let total = *random.pick(&[state.next.saturating_sub(1), ROW_LIMIT + 1, usize::MAX]);
            match total < state.next || total > ROW_LIMIT {
                true => Op::Close(total),
                false => Op::Mark,
            }
        }
        6 | 7 => {
            let request = odd_request(random, state, source);
            match state.check(&request) {
                Err(_) => Op::Request(request),
                Ok(()) => Op::Request(fair_request(random, state, source)),
            }
        }
        _ => Op::Request(fair_request(random, state, source)),
    }
}

/// A list of calls that shows a partition of at most so many rows, with refusals of every sort in between.
pub fn run(random: &mut Random, max: usize) -> Line {
    let kind = random.pick(&Kind::all()).clone();
    let len = random.between(0, max);
    let function = loop {
        let function = function(random, &kind, len);
        if function.has_rows() {
            break function;
        }
    };
    let from_zero = random.one_in(2);
    let column = column(random, &kind, len);
    let frames = match function.wants_frames() || random.one_in(4) {
        true => rising(random, len, from_zero),
        false => vec![],
    };
    let source = Source {
        kind: kind.clone(),
        column,
        frames,
    };
    let ops = match State::new(&function, from_zero) {
        Ok(state) => fair_ops(random, state, &source),
        Err(_) => vec![Op::Mark, Op::Close(len)],
    };
    Line::Run(Run {
        function,
        kind,
        from_zero,
        ops,
    })
}

/// Calls until the run is finished.
fn fair_ops(random: &mut Random, mut state: State, source: &Source) -> Vec<Op> {
    let mut ops = vec![];
    let patience = 4 * source.column.len() + 10;
    loop {
        let op = match ops.len() < patience {
            true => next_op(random, &state, source),
            false if state.total.is_none() => Op::Close(source.column.len()),
            false if state.total == Some(state.next) => Op::Finish,
            false => Op::Request(true_request(
                &state,
                &source.column,
                &source.frames,
                source.column.len(),
            )),
        };
        let outcome = state.apply(&op);
        ops.push(op);
        if matches!(outcome, Outcome::Rows(_)) {
            return ops;
        }
    }
}

/// A list of calls whose windows, frames and totals may contradict each other.
pub fn wild_run(random: &mut Random, max: usize) -> Line {
    let kind = random.pick(&Kind::all()).clone();
    let function = loop {
        let function = function(random, &kind, max);
        if function.has_rows() {
            break function;
        }
    };
    let mut ops = vec![];
    for row in 0..random.between(1, 2 * max + 1) {
        ops.push(match random.below(12) {
            0 => Op::Settle,
            1 => Op::Mark,
            2 if random.one_in(4) => Op::Close(random.between(0, max)),
            _ => {
                let len = random.between(0, max);
                let start = random.between(0, row / 2);
                Op::Request(Request {
                    begin: if random.one_in(2) {
                        0
                    } else {
                        random.between(0, row)
                    },
                    column: column(random, &kind, len),
                    frame: (!random.one_in(8)).then(|| (start, start + random.between(0, max))),
                })
            }
        });
    }
    ops.push(Op::Mark);
    Line::Run(Run {
        function,
        kind,
        from_zero: random.one_in(2),
        ops,
    })
}
