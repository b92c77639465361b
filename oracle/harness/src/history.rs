//! Lists of calls on a run that show one partition.

use crate::lines::*;
use crate::outcome::{Outcome, Refusal};
use crate::runs::State;

fn window(column: &Column, begin: usize, end: usize, frame: Option<Span>) -> Request {
    Request {
        begin,
        column: Column {
            values: column.values[begin..end].to_vec(),
            marks: column.marks[begin..end].to_vec(),
        },
        frame,
    }
}

/// A request for the next row that shows the partition up to a row.
pub fn true_request(state: &State, column: &Column, frames: &[Span], end: usize) -> Request {
    let begin = state.keep_mark().min(end);
    window(column, begin, end, frames.get(state.next).copied())
}

/// A list of calls, and the run of the definitions that they are made on.
struct History {
    state: State,
    ops: Vec<Op>,
}

impl History {
    fn apply(&mut self, op: Op) -> Outcome {
        let outcome = self.state.apply(&op);
        self.ops.push(op);
        outcome
    }

    fn settle_and_mark(&mut self, from_zero: bool) {
        if from_zero {
            self.apply(Op::Settle);
        }
        self.apply(Op::Mark);
    }
}

/// The total first, then every row with all rows shown from the keep mark on.
pub fn closed_history(
    function: &Function,
    column: &Column,
    frames: &[Span],
    from_zero: bool,
) -> Vec<Op> {
    let Ok(state) = State::new(function, from_zero) else {
        return vec![Op::Close(column.len())];
    };
    let ops = vec![];
    let mut history = History { state, ops };
    history.apply(Op::Close(column.len()));
    for _ in 0..column.len() {
        let request = true_request(&history.state, column, frames, column.len());
        history.apply(Op::Request(request));
        history.settle_and_mark(from_zero);
    }
    history.apply(Op::Finish);
    history.ops
}

/// Every row as early as possible: one more row is shown after each answer that is too early.
pub fn stream_history(
    function: &Function,
    column: &Column,
    frames: &[Span],
    from_zero: bool,
) -> Vec<Op> {
    let Ok(state) = State::new(function, from_zero) else {
        return vec![Op::Mark];
    };
    let ops = vec![];
    let mut history = History { state, ops };
    let mut end = 0;
    while history.state.next < column.len() {
        let request = true_request(&history.state, column, frames, end);
        match history.apply(Op::Request(request)) {
            Outcome::Refused(Refusal(17, _)) if end < column.len() => end += 1,
            Outcome::Refused(_) => {
                history.apply(Op::Close(column.len()));
            }
            _ => history.settle_and_mark(from_zero),
        }
    }
    history.apply(Op::Close(column.len()));
    history.apply(Op::Finish);
    history.ops
}

/// The line, of a run only with the calls that are accepted: the crate has no checks to refuse others.
pub fn accepted(line: &Line) -> Line {
    let mut kept = line.clone();
    if let Line::Run(run) = &mut kept
        && let Ok(mut state) = State::new(&run.function, run.from_zero)
    {
        run.ops.retain(|op| {
            let outcome = state.apply(op);
            !matches!(
                outcome,
                Outcome::Refused(_) | Outcome::Closed | Outcome::Open
            )
        });
    }
    kept
}
