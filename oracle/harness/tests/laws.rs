//! Laws that the definitions of the model must keep, over every short partition.

use harness::history::true_request;
use harness::lines::{Cell, Column, Function, Span};
use harness::model::Evaluator;
use harness::outcome::Answer;
use harness::runs::State;
use harness::short::{RANKS, columns, framed, frames, rising_frames, shifts};

fn made(functions: Vec<Function>) -> Vec<Evaluator> {
    let made = functions.iter().filter_map(|f| Evaluator::make(f).ok());
    made.collect()
}

/// Rows that settle a row give it the whole partition's answer, and more rows settle it too.
fn check_prefixes(evaluator: &Evaluator, rows: &[Cell], frame: Span) {
    let n = rows.len();
    for i in 0..n {
        let whole = evaluator.answer(rows, frame, i);
        assert!(evaluator.settled(rows, frame, true, i));
        let mut was_settled = false;
        for a in 0..=n {
            let settled = evaluator.settled(&rows[..a], frame, false, i);
            assert!(!settled || i < a);
            assert!(settled || !was_settled);
            if settled {
                assert_eq!(evaluator.answer(&rows[..a], frame, i), whole);
            }
            was_settled = settled;
        }
    }
}

#[test]
fn settled_rows_have_their_answers() {
    for len in 0..=4 {
        let shifts = made(shifts(len));
        let framed = made(framed(len));
        let ranks = made(RANKS.to_vec());
        for column in columns(len) {
            let rows = column.cells();
            for evaluator in shifts.iter().chain(&ranks) {
                check_prefixes(evaluator, &rows, (0, 0));
            }
            for evaluator in &framed {
                for frame in frames(len) {
                    check_prefixes(evaluator, &rows, frame);
                }
            }
        }
    }
}

/// The mirror's answer at row n−1−i of the turned partition is the evaluator's at row i.
fn check_mirror(evaluator: &Evaluator, rows: &[Cell], (start, end): Span) {
    let n = rows.len();
    let turned: Vec<Cell> = rows.iter().rev().cloned().collect();
    let mirror = evaluator.mirror();
    assert_eq!(mirror.mirror(), *evaluator);
    for i in 0..n {
        let there = mirror.answer(&turned, (n - end, n - start), n - 1 - i);
        assert_eq!(there, evaluator.answer(rows, (start, end), i));
    }
}

#[test]
fn mirrors_answer_turned_partitions() {
    for len in 0..=4 {
        let evaluators = [made(shifts(len)), made(framed(len))].concat();
        for column in columns(len) {
            for evaluator in &evaluators {
                for frame in frames(len) {
                    check_mirror(evaluator, &column.cells(), frame);
                }
            }
        }
    }
}

/// Answers row by row from windows that begin at the keep mark, with what lies below forgotten and
/// settling after the rows that the bits name.
fn answers_by_row(
    function: &Function,
    column: &Column,
    frames: &[Span],
    settlings: usize,
) -> Option<Vec<Answer>> {
    let mut state = State::new(function, true).ok()?;
    let mut answers = vec![];
    let mut mark = 0;
    for row in 0..column.len() {
        let end = (row + 1).max(frames.get(row).map_or(0, |frame| frame.1));
        let request = true_request(&state, column, frames, end);
        let answer = state.request(&request).or_else(|_| {
            let request = true_request(&state, column, frames, column.len());
            state
                .close(column.len())
                .and_then(|()| state.request(&request))
        });
        answers.push(answer.expect("the last window shows the partition"));
        if settlings >> row & 1 == 1 {
            state.settle().expect("frames begin at 0");
        }
        assert!(state.keep_mark() >= mark);
        mark = state.keep_mark();
        state.forget();
    }
    Some(answers)
}

fn check_rows(function: &Function, column: &Column, frames: &[Span]) {
    let rows = column.cells();
    let Ok(evaluator) = Evaluator::make(function) else {
        return;
    };
    let frame = |i| frames.get(i).copied().unwrap_or((0, 0));
    let whole: Vec<Answer> = (0..rows.len())
        .map(|i| evaluator.answer(&rows, frame(i), i))
        .collect();
    for settlings in 0..1 << rows.len() {
        let by_row = answers_by_row(function, column, frames, settlings);
        assert_eq!(
            by_row,
            Some(whole.clone()),
            "{function} {column} {frames:?}"
        );
    }
}

#[test]
fn rows_below_the_keep_mark_are_not_needed() {
    for len in 0..=4 {
        let shifts = shifts(len);
        let framed = framed(len);
        let mut lists = rising_frames(len);
        lists.retain(|list| list.iter().all(|frame| frame.0 == 0));
        for column in columns(len) {
            for shift in &shifts {
                check_rows(shift, &column, &[]);
            }
            for function in &framed {
                for frames in &lists {
                    check_rows(function, &column, frames);
                }
            }
        }
    }
}
