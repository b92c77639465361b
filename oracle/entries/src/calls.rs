//! The calls that lines stand for, through the C entry points.

use crate::cross::{Cross, crossed};
use capi::{Call, Noted, Partition, Script, Span, what};
use harness::lines::{Column, Groups, Op, Run, Slots, Span as Pair, Whole};
use harness::outcome::{Answer, Outcome, Outcomes, Refusal};

fn values_of<K: Cross>(column: &Column) -> Vec<K> {
    column.values.iter().map(|value| K::of(value).expect("a value of the line's kind")).collect()
}

fn marks_of(column: &Column) -> Vec<u8> {
    column.marks.iter().map(|mark| u8::from(*mark)).collect()
}

fn spans_of(pairs: &[Pair]) -> Vec<Span> {
    pairs.iter().map(|(start, end)| Span { start: *start, end: *end }).collect()
}

fn refused(refusal: capi::Refusal) -> Outcome {
    Outcome::Refused(Refusal(refusal.number as u32, refusal.place))
}

fn clobbered() -> Outcome {
    Outcome::Error("clobbered".to_string())
}

fn cell<K: Cross>(value: K, mark: u8) -> Answer {
    Answer::Cell((mark == 1).then(|| value.value()))
}

/// The outcome, unless a place that the call must not touch was touched: those from `answered` on, and values under NULL.
fn cells_told<K: Cross>(told: Result<(), capi::Refusal>, rows: usize, values: &[K], marks: &[u8]) -> Outcome {
    let answered = if told.is_ok() { rows } else { 0 };
    let writable = |i: usize| i < answered && marks.get(i) == Some(&1);
    let kept = values.iter().enumerate().all(|(i, value)| writable(i) || *value == K::pattern());
    if !kept || marks.iter().skip(answered).any(|mark| *mark != 1) {
        return clobbered();
    }
    match told {
        Ok(()) => Outcome::Answers((0..rows).map(|i| cell(values[i], marks[i])).collect()),
        Err(refusal) => refused(refusal),
    }
}

fn numbers_told<A: Copy + PartialEq>(told: Result<(), capi::Refusal>, rows: usize, list: &[A], pattern: A, answer: fn(A) -> Answer) -> Outcome {
    let answered = if told.is_ok() { rows } else { 0 };
    if list.iter().skip(answered).any(|number| *number != pattern) {
        return clobbered();
    }
    match told {
        Ok(()) => Outcome::Answers(list[..rows].iter().map(|number| answer(*number)).collect()),
        Err(refusal) => refused(refusal),
    }
}

/// A call on a whole partition.
pub fn whole<K: Cross>(line: &Whole) -> Outcomes {
    let (function, default) = crossed::<K>(&line.function);
    let function = capi::Function { mirrored: u8::from(line.mirror), ..function };
    let (values, marks) = (values_of::<K>(&line.column), marks_of(&line.column));
    let (frames, groups) = (spans_of(&line.frames), spans_of(&line.groups));
    let rows = Partition { values: &values, marks: &marks, frames: &frames, groups: &groups };
    let count = values.len();
    Outcomes::One(match line.slots {
        Slots::Cells(values_len, marks_len) => {
            let (mut out, mut out_marks) = (vec![K::pattern(); values_len], vec![1; marks_len]);
            let told = K::cells(&function, default, &rows, &mut out, &mut out_marks);
            cells_told(told, count, &out, &out_marks)
        }
        Slots::Numbers(len) if line.function.has_rows() => {
            let mut out = vec![7_777_777; len];
            let told = K::numbers(&function, &rows, &mut out);
            numbers_told(told, count, &out, 7_777_777, Answer::Whole)
        }
        Slots::Numbers(len) => {
            let mut out = vec![7.5; len];
            let told = K::fractions(&function, &rows, &mut out);
            numbers_told(told, count, &out, 7.5, Answer::fraction)
        }
    })
}

/// Working out peer groups.
pub fn groups<K: Cross>(line: &Groups) -> Outcomes {
    let (values, marks) = (values_of::<K>(&line.column), marks_of(&line.column));
    let pattern = Span { start: 7, end: 7 };
    let mut spans = vec![pattern; line.slots];
    let told = K::groups(&values, &marks, &mut spans);
    let count = *told.as_ref().unwrap_or(&0);
    if spans.iter().skip(count).any(|span| *span != pattern) {
        return Outcomes::One(clobbered());
    }
    Outcomes::One(match told {
        Ok(count) => Outcome::Groups(spans[..count].iter().map(|span| (span.start, span.end)).collect()),
        Err(refusal) => refused(refusal),
    })
}

/// The rows that the windows of a run show, one behind another, and its calls.
struct Shown<K> {
    values: Vec<K>,
    marks: Vec<u8>,
    calls: Vec<Call>,
}

fn shown<K: Cross>(ops: &[Op]) -> Shown<K> {
    let mut shown = Shown { values: vec![], marks: vec![], calls: vec![] };
    for op in ops {
        let call = match op {
            Op::Request(request) => {
                let (from, marks_from) = (shown.values.len(), shown.marks.len());
                shown.values.extend(values_of::<K>(&request.column));
                shown.marks.extend(marks_of(&request.column));
                Call::Request {
                    begin: request.begin,
                    values: from..shown.values.len(),
                    marks: marks_from..shown.marks.len(),
                    frame: request.frame,
                }
            }
            Op::Settle => Call::Settle,
            Op::Mark => Call::KeepMark,
            Op::Close(total) => Call::Close(*total),
            Op::Finish => continue,
        };
        shown.calls.push(call);
    }
    shown
}

fn noted(noted: Noted, answer: Answer) -> Outcome {
    match noted.what {
        what::ANSWER => Outcome::Answer(answer),
        what::DONE => Outcome::Done,
        what::MARK => Outcome::Mark(noted.place),
        what::NOT_TAKEN => Outcome::Closed,
        what::FINISHED => Outcome::Rows(noted.place),
        what::NOT_CLOSED => Outcome::Open,
        _ => Outcome::Refused(Refusal(noted.number as u32, noted.place)),
    }
}

/// What came of the calls of these operations, and of finishing after them.
fn run_ops<K: Cross>(line: &Run, ops: &[Op]) -> Result<(Vec<Outcome>, Outcome), capi::Refusal> {
    let (function, default) = crossed::<K>(&line.function);
    let function = capi::Function { from_zero: u8::from(line.from_zero), finish: 1, ..function };
    let shown = shown::<K>(ops);
    let calls: Vec<u8> = shown.calls.iter().flat_map(Call::to_bytes).collect();
    let script = Script { values: &shown.values, marks: &shown.marks, calls: &calls };
    let count = shown.calls.len();
    let mut outcomes = vec![Noted::default(); count];
    let mut ending = Noted::default();
    let answers: Vec<Answer> = if line.function.answers_cells() {
        let (mut values, mut marks) = (vec![K::pattern(); count], vec![1; count]);
        K::run_cells(&function, default, &script, &mut outcomes, &mut values, &mut marks, &mut ending)?;
        (0..count).map(|k| cell(values[k], marks[k])).collect()
    } else {
        let mut numbers = vec![7_777_777; count];
        K::run_numbers(&function, &script, &mut outcomes, &mut numbers, &mut ending)?;
        numbers.into_iter().map(Answer::Whole).collect()
    };
    let each = outcomes.into_iter().zip(answers).map(|(outcome, answer)| noted(outcome, answer)).collect();
    Ok((each, noted(ending, Answer::Whole(0))))
}

/// A run; a finish is tried on a new run of the calls before it.
pub fn run<K: Cross>(line: &Run) -> Outcomes {
    let each = match run_ops::<K>(line, &line.ops) {
        Ok((each, _)) => each,
        Err(refusal) => return Outcomes::One(refused(refusal)),
    };
    let mut each = each.into_iter();
    let told = line.ops.iter().enumerate().map(|(i, op)| match op {
        Op::Finish => run_ops::<K>(line, &line.ops[..i]).map_or_else(refused, |(_, ending)| ending),
        _ => each.next().unwrap_or(Outcome::Absent),
    });
    Outcomes::Each(told.collect())
}
