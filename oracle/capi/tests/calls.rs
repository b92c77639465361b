//! Each entry point is called at each kind, with what its answers and refusals are by the rules of the library.
#![cfg(linked)]

use capi::{Call, CollegeCode, Function, Instant, InstantCode, Kind, Noted, Outcome, Partition, Pseudonym, Refusal, Script, Span, argument, name, what};

fn refused(number: usize, place: usize) -> Result<(), Refusal> {
    Err(Refusal { number, place })
}

fn spans<const N: usize>(pairs: [(usize, usize); N]) -> [Span; N] {
    pairs.map(|(start, end)| Span { start, end })
}

/// Five rows: a, NULL, b, b, a.
fn each_entry_point<K: Kind>(a: K, b: K, other: K) {
    let values = [a, other, b, b, a];
    let marks = [1, 0, 1, 1, 1];
    let groups = spans([(0, 1), (1, 2), (2, 4), (4, 5)]);
    let frames = spans([(0, 5); 5]);
    let rows = Partition { values: &values, marks: &marks, frames: &[], groups: &[] };
    let grouped = Partition { groups: &groups, ..rows };
    let framed = Partition { frames: &frames, ..rows };

    // LAG(1) ignoring NULLs, with a default; one slot more than rows
    let lag = Function { name: name::LAG, ignore_nulls: 1, has_default: 1, ..Function::default() };
    let (mut out, mut out_marks) = ([other; 6], [7; 6]);
    K::cells(&lag, b, &rows, &mut out, &mut out_marks).unwrap();
    assert_eq!((out, out_marks), ([b, a, a, b, b, other], [1, 1, 1, 1, 1, 7]));

    // LEAD(2) by its mirror, which looks back: a NULL answer keeps the value
    let lead = Function { name: name::LEAD, mirrored: 1, argument: argument::SIGNED, signed: 2, ..Function::default() };
    let (mut out, mut out_marks) = ([other; 5], [7; 5]);
    K::cells(&lead, a, &rows, &mut out, &mut out_marks).unwrap();
    assert_eq!((out, out_marks), ([other, other, a, other, b], [0, 0, 1, 0, 1]));

    // the other functions of cells over the whole partition
    for (function, answer) in [
        (Function { name: name::FIRST_VALUE, ..Function::default() }, a),
        (Function { name: name::LAST_VALUE, ..Function::default() }, a),
        (Function { name: name::NTH_VALUE, argument: argument::UNSIGNED, unsigned: 3, ..Function::default() }, b),
        (Function { name: name::NTH_VALUE, argument: argument::SIGNED, signed: -1, mirrored: 1, ..Function::default() }, a),
    ] {
        let (mut out, mut out_marks) = ([other; 5], [7; 5]);
        K::cells(&function, other, &framed, &mut out, &mut out_marks).unwrap();
        assert_eq!((out, out_marks), ([answer; 5], [1; 5]));
    }

    // what is wrong leaves the lists as they were
    let mut out = [other; 5];
    let mut out_marks = [7; 5];
    let mut call = |function: &Function, rows: &Partition<'_, K>| K::cells(function, a, rows, &mut out, &mut out_marks);
    assert_eq!(call(&Function { name: name::RANK, ..lag }, &rows), refused(21, 0));
    assert_eq!(call(&Function { mirrored: 2, ..lag }, &rows), refused(21, 1));
    assert_eq!(call(&Function { reversed: 2, ..lag }, &rows), refused(21, 2));
    assert_eq!(call(&Function { ignore_nulls: 255, ..lag }, &rows), refused(21, 3));
    assert_eq!(call(&Function { argument: 5, ..lag }, &rows), refused(21, 4));
    assert_eq!(call(&Function { has_default: 2, ..lag }, &rows), refused(21, 5));
    assert_eq!(call(&Function { from_zero: 2, ..lag }, &rows), refused(21, 6));
    assert_eq!(call(&Function { finish: 2, ..lag }, &rows), refused(21, 7));
    assert_eq!(call(&lag, &Partition { marks: &[1, 0, 1, 2, 3], ..rows }), refused(23, 3));
    assert_eq!(call(&Function { argument: argument::NOT_INTEGER, ..lag }, &rows), refused(1, 1));
    assert_eq!(call(&Function { argument: argument::UNSIGNED, unsigned: 1 << 63, ..lag }, &rows), refused(2, 1));
    assert_eq!(call(&Function { name: name::NTH_VALUE, ..lag }, &framed), refused(3, 1));
    assert_eq!(call(&Function { name: name::NTH_VALUE, argument: argument::SIGNED, signed: i64::MIN, ..lag }, &framed), refused(4, 1));
    assert_eq!(call(&lag, &Partition { marks: &[1, 0], ..rows }), refused(5, 2));
    assert_eq!(call(&lag, &Partition { frames: &spans([(0, 5), (3, 2)]), ..rows }), refused(7, 1));
    assert_eq!(call(&lag, &Partition { groups: &spans([(0, 1), (1, 5)]), ..rows }), refused(8, 1));
    assert_eq!(call(&Function { name: name::FIRST_VALUE, ..lag }, &rows), refused(10, 0));
    assert_eq!(K::cells(&lag, a, &rows, &mut [other; 4], &mut [7; 5]), refused(11, 4));
    assert_eq!((out, out_marks), ([other; 5], [7; 5]));

    // numbers
    for (name, answers) in [(name::RANK, [1, 2, 3, 3, 5, 9]), (name::DENSE_RANK, [1, 2, 3, 3, 4, 9]), (name::ROW_NUMBER, [1, 2, 3, 4, 5, 9])] {
        let mut out = [9; 6];
        K::numbers(&Function { name, ..Function::default() }, &grouped, &mut out).unwrap();
        assert_eq!(out, answers);
    }
    let rank = Function { name: name::RANK, ..Function::default() };
    let mut out = [9; 5];
    assert_eq!(K::numbers(&rank, &rows, &mut out), refused(10, 0));
    assert_eq!(K::numbers(&Function { mirrored: 1, ..rank }, &grouped, &mut out), refused(21, 1));
    assert_eq!(K::numbers(&lag, &grouped, &mut out), refused(21, 0));
    assert_eq!(out, [9; 5]);

    // fractions
    for (name, answers) in [(name::PERCENT_RANK, [0.0, 0.25, 0.5, 0.5, 1.0]), (name::CUME_DIST, [0.2, 0.4, 0.8, 0.8, 1.0])] {
        let mut out = [9.0; 5];
        K::fractions(&Function { name, ..Function::default() }, &grouped, &mut out).unwrap();
        assert_eq!(out, answers);
    }
    assert_eq!(K::fractions(&rank, &grouped, &mut [9.0; 5]), refused(21, 0));

    // peer groups
    let nine = Span { start: 9, end: 9 };
    let mut out = [nine; 5];
    assert_eq!(K::groups(&values, &marks, &mut out), Ok(4));
    assert_eq!((&out[..4], out[4]), (&groups[..], nine));
    assert_eq!(K::groups(&values, &marks, &mut out[..3]), Err(Refusal { number: 9, place: 3 }));
    assert_eq!(K::groups(&values, &[2], &mut out), Err(Refusal { number: 23, place: 0 }));

    runs(&values, &marks, b, other);
}

fn calls(calls: &[Call]) -> Vec<u8> {
    calls.iter().flat_map(Call::to_bytes).collect()
}

fn noted(what: usize, number: usize, place: usize) -> Noted {
    Noted { what, number, place }
}

fn request(rows: std::ops::Range<usize>, frame: Option<(usize, usize)>) -> Call {
    Call::Request { begin: rows.start, values: rows.clone(), marks: rows, frame }
}

fn runs<K: Kind>(values: &[K], marks: &[u8], b: K, other: K) {
    let untouched = noted(9, 9, 9);
    // LEAD(1) ignoring NULLs, with no default
    let lead = Function { name: name::LEAD, ignore_nulls: 1, finish: 1, ..Function::default() };
    let list = calls(&[
        request(0..2, None),
        request(0..3, None),
        Call::KeepMark,
        Call::Settle,
        Call::Close(5),
        Call::Close(5),
        request(1..5, None),
        request(3..5, None),
        Call::Request { begin: 2, values: 2..5, marks: 2..4, frame: None },
    ]);
    let script = Script { values, marks, calls: &list };
    let mut outcomes = [untouched; 10];
    let (mut out, mut out_marks, mut ending) = ([other; 9], [7; 9], untouched);
    K::run_cells(&lead, other, &script, &mut outcomes, &mut out, &mut out_marks, &mut ending).unwrap();
    assert_eq!(outcomes, [
        noted(what::REFUSED, 17, 0),
        noted(what::ANSWER, 0, 0),
        noted(what::MARK, 0, 1),
        noted(what::REFUSED, 18, 1),
        noted(what::DONE, 0, 0),
        noted(what::NOT_TAKEN, 0, 0),
        noted(what::ANSWER, 0, 0),
        noted(what::REFUSED, 14, 2),
        noted(what::REFUSED, 5, 2),
        untouched,
    ]);
    assert_eq!(out, [other, b, other, other, other, other, b, other, other]);
    assert_eq!(out_marks, [7, 1, 7, 7, 7, 7, 1, 7, 7]);
    assert_eq!(ending, noted(what::REFUSED, 20, 2));

    // LAST_VALUE settled, closed and finished; without the flag the ending is not touched
    let last = Function { name: name::LAST_VALUE, from_zero: 1, finish: 1, ..Function::default() };
    let list = calls(&[request(0..1, Some((0, 1))), Call::Settle, request(0..4, Some((0, 4))), Call::Close(2)]);
    let short = calls(&[request(0..1, Some((0, 1))), Call::Settle, Call::Close(1)]);
    let script = Script { values, marks, calls: &list };
    let (mut out, mut out_marks, mut ending) = ([other; 4], [7; 4], untouched);
    let mut outcomes = [untouched; 4];
    K::run_cells(&last, other, &script, &mut outcomes, &mut out, &mut out_marks, &mut ending).unwrap();
    assert_eq!(outcomes, [noted(what::ANSWER, 0, 0), noted(what::DONE, 0, 0), noted(what::ANSWER, 0, 0), noted(what::REFUSED, 19, 2)]);
    assert_eq!((out, out_marks), ([values[0], other, b, other], [1, 7, 1, 7]));
    assert_eq!(ending, noted(what::NOT_CLOSED, 0, 0));
    K::run_cells(&last, other, &Script { calls: &short, ..script }, &mut outcomes, &mut out, &mut out_marks, &mut ending).unwrap();
    assert_eq!(ending, noted(what::FINISHED, 0, 1));
    ending = untouched;
    K::run_cells(&Function { finish: 0, ..last }, other, &script, &mut outcomes, &mut out, &mut out_marks, &mut ending).unwrap();
    assert_eq!(ending, untouched);

    // what is wrong in the calls, by its byte; and lists that are too short
    let mut wrong = |bytes: &[u8]| K::run_cells(&last, other, &Script { calls: bytes, ..script }, &mut outcomes, &mut out, &mut out_marks, &mut ending);
    let mut bytes = list.clone();
    bytes[64] = 5;
    assert_eq!(wrong(&bytes), refused(24, 64));
    assert_eq!(wrong(&list[..65]), refused(24, 64));
    assert_eq!(wrong(&calls(&[Call::Settle, Call::Request { begin: 0, values: 0..6, marks: 0..1, frame: None }])), refused(24, 64 + 16));
    assert_eq!(wrong(&calls(&[Call::Request { begin: 0, values: 0..1, marks: 2..1, frame: None }])), refused(24, 32));
    assert_eq!(wrong(&calls(&[Call::Settle, Call::Settle, Call::Settle, Call::Settle, Call::Settle])), refused(11, 4));

    // numbers
    for (name, answers) in [(name::RANK, [1, 2, 3, 3, 5]), (name::DENSE_RANK, [1, 2, 3, 3, 4]), (name::ROW_NUMBER, [1, 2, 3, 4, 5])] {
        let list = calls(&[request(0..1, None), request(0..2, None), request(1..3, None), request(2..4, None), request(0..5, None)]);
        let mut outcomes = [untouched; 5];
        let mut out = [9; 5];
        let mut ending = untouched;
        let function = Function { name, finish: 1, ..Function::default() };
        K::run_numbers(&function, &Script { values, marks, calls: &list }, &mut outcomes, &mut out, &mut ending).unwrap();
        assert_eq!((outcomes, out, ending), ([noted(what::ANSWER, 0, 0); 5], answers, noted(what::NOT_CLOSED, 0, 0)));
    }
}

#[test]
fn instants() {
    each_entry_point(Instant(-5), Instant(i64::MAX), Instant(7));
}

#[test]
fn pseudonyms() {
    each_entry_point(Pseudonym { high: 1, low: 2 }, Pseudonym { high: 1, low: 3 }, Pseudonym { high: 2, low: 2 });
}

#[test]
fn codes() {
    each_entry_point(CollegeCode(1), CollegeCode(u64::MAX), CollegeCode(0));
}

#[test]
fn outcomes() {
    let granted = Outcome { tag: 0, reason: 0 };
    let timed_out = Outcome { tag: 2, reason: 0 };
    let refused = Outcome { tag: 1, reason: 404 };
    each_entry_point(granted, refused, timed_out);
    each_entry_point(refused, Outcome { reason: 405, ..refused }, granted);
    each_entry_point(timed_out, granted, refused);
}

#[test]
fn pairs() {
    let pair = |instant, code| InstantCode { instant: Instant(instant), code: CollegeCode(code) };
    each_entry_point(pair(1, 2), pair(1, 3), pair(2, 2));
    each_entry_point(pair(1, 2), pair(2, 2), pair(1, 3));
}

#[test]
fn numbers_of_no_outcome() {
    let fine = Outcome { tag: 1, reason: 3 };
    let lag = Function { name: name::LAG, has_default: 1, ..Function::default() };
    for wrong in [Outcome { tag: 3, reason: 0 }, Outcome { tag: 0, reason: 1 }, Outcome { tag: 2, reason: 1 }] {
        let values = [fine, wrong];
        let rows = Partition { values: &values, marks: &[1, 0], frames: &[], groups: &[] };
        let (mut out, mut marks) = ([fine; 2], [7; 2]);
        assert_eq!(Outcome::cells(&lag, fine, &rows, &mut out, &mut marks), refused(22, 1));
        let rows = Partition { values: &values[..1], marks: &[1], frames: &[], groups: &[] };
        assert_eq!(Outcome::cells(&lag, wrong, &rows, &mut out, &mut marks), refused(21, 8));
        assert_eq!((out, marks), ([fine; 2], [7; 2]));
        assert_eq!(Outcome::groups(&values, &[1, 1], &mut []), Err(Refusal { number: 22, place: 1 }));
    }
}
