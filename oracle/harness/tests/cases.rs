//! Worked cases, against the model and, where it answers them rightly, against the crate.

use harness::crate_side::crate_side;
use harness::model::model;
use harness::outcome::filled;
use harness::parse::parse;

/// Both sides answer so.
const BOTH: &[&str] = &[
    "W lag:s1:0:1:0 i V[5,0,7,0,0,9] M[1,0,1,0,0,1] F- G- O6,6 = ok:[0,5,5,7,7,7]",
    "W lag:s2:0:1:0 i V[5,0,7,0,0,9] M[1,0,1,0,0,1] F- G- O6,6 = ok:[0,0,0,5,5,5]",
    "W lag:s1:0:0:0 i V[5,0,7,0,0,9] M[1,0,1,0,0,1] F- G- O6,6 = ok:[0,5,_,7,_,_]",
    "W lead:s1:0:1:0 i V[5,0,7,0,0,9] M[1,0,1,0,0,1] F- G- O6,6 = ok:[7,7,9,9,9,0]",
    "W lead:s2:0:1:0 i V[10,11,12,13,0,15] M[1,1,1,1,0,1] F- G- O6,6 = ok:[12,13,15,0,0,0]",
    "W lag:s0:0:0:0 i V[5,0,7,0,0,9] M[1,0,1,0,0,1] F- G- O6,6 = ok:[5,_,7,_,_,9]",
    "W lag:s0:0:1:0 i V[5,0,7,0,0,9] M[1,0,1,0,0,1] F- G- O6,6 = ok:[5,_,7,_,_,9]",
    "W rank i V[4,4,6,6,6,9] M[1,1,1,1,1,1] F- G[0-2,2-5,5-6] O6 = ok:[1,1,3,3,3,6]",
    "W dense i V[4,4,6,6,6,9] M[1,1,1,1,1,1] F- G[0-2,2-5,5-6] O6 = ok:[1,1,2,2,2,3]",
    "W rownum i V[4,4,6] M[1,1,1] F- G- O3 = ok:[1,2,3]",
    "W nth:s2:0 i V[5,0,7] M[1,0,1] F[0-2,1-3,0-1] G- O3,3 = ok:[_,7,_]",
    "W nth:s2:1 i V[5,0,7] M[1,0,1] F[0-2,1-3,0-3] G- O3,3 = ok:[_,_,7]",
    "W nth:s-1:1 i V[5,0,7,0] M[1,0,1,0] F[0-4,1-4,0-2,0-0] G- O4,4 = ok:[7,7,5,_]",
    "W nth:s-9223372036854775807:0 i V[5] M[1] F[0-1] G- O1,1 = ok:[_]",
    "W lag:u9223372036854775807:0:0:0 i V[1,2] M[1,1] F- G- O2,2 = ok:[0,0]",
    "W percent i V[5] M[1] F- G[0-1] O1 = ok:[0000000000000000]",
    "W cume i V[5] M[1] F- G[0-1] O1 = ok:[3ff0000000000000]",
    "W percent i V[1,2,2] M[1,1,1] F- G[0-1,1-3] O3 = ok:[0000000000000000,3fe0000000000000,3fe0000000000000]",
];

/// The definitions say so; the crate errs, or has no such call.
const DEFINED: &[&str] = &[
    "W nth:s-9223372036854775808:0 i V[5] M[1] F[0-1] G- O1,1 = no:4:1",
    "W nth:missing:0 i V[5] M[1] F[0-1] G- O1,1 = no:3:1",
    "W lag:u9223372036854775808:0:0:0 i V[1] M[1] F- G- O1,1 = no:2:1",
    "W lag:noint:0:0:0 i V[1] M[1] F- G- O1,1 = no:1:1",
    "G i V[4,4,6] M[1,1,1] O1 = no:9:1",
    "G i V[4,4,0,6] M[1,1,0,0] O2 = ok:[0-2,2-4]",
    "H lead:s1:0:1:0 i Z0 L16777216 q{0|V[5,0]|M[1,0]|-}>no:17:0 q{0|V[5,0,7]|M[1,0,1]|-}>ok:7 m{}>1",
    "H first:1 i Z1 L16777216 q{0|V[0,3]|M[0,1]|0-1}>ok:_ s{}>ok m{}>0 q{0|V[0,3]|M[0,1]|0-2}>ok:3 s{}>ok m{}>1 c{2}>ok e{}>ok:2",
];

/// LEAD by two rows where the crate loses an answer, with the total known from the start.
const LOST: &str = "H lead:s2:0:1:0 i Z0 L16777216 c{6} \
    q{0|V[10,11,12,13,0,15]|M[1,1,1,1,0,1]|-} q{1|V[11,12,13,0,15]|M[1,1,1,0,1]|-} \
    q{2|V[12,13,0,15]|M[1,1,0,1]|-} e{}";

#[test]
fn both_sides_answer_the_cases() {
    for text in BOTH {
        let line = parse(text).expect("a case can be read");
        assert_eq!(filled(&line, &model(&line)), *text);
        assert_eq!(filled(&line, &crate_side(&line)), *text);
    }
}

#[test]
fn the_model_refuses_and_waits() {
    for text in DEFINED {
        let line = parse(text).expect("a case can be read");
        assert_eq!(filled(&line, &model(&line)), *text);
    }
}

#[test]
fn the_crate_loses_an_answer_of_lead() {
    let line = parse(LOST).expect("the case can be read");
    assert!(filled(&line, &model(&line)).contains("q{2|V[12,13,0,15]|M[1,1,0,1]|-}>ok:15 "));
    assert!(filled(&line, &crate_side(&line)).contains("q{2|V[12,13,0,15]|M[1,1,0,1]|-}>ok:0 "));
}

#[test]
fn a_line_is_read_as_it_is_written() {
    for text in BOTH.iter().chain(DEFINED) {
        let line = parse(text).expect("a case can be read");
        let again = parse(&line.to_string()).expect("its text can be read");
        assert_eq!(line, again);
    }
}
