//! Every line of the comparison through the C entry points of the library, beside the model of the definitions.

mod calls;
mod cross;

use crate::cross::Cross;
use capi::{CollegeCode, Instant, InstantCode, Outcome, Pseudonym};
use harness::cases::every_line;
use harness::lines::Line;
use harness::model::model;
use harness::outcome::{Outcomes, filled};
use kinds::Kind;
use std::collections::BTreeMap;
use std::process::ExitCode;

fn at<K: Cross>(line: &Line) -> Outcomes {
    match line {
        Line::Whole(whole) => calls::whole::<K>(whole),
        Line::Groups(groups) => calls::groups::<K>(groups),
        Line::Run(run) => calls::run::<K>(run),
    }
}

fn kind_of(line: &Line) -> &Kind {
    match line {
        Line::Whole(whole) => &whole.kind,
        Line::Groups(groups) => &groups.kind,
        Line::Run(run) => &run.kind,
    }
}

/// None where the line's kind has no entry points.
fn told(line: &Line) -> Option<Outcomes> {
    match kind_of(line) {
        Kind::Instant => Some(at::<Instant>(line)),
        Kind::Pseudonym => Some(at::<Pseudonym>(line)),
        Kind::College => Some(at::<CollegeCode>(line)),
        Kind::Outcome => Some(at::<Outcome>(line)),
        kind if *kind == Kind::pair(Kind::Instant, Kind::College) => Some(at::<InstantCode>(line)),
        _ => None,
    }
}

fn sort_of(line: &Line) -> String {
    match line {
        Line::Whole(whole) if whole.mirror => format!("X {}", whole.function.name()),
        Line::Whole(whole) => format!("W {}", whole.function.name()),
        Line::Groups(_) => "G".to_string(),
        Line::Run(run) => format!("H {}", run.function.name()),
    }
}

fn main() -> ExitCode {
    let mut counts: BTreeMap<String, usize> = BTreeMap::new();
    let mut without = 0;
    let mut differ = 0;
    every_line(&mut |line| {
        let Some(found) = told(&line) else {
            without += 1;
            return;
        };
        *counts.entry(sort_of(&line)).or_default() += 1;
        let expected = model(&line);
        if found != expected {
            differ += 1;
            if differ <= 5 {
                println!("  model: {}", filled(&line, &expected));
                println!("  C:     {}", filled(&line, &found));
            }
        }
    });
    println!("the C entry points beside the model: sort, lines");
    for (sort, count) in &counts {
        println!("  {sort}: {count}");
    }
    println!("  of a kind without entry points: {without}");
    println!("  differing: {differ}");
    if differ == 0 { ExitCode::SUCCESS } else { ExitCode::FAILURE }
}
