//! This library beside the crate, on the same inputs in the same process.
//!
//!     timing [--quick] [--only WORD]

mod case;
mod clock;
mod input;
mod machine;
mod port;
mod reference;
mod report;

use capi::Span;
use case::{Case, Manner, Table};
use clock::{Work, alternate};
use input::{Column, Nulls, groups};
use port::Port;
use reference::Reference;
use report::{Cell, Report};
use std::hint::black_box;
use std::time::Duration;

const SIZES: [usize; 3] = [1_000, 1_000_000, 16_777_216];

/// A side is not asked where it would take more steps than this, of about a nanosecond.
const MOST_STEPS: f64 = 2e9;

/// Up to so many rows the answers of both sides are compared first.
const COMPARED: usize = 1_000_000;

/// The lists of a run's calls take 64 bytes a row and as much again where they are read.
const BY_ROW: usize = 1_000_000;

struct Options {
    quick: bool,
    only: Option<String>,
}

impl Options {
    fn read() -> Option<Options> {
        let mut options = Options {
            quick: false,
            only: None,
        };
        let mut words = std::env::args().skip(1);
        while let Some(word) = words.next() {
            match word.as_str() {
                "--quick" => options.quick = true,
                "--only" => options.only = Some(words.next()?),
                _ => return None,
            }
        }
        Some(options)
    }

    fn sizes(&self) -> &'static [usize] {
        if self.quick { &SIZES[..2] } else { &SIZES }
    }

    fn budget(&self) -> Duration {
        Duration::from_millis(if self.quick { 60 } else { 300 })
    }

    fn wants(&self, table: &Table, case: &Case) -> bool {
        let text = format!("{}: {case}", table.title);
        self.only.as_ref().is_none_or(|word| text.contains(word))
    }
}

/// The columns of one size.
struct Inputs {
    rows: usize,
    columns: Vec<(Nulls, Column)>,
}

impl Inputs {
    fn new(rows: usize) -> Inputs {
        let columns = Nulls::ALL.map(|nulls| (nulls, Column::new(rows, nulls)));
        Inputs {
            rows,
            columns: columns.into(),
        }
    }

    fn column(&self, nulls: Nulls) -> &Column {
        let found = self.columns.iter().find(|(n, _)| *n == nulls);
        &found.expect("one for each").1
    }
}

/// A copy of values and marks into lists made for it.
fn copy(column: &Column) {
    black_box((column.codes.clone(), column.marks.clone()));
}

/// In how many rows the two sides differ.
fn differences(port: &Port<'_>, reference: &Reference<'_>) -> usize {
    let (ours, theirs) = (port.answers(), reference.answers());
    assert_eq!(ours.len(), theirs.len(), "as many answers");
    ours.iter().zip(&theirs).filter(|(a, b)| a != b).count()
}

fn measure(case: &Case, inputs: &Inputs, budget: Duration) -> Cell {
    let rows = inputs.rows;
    if !case.fits(rows) || case.manner == Manner::ByRow && rows > BY_ROW {
        return Cell::Absent;
    }
    let frames: Vec<Span> = match case.frames() {
        Some(frames) => (0..rows).map(|row| frames.of(row)).collect(),
        None => vec![],
    };
    let (of_groups, spans);
    let column = match case.over {
        case::Over::Groups(_) => {
            of_groups = Column::of_groups(rows, case.group(rows));
            spans = match case.function.wants_groups() {
                true => groups(rows, case.group(rows)),
                false => vec![],
            };
            &of_groups
        }
        _ => {
            spans = vec![];
            inputs.column(case.nulls())
        }
    };
    let port = Port::new(case, column, &frames, &spans);
    let reference = Reference::new(case, column, &frames, &spans);
    let asks_port = case.port_steps(rows) <= MOST_STEPS;
    let asks_crate = case.crate_steps(rows) <= MOST_STEPS;
    let differ = match rows <= COMPARED && asks_port && asks_crate {
        true => differences(&port, &reference),
        false => 0,
    };
    let mut works: Vec<Work<'_>> = vec![];
    if asks_port {
        works.push(Box::new(|| port.run()));
    }
    if asks_crate {
        works.push(Box::new(|| reference.run()));
    }
    let mut medians = alternate(&mut works, budget)
        .into_iter()
        .map(|seconds| seconds / rows as f64);
    let mut next = |asked: bool| if asked { medians.next() } else { None };
    Cell::Timed {
        port: next(asks_port),
        reference: next(asks_crate),
        differ,
    }
}

fn main() {
    let Some(options) = Options::read() else {
        eprintln!("usage: timing [--quick] [--only WORD]");
        std::process::exit(2);
    };
    let tables = case::tables(options.quick);
    let mut report = Report::new(options.sizes());
    for rows in options.sizes() {
        let inputs = Inputs::new(*rows);
        let column = inputs.column(Nulls::Quarter);
        let mut works: Vec<Work<'_>> = vec![Box::new(|| copy(column))];
        report.copied(alternate(&mut works, options.budget())[0] / *rows as f64);
        for table in &tables {
            for case in &table.cases {
                if options.wants(table, case) {
                    let cell = measure(case, &inputs, options.budget());
                    report.add(table.title, case, cell);
                }
            }
            eprintln!("{}, {} rows: done", table.title, case::grouped(*rows));
        }
    }
    report.print(&tables);
}
