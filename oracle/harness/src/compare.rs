//! The crate beside the model, counted by sort, with the smallest input of each difference.

use crate::crate_side::{Found, built, manners};
use crate::differences::{self, BUILT_OFFSET, KNOWN, WAITS};
use crate::history::accepted;
use crate::lines::*;
use crate::model::model;
use crate::outcome::{Answer, Outcome, Outcomes, Refusal, filled};
use kinds::{Kind, Value};
use std::collections::{BTreeMap, BTreeSet};

/// What came of the lines of a sort.
#[derive(Debug, Default)]
pub struct Count {
    pub lines: usize,
    pub agree: usize,
    pub refused: usize,
    pub absent: usize,
    pub differ: usize,
}

/// An input that shows a difference, with both sides.
#[derive(Debug, Clone)]
pub struct Example {
    size: (usize, usize, bool, usize),
    pub expected: String,
    pub found: String,
}

#[derive(Debug, Default)]
pub struct Class {
    pub lines: usize,
    pub smallest: Option<Example>,
}

#[derive(Debug, Default)]
pub struct Report {
    pub counts: BTreeMap<String, Count>,
    pub classes: BTreeMap<String, Class>,
}

/// How a line went.
pub enum Verdict {
    Agree,
    /// Refused by both.
    Refused,
    /// The crate has no such call.
    Absent,
    Differ(Vec<String>),
}

fn sort_of(line: &Line) -> String {
    match line {
        Line::Whole(w) if w.mirror => format!("mirror {}", w.function.name()),
        Line::Whole(w) => format!("whole {}", w.function.name()),
        Line::Groups(_) => "groups".to_string(),
        Line::Run(run) => format!("rows {}", run.function.name()),
    }
}

/// What makes an example small: few rows, few differences at once, the plainest kind, a short text.
fn size_of(line: &Line, classes: usize, text: &str) -> (usize, usize, bool, usize) {
    let is_request = |op: &&Op| matches!(op, Op::Request(_));
    let (rows, kind) = match line {
        Line::Whole(w) => (w.column.len(), &w.kind),
        Line::Groups(g) => (g.column.len(), &g.kind),
        Line::Run(run) => (run.ops.iter().filter(is_request).count(), &run.kind),
    };
    (rows, classes, *kind != Kind::Instant, text.len())
}

fn unknown(expected: &Outcome, found: &Outcome) -> String {
    let word = |outcome: &Outcome| match outcome {
        Outcome::Answers(_) | Outcome::Answer(_) => "answers".to_string(),
        Outcome::Refused(refusal) => format!("refusal {}", refusal.0),
        Outcome::Error(_) => "error".to_string(),
        Outcome::Panic(_) => "panic".to_string(),
        Outcome::Mark(_) => "mark".to_string(),
        other => format!("{other}"),
    };
    format!("unlisted: {} here, {} there", word(expected), word(found))
}

/// Whether the crate has nothing that this refusal could be of: lists that differ in length, lent
/// output, frames and groups that are not wanted.
fn without_counterpart(line: &Line, refusal: Refusal) -> bool {
    match (line, refusal.0) {
        (Line::Whole(w), 7) => !w.function.wants_frames(),
        (Line::Whole(w), 8) => !w.function.wants_groups(),
        (_, number) => matches!(number, 5 | 6 | 10 | 11),
    }
}

fn one_verdict(line: &Line, expected: &Outcome, found: &Outcome) -> Verdict {
    match (expected, found) {
        (_, Outcome::Absent) => Verdict::Absent,
        (expected, found) if expected == found => Verdict::Agree,
        (Outcome::Refused(refusal), Outcome::Error(_)) if refusal.0 <= 4 => Verdict::Refused,
        (Outcome::Refused(refusal), _) if without_counterpart(line, *refusal) => Verdict::Absent,
        (expected, found) => {
            let class = differences::of_whole(expected, found).map(str::to_string);
            Verdict::Differ(vec![class.unwrap_or_else(|| unknown(expected, found))])
        }
    }
}

/// The classes of a run's differences: at its rows, in when they are answered, and in the keep marks.
fn run_verdict(run: &Run, expected: &[Outcome], found: &Found, each: &[Outcome]) -> Verdict {
    let mut classes = vec![];
    let mut rows: Vec<&Answer> = vec![];
    let mut waited = false;
    for (expected, found) in expected.iter().zip(each) {
        match (expected, found) {
            (Outcome::Answer(answer), found) => {
                rows.push(answer);
                if *found == Outcome::Wait {
                    waited = true;
                    classes.push(WAITS.to_string());
                } else if !matches!(found, Outcome::Answer(_)) {
                    classes.push(unknown(expected, found));
                }
            }
            // Where a row waited, marks and settlings are of different rows.
            (Outcome::Mark(_), Outcome::Mark(_)) if waited => {}
            (Outcome::Mark(_), Outcome::Absent) => {}
            (expected, found) if expected == found => {}
            (expected, found) => classes.push(unknown(expected, found)),
        }
    }
    for (expected, found) in rows.iter().zip(&found.rows) {
        if *expected != found {
            let class = differences::of_row(&run.function, expected, found);
            classes.push(
                class
                    .unwrap_or("unlisted: another answer by row")
                    .to_string(),
            );
        }
    }
    if classes.is_empty() {
        return Verdict::Agree;
    }
    classes.sort();
    classes.dedup();
    Verdict::Differ(classes)
}

pub fn verdict(line: &Line, expected: &Outcomes, found: &Found) -> Verdict {
    match (line, expected, &found.outcomes) {
        (_, Outcomes::One(expected), Outcomes::One(found)) => one_verdict(line, expected, found),
        (_, Outcomes::Each(_), Outcomes::One(Outcome::Absent)) => Verdict::Absent,
        (Line::Run(run), Outcomes::Each(expected), Outcomes::Each(each)) => {
            run_verdict(run, expected, found, each)
        }
        _ => Verdict::Differ(vec!["unlisted: made on one side only".to_string()]),
    }
}

impl Report {
    fn note(&mut self, class: &str, example: &Example) {
        let class = self.classes.entry(class.to_string()).or_default();
        let order = |e: &Example| (e.size, e.expected.clone());
        if class
            .smallest
            .as_ref()
            .is_none_or(|old| order(example) < order(old))
        {
            class.smallest = Some(example.clone());
        }
    }

    /// Compares a line in every manner of handing it over; of a run, the calls that are accepted.
    pub fn compare(&mut self, line: &Line) {
        let line = &accepted(line);
        let expected = model(line);
        let mut seen: Vec<Found> = vec![];
        let mut worst = Verdict::Absent;
        let mut differences = BTreeSet::new();
        for found in manners(line) {
            if seen.contains(&found) {
                continue;
            }
            let verdict = verdict(line, &expected, &found);
            if let Verdict::Differ(classes) = &verdict {
                self.note_all(line, classes, &expected, &found.outcomes);
                differences.extend(classes.clone());
            }
            if !matches!(worst, Verdict::Differ(_)) {
                worst = verdict;
            }
            seen.push(found);
        }
        self.count_classes(differences);
        let count = self.counts.entry(sort_of(line)).or_default();
        count.lines += 1;
        match worst {
            Verdict::Agree => count.agree += 1,
            Verdict::Refused => count.refused += 1,
            Verdict::Absent => count.absent += 1,
            Verdict::Differ(_) => count.differ += 1,
        }
    }

    fn count_classes(&mut self, names: impl IntoIterator<Item = String>) {
        for name in names {
            self.classes.entry(name).or_default().lines += 1;
        }
    }

    fn note_all(&mut self, line: &Line, classes: &[String], expected: &Outcomes, found: &Outcomes) {
        let text = filled(line, expected);
        let example = Example {
            size: size_of(line, classes.len(), &text),
            expected: text,
            found: filled(line, found),
        };
        for class in classes {
            self.note(class, &example);
        }
    }

    /// Compares what the crate's functions `lag` and `lead` build, with an offset and without.
    pub fn compare_built(&mut self) {
        let cells = [Some(Value::Instant(5)), Some(Value::Instant(7))];
        let column = Column {
            values: cells.iter().flatten().cloned().collect(),
            marks: vec![true; cells.len()],
        };
        for lead in [false, true] {
            for offset in [
                None,
                Some(0),
                Some(1),
                Some(-1),
                Some(i64::MIN),
                Some(i64::MAX),
            ] {
                let function = Function::Shift(Shift {
                    lead,
                    offset: offset.map_or(Argument::Missing, Argument::Signed),
                    reversed: false,
                    ignoring: false,
                    default: None,
                });
                let line = Line::Whole(Whole {
                    mirror: false,
                    slots: Slots::enough(&function, cells.len()),
                    function,
                    kind: Kind::Instant,
                    column: column.clone(),
                    frames: vec![],
                    groups: vec![],
                });
                let expected = model(&line);
                let found = Outcomes::One(built(lead, offset, &Kind::Instant, &cells));
                let count = self
                    .counts
                    .entry("built lag and lead".to_string())
                    .or_default();
                count.lines += 1;
                if expected == found {
                    count.agree += 1;
                    continue;
                }
                count.differ += 1;
                let class = match offset {
                    None => BUILT_OFFSET,
                    Some(_) => "unlisted: built with an offset",
                };
                self.note_all(&line, &[class.to_string()], &expected, &found);
                self.count_classes([class.to_string()]);
            }
        }
    }

    /// The differences that no row of the documents lists.
    pub fn unlisted(&self) -> usize {
        let unlisted = |class: &&String| !KNOWN.contains(&class.as_str());
        self.classes.keys().filter(unlisted).count()
    }

    pub fn print(&self) {
        println!(
            "crate beside model: sort, lines, agreeing, refused by both, no such call, differing"
        );
        for (sort, c) in &self.counts {
            println!(
                "  {sort}: {} {} {} {} {}",
                c.lines, c.agree, c.refused, c.absent, c.differ
            );
        }
        println!("differences, with the smallest input");
        for (name, class) in &self.classes {
            println!("  {name}: {} lines", class.lines);
            if let Some(example) = &class.smallest {
                println!("    definitions: {}", example.expected);
                println!("    crate:       {}", example.found);
            }
        }
    }
}
