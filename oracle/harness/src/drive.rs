//! The program `drive` beside the model, line by line.

use crate::lines::{Line, Op, Run};
use crate::model::{Evaluator, model};
use crate::outcome::filled;
use std::collections::BTreeMap;
use std::fs::File;
use std::io::{self, Write};
use std::path::{Path, PathBuf};
use std::process::{Command, Stdio};

/// Lines wait here until there are enough for a call of the program.
pub struct Drive {
    program: PathBuf,
    folder: PathBuf,
    lines: Vec<Line>,
    is_wild: bool,
    pub counts: BTreeMap<String, usize>,
    pub refusals: BTreeMap<u32, usize>,
    pub differ: usize,
    pub smallest: Option<(String, String)>,
}

const BATCH: usize = 20_000;

fn sort_of(line: &Line, is_wild: bool) -> String {
    let wild = if is_wild {
        " that show no partition"
    } else {
        ""
    };
    match line {
        Line::Whole(w) if w.mirror => format!("X {}", w.function.name()),
        Line::Whole(w) => format!("W {}", w.function.name()),
        Line::Groups(_) => "G".to_string(),
        Line::Run(run) => format!("H {}{wild}", run.function.name()),
    }
}

impl Drive {
    pub fn new(program: &Path, folder: &Path) -> Drive {
        Drive {
            program: program.to_path_buf(),
            folder: folder.to_path_buf(),
            lines: vec![],
            is_wild: false,
            counts: BTreeMap::new(),
            refusals: BTreeMap::new(),
            differ: 0,
            smallest: None,
        }
    }

    pub fn compare(&mut self, line: Line) -> io::Result<()> {
        self.lines.push(line);
        if self.lines.len() < BATCH {
            Ok(())
        } else {
            self.flush()
        }
    }

    /// From here on lists of calls may show no partition: only the laws of runs are asked for.
    pub fn go_wild(&mut self) -> io::Result<()> {
        self.flush()?;
        self.is_wild = true;
        Ok(())
    }

    fn answers(&self) -> io::Result<String> {
        let path = self.folder.join("lines.txt");
        let mut file = io::BufWriter::new(File::create(&path)?);
        for line in &self.lines {
            writeln!(file, "{line}")?;
        }
        file.flush()?;
        let input = Stdio::from(File::open(&path)?);
        let output = Command::new(&self.program).stdin(input).output()?;
        if !output.status.success() {
            return Err(io::Error::other(format!(
                "drive ended with {}",
                output.status
            )));
        }
        String::from_utf8(output.stdout).map_err(io::Error::other)
    }

    pub fn flush(&mut self) -> io::Result<()> {
        let answers = self.answers()?;
        let lines = std::mem::take(&mut self.lines);
        let mut found = answers.lines();
        for line in &lines {
            let found = found.next().unwrap_or("(no line)");
            self.judge(line, found);
        }
        Ok(())
    }

    fn judge(&mut self, line: &Line, found: &str) {
        let sort = sort_of(line, self.is_wild);
        *self.counts.entry(sort).or_default() += 1;
        let expected = match line {
            Line::Run(run) if self.is_wild && holds_rows(run) => match laws_kept(run, found) {
                Ok(()) => found.to_string(),
                Err(law) => law,
            },
            line => filled(line, &model(line)),
        };
        for refusal in expected.split("no:").skip(1) {
            let number = refusal.split(':').next().and_then(|n| n.parse().ok());
            if let Some(number) = number {
                *self.refusals.entry(number).or_default() += 1;
            }
        }
        if expected != found {
            self.differ += 1;
            let smaller = |(old, _): &(String, String)| expected.len() < old.len();
            if self.smallest.as_ref().is_none_or(smaller) {
                self.smallest = Some((expected, found.to_string()));
            }
        }
    }

    pub fn print(&self) {
        println!("drive beside model: sort, lines");
        for (sort, count) in &self.counts {
            println!("  {sort}: {count}");
        }
        let met = self
            .refusals
            .iter()
            .map(|(number, count)| format!("{number}: {count}"));
        println!(
            "  refusals met, by number: {}",
            met.collect::<Vec<_>>().join(", ")
        );
        println!("  differing: {}", self.differ);
        if let Some((expected, found)) = &self.smallest {
            println!("    model: {expected}");
            println!("    drive: {found}");
        }
    }
}

/// Whether what an evaluator holds from earlier rows can tell in its later answers. Where it does not,
/// each answer follows from the window shown with it, even if earlier ones contradict it.
fn holds_rows(run: &Run) -> bool {
    match Evaluator::make(&run.function) {
        Ok(Evaluator::Shift {
            offset, ignoring, ..
        }) => offset > 0 && ignoring,
        Ok(Evaluator::Frames { .. }) => run.from_zero,
        Ok(Evaluator::RowNumber) | Err(_) => false,
        Ok(_) => true,
    }
}

/// What holds of every list of calls, whatever it shows: the mark never falls, and refusals name the
/// next row, the mark or the total as these stand.
fn laws_kept(run: &Run, found: &str) -> Result<(), String> {
    let (mut next, mut mark, mut total) = (0usize, 0usize, None);
    let texts = found.split(' ').skip(5);
    let mut seen = 0;
    for (op, text) in run.ops.iter().zip(texts) {
        seen += 1;
        let (_, outcome) = text.split_once("}>").ok_or("no outcome")?;
        let refusal = outcome.strip_prefix("no:").and_then(|r| r.split_once(':'));
        let place = refusal.and_then(|(_, place)| place.parse::<usize>().ok());
        let law = match (op, refusal.map(|(number, _)| number)) {
            (_, Some("12" | "16" | "17" | "18" | "19" | "20")) => place == Some(next),
            (_, Some("13")) => place == total && total == Some(next),
            (_, Some("14")) => place.is_some_and(|place| place >= mark),
            (_, Some("15")) => place == total,
            (_, Some("5" | "6")) => true,
            (_, Some(_)) => false,
            (Op::Request(_), None) => {
                next += 1;
                outcome.starts_with("ok:")
            }
            (Op::Mark, None) => {
                let old = mark;
                mark = outcome.parse().unwrap_or(0);
                mark >= old
            }
            (Op::Close(_), None) if total.is_some() => outcome == "no:closed",
            (Op::Close(t), None) => {
                total = Some(*t);
                outcome == "ok"
            }
            (Op::Settle, None) => outcome == "ok",
            (Op::Finish, None) => true,
        };
        if !law {
            return Err(format!("a law of runs at {text}"));
        }
    }
    if seen == run.ops.len() {
        Ok(())
    } else {
        Err("an outcome for each call".to_string())
    }
}
