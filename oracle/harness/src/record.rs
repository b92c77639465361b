//! A sample of the crate's answers that are right, in the format of lines.

use crate::compare::{Verdict, verdict};
use crate::crate_side::manners;
use crate::history::accepted;
use crate::lines::{Function, Line};
use crate::model::model;
use crate::outcome::{Outcome, Outcomes, filled};
use crate::random::Random;
use kinds::Kind;
use std::collections::BTreeMap;
use std::fs;
use std::io;
use std::path::Path;

const WHOLE_LINES: usize = 75;
const RUN_LINES: usize = 36;
const LONGEST: usize = 210;

/// Lines of a sort, of which each had the same chance to be kept.
#[derive(Default)]
struct Reservoir {
    offered: usize,
    kept: Vec<String>,
}

impl Reservoir {
    fn offer(&mut self, random: &mut Random, size: usize, text: String) {
        self.offered += 1;
        if self.kept.len() < size {
            self.kept.push(text);
            return;
        }
        let at = random.below(self.offered);
        if at < size {
            self.kept[at] = text;
        }
    }
}

pub struct Sample {
    random: Random,
    sorts: BTreeMap<(&'static str, String), Reservoir>,
}

fn file_of(function: &Function) -> &'static str {
    match function {
        Function::Shift(_) => "shifts.txt",
        f if f.wants_frames() => "frames.txt",
        _ => "ranks.txt",
    }
}

impl Sample {
    pub fn new(seed: u64) -> Sample {
        Sample {
            random: Random::new(seed),
            sorts: BTreeMap::new(),
        }
    }

    /// Takes the line into account if the crate answers it rightly in every manner.
    pub fn offer(&mut self, line: &Line) {
        let line = &accepted(line);
        let (function, kind, letter, size) = match line {
            Line::Whole(w) if w.mirror => (&w.function, &w.kind, 'X', WHOLE_LINES),
            Line::Whole(w) => (&w.function, &w.kind, 'W', WHOLE_LINES),
            Line::Run(run) => (&run.function, &run.kind, 'H', RUN_LINES),
            Line::Groups(_) => return,
        };
        let expected = model(line);
        let answered = match &expected {
            Outcomes::One(outcome) => matches!(outcome, Outcome::Answers(_)),
            Outcomes::Each(_) => true,
        };
        let text = filled(line, &expected);
        let agrees = |found| matches!(verdict(line, &expected, &found), Verdict::Agree);
        if !answered || text.len() > LONGEST || !manners(line).all(agrees) {
            return;
        }
        let plain = if *kind == Kind::Instant {
            "instants"
        } else {
            "other kinds"
        };
        let sort = format!("{} {letter} {plain}", function.name());
        let reservoir = self.sorts.entry((file_of(function), sort)).or_default();
        reservoir.offer(&mut self.random, size, text);
    }

    /// Writes a file for each family of functions.
    pub fn write(&self, folder: &Path) -> io::Result<()> {
        let mut files: BTreeMap<&str, String> = BTreeMap::new();
        for ((file, sort), reservoir) in &self.sorts {
            let text = files.entry(file).or_default();
            *text += &format!("# {sort}\n");
            for line in &reservoir.kept {
                *text += &format!("{line}\n");
            }
        }
        files
            .iter()
            .try_for_each(|(file, text)| fs::write(folder.join(file), text))
    }
}
