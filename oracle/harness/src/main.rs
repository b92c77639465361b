//! `oracle crate|model`: lines from standard input, each with the crate's or the model's outcome.
//! `oracle compare FOLDER [DRIVE]`: the crate, and the program drive, beside the model; files go to FOLDER.
//! `oracle record FOLDER`: a sample of the crate's answers that are right.

use harness::compare::Report;
use harness::crate_side::{crate_side, hush_crate_panics};
use harness::drive::Drive;
use harness::lines::Line;
use harness::model::model;
use harness::outcome::{Outcomes, filled};
use harness::parse::parse;
use harness::cases::{every_line, every_wild_line, SEED};
use harness::record::Sample;
use std::env;
use std::io::{self, BufRead, Write};
use std::path::Path;
use std::process::ExitCode;

fn fill(side: fn(&Line) -> Outcomes) -> io::Result<()> {
    let mut out = io::BufWriter::new(io::stdout().lock());
    for line in io::stdin().lock().lines() {
        let line = line?;
        if line.is_empty() || line.starts_with('#') {
            writeln!(out, "{line}")?;
            continue;
        }
        match parse(&line) {
            Ok(parsed) => writeln!(out, "{}", filled(&parsed, &side(&parsed)))?,
            Err(bad) => writeln!(out, "{line} = bad:{}", bad.0)?,
        }
    }
    out.flush()
}

fn compare(folder: &Path, program: Option<&Path>) -> io::Result<bool> {
    let mut report = Report::default();
    report.compare_built();
    every_line(&mut |line| report.compare(&line));
    report.print();
    let mut differing = report.unlisted();
    if let Some(program) = program {
        let mut drive = Drive::new(program, folder);
        let mut result = Ok(());
        every_line(&mut |line| {
            if result.is_ok() {
                result = drive.compare(line);
            }
        });
        result?;
        drive.go_wild()?;
        let mut result = Ok(());
        every_wild_line(&mut |line| {
            if result.is_ok() {
                result = drive.compare(line);
            }
        });
        result?;
        drive.flush()?;
        drive.print();
        differing += drive.differ;
    }
    Ok(differing == 0)
}

fn record(folder: &Path) -> io::Result<()> {
    let mut sample = Sample::new(SEED);
    every_line(&mut |line| sample.offer(&line));
    sample.write(folder)
}

fn main() -> io::Result<ExitCode> {
    hush_crate_panics();
    let args: Vec<String> = env::args().skip(1).collect();
    let args: Vec<&str> = args.iter().map(String::as_str).collect();
    match args.as_slice() {
        ["crate"] => fill(crate_side)?,
        ["model"] => fill(model)?,
        ["record", folder] => record(Path::new(folder))?,
        ["compare", folder, rest @ ..] if rest.len() <= 1 => {
            let alike = compare(Path::new(folder), rest.first().map(Path::new))?;
            println!(
                "{}",
                if alike {
                    "no unlisted difference"
                } else {
                    "unlisted differences"
                }
            );
            if !alike {
                return Ok(ExitCode::FAILURE);
            }
        }
        _ => {
            eprintln!("usage: oracle crate | model | record FOLDER | compare FOLDER [DRIVE]");
            return Ok(ExitCode::FAILURE);
        }
    }
    Ok(ExitCode::SUCCESS)
}
