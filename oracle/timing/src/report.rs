//! The tables, and what they come to.

use crate::case::{Case, Manner, Table, grouped};
use crate::machine;
use harness::lines::Function;

/// What was measured of a case at a size, in seconds a row.
pub enum Cell {
    /// There is no such case.
    Absent,
    /// A side that would take too long was not asked.
    Timed {
        port: Option<f64>,
        reference: Option<f64>,
        /// How many answers differ.
        differ: usize,
    },
}

impl Cell {
    fn port(&self) -> Option<f64> {
        match self {
            Cell::Absent => None,
            Cell::Timed { port, .. } => *port,
        }
    }

    fn ratio(&self) -> Option<f64> {
        match self {
            Cell::Absent => None,
            Cell::Timed {
                port, reference, ..
            } => Some((*port)? / (*reference)?),
        }
    }

    /// The ratio, the nanoseconds a row of both, and how many plain copies this library's are.
    fn text(&self, copy: f64) -> String {
        let Cell::Timed {
            port, reference, ..
        } = self
        else {
            return String::new();
        };
        let none = "–".to_string();
        let ns = |seconds: &Option<f64>| match seconds {
            Some(seconds) => format!("{:.1}", seconds * 1e9),
            None => none.clone(),
        };
        let ratio = self.ratio().map(|r| format!("**{r:.2}**"));
        let copies = port.map(|port| format!("{:.1}", port / copy));
        format!(
            "{} ({} / {}), {}",
            ratio.unwrap_or(none.clone()),
            ns(port),
            ns(reference),
            copies.unwrap_or(none.clone())
        )
    }
}

fn spread(numbers: &[f64]) -> Option<(f64, f64)> {
    let least = numbers.iter().copied().min_by(f64::total_cmp)?;
    let most = numbers.iter().copied().max_by(f64::total_cmp)?;
    Some((least, most))
}

struct Line {
    title: &'static str,
    case: Case,
    /// One for each size so far.
    cells: Vec<Cell>,
}

pub struct Report {
    sizes: &'static [usize],
    load: String,
    copies: Vec<f64>,
    lines: Vec<Line>,
}

impl Report {
    pub fn new(sizes: &'static [usize]) -> Report {
        Report {
            sizes,
            load: machine::load(),
            copies: vec![],
            lines: vec![],
        }
    }

    pub fn copied(&mut self, seconds: f64) {
        self.copies.push(seconds);
    }

    pub fn add(&mut self, title: &'static str, case: &Case, cell: Cell) {
        let found = self
            .lines
            .iter_mut()
            .find(|line| line.title == title && line.case == *case);
        match found {
            Some(line) => line.cells.push(cell),
            None => self.lines.push(Line {
                title,
                case: case.clone(),
                cells: vec![cell],
            }),
        }
    }

    pub fn print(&self, tables: &[Table]) {
        println!("Machine: {}.", machine::describe());
        println!(
            "Load when it began and ended: {}; {}.",
            self.load,
            machine::load()
        );
        println!();
        println!("A plain copy of values and marks, in ns a row:");
        for (rows, copy) in self.sizes.iter().zip(&self.copies) {
            println!("- {} rows: {:.2}", grouped(*rows), copy * 1e9);
        }
        self.print_summary();
        self.print_fivefold();
        self.print_differences();
        for table in tables {
            self.print_table(table);
        }
    }

    fn of<'a>(&'a self, title: &'a str) -> impl Iterator<Item = &'a Line> {
        self.lines.iter().filter(move |line| line.title == title)
    }

    fn print_table(&self, table: &Table) {
        let lines: Vec<&Line> = self.of(table.title).collect();
        let is_told = |size: &usize| {
            let cells = lines.iter().filter_map(|line| line.cells.get(*size));
            cells.into_iter().any(|cell| !matches!(cell, Cell::Absent))
        };
        let told: Vec<usize> = (0..self.sizes.len()).filter(is_told).collect();
        if lines.is_empty() {
            return;
        }
        println!("\n### {}\n", table.title);
        print!("| {} |", table.heads);
        for size in &told {
            print!(" {} rows |", grouped(self.sizes[*size]));
        }
        let heads = table.heads.matches('|').count() + 1;
        println!("\n|{}", "---|".repeat(heads + told.len()));
        for line in lines {
            print!("| {} |", line.case);
            for size in &told {
                print!(" {} |", line.cells[*size].text(self.copies[*size]));
            }
            println!();
        }
    }

    fn each(&self) -> impl Iterator<Item = (&Line, usize, &Cell)> {
        let cells = |line| Line::cells(line).zip(self.sizes);
        self.lines
            .iter()
            .flat_map(move |line| cells(line).map(move |(cell, rows)| (line, *rows, cell)))
    }

    /// The measurements of a function, whatever its argument, at a size.
    fn summary(&self, family: &str, size: usize) -> String {
        let lines = self.lines.iter().filter(|line| line.family() == family);
        let cells: Vec<&Cell> = lines.filter_map(|line| line.cells.get(size)).collect();
        let ratios: Vec<f64> = cells.iter().filter_map(|cell| cell.ratio()).collect();
        let costs: Vec<f64> = cells.iter().filter_map(|cell| cell.port()).collect();
        let slower = ratios.iter().filter(|ratio| **ratio > 1.0).count();
        match (spread(&ratios), spread(&costs)) {
            (Some((least, most)), Some((cheap, dear))) => format!(
                "{least:.2} to {most:.2}, {slower} of {}; {:.1} to {:.1}",
                ratios.len(),
                cheap * 1e9,
                dear * 1e9
            ),
            _ => String::new(),
        }
    }

    fn print_summary(&self) {
        let mut families: Vec<String> = vec![];
        for line in &self.lines {
            if !families.contains(&line.family()) {
                families.push(line.family());
            }
        }
        println!("\n### All arguments, frames and NULLs together\n");
        println!(
            "The ratio, least to most, and in how many it is above 1; nanoseconds a row of this library, least to most.\n"
        );
        print!("| |");
        for rows in self.sizes {
            print!(" {} rows |", grouped(*rows));
        }
        println!("\n|---|{}", "---|".repeat(self.sizes.len()));
        for family in families {
            print!("| {family} |");
            for size in 0..self.sizes.len() {
                print!(" {} |", self.summary(&family, size));
            }
            println!();
        }
    }

    fn print_fivefold(&self) {
        println!("\n### LAG and LEAD IGNORE NULLS over a million rows, wanted at 0.20 or less\n");
        for (line, rows, cell) in self.each() {
            let wanted = matches!(&line.case.function, Function::Shift(shift) if shift.ignoring);
            if let (true, 1_000_000, Some(ratio)) = (wanted, rows, cell.ratio()) {
                let met = if ratio <= 0.2 { "met" } else { "not met" };
                println!("- {ratio:.2}, {met}: {}", line.name(rows));
            }
        }
    }

    fn print_differences(&self) {
        println!("\n### Rows in which the two sides' answers differ\n");
        let mut none = true;
        for (line, rows, cell) in self.each() {
            if let Cell::Timed { differ, .. } = cell
                && *differ > 0
            {
                println!("- {}: {}", line.name(rows), grouped(*differ));
                none = false;
            }
        }
        if none {
            println!("None.");
        }
    }
}

impl Line {
    fn cells(&self) -> impl Iterator<Item = &Cell> {
        self.cells.iter()
    }

    fn name(&self, rows: usize) -> String {
        let manner = match self.case.manner {
            Manner::Whole => "whole",
            Manner::ByRow => "row by row",
        };
        let case = self.case.to_string().replace(" | ", ", ");
        format!("{case}, {manner}, {} rows", grouped(rows))
    }

    /// The function and how it treats NULLs, whatever its argument.
    fn family(&self) -> String {
        let manner = match self.case.manner {
            Manner::Whole => "whole",
            Manner::ByRow => "row by row",
        };
        let nulls = match self.case.function.ignores_nulls() {
            true => " IGNORE NULLS",
            false => "",
        };
        format!("{}{nulls}, {manner}", self.case.name())
    }
}
