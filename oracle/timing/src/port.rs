//! This library's side, through its C entry points.

use crate::case::{Case, Manner, argument};
use crate::input::Column;
use crate::reference::Answer;
use capi::{Call, CollegeCode, Kind, Noted, Partition, Script, Span};
use harness::lines;
use std::hint::black_box;

/// Lists for the answers, of which only what was written is looked at.
enum Lists {
    Cells(Vec<CollegeCode>, Vec<u8>),
    Numbers(Vec<u64>),
    Fractions(Vec<f64>),
}

pub struct Port<'a> {
    case: &'a Case,
    function: capi::Function,
    column: &'a Column,
    frames: &'a [Span],
    groups: &'a [Span],
    /// The calls of a run in bytes: a close, since the end is known, and a request for each row.
    calls: Vec<u8>,
}

/// A list that is not cleared, as the crate's are not.
fn unset<T: Copy>(len: usize) -> Vec<T> {
    let mut list = Vec::with_capacity(len);
    // SAFETY: the room is there, any bits are a number, and what the library does not write is not read.
    #[allow(clippy::uninit_vec)]
    unsafe {
        list.set_len(len);
    }
    list
}

fn described(function: &lines::Function) -> capi::Function {
    use lines::Function::*;
    let name = match function {
        Shift(shift) if shift.lead => capi::name::LEAD,
        Shift(_) => capi::name::LAG,
        First { .. } => capi::name::FIRST_VALUE,
        Last { .. } => capi::name::LAST_VALUE,
        Nth { .. } => capi::name::NTH_VALUE,
        Rank => capi::name::RANK,
        DenseRank => capi::name::DENSE_RANK,
        RowNumber => capi::name::ROW_NUMBER,
        PercentRank => capi::name::PERCENT_RANK,
        CumeDist => capi::name::CUME_DIST,
    };
    let signed = argument(function);
    capi::Function {
        name,
        ignore_nulls: function.ignores_nulls().into(),
        argument: signed.map_or(capi::argument::MISSING, |_| capi::argument::SIGNED),
        signed: signed.unwrap_or(0),
        ..capi::Function::default()
    }
}

impl<'a> Port<'a> {
    pub fn new(case: &'a Case, column: &'a Column, frames: &'a [Span], groups: &'a [Span]) -> Self {
        let mut port = Port {
            case,
            function: described(&case.function),
            column,
            frames,
            groups,
            calls: vec![],
        };
        if case.manner == Manner::ByRow {
            port.calls = port.script();
        }
        port
    }

    /// Every request shows all rows.
    fn script(&self) -> Vec<u8> {
        let rows = self.column.len();
        let mut bytes = Call::Close(rows).to_bytes().to_vec();
        for row in 0..rows {
            let frame = self.frames.get(row);
            let request = Call::Request {
                begin: 0,
                values: 0..rows,
                marks: 0..rows,
                frame: frame.map(|frame| (frame.start, frame.end)),
            };
            bytes.extend(request.to_bytes());
        }
        bytes
    }

    fn whole(&self) -> Lists {
        let rows = self.column.len();
        let partition = Partition {
            values: &self.column.codes,
            marks: &self.column.marks,
            frames: self.frames,
            groups: self.groups,
        };
        let (mut lists, told);
        if self.case.function.answers_cells() {
            let (mut values, mut marks) = (unset(rows), unset(rows));
            let null = CollegeCode(0);
            told = Kind::cells(&self.function, null, &partition, &mut values, &mut marks);
            lists = Lists::Cells(values, marks);
        } else if self.case.function.has_rows() {
            let mut numbers = unset(rows);
            told = Kind::numbers(&self.function, &partition, &mut numbers);
            lists = Lists::Numbers(numbers);
        } else {
            let mut fractions = unset(rows);
            told = Kind::fractions(&self.function, &partition, &mut fractions);
            lists = Lists::Fractions(fractions);
        }
        told.expect("the library answers");
        black_box(&mut lists);
        lists
    }

    fn by_row(&self) -> Lists {
        let calls = self.column.len() + 1;
        let script = Script {
            values: &self.column.codes,
            marks: &self.column.marks,
            calls: &self.calls,
        };
        let mut outcomes = unset::<Noted>(calls);
        let mut ending = Noted::default();
        let (mut lists, told);
        if self.case.function.answers_cells() {
            let (mut values, mut marks) = (unset(calls), unset(calls));
            told = Kind::run_cells(
                &self.function,
                CollegeCode(0),
                &script,
                &mut outcomes,
                &mut values,
                &mut marks,
                &mut ending,
            );
            lists = Lists::Cells(values, marks);
        } else {
            let mut numbers = unset(calls);
            told = Kind::run_numbers(
                &self.function,
                &script,
                &mut outcomes,
                &mut numbers,
                &mut ending,
            );
            lists = Lists::Numbers(numbers);
        }
        told.expect("the library answers");
        black_box((&mut lists, &mut outcomes));
        lists
    }

    fn lists(&self) -> Lists {
        match self.case.manner {
            Manner::Whole => self.whole(),
            Manner::ByRow => self.by_row(),
        }
    }

    /// What is timed.
    pub fn run(&self) {
        drop(self.lists());
    }

    pub fn answers(&self) -> Vec<Answer> {
        // The close of a run is its first call and answers nothing.
        let first = match self.case.manner {
            Manner::Whole => 0,
            Manner::ByRow => 1,
        };
        match self.lists() {
            Lists::Cells(values, marks) => values[first..]
                .iter()
                .zip(&marks[first..])
                .map(|(value, mark)| (*mark == 1).then_some(value.0))
                .collect(),
            Lists::Numbers(numbers) => numbers[first..].iter().copied().map(Some).collect(),
            Lists::Fractions(list) => list.iter().map(|x| Some(x.to_bits())).collect(),
        }
    }
}
