//! What both sides are given.

use arrow::array::{ArrayRef, UInt64Array};
use arrow::buffer::NullBuffer;
use capi::{CollegeCode, Span};
use harness::random::Random;
use std::fmt;
use std::sync::Arc;

/// How many rows are NULL.
#[derive(Debug, Clone, Copy, PartialEq)]
pub enum Nulls {
    None,
    Quarter,
    /// All but one in a thousand.
    Most,
}

impl Nulls {
    pub const ALL: [Nulls; 3] = [Nulls::None, Nulls::Quarter, Nulls::Most];

    fn is_present(self, random: &mut Random) -> bool {
        match self {
            Nulls::None => true,
            Nulls::Quarter => !random.one_in(4),
            Nulls::Most => random.one_in(1000),
        }
    }
}

impl fmt::Display for Nulls {
    fn fmt(&self, f: &mut fmt::Formatter<'_>) -> fmt::Result {
        f.write_str(match self {
            Nulls::None => "none",
            Nulls::Quarter => "a quarter",
            Nulls::Most => "999 of 1,000",
        })
    }
}

/// The frames of all rows.
#[derive(Debug, Clone, Copy, PartialEq)]
pub enum Frames {
    /// From the first row to the row itself.
    Growing,
    /// The last rows up to the row itself.
    Last(usize),
}

impl Frames {
    pub fn of(self, row: usize) -> Span {
        let start = match self {
            Frames::Growing => 0,
            Frames::Last(rows) => (row + 1).saturating_sub(rows),
        };
        let end = row + 1;
        Span { start, end }
    }
}

/// A column, once as lists and once as the crate's array.
pub struct Column {
    pub codes: Vec<CollegeCode>,
    pub marks: Vec<u8>,
    pub array: ArrayRef,
}

impl Column {
    pub fn new(rows: usize, nulls: Nulls) -> Column {
        let mut random = Random::new(rows as u64);
        let values: Vec<u64> = (0..rows).map(|_| random.bits() >> 1).collect();
        let marks: Vec<u8> = (0..rows)
            .map(|_| nulls.is_present(&mut random) as u8)
            .collect();
        let bitmap = NullBuffer::new(marks.iter().map(|mark| *mark == 1));
        let bitmap = Some(bitmap).filter(|_| nulls != Nulls::None);
        let array = Arc::new(UInt64Array::new(values.clone(), bitmap));
        Column {
            codes: values.into_iter().map(CollegeCode).collect(),
            marks,
            array,
        }
    }

    /// Peer groups of so many rows, each row holding its group's number.
    pub fn of_groups(rows: usize, group: usize) -> Column {
        let values: Vec<u64> = (0..rows).map(|row| (row / group) as u64).collect();
        let array = Arc::new(UInt64Array::new(values.clone(), None));
        Column {
            codes: values.into_iter().map(CollegeCode).collect(),
            marks: vec![1; rows],
            array,
        }
    }

    pub fn len(&self) -> usize {
        self.codes.len()
    }
}

/// The spans of groups of so many rows.
pub fn groups(rows: usize, group: usize) -> Vec<Span> {
    let starts = (0..rows).step_by(group);
    let span = |start| Span {
        start,
        end: rows.min(start + group),
    };
    starts.map(span).collect()
}
