//! The crate's side: its own evaluators over its own arrays.

use crate::case::{Case, Manner, argument};
use crate::input::Column;
use arrow::array::{ArrayRef, Float64Array, UInt64Array, UInt64Builder};
use arrow::datatypes::DataType;
use capi::Span;
use datafusion_common::{Result, ScalarValue};
use datafusion_expr::PartitionEvaluator;
use harness::crate_side::{literal, make, udwf};
use harness::lines::Argument;
use std::hint::black_box;
use std::ops::Range;
use std::sync::Arc;

/// An answer, fractions by their bits.
pub type Answer = Option<u64>;

pub struct Reference<'a> {
    case: &'a Case,
    values: [ArrayRef; 1],
    frames: &'a [Span],
    groups: Vec<Range<usize>>,
}

impl<'a> Reference<'a> {
    pub fn new(case: &'a Case, column: &Column, frames: &'a [Span], groups: &[Span]) -> Self {
        Reference {
            case,
            values: [column.array.clone()],
            frames,
            groups: groups.iter().map(|g| g.start..g.end).collect(),
        }
    }

    fn evaluator(&self) -> Result<Box<dyn PartitionEvaluator>> {
        let function = &self.case.function;
        let argument = argument(function).map(Argument::Signed);
        let literals = argument.and_then(literal).into_iter().collect();
        let ignoring = function.ignores_nulls();
        make(&udwf(function), DataType::UInt64, literals, false, ignoring)
    }

    /// All answers as one array; none where the crate answers by frames only.
    fn array(&self) -> Result<Option<ArrayRef>> {
        let mut evaluator = self.evaluator()?;
        if self.case.manner == Manner::ByRow || evaluator.uses_window_frame() {
            return Ok(None);
        }
        let rows = self.values[0].len();
        Ok(Some(if evaluator.include_rank() {
            evaluator.evaluate_all_with_rank(rows, &self.groups)?
        } else {
            evaluator.evaluate_all(&self.values, rows)?
        }))
    }

    /// One answer after the other, put into an array by the cheapest builder that there is.
    fn each(&self) -> Result<ArrayRef> {
        let mut evaluator = self.evaluator()?;
        let rows = self.values[0].len();
        let mut answers = UInt64Builder::with_capacity(rows);
        if evaluator.uses_window_frame() {
            for frame in self.frames {
                let range = frame.start..frame.end;
                let answer = evaluator.evaluate(&self.values, &range)?;
                answers.append_option(number_of(&answer));
            }
        } else {
            for row in 0..rows {
                let range = evaluator.get_range(row, rows)?;
                let answer = evaluator.evaluate(&self.values, &range)?;
                answers.append_option(number_of(&answer));
            }
        }
        Ok(Arc::new(answers.finish()))
    }

    fn asked(&self) -> Result<ArrayRef> {
        self.array()?.map_or_else(|| self.each(), Ok)
    }

    /// What is timed.
    pub fn run(&self) {
        drop(black_box(self.asked().expect("the crate answers")));
    }

    pub fn answers(&self) -> Vec<Answer> {
        answers_of(&self.asked().expect("the crate answers"))
    }
}

fn number_of(scalar: &ScalarValue) -> Option<u64> {
    match scalar {
        ScalarValue::UInt64(answer) => *answer,
        other => panic!("{other:?} is no number"),
    }
}

fn answers_of(array: &ArrayRef) -> Vec<Answer> {
    let valid = |i| array.is_valid(i);
    if let Some(array) = array.as_any().downcast_ref::<UInt64Array>() {
        let values = array.values().iter().enumerate();
        return values.map(|(i, v)| valid(i).then_some(*v)).collect();
    }
    let array = array.as_any().downcast_ref::<Float64Array>();
    let values = array.expect("numbers or fractions").values();
    let cells = values.iter().enumerate();
    cells
        .map(|(i, v)| valid(i).then_some(v.to_bits()))
        .collect()
}
