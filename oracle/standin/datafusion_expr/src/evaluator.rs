use crate::window_state::WindowAggState;
use arrow::array::ArrayRef;
use datafusion_common::{Result, ScalarValue, exec_err, not_impl_err};
use std::fmt::Debug;
use std::ops::Range;

/// The functions that an evaluator leaves out do what the original's do.
pub trait PartitionEvaluator: Debug + Send {
    fn memoize(&mut self, _state: &mut WindowAggState) -> Result<()> {
        Ok(())
    }

    fn get_range(&self, idx: usize, _n_rows: usize) -> Result<Range<usize>> {
        if self.uses_window_frame() {
            exec_err!("Range should be calculated from window frame")
        } else {
            Ok(idx..idx + 1)
        }
    }

    fn is_causal(&self) -> bool {
        false
    }

    fn evaluate_all(&mut self, values: &[ArrayRef], num_rows: usize) -> Result<ArrayRef> {
        if self.uses_window_frame() || !self.supports_bounded_execution() {
            return not_impl_err!("evaluate_all is not implemented by default");
        }
        let answers = (0..num_rows)
            .map(|idx| self.evaluate(values, &self.get_range(idx, num_rows)?))
            .collect::<Result<Vec<_>>>()?;
        ScalarValue::iter_to_array(answers)
    }

    fn evaluate(&mut self, _values: &[ArrayRef], _range: &Range<usize>) -> Result<ScalarValue> {
        not_impl_err!("evaluate is not implemented by default")
    }

    fn evaluate_all_with_rank(
        &self,
        _num_rows: usize,
        _ranks_in_partition: &[Range<usize>],
    ) -> Result<ArrayRef> {
        not_impl_err!("evaluate_partition_with_rank is not implemented by default")
    }

    fn supports_bounded_execution(&self) -> bool {
        false
    }

    fn uses_window_frame(&self) -> bool {
        false
    }

    fn include_rank(&self) -> bool {
        false
    }
}
