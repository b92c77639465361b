use crate::{Result, ScalarValue};
use arrow::array::ArrayRef;

/// The cells of a row, one for each column.
pub fn get_row_at_idx(columns: &[ArrayRef], idx: usize) -> Result<Vec<ScalarValue>> {
    columns
        .iter()
        .map(|column| ScalarValue::try_from_array(column, idx))
        .collect()
}
