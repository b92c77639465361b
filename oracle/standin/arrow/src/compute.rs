use crate::array::{Array, ArrayRef, UInt64Array};
use crate::error::ArrowError;

#[derive(Debug, Clone, Copy, PartialEq, Eq, Hash)]
pub struct SortOptions {
    pub descending: bool,
    pub nulls_first: bool,
}

#[derive(Debug)]
pub struct TakeOptions;

/// The rows at the indices; NULL at a NULL index.
pub fn take(
    values: &dyn Array,
    indices: &UInt64Array,
    _options: Option<TakeOptions>,
) -> Result<ArrayRef, ArrowError> {
    Ok(values.take(indices))
}

/// The rows at (array, row).
pub fn interleave(
    arrays: &[&dyn Array],
    indices: &[(usize, usize)],
) -> Result<ArrayRef, ArrowError> {
    first_of(arrays)?.interleave(arrays, indices)
}

/// The arrays one behind the other.
pub fn concat(arrays: &[&dyn Array]) -> Result<ArrayRef, ArrowError> {
    first_of(arrays)?.concat(arrays)
}

fn first_of<'a>(arrays: &[&'a dyn Array]) -> Result<&'a dyn Array, ArrowError> {
    arrays
        .first()
        .copied()
        .ok_or_else(|| ArrowError("no array".to_string()))
}
