use arrow::array::ArrayRef;
use std::ops::Range;

/// What a running window remembers: its answers so far and the last frame.
#[derive(Debug)]
pub struct WindowAggState {
    pub window_frame_range: Range<usize>,
    pub out_col: ArrayRef,
}
