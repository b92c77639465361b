//! A stand-in for the part of `arrow` that the window functions use: arrays of the kinds, of whole
//! numbers and of fractions, with or without a NULL bitmap.

pub mod array;
pub mod buffer;
pub mod compute;
pub mod datatypes;
pub mod error;
