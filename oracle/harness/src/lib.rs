//! The crate's window functions beside an independent model of the definitions, one call or list of
//! calls a line.

pub mod cases;
pub mod compare;
pub mod crate_side;
pub mod differences;
pub mod drive;
pub mod history;
pub mod lines;
pub mod long;
pub mod model;
pub mod outcome;
pub mod parse;
pub mod random;
pub mod record;
pub mod runs;
pub mod short;
