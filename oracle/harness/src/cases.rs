//! The lines that are compared.

use crate::random::Random;
use crate::short::{self, Sink};
use crate::long;

pub const SEED: u64 = 55;
const RANDOM_LINES: usize = 60_000;
const LONG_LINES: usize = 300;

/// Every short case, then random ones.
pub fn every_line(sink: Sink) {
    short::whole_shifts(5, sink);
    short::shift_rows(5, sink);
    short::lead_rows(7, sink);
    short::whole_frames(5, sink);
    short::frame_rows(3, sink);
    short::settled_rows(4, sink);
    short::whole_ranks(6, sink);
    short::rank_rows(6, sink);
    short::wrong_spans(3, sink);
    let mut random = Random::new(SEED);
    for _ in 0..RANDOM_LINES {
        sink(long::whole(&mut random, 12));
        sink(long::run(&mut random, 10));
    }
    for _ in 0..LONG_LINES {
        sink(long::whole(&mut random, 1200));
        sink(long::run(&mut random, 120));
    }
}

/// Lists of calls that may show no partition.
pub fn every_wild_line(sink: Sink) {
    let mut random = Random::new(SEED);
    for _ in 0..RANDOM_LINES {
        sink(long::wild_run(&mut random, 8));
    }
}
