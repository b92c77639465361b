//! The differences between the crate and the definitions that are known, each with a row of
//! docs/DIFFERENCES.md by this name.

use crate::lines::*;
use crate::model::Evaluator;
use crate::outcome::{Answer, Outcome, Refusal};

/// Row by row, LEAD IGNORE NULLS by two rows or more loses answers.
pub const LEAD_LOSES: &str = "lead-ignoring-loses";
/// Row by row, offset 0 with NULLs ignored gives the default at a NULL row.
pub const OWN_NULL: &str = "offset-0-ignoring";
/// An expression without an offset is built with a NULL offset, which reads as 0.
pub const BUILT_OFFSET: &str = "missing-offset-built";
/// A row is answered later than its rows settle it.
pub const WAITS: &str = "waits-longer";
/// Frames that do not lie in the partition are taken unread.
pub const FRAMES_UNREAD: &str = "frames-unread";
/// Frames that do not lie in the partition end in a panic.
pub const FRAMES_PANIC: &str = "frames-panic";
/// Groups that are not the column's peer groups are taken unread.
pub const GROUPS_UNREAD: &str = "groups-unread";
/// Groups that end before they start end in a panic.
pub const GROUPS_PANIC: &str = "groups-panic";

pub const KNOWN: [&str; 8] = [
    LEAD_LOSES,
    OWN_NULL,
    BUILT_OFFSET,
    WAITS,
    FRAMES_UNREAD,
    FRAMES_PANIC,
    GROUPS_UNREAD,
    GROUPS_PANIC,
];

/// The name of a difference on a whole partition.
pub fn of_whole(expected: &Outcome, found: &Outcome) -> Option<&'static str> {
    let Outcome::Refused(Refusal(number, _)) = expected else {
        return None;
    };
    match (number, found) {
        (7, Outcome::Answers(_)) => Some(FRAMES_UNREAD),
        (7, Outcome::Panic(_)) => Some(FRAMES_PANIC),
        (8, Outcome::Answers(_)) => Some(GROUPS_UNREAD),
        (8, Outcome::Panic(_)) => Some(GROUPS_PANIC),
        _ => None,
    }
}

/// The name of a difference at a row: what was expected there, and what was found.
pub fn of_row(function: &Function, expected: &Answer, found: &Answer) -> Option<&'static str> {
    let Ok(Evaluator::Shift {
        offset,
        ignoring: true,
        default,
    }) = Evaluator::make(function)
    else {
        return None;
    };
    let is_default = *found == Answer::Cell(default);
    let is_null = *expected == Answer::Cell(None);
    match offset {
        0 if is_default && is_null => Some(OWN_NULL),
        ..=-2 if is_default => Some(LEAD_LOSES),
        _ => None,
    }
}
