//! The C entry points of the library from Rust: their declarations, and a safe function for each.
//!
//! The declarations are those of `crates/capi/bodkinfawn.h`, which says what each buffer holds; nothing compares the two.
//! Everything unsafe stands here. It is sound since the entry points ask nothing of their callers beyond what the
//! types of these functions give: slices that are alive for the call, written only where they are `&mut`.

use std::ops::Range;

/// The place in a list of calls that each call takes.
pub const CALL_BYTES: usize = 64;

/// A point in time.
#[repr(C)]
#[derive(Debug, Clone, Copy, Default, PartialEq, Eq)]
pub struct Instant(pub i64);

/// Who logged in.
#[repr(C)]
#[derive(Debug, Clone, Copy, Default, PartialEq, Eq)]
pub struct Pseudonym {
    pub high: u64,
    pub low: u64,
}

/// A college's code.
#[repr(C)]
#[derive(Debug, Clone, Copy, Default, PartialEq, Eq)]
pub struct CollegeCode(pub u64);

/// How a login ended: 0 granted, 1 refused with the reason, 2 timed out.
#[repr(C)]
#[derive(Debug, Clone, Copy, Default, PartialEq, Eq)]
pub struct Outcome {
    pub tag: u16,
    pub reason: u16,
}

/// An instant beside a code.
#[repr(C)]
#[derive(Debug, Clone, Copy, Default, PartialEq, Eq)]
pub struct InstantCode {
    pub instant: Instant,
    pub code: CollegeCode,
}

/// A frame or a peer group: its first row, and the row after its last.
#[repr(C)]
#[derive(Debug, Clone, Copy, Default, PartialEq, Eq)]
pub struct Span {
    pub start: usize,
    pub end: usize,
}

/// The functions by their bytes.
pub mod name {
    pub const LAG: u8 = 0;
    pub const LEAD: u8 = 1;
    pub const FIRST_VALUE: u8 = 2;
    pub const LAST_VALUE: u8 = 3;
    pub const NTH_VALUE: u8 = 4;
    pub const RANK: u8 = 5;
    pub const DENSE_RANK: u8 = 6;
    pub const ROW_NUMBER: u8 = 7;
    pub const PERCENT_RANK: u8 = 8;
    pub const CUME_DIST: u8 = 9;
}

/// Kinds of argument by their bytes.
pub mod argument {
    pub const MISSING: u8 = 0;
    pub const NULL: u8 = 1;
    pub const SIGNED: u8 = 2;
    pub const UNSIGNED: u8 = 3;
    pub const NOT_INTEGER: u8 = 4;
}

/// What came of a call on a run, by its number.
pub mod what {
    pub const ANSWER: usize = 0;
    pub const DONE: usize = 1;
    pub const MARK: usize = 2;
    pub const NOT_TAKEN: usize = 3;
    pub const REFUSED: usize = 4;
    pub const FINISHED: usize = 5;
    pub const NOT_CLOSED: usize = 6;
}

/// A window function with its arguments.
#[repr(C)]
#[derive(Debug, Clone, Copy, Default, PartialEq, Eq)]
pub struct Function {
    pub name: u8,
    pub mirrored: u8,
    pub reversed: u8,
    pub ignore_nulls: u8,
    pub argument: u8,
    pub has_default: u8,
    pub from_zero: u8,
    pub finish: u8,
    pub signed: i64,
    pub unsigned: u64,
}

/// What came of a call on a run.
#[repr(C)]
#[derive(Debug, Clone, Copy, Default, PartialEq, Eq)]
pub struct Noted {
    pub what: usize,
    pub number: usize,
    pub place: usize,
}

/// A refusal by its number and place.
#[derive(Debug, Clone, Copy, PartialEq, Eq)]
pub struct Refusal {
    pub number: usize,
    pub place: usize,
}

#[repr(C)]
struct Told {
    refused: usize,
    number: usize,
    place: usize,
}

impl From<Told> for Result<usize, Refusal> {
    fn from(told: Told) -> Self {
        match told {
            Told { refused: 0, place, .. } => Ok(place),
            Told { number, place, .. } => Err(Refusal { number, place }),
        }
    }
}

/// A partition as it is lent; an empty list of frames or of groups is absent.
#[derive(Debug, Clone, Copy)]
pub struct Partition<'a, V> {
    pub values: &'a [V],
    pub marks: &'a [u8],
    pub frames: &'a [Span],
    pub groups: &'a [Span],
}

/// What is shown to a run, and its calls in bytes.
#[derive(Debug, Clone, Copy)]
pub struct Script<'a, V> {
    pub values: &'a [V],
    pub marks: &'a [u8],
    pub calls: &'a [u8],
}

/// A call on a run; a request says which of the values and of the marks its window shows.
#[derive(Debug, Clone, PartialEq, Eq)]
pub enum Call {
    Request {
        begin: usize,
        values: Range<usize>,
        marks: Range<usize>,
        frame: Option<(usize, usize)>,
    },
    Settle,
    KeepMark,
    Close(usize),
}

impl Call {
    /// Its bytes: eight numbers, the lowest byte of each first.
    pub fn to_bytes(&self) -> [u8; CALL_BYTES] {
        let numbers = match self {
            Call::Request { begin, values, marks, frame } => {
                let (start, end) = frame.unwrap_or((0, 0));
                let op = usize::from(frame.is_some());
                [op, *begin, values.start, values.end, marks.start, marks.end, start, end]
            }
            Call::Settle => [2, 0, 0, 0, 0, 0, 0, 0],
            Call::KeepMark => [3, 0, 0, 0, 0, 0, 0, 0],
            Call::Close(total) => [4, *total, 0, 0, 0, 0, 0, 0],
        };
        let mut bytes = [0; CALL_BYTES];
        for (chunk, number) in bytes.chunks_exact_mut(8).zip(numbers) {
            chunk.copy_from_slice(&(number as u64).to_le_bytes());
        }
        bytes
    }
}

/// A kind of value, with its entry points.
pub trait Kind: Copy + Default + PartialEq + std::fmt::Debug {
    /// LAG, LEAD, FIRST_VALUE, LAST_VALUE, NTH_VALUE.
    fn cells(function: &Function, default: Self, rows: &Partition<'_, Self>, values: &mut [Self], marks: &mut [u8]) -> Result<(), Refusal>;
    /// RANK, DENSE_RANK, ROW_NUMBER.
    fn numbers(function: &Function, rows: &Partition<'_, Self>, answers: &mut [u64]) -> Result<(), Refusal>;
    /// PERCENT_RANK, CUME_DIST.
    fn fractions(function: &Function, rows: &Partition<'_, Self>, answers: &mut [f64]) -> Result<(), Refusal>;
    /// The peer groups of a column, and their number.
    fn groups(values: &[Self], marks: &[u8], spans: &mut [Span]) -> Result<usize, Refusal>;
    /// A run of a function whose answers are cells.
    fn run_cells(function: &Function, default: Self, script: &Script<'_, Self>, outcomes: &mut [Noted], values: &mut [Self], marks: &mut [u8], ending: &mut Noted) -> Result<(), Refusal>;
    /// A run of a function whose answers are numbers.
    fn run_numbers(function: &Function, script: &Script<'_, Self>, outcomes: &mut [Noted], answers: &mut [u64], ending: &mut Noted) -> Result<(), Refusal>;
}

macro_rules! kind {
    ($kind:ty: $cells:ident, $numbers:ident, $fractions:ident, $groups:ident, $run_cells:ident, $run_numbers:ident) => {
        unsafe extern "C" {
            fn $cells(
                function: &Function, default: $kind,
                values: *const $kind, values_len: usize, marks: *const u8, marks_len: usize,
                frames: *const Span, frames_len: usize, groups: *const Span, groups_len: usize,
                answers: *mut $kind, answers_len: usize, answer_marks: *mut u8, answer_marks_len: usize,
            ) -> Told;
            fn $numbers(
                function: &Function,
                values: *const $kind, values_len: usize, marks: *const u8, marks_len: usize,
                frames: *const Span, frames_len: usize, groups: *const Span, groups_len: usize,
                answers: *mut u64, answers_len: usize,
            ) -> Told;
            fn $fractions(
                function: &Function,
                values: *const $kind, values_len: usize, marks: *const u8, marks_len: usize,
                frames: *const Span, frames_len: usize, groups: *const Span, groups_len: usize,
                answers: *mut f64, answers_len: usize,
            ) -> Told;
            fn $groups(
                values: *const $kind, values_len: usize, marks: *const u8, marks_len: usize,
                spans: *mut Span, spans_len: usize,
            ) -> Told;
            fn $run_cells(
                function: &Function, default: $kind,
                values: *const $kind, values_len: usize, marks: *const u8, marks_len: usize,
                calls: *const u8, calls_len: usize, outcomes: *mut Noted, outcomes_len: usize,
                answers: *mut $kind, answers_len: usize, answer_marks: *mut u8, answer_marks_len: usize,
                ending: &mut Noted,
            ) -> Told;
            fn $run_numbers(
                function: &Function,
                values: *const $kind, values_len: usize, marks: *const u8, marks_len: usize,
                calls: *const u8, calls_len: usize, outcomes: *mut Noted, outcomes_len: usize,
                answers: *mut u64, answers_len: usize, ending: &mut Noted,
            ) -> Told;
        }

        // SAFETY of each call: every pointer and length are those of one slice that is borrowed for the call, mutably
        // where it is written, so that none overlaps it; the structs are laid out as C lays them out.
        impl Kind for $kind {
            fn cells(function: &Function, default: Self, rows: &Partition<'_, Self>, values: &mut [Self], marks: &mut [u8]) -> Result<(), Refusal> {
                let told = unsafe {
                    $cells(
                        function, default,
                        rows.values.as_ptr(), rows.values.len(), rows.marks.as_ptr(), rows.marks.len(),
                        rows.frames.as_ptr(), rows.frames.len(), rows.groups.as_ptr(), rows.groups.len(),
                        values.as_mut_ptr(), values.len(), marks.as_mut_ptr(), marks.len(),
                    )
                };
                Result::from(told).map(|_| ())
            }
            fn numbers(function: &Function, rows: &Partition<'_, Self>, answers: &mut [u64]) -> Result<(), Refusal> {
                let told = unsafe {
                    $numbers(
                        function,
                        rows.values.as_ptr(), rows.values.len(), rows.marks.as_ptr(), rows.marks.len(),
                        rows.frames.as_ptr(), rows.frames.len(), rows.groups.as_ptr(), rows.groups.len(),
                        answers.as_mut_ptr(), answers.len(),
                    )
                };
                Result::from(told).map(|_| ())
            }
            fn fractions(function: &Function, rows: &Partition<'_, Self>, answers: &mut [f64]) -> Result<(), Refusal> {
                let told = unsafe {
                    $fractions(
                        function,
                        rows.values.as_ptr(), rows.values.len(), rows.marks.as_ptr(), rows.marks.len(),
                        rows.frames.as_ptr(), rows.frames.len(), rows.groups.as_ptr(), rows.groups.len(),
                        answers.as_mut_ptr(), answers.len(),
                    )
                };
                Result::from(told).map(|_| ())
            }
            fn groups(values: &[Self], marks: &[u8], spans: &mut [Span]) -> Result<usize, Refusal> {
                let told = unsafe {
                    $groups(values.as_ptr(), values.len(), marks.as_ptr(), marks.len(), spans.as_mut_ptr(), spans.len())
                };
                Result::from(told)
            }
            fn run_cells(function: &Function, default: Self, script: &Script<'_, Self>, outcomes: &mut [Noted], values: &mut [Self], marks: &mut [u8], ending: &mut Noted) -> Result<(), Refusal> {
                let told = unsafe {
                    $run_cells(
                        function, default,
                        script.values.as_ptr(), script.values.len(), script.marks.as_ptr(), script.marks.len(),
                        script.calls.as_ptr(), script.calls.len(), outcomes.as_mut_ptr(), outcomes.len(),
                        values.as_mut_ptr(), values.len(), marks.as_mut_ptr(), marks.len(), ending,
                    )
                };
                Result::from(told).map(|_| ())
            }
            fn run_numbers(function: &Function, script: &Script<'_, Self>, outcomes: &mut [Noted], answers: &mut [u64], ending: &mut Noted) -> Result<(), Refusal> {
                let told = unsafe {
                    $run_numbers(
                        function,
                        script.values.as_ptr(), script.values.len(), script.marks.as_ptr(), script.marks.len(),
                        script.calls.as_ptr(), script.calls.len(), outcomes.as_mut_ptr(), outcomes.len(),
                        answers.as_mut_ptr(), answers.len(), ending,
                    )
                };
                Result::from(told).map(|_| ())
            }
        }
    };
}

kind!(Instant: bodkinfawn_instant_cells, bodkinfawn_instant_numbers, bodkinfawn_instant_fractions, bodkinfawn_instant_groups, bodkinfawn_instant_run_cells, bodkinfawn_instant_run_numbers);
kind!(Pseudonym: bodkinfawn_pseudonym_cells, bodkinfawn_pseudonym_numbers, bodkinfawn_pseudonym_fractions, bodkinfawn_pseudonym_groups, bodkinfawn_pseudonym_run_cells, bodkinfawn_pseudonym_run_numbers);
kind!(CollegeCode: bodkinfawn_code_cells, bodkinfawn_code_numbers, bodkinfawn_code_fractions, bodkinfawn_code_groups, bodkinfawn_code_run_cells, bodkinfawn_code_run_numbers);
kind!(Outcome: bodkinfawn_outcome_cells, bodkinfawn_outcome_numbers, bodkinfawn_outcome_fractions, bodkinfawn_outcome_groups, bodkinfawn_outcome_run_cells, bodkinfawn_outcome_run_numbers);
kind!(InstantCode: bodkinfawn_pair_cells, bodkinfawn_pair_numbers, bodkinfawn_pair_fractions, bodkinfawn_pair_groups, bodkinfawn_pair_run_cells, bodkinfawn_pair_run_numbers);
