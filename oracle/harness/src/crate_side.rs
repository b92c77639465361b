//! The crate's own evaluators, driven as its engine drives them.

use crate::lines::*;
use crate::outcome::{Answer, Outcome, Outcomes};
use arrow::array::{ArrayRef, Datum, array_of};
use arrow::datatypes::{DataType, Field, FieldRef};
use datafusion_common::{DataFusionError, Result, ScalarValue};
use datafusion_expr::window_state::WindowAggState;
use datafusion_expr::{Expr, PartitionEvaluator, ReversedUDWF, WindowUDF};
use datafusion_functions_window_common::partition::PartitionEvaluatorArgs;
use datafusion_physical_expr::expressions;
use datafusion_physical_expr_common::physical_expr::PhysicalExpr;
use kinds::Kind;
use reference::{cume_dist, lead_lag, nth_value, rank, row_number};
use std::ops::Range;
use std::panic::{self, AssertUnwindSafe, catch_unwind};
use std::sync::Arc;

/// How a NULL default is passed on.
#[derive(Debug, Clone, Copy, PartialEq)]
enum NullDefault {
    LeftOut,
    Untyped,
    Typed,
}

/// Ways to hand over one and the same call.
#[derive(Debug, Clone, Copy)]
struct Manner {
    /// With a NULL bitmap, though no row may be NULL.
    bitmap: bool,
    null_default: NullDefault,
    /// Rows are let go as the engine lets them go, and those left counted from 0.
    prunes: bool,
}

const MANNERS: [Manner; 4] = [
    Manner {
        bitmap: false,
        null_default: NullDefault::Typed,
        prunes: false,
    },
    Manner {
        bitmap: true,
        null_default: NullDefault::Untyped,
        prunes: false,
    },
    Manner {
        bitmap: false,
        null_default: NullDefault::LeftOut,
        prunes: true,
    },
    Manner {
        bitmap: true,
        null_default: NullDefault::Typed,
        prunes: true,
    },
];

/// Why the crate gives no outcome of its own.
enum Stop {
    /// It has no such call.
    Absent,
    Error(DataFusionError),
}

impl From<DataFusionError> for Stop {
    fn from(error: DataFusionError) -> Stop {
        Stop::Error(error)
    }
}

type Asked<T> = std::result::Result<T, Stop>;

pub fn udwf(function: &Function) -> Arc<WindowUDF> {
    match function {
        Function::Shift(shift) if shift.lead => lead_lag::lead_udwf(),
        Function::Shift(_) => lead_lag::lag_udwf(),
        Function::First { .. } => nth_value::first_value_udwf(),
        Function::Last { .. } => nth_value::last_value_udwf(),
        Function::Nth { .. } => nth_value::nth_value_udwf(),
        Function::Rank => rank::rank_udwf(),
        Function::DenseRank => rank::dense_rank_udwf(),
        Function::RowNumber => row_number::row_number_udwf(),
        Function::PercentRank => rank::percent_rank_udwf(),
        Function::CumeDist => cume_dist::cume_dist_udwf(),
    }
}

/// The literal of an argument, none where it is missing.
pub fn literal(argument: Argument) -> Option<ScalarValue> {
    match argument {
        Argument::Missing => None,
        Argument::Null => Some(ScalarValue::Null),
        Argument::NotInteger => Some(ScalarValue::Utf8(Some("1".to_string()))),
        Argument::Signed(n) => Some(ScalarValue::Int64(Some(n))),
        Argument::Unsigned(n) => Some(ScalarValue::UInt64(Some(n))),
    }
}

/// The arguments after the column. A default cannot be given without an offset before it.
fn literals(function: &Function, kind: &Kind, manner: Manner) -> Asked<Vec<ScalarValue>> {
    let argument = match function {
        Function::Shift(shift) => shift.offset,
        Function::Nth { n, .. } => *n,
        _ => return Ok(vec![]),
    };
    let mut literals: Vec<ScalarValue> = literal(argument).into_iter().collect();
    if let Function::Shift(shift) = function {
        let default = match (&shift.default, manner.null_default) {
            (Some(value), _) => Some(ScalarValue::Kind(kind.clone(), Some(value.clone()))),
            (None, NullDefault::LeftOut) => None,
            (None, NullDefault::Untyped) => Some(ScalarValue::Null),
            (None, NullDefault::Typed) => Some(ScalarValue::Kind(kind.clone(), None)),
        };
        match (literals.is_empty(), &shift.default) {
            (true, Some(_)) => return Err(Stop::Absent),
            (true, None) => {}
            (false, _) => literals.extend(default),
        }
    }
    Ok(literals)
}

/// An evaluator over columns of a type, of the literals after the column.
pub fn make(
    udwf: &WindowUDF,
    data_type: DataType,
    literals: Vec<ScalarValue>,
    is_reversed: bool,
    ignore_nulls: bool,
) -> Result<Box<dyn PartitionEvaluator>> {
    let field = |data_type| -> FieldRef { Field::new("", data_type, true).into() };
    let mut input_fields = vec![field(data_type)];
    let mut input_exprs: Vec<Arc<dyn PhysicalExpr>> = vec![Arc::new(expressions::Column)];
    for value in literals {
        input_fields.push(field(value.data_type()));
        input_exprs.push(Arc::new(expressions::Literal::new(value)));
    }
    udwf.inner().partition_evaluator(PartitionEvaluatorArgs {
        input_exprs: &input_exprs,
        input_fields: &input_fields,
        is_reversed,
        ignore_nulls,
    })
}

/// The crate's evaluator, or that of its function for a turned window.
fn evaluator(
    function: &Function,
    kind: &Kind,
    mirror: bool,
    manner: Manner,
) -> Asked<Box<dyn PartitionEvaluator>> {
    let literals = literals(function, kind, manner)?;
    let reversed = matches!(function, Function::Shift(shift) if shift.reversed);
    let mut udwf = udwf(function);
    if mirror {
        udwf = match udwf.inner().reverse_expr() {
            ReversedUDWF::Reversed(other) => other,
            ReversedUDWF::Identical => udwf,
            ReversedUDWF::NotSupported => return Err(Stop::Absent),
        };
    }
    let ignoring = function.ignores_nulls();
    let data_type = DataType::Kind(kind.clone());
    Ok(make(
        &udwf,
        data_type,
        literals,
        reversed != mirror,
        ignoring,
    )?)
}

fn array(kind: &Kind, cells: &[Cell], bitmap: bool) -> Result<ArrayRef> {
    let mut cells = cells.iter().map(|cell| cell.clone().map(Datum::Value));
    let array = array_of(&DataType::Kind(kind.clone()), &mut cells)?;
    Ok(if bitmap { array.with_bitmap() } else { array })
}

fn answer_of(scalar: &ScalarValue) -> Asked<Answer> {
    match scalar {
        ScalarValue::Kind(_, cell) => Ok(Answer::Cell(cell.clone())),
        ScalarValue::UInt64(Some(n)) => Ok(Answer::Whole(*n)),
        ScalarValue::Float64(Some(x)) => Ok(Answer::fraction(*x)),
        _ => Err(Stop::Absent),
    }
}

fn answers_of(array: &ArrayRef) -> Asked<Vec<Answer>> {
    let scalars = (0..array.len()).map(|i| ScalarValue::try_from_array(array, i));
    scalars.map(|scalar| answer_of(&scalar?)).collect()
}

fn range((start, end): Span) -> Range<usize> {
    start..end
}

/// A whole partition: by frames, by peer groups or at once, as the evaluator says.
fn whole(w: &Whole, manner: Manner) -> Asked<Outcome> {
    let mut evaluator = evaluator(&w.function, &w.kind, w.mirror, manner)?;
    let cells = w.column.cells();
    let n = cells.len();
    let lists_agree = w.column.values.len() == w.column.marks.len();
    let frames_given = !evaluator.uses_window_frame() || w.frames.len() == n;
    let groups_given = !evaluator.include_rank() || n == 0 || !w.groups.is_empty();
    if !lists_agree || !frames_given || !groups_given {
        return Err(Stop::Absent);
    }
    let values = [array(&w.kind, &cells, manner.bitmap)?];
    if evaluator.uses_window_frame() {
        let mut answers = vec![];
        for frame in &w.frames {
            answers.push(answer_of(&evaluator.evaluate(&values, &range(*frame))?)?);
        }
        return Ok(Outcome::Answers(answers));
    }
    let out = if evaluator.include_rank() {
        let groups: Vec<Range<usize>> = w.groups.iter().copied().map(range).collect();
        evaluator.evaluate_all_with_rank(n, &groups)?
    } else {
        evaluator.evaluate_all(&values, n)?
    };
    Ok(Outcome::Answers(answers_of(&out)?))
}

/// A window that runs on with the rows: what the engine remembers of it.
struct Running<'a> {
    kind: &'a Kind,
    manner: Manner,
    evaluator: Box<dyn PartitionEvaluator>,
    shown: Vec<Cell>,
    /// How many of the rows shown are let go; the evaluator counts from here.
    gone: usize,
    /// The highest row at which a range began: those below are not named again.
    kept: usize,
    answers: Vec<ScalarValue>,
    frame: Range<usize>,
    total: Option<usize>,
    asked: Vec<Option<Span>>,
}

impl<'a> Running<'a> {
    fn new(kind: &'a Kind, manner: Manner, evaluator: Box<dyn PartitionEvaluator>) -> Self {
        Running {
            kind,
            manner,
            evaluator,
            shown: vec![],
            gone: 0,
            kept: 0,
            answers: vec![],
            frame: 0..0,
            total: None,
            asked: vec![],
        }
    }

    /// The next row and how many rows there are, as the evaluator counts.
    fn place(&self) -> (usize, usize) {
        (self.answers.len() - self.gone, self.shown.len() - self.gone)
    }

    /// The range of the next row, none while the engine waits for more rows.
    fn next_range(&self) -> Asked<Option<Range<usize>>> {
        let (next, n_rows) = self.place();
        let is_end = self.total == Some(self.shown.len());
        let asked = self.asked.get(self.answers.len()).copied();
        let Some(frame) = asked.filter(|_| next < n_rows) else {
            return Ok(None);
        };
        let (range, causal) = if self.evaluator.uses_window_frame() {
            let (start, end) = frame.ok_or(Stop::Absent)?;
            let frame = start.saturating_sub(self.gone)..end - self.gone;
            let causal = frame.end <= next + 1;
            (frame, causal)
        } else {
            let range = self.evaluator.get_range(next, n_rows)?;
            (range, self.evaluator.is_causal())
        };
        let waits = range.end > n_rows || (range.end == n_rows && !causal && !is_end);
        Ok((!waits).then_some(range))
    }

    fn move_frame(&mut self, frame: Range<usize>) {
        self.kept = self.kept.max(self.gone + frame.start);
        self.frame = frame;
    }

    /// Lets go the rows that neither the last range nor a row to come needs.
    fn prune(&mut self) {
        if self.manner.prunes {
            let gone = self.kept.min(self.answers.len());
            let more = gone - self.gone;
            self.frame = self.frame.start.saturating_sub(more)..self.frame.end - more;
            self.gone = gone;
        }
    }

    /// Answers as many of the rows that were asked for as the engine would.
    fn advance(&mut self) -> Asked<()> {
        let cells = &self.shown[self.gone..];
        let values = [array(self.kind, cells, self.manner.bitmap)?];
        while let Some(range) = self.next_range()? {
            self.answers.push(self.evaluator.evaluate(&values, &range)?);
            self.move_frame(range);
        }
        Ok(())
    }

    fn request(&mut self, request: &Request) -> Asked<Outcome> {
        if request.begin > self.shown.len() {
            return Err(Stop::Absent);
        }
        let end = request.begin + request.column.len();
        if end > self.shown.len() {
            self.shown.truncate(request.begin);
            self.shown.extend(request.column.cells());
        }
        self.asked.push(request.frame);
        self.advance()?;
        match self.answers.get(self.asked.len() - 1) {
            Some(answer) => Ok(Outcome::Answer(answer_of(answer)?)),
            None => Ok(Outcome::Wait),
        }
    }

    /// The rows that still waited are answered now.
    fn close(&mut self, total: usize) -> Asked<Outcome> {
        self.total = Some(total);
        self.advance()?;
        Ok(Outcome::Done)
    }

    fn settle(&mut self) -> Asked<Outcome> {
        let answers = self.answers.iter().cloned();
        let mut out_col = match self.answers.is_empty() {
            true => array(self.kind, &[], false)?,
            false => ScalarValue::iter_to_array(answers)?,
        };
        if self.manner.bitmap {
            out_col = out_col.with_bitmap();
        }
        let mut state = WindowAggState {
            window_frame_range: self.frame.clone(),
            out_col,
        };
        self.evaluator.memoize(&mut state)?;
        self.move_frame(state.window_frame_range);
        Ok(Outcome::Done)
    }

    /// The first row that the evaluator still names. Where rows are let go, a frame looks shorter than
    /// it is to `memoize`, so that this is compared only where they are not.
    fn keep_mark(&self) -> Asked<Outcome> {
        if self.manner.prunes {
            return Err(Stop::Absent);
        }
        if self.evaluator.uses_window_frame() {
            return Ok(Outcome::Mark(self.kept));
        }
        let (next, n_rows) = self.place();
        Ok(Outcome::Mark(self.evaluator.get_range(next, n_rows)?.start))
    }

    fn apply(&mut self, op: &Op) -> Asked<Outcome> {
        let outcome = match op {
            Op::Request(request) => self.request(request)?,
            Op::Settle => self.settle()?,
            Op::Mark => self.keep_mark()?,
            Op::Close(total) => self.close(*total)?,
            Op::Finish => Outcome::Rows(self.answers.len()),
        };
        self.prune();
        Ok(outcome)
    }
}

fn outcome(asked: Asked<Outcome>) -> Outcome {
    match asked {
        Ok(outcome) => outcome,
        Err(Stop::Absent) => Outcome::Absent,
        Err(Stop::Error(error)) => Outcome::Error(error.to_string()),
    }
}

thread_local! {
    static IN_CRATE: std::cell::Cell<bool> = const { std::cell::Cell::new(false) };
}

/// From here on a panic of the crate is an outcome and no message; any other is told as before.
pub fn hush_crate_panics() {
    let tell = panic::take_hook();
    panic::set_hook(Box::new(move |info| {
        if !IN_CRATE.get() {
            tell(info);
        }
    }));
}

/// What a call of the crate gives, which may panic.
fn caught<T>(call: impl FnOnce() -> T) -> std::result::Result<T, Outcome> {
    IN_CRATE.set(true);
    let found = catch_unwind(AssertUnwindSafe(call));
    IN_CRATE.set(false);
    found.map_err(|panic| {
        let text = panic.downcast_ref::<String>().cloned();
        let text = text.or_else(|| panic.downcast_ref::<&str>().map(|t| t.to_string()));
        Outcome::Panic(text.unwrap_or_default())
    })
}

/// What the crate does with a line, and the answers of a run's rows in their order.
#[derive(Debug, Clone, PartialEq)]
pub struct Found {
    pub outcomes: Outcomes,
    pub rows: Vec<Answer>,
}

impl Found {
    fn one(outcome: Outcome) -> Found {
        Found {
            outcomes: Outcomes::One(outcome),
            rows: vec![],
        }
    }
}

/// Operations one by one; after an error or a panic nothing more is asked.
fn run(run: &Run, manner: Manner) -> Found {
    let made = caught(|| evaluator(&run.function, &run.kind, false, manner));
    let evaluator = match made {
        Ok(Ok(evaluator)) => evaluator,
        Ok(Err(stop)) => return Found::one(outcome(Err(stop))),
        Err(panic) => return Found::one(panic),
    };
    let mut running = Running::new(&run.kind, manner, evaluator);
    let mut outcomes = vec![];
    for op in &run.ops {
        let found = caught(|| outcome(running.apply(op))).unwrap_or_else(|panic| panic);
        let stopped = matches!(found, Outcome::Error(_) | Outcome::Panic(_));
        outcomes.push(found);
        if stopped {
            break;
        }
    }
    outcomes.resize(run.ops.len(), Outcome::Absent);
    let rows = running.answers.iter().filter_map(|a| answer_of(a).ok());
    Found {
        outcomes: Outcomes::Each(outcomes),
        rows: rows.collect(),
    }
}

fn in_manner(line: &Line, manner: Manner) -> Found {
    match line {
        Line::Whole(w) => {
            let found = caught(|| outcome(whole(w, manner)));
            Found::one(found.unwrap_or_else(|panic| panic))
        }
        Line::Groups(_) => Found::one(Outcome::Absent),
        Line::Run(r) => run(r, manner),
    }
}

/// What the crate does with a line, in each manner of handing it over.
pub fn manners(line: &Line) -> impl Iterator<Item = Found> {
    MANNERS.iter().map(|manner| in_manner(line, *manner))
}

/// What the crate does with a line, in the first manner.
pub fn crate_side(line: &Line) -> Outcomes {
    in_manner(line, MANNERS[0]).outcomes
}

/// The answers over a column of what the crate's `lag` or `lead` builds as an expression.
pub fn built(lead: bool, offset: Option<i64>, kind: &Kind, cells: &[Cell]) -> Outcome {
    let build = if lead { lead_lag::lead } else { lead_lag::lag };
    let answer = || -> Asked<Outcome> {
        let Expr::WindowFunction(udwf, args) = build(Expr::Column, offset, None) else {
            return Err(Stop::Absent);
        };
        let literals = args.into_iter().filter_map(|arg| match arg {
            Expr::Literal(value) => Some(value),
            _ => None,
        });
        let data_type = DataType::Kind(kind.clone());
        let mut evaluator = make(&udwf, data_type, literals.collect(), false, false)?;
        let values = [array(kind, cells, false)?];
        let out = evaluator.evaluate_all(&values, cells.len())?;
        Ok(Outcome::Answers(answers_of(&out)?))
    };
    outcome(answer())
}
