//! The definitions of a run: its checks, its keep mark, settling, close and finish.

use crate::lines::*;
use crate::model::{Evaluator, Pick, check_column};
use crate::outcome::{Answer, Outcome, Outcomes, Refusal};

/// A run as the definitions see it: it remembers every row that was shown.
#[derive(Debug, Clone)]
pub struct State {
    evaluator: Evaluator,
    wants_frames: bool,
    from_zero: bool,
    pub next: usize,
    pub last: Span,
    pub total: Option<usize>,
    shown: Vec<Cell>,
    last_answer: Option<Answer>,
    fixed: Option<Answer>,
    raised: usize,
    /// Of a shift that looks ahead with NULLs ignored, the row that the last answer came from, or that there was none.
    found: Option<Option<usize>>,
}

impl State {
    pub fn new(function: &Function, from_zero: bool) -> Result<State, Refusal> {
        Ok(State {
            evaluator: Evaluator::make(function)?,
            wants_frames: function.wants_frames(),
            from_zero,
            next: 0,
            last: (0, 0),
            total: None,
            shown: vec![],
            last_answer: None,
            fixed: None,
            raised: 0,
            found: None,
        })
    }

    /// The lowest row that may still be read.
    pub fn keep_mark(&self) -> usize {
        let next = self.next;
        match &self.evaluator {
            Evaluator::Shift {
                offset, ignoring, ..
            } if *offset > 0 => match ignoring {
                true => Evaluator::shifted_row(*offset, true, &self.shown, next).unwrap_or(0),
                false => next.saturating_sub(offset.unsigned_abs() as usize),
            },
            Evaluator::Frames { .. } => self.raised.max(self.last.0),
            _ => next,
        }
    }

    /// Forgets the rows below the keep mark: they read as NULL from now on.
    pub fn forget(&mut self) {
        let mark = self.keep_mark().min(self.shown.len());
        self.shown[..mark].fill(None);
    }

    fn unfit(&self, (start, end): Span) -> bool {
        start > end
            || end > self.total.unwrap_or(ROW_LIMIT)
            || start < self.last.0
            || end < self.last.1
            || (self.from_zero && start > 0)
    }

    /// The checks of a request but for the last, that its row is settled.
    pub fn check(&self, request: &Request) -> Result<(), Refusal> {
        if self.wants_frames && request.frame.is_none() {
            return Err(Refusal(12, self.next));
        }
        if let Some(total) = self.total
            && self.next == total
        {
            return Err(Refusal(13, total));
        }
        check_column(&request.column, request.begin)?;
        let mark = self.keep_mark();
        if request.begin > mark {
            return Err(Refusal(14, mark));
        }
        let end = request.begin + request.column.len();
        if let Some(total) = self.total
            && end > total
        {
            return Err(Refusal(15, total));
        }
        if self.wants_frames && request.frame.is_some_and(|frame| self.unfit(frame)) {
            return Err(Refusal(16, self.next));
        }
        Ok(())
    }

    /// The rows before the window's end: the window's own, and below it what was shown before.
    fn first_rows(&self, request: &Request) -> Vec<Cell> {
        let mut rows = self.shown.clone();
        rows.resize(request.begin.max(rows.len()), None);
        rows.truncate(request.begin);
        rows.extend(request.column.cells());
        rows
    }

    /// Whether the evaluator looks ahead past present rows.
    fn seeks_ahead(&self) -> bool {
        matches!(&self.evaluator, Evaluator::Shift { offset, ignoring: true, .. } if *offset < 0)
    }

    /// The row after the one that answered the row before, or the same while no present row is passed: windows that show one
    /// partition find so what a look at all of them would; windows that contradict each other show none.
    fn source_ahead(&self, offset: i64, rows: &[Cell]) -> Option<usize> {
        match self.found {
            None => Evaluator::shifted_row(offset, true, rows, self.next),
            Some(found) if rows[self.next].is_none() => found.filter(|row| *row < rows.len()),
            Some(found) => (found? + 1..rows.len()).find(|row| rows[*row].is_some()),
        }
    }

    fn request_ahead(&mut self, request: &Request) -> Result<Answer, Refusal> {
        let mut rows = self.first_rows(request);
        rows[..request.begin].fill(None);
        let Evaluator::Shift {
            offset, default, ..
        } = &self.evaluator
        else {
            unreachable!("only a shift looks ahead")
        };
        if self.next >= rows.len() {
            return Err(Refusal(17, self.next));
        }
        let source = self.source_ahead(*offset, &rows);
        if source.is_none() && self.total != Some(rows.len()) {
            return Err(Refusal(17, self.next));
        }
        let answer = Answer::Cell(source.map_or(default.clone(), |row| rows[row].clone()));
        self.shown = rows;
        self.last = (0, 0);
        self.next += 1;
        self.found = Some(source);
        Ok(answer)
    }

    pub fn request(&mut self, request: &Request) -> Result<Answer, Refusal> {
        self.check(request)?;
        if self.seeks_ahead() {
            return self.request_ahead(request);
        }
        let rows = self.first_rows(request);
        let frame = request
            .frame
            .filter(|_| self.wants_frames)
            .unwrap_or((0, 0));
        let is_total = self.total == Some(rows.len());
        if !self.evaluator.settled(&rows, frame, is_total, self.next) {
            return Err(Refusal(17, self.next));
        }
        let answer = match &self.fixed {
            Some(answer) => answer.clone(),
            None => self.evaluator.answer(&rows, frame, self.next),
        };
        self.shown = rows;
        self.last = frame;
        self.next += 1;
        self.last_answer = Some(answer.clone());
        Ok(answer)
    }

    pub fn settle(&mut self) -> Result<(), Refusal> {
        if !self.from_zero {
            return Err(Refusal(18, self.next));
        }
        let Evaluator::Frames { pick, ignoring } = self.evaluator else {
            return Ok(());
        };
        let (start, end) = self.last;
        let held = end - start;
        match (pick, ignoring) {
            (Pick::First, _) if held > 0 => {
                self.raised = end - 1;
                if !ignoring || self.last_answer != Some(Answer::Cell(None)) {
                    self.fixed = self.last_answer.clone();
                }
            }
            (Pick::Last, false) => self.raised = end.saturating_sub(1),
            (Pick::Nth(n), false)
                if n > 0 && held as u64 >= n as u64 && self.next as u64 > n as u64 =>
            {
                self.fixed = self.last_answer.clone();
                self.raised = end - 1;
            }
            (Pick::Nth(n), false) if n < 0 && held as u64 >= n.unsigned_abs() => {
                self.raised = end - n.unsigned_abs() as usize;
            }
            _ => {}
        }
        Ok(())
    }

    pub fn close(&mut self, total: usize) -> Result<(), Refusal> {
        if total < self.next || total < self.last.1 || total > ROW_LIMIT {
            return Err(Refusal(19, self.next));
        }
        self.total = Some(total);
        Ok(())
    }

    fn finish(&self) -> Outcome {
        match self.total {
            None => Outcome::Open,
            Some(total) if self.next < total => Outcome::Refused(Refusal(20, self.next)),
            Some(total) => Outcome::Rows(total),
        }
    }

    pub fn apply(&mut self, op: &Op) -> Outcome {
        match op {
            Op::Request(request) => match self.request(request) {
                Ok(answer) => Outcome::Answer(answer),
                Err(refusal) => Outcome::Refused(refusal),
            },
            Op::Settle => done(self.settle()),
            Op::Mark => Outcome::Mark(self.keep_mark()),
            Op::Close(_) if self.total.is_some() => Outcome::Closed,
            Op::Close(total) => done(self.close(*total)),
            Op::Finish => self.finish(),
        }
    }
}

fn done(result: Result<(), Refusal>) -> Outcome {
    match result {
        Ok(()) => Outcome::Done,
        Err(refusal) => Outcome::Refused(refusal),
    }
}

/// What the definitions say of each operation; of all of them where the evaluator is refused.
pub fn run_outcomes(run: &Run) -> Outcomes {
    match State::new(&run.function, run.from_zero) {
        Err(refusal) => Outcomes::One(Outcome::Refused(refusal)),
        Ok(mut state) => Outcomes::Each(run.ops.iter().map(|op| state.apply(op)).collect()),
    }
}
