//! Kinds of value as they cross, and functions as C calls them.

use capi::{CollegeCode, Instant, InstantCode, Outcome, Pseudonym, argument, name};
use harness::lines::{Argument, Function};
use kinds::{LoginOutcome, Value};

/// A kind that has entry points.
pub trait Cross: capi::Kind {
    fn of(value: &Value) -> Option<Self>;
    fn value(self) -> Value;
    /// What output lists hold before a call.
    fn pattern() -> Self;
}

impl Cross for Instant {
    fn of(value: &Value) -> Option<Self> {
        match value {
            Value::Instant(n) => Some(Instant(*n)),
            _ => None,
        }
    }
    fn value(self) -> Value {
        Value::Instant(self.0)
    }
    fn pattern() -> Self {
        Instant(7_777_777)
    }
}

impl Cross for Pseudonym {
    fn of(value: &Value) -> Option<Self> {
        match value {
            Value::Pseudonym(high, low) => Some(Pseudonym { high: *high, low: *low }),
            _ => None,
        }
    }
    fn value(self) -> Value {
        Value::Pseudonym(self.high, self.low)
    }
    fn pattern() -> Self {
        Pseudonym { high: 7_777_777, low: 7 }
    }
}

impl Cross for CollegeCode {
    fn of(value: &Value) -> Option<Self> {
        match value {
            Value::College(n) => Some(CollegeCode(*n)),
            _ => None,
        }
    }
    fn value(self) -> Value {
        Value::College(self.0)
    }
    fn pattern() -> Self {
        CollegeCode(7_777_777)
    }
}

impl Cross for Outcome {
    fn of(value: &Value) -> Option<Self> {
        match value {
            Value::Outcome(LoginOutcome::Granted) => Some(Outcome { tag: 0, reason: 0 }),
            Value::Outcome(LoginOutcome::Refused(reason)) => Some(Outcome { tag: 1, reason: *reason }),
            Value::Outcome(LoginOutcome::TimedOut) => Some(Outcome { tag: 2, reason: 0 }),
            _ => None,
        }
    }
    fn value(self) -> Value {
        Value::Outcome(match self.tag {
            0 => LoginOutcome::Granted,
            1 => LoginOutcome::Refused(self.reason),
            _ => LoginOutcome::TimedOut,
        })
    }
    fn pattern() -> Self {
        Outcome { tag: 1, reason: 7_777 }
    }
}

impl Cross for InstantCode {
    fn of(value: &Value) -> Option<Self> {
        match value {
            Value::Pair(instant, code) => Some(InstantCode {
                instant: Instant::of(instant)?,
                code: CollegeCode::of(code)?,
            }),
            _ => None,
        }
    }
    fn value(self) -> Value {
        Value::Pair(Box::new(self.instant.value()), Box::new(self.code.value()))
    }
    fn pattern() -> Self {
        InstantCode { instant: Instant::pattern(), code: CollegeCode::pattern() }
    }
}

fn with_argument(function: capi::Function, given: Argument) -> capi::Function {
    match given {
        Argument::Missing => capi::Function { argument: argument::MISSING, ..function },
        Argument::Null => capi::Function { argument: argument::NULL, ..function },
        Argument::NotInteger => capi::Function { argument: argument::NOT_INTEGER, ..function },
        Argument::Signed(signed) => capi::Function { argument: argument::SIGNED, signed, ..function },
        Argument::Unsigned(unsigned) => capi::Function { argument: argument::UNSIGNED, unsigned, ..function },
    }
}

fn named(name: u8) -> capi::Function {
    capi::Function { name, ..Default::default() }
}

/// The function as C calls it, and its default.
pub fn crossed<K: Cross>(function: &Function) -> (capi::Function, K) {
    let crossed = match function {
        Function::Shift(shift) => {
            let name = if shift.lead { name::LEAD } else { name::LAG };
            let plain = capi::Function {
                reversed: u8::from(shift.reversed),
                ignore_nulls: u8::from(shift.ignoring),
                has_default: u8::from(shift.default.is_some()),
                ..named(name)
            };
            let default = shift.default.as_ref().and_then(K::of).unwrap_or_default();
            return (with_argument(plain, shift.offset), default);
        }
        Function::First { ignoring } => capi::Function { ignore_nulls: u8::from(*ignoring), ..named(name::FIRST_VALUE) },
        Function::Last { ignoring } => capi::Function { ignore_nulls: u8::from(*ignoring), ..named(name::LAST_VALUE) },
        Function::Nth { n, ignoring } => {
            with_argument(capi::Function { ignore_nulls: u8::from(*ignoring), ..named(name::NTH_VALUE) }, *n)
        }
        Function::Rank => named(name::RANK),
        Function::DenseRank => named(name::DENSE_RANK),
        Function::RowNumber => named(name::ROW_NUMBER),
        Function::PercentRank => named(name::PERCENT_RANK),
        Function::CumeDist => named(name::CUME_DIST),
    };
    (crossed, K::default())
}
