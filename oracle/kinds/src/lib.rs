//! The kinds of value, each once as a Rust type (for arrays) and once as a tagged value (for lines and scalars).

use std::fmt::{self, Debug, Display};

/// The name of a kind.
#[derive(Debug, Clone, PartialEq, Eq, Hash)]
pub enum Kind {
    Instant,
    Pseudonym,
    College,
    Outcome,
    Pair(Box<Kind>, Box<Kind>),
}

impl Kind {
    pub fn pair(first: Kind, second: Kind) -> Kind {
        Kind::Pair(Box::new(first), Box::new(second))
    }

    /// The kinds that lines are read at.
    pub fn all() -> Vec<Kind> {
        let login = Kind::pair(Kind::Instant, Kind::Pseudonym);
        vec![
            Kind::Instant,
            Kind::Pseudonym,
            Kind::College,
            Kind::Outcome,
            Kind::pair(Kind::Instant, Kind::College),
            Kind::pair(Kind::Outcome, login),
        ]
    }
}

impl Display for Kind {
    fn fmt(&self, f: &mut fmt::Formatter<'_>) -> fmt::Result {
        match self {
            Kind::Instant => f.write_str("i"),
            Kind::Pseudonym => f.write_str("p"),
            Kind::College => f.write_str("c"),
            Kind::Outcome => f.write_str("o"),
            Kind::Pair(a, b) => write!(f, "({a},{b})"),
        }
    }
}

/// How a login ended.
#[derive(Debug, Clone, Copy, PartialEq, Eq, Hash)]
pub enum LoginOutcome {
    Granted,
    Refused(u16),
    TimedOut,
}

/// A value of any kind; two are the same when they agree part by part.
#[derive(Debug, Clone, PartialEq, Eq, Hash)]
pub enum Value {
    Instant(i64),
    Pseudonym(u64, u64),
    College(u64),
    Outcome(LoginOutcome),
    Pair(Box<Value>, Box<Value>),
}

impl Display for Value {
    fn fmt(&self, f: &mut fmt::Formatter<'_>) -> fmt::Result {
        match self {
            Value::Instant(n) => write!(f, "{n}"),
            Value::Pseudonym(a, b) => write!(f, "{a}:{b}"),
            Value::College(n) => write!(f, "{n}"),
            Value::Outcome(LoginOutcome::Granted) => f.write_str("g"),
            Value::Outcome(LoginOutcome::Refused(reason)) => write!(f, "r{reason}"),
            Value::Outcome(LoginOutcome::TimedOut) => f.write_str("t"),
            Value::Pair(a, b) => write!(f, "<{a};{b}>"),
        }
    }
}

/// A kind as a Rust type.
pub trait Typed: Debug + Copy + PartialEq + Send + Sync + 'static {
    fn kind() -> Kind;
    fn value(self) -> Value;
    /// The value at this type, if it is of this kind.
    fn of(value: &Value) -> Option<Self>;
    /// What stands at a NULL row.
    fn blank() -> Self;
}

#[derive(Debug, Clone, Copy, PartialEq, Eq)]
pub struct Instant(pub i64);

#[derive(Debug, Clone, Copy, PartialEq, Eq)]
pub struct Pseudonym(pub u64, pub u64);

#[derive(Debug, Clone, Copy, PartialEq, Eq)]
pub struct CollegeCode(pub u64);

#[derive(Debug, Clone, Copy, PartialEq, Eq)]
pub struct Pair<A, B>(pub A, pub B);

impl Typed for Instant {
    fn kind() -> Kind {
        Kind::Instant
    }
    fn value(self) -> Value {
        Value::Instant(self.0)
    }
    fn of(value: &Value) -> Option<Self> {
        match value {
            Value::Instant(n) => Some(Instant(*n)),
            _ => None,
        }
    }
    fn blank() -> Self {
        Instant(0)
    }
}

impl Typed for Pseudonym {
    fn kind() -> Kind {
        Kind::Pseudonym
    }
    fn value(self) -> Value {
        Value::Pseudonym(self.0, self.1)
    }
    fn of(value: &Value) -> Option<Self> {
        match value {
            Value::Pseudonym(a, b) => Some(Pseudonym(*a, *b)),
            _ => None,
        }
    }
    fn blank() -> Self {
        Pseudonym(0, 0)
    }
}

impl Typed for CollegeCode {
    fn kind() -> Kind {
        Kind::College
    }
    fn value(self) -> Value {
        Value::College(self.0)
    }
    fn of(value: &Value) -> Option<Self> {
        match value {
            Value::College(n) => Some(CollegeCode(*n)),
            _ => None,
        }
    }
    fn blank() -> Self {
        CollegeCode(0)
    }
}

impl Typed for LoginOutcome {
    fn kind() -> Kind {
        Kind::Outcome
    }
    fn value(self) -> Value {
        Value::Outcome(self)
    }
    fn of(value: &Value) -> Option<Self> {
        match value {
            Value::Outcome(outcome) => Some(*outcome),
            _ => None,
        }
    }
    fn blank() -> Self {
        LoginOutcome::Granted
    }
}

impl<A: Typed, B: Typed> Typed for Pair<A, B> {
    fn kind() -> Kind {
        Kind::pair(A::kind(), B::kind())
    }
    fn value(self) -> Value {
        Value::Pair(Box::new(self.0.value()), Box::new(self.1.value()))
    }
    fn of(value: &Value) -> Option<Self> {
        match value {
            Value::Pair(a, b) => Some(Pair(A::of(a)?, B::of(b)?)),
            _ => None,
        }
    }
    fn blank() -> Self {
        Pair(A::blank(), B::blank())
    }
}
