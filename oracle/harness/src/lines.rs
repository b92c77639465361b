//! The calls that lines stand for, and their text.

use kinds::{Kind, Value};
use std::fmt::{self, Display};

pub const ROW_LIMIT: usize = 16_777_216;

pub type Cell = Option<Value>;

/// A frame or a peer group: start and end, the end not included.
pub type Span = (usize, usize);

/// Values and marks, as they are handed over: the lengths may differ.
#[derive(Debug, Clone, PartialEq)]
pub struct Column {
    pub values: Vec<Value>,
    pub marks: Vec<bool>,
}

impl Column {
    pub fn len(&self) -> usize {
        self.values.len()
    }

    pub fn is_empty(&self) -> bool {
        self.values.is_empty()
    }

    pub fn cells(&self) -> Vec<Cell> {
        let pairs = self.values.iter().zip(&self.marks);
        pairs.map(|(v, m)| m.then(|| v.clone())).collect()
    }
}

#[derive(Debug, Clone, Copy, PartialEq)]
pub enum Argument {
    Missing,
    Null,
    NotInteger,
    Signed(i64),
    Unsigned(u64),
}

#[derive(Debug, Clone, PartialEq)]
pub struct Shift {
    pub lead: bool,
    pub offset: Argument,
    pub reversed: bool,
    pub ignoring: bool,
    pub default: Cell,
}

#[derive(Debug, Clone, PartialEq)]
pub enum Function {
    Shift(Shift),
    First { ignoring: bool },
    Last { ignoring: bool },
    Nth { n: Argument, ignoring: bool },
    Rank,
    DenseRank,
    RowNumber,
    PercentRank,
    CumeDist,
}

impl Function {
    pub fn name(&self) -> &'static str {
        match self {
            Function::Shift(shift) if shift.lead => "lead",
            Function::Shift(_) => "lag",
            Function::First { .. } => "first",
            Function::Last { .. } => "last",
            Function::Nth { .. } => "nth",
            Function::Rank => "rank",
            Function::DenseRank => "dense",
            Function::RowNumber => "rownum",
            Function::PercentRank => "percent",
            Function::CumeDist => "cume",
        }
    }

    pub fn ignores_nulls(&self) -> bool {
        match self {
            Function::Shift(shift) => shift.ignoring,
            Function::First { ignoring } | Function::Last { ignoring } => *ignoring,
            Function::Nth { ignoring, .. } => *ignoring,
            _ => false,
        }
    }

    pub fn wants_frames(&self) -> bool {
        matches!(
            self,
            Function::First { .. } | Function::Last { .. } | Function::Nth { .. }
        )
    }

    pub fn wants_groups(&self) -> bool {
        matches!(
            self,
            Function::Rank | Function::DenseRank | Function::PercentRank | Function::CumeDist
        )
    }

    pub fn answers_cells(&self) -> bool {
        matches!(self, Function::Shift(_)) || self.wants_frames()
    }

    pub fn has_rows(&self) -> bool {
        !matches!(self, Function::PercentRank | Function::CumeDist)
    }

    pub fn has_mirror(&self) -> bool {
        self.answers_cells()
    }
}

/// The lengths of the output's lists.
#[derive(Debug, Clone, Copy, PartialEq)]
pub enum Slots {
    Cells(usize, usize),
    Numbers(usize),
}

impl Slots {
    pub fn len(self) -> usize {
        match self {
            Slots::Cells(values, marks) => values.min(marks),
            Slots::Numbers(len) => len,
        }
    }

    pub fn is_empty(self) -> bool {
        self.len() == 0
    }

    /// Just enough for so many rows.
    pub fn enough(function: &Function, rows: usize) -> Slots {
        if function.answers_cells() {
            Slots::Cells(rows, rows)
        } else {
            Slots::Numbers(rows)
        }
    }
}

#[derive(Debug, Clone, PartialEq)]
pub struct Request {
    pub begin: usize,
    pub column: Column,
    pub frame: Option<Span>,
}

#[derive(Debug, Clone, PartialEq)]
pub enum Op {
    Request(Request),
    Settle,
    Mark,
    Close(usize),
    Finish,
}

#[derive(Debug, Clone, PartialEq)]
pub struct Whole {
    pub mirror: bool,
    pub function: Function,
    pub kind: Kind,
    pub column: Column,
    pub frames: Vec<Span>,
    pub groups: Vec<Span>,
    pub slots: Slots,
}

#[derive(Debug, Clone, PartialEq)]
pub struct Groups {
    pub kind: Kind,
    pub column: Column,
    pub slots: usize,
}

#[derive(Debug, Clone, PartialEq)]
pub struct Run {
    pub function: Function,
    pub kind: Kind,
    pub from_zero: bool,
    pub ops: Vec<Op>,
}

#[derive(Debug, Clone, PartialEq)]
pub enum Line {
    Whole(Whole),
    Groups(Groups),
    Run(Run),
}

/// `[x,y,..]`.
pub struct List<'a, T>(pub &'a [T]);

impl<T: Display> Display for List<'_, T> {
    fn fmt(&self, f: &mut fmt::Formatter<'_>) -> fmt::Result {
        f.write_str("[")?;
        for (i, item) in self.0.iter().enumerate() {
            let comma = if i > 0 { "," } else { "" };
            write!(f, "{comma}{item}")?;
        }
        f.write_str("]")
    }
}

pub struct ShownCell<'a>(pub &'a Cell);

impl Display for ShownCell<'_> {
    fn fmt(&self, f: &mut fmt::Formatter<'_>) -> fmt::Result {
        match self.0 {
            Some(value) => write!(f, "{value}"),
            None => f.write_str("_"),
        }
    }
}

/// A list of spans, `-` where there is none.
struct Spans<'a>(&'a [Span]);

impl Display for Spans<'_> {
    fn fmt(&self, f: &mut fmt::Formatter<'_>) -> fmt::Result {
        if self.0.is_empty() {
            return f.write_str("-");
        }
        let spans: Vec<String> = self.0.iter().map(|(s, e)| format!("{s}-{e}")).collect();
        write!(f, "{}", List(&spans))
    }
}

fn marks_of(column: &Column) -> Vec<u8> {
    column.marks.iter().map(|m| u8::from(*m)).collect()
}

impl Display for Column {
    fn fmt(&self, f: &mut fmt::Formatter<'_>) -> fmt::Result {
        write!(f, "V{} M{}", List(&self.values), List(&marks_of(self)))
    }
}

impl Display for Argument {
    fn fmt(&self, f: &mut fmt::Formatter<'_>) -> fmt::Result {
        match self {
            Argument::Missing => f.write_str("missing"),
            Argument::Null => f.write_str("null"),
            Argument::NotInteger => f.write_str("noint"),
            Argument::Signed(n) => write!(f, "s{n}"),
            Argument::Unsigned(n) => write!(f, "u{n}"),
        }
    }
}

impl Display for Function {
    fn fmt(&self, f: &mut fmt::Formatter<'_>) -> fmt::Result {
        let name = self.name();
        match self {
            Function::Shift(s) => write!(
                f,
                "{name}:{}:{}:{}:{}",
                s.offset,
                u8::from(s.reversed),
                u8::from(s.ignoring),
                ShownCell(&s.default)
            ),
            Function::First { ignoring } | Function::Last { ignoring } => {
                write!(f, "{name}:{}", u8::from(*ignoring))
            }
            Function::Nth { n, ignoring } => write!(f, "{name}:{n}:{}", u8::from(*ignoring)),
            _ => f.write_str(name),
        }
    }
}

impl Display for Slots {
    fn fmt(&self, f: &mut fmt::Formatter<'_>) -> fmt::Result {
        match self {
            Slots::Cells(values, marks) => write!(f, "{values},{marks}"),
            Slots::Numbers(len) => write!(f, "{len}"),
        }
    }
}

impl Display for Request {
    fn fmt(&self, f: &mut fmt::Formatter<'_>) -> fmt::Result {
        let values = List(&self.column.values);
        let marks = marks_of(&self.column);
        write!(f, "q{{{}|V{values}|M{}|", self.begin, List(&marks))?;
        match self.frame {
            Some((s, e)) => write!(f, "{s}-{e}}}"),
            None => f.write_str("-}"),
        }
    }
}

impl Display for Op {
    fn fmt(&self, f: &mut fmt::Formatter<'_>) -> fmt::Result {
        match self {
            Op::Request(request) => write!(f, "{request}"),
            Op::Settle => f.write_str("s{}"),
            Op::Mark => f.write_str("m{}"),
            Op::Close(total) => write!(f, "c{{{total}}}"),
            Op::Finish => f.write_str("e{}"),
        }
    }
}

impl Run {
    /// What comes before the operations.
    pub fn head(&self) -> String {
        let zero = u8::from(self.from_zero);
        format!("H {} {} Z{zero} L{ROW_LIMIT}", self.function, self.kind)
    }
}

/// The text without an outcome.
impl Display for Line {
    fn fmt(&self, f: &mut fmt::Formatter<'_>) -> fmt::Result {
        match self {
            Line::Whole(w) => {
                let letter = if w.mirror { 'X' } else { 'W' };
                write!(f, "{letter} {} {} {} ", w.function, w.kind, w.column)?;
                write!(
                    f,
                    "F{} G{} O{}",
                    Spans(&w.frames),
                    Spans(&w.groups),
                    w.slots
                )
            }
            Line::Groups(g) => write!(f, "G {} {} O{}", g.kind, g.column, g.slots),
            Line::Run(run) => {
                f.write_str(&run.head())?;
                run.ops.iter().try_for_each(|op| write!(f, " {op}"))
            }
        }
    }
}
