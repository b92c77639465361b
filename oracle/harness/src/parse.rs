//! Lines read from text.

use crate::lines::*;
use kinds::{Kind, LoginOutcome, Value};
use std::str::FromStr;

/// The column, from 1, at which a line cannot be read.
#[derive(Debug, Clone, Copy, PartialEq)]
pub struct Bad(pub usize);

type Read<T> = Result<T, Bad>;

struct Cursor<'a> {
    text: &'a str,
    at: usize,
}

impl<'a> Cursor<'a> {
    fn rest(&self) -> &'a str {
        &self.text[self.at..]
    }

    fn bad(&self) -> Bad {
        Bad(self.at + 1)
    }

    fn take(&mut self, word: &str) -> bool {
        let found = self.rest().starts_with(word);
        if found {
            self.at += word.len();
        }
        found
    }

    fn expect(&mut self, word: &str) -> Read<()> {
        if self.take(word) {
            Ok(())
        } else {
            Err(self.bad())
        }
    }

    fn while_in(&mut self, belongs: impl Fn(char) -> bool) -> &'a str {
        let rest = self.rest();
        let len = rest.find(|c| !belongs(c)).unwrap_or(rest.len());
        self.at += len;
        &rest[..len]
    }

    fn number<N: FromStr>(&mut self) -> Read<N> {
        let start = self.bad();
        let digits = self.while_in(|c| c == '-' || c.is_ascii_digit());
        digits.parse().map_err(|_| start)
    }

    fn flag(&mut self) -> Read<bool> {
        if self.take("1") {
            return Ok(true);
        }
        self.expect("0")?;
        Ok(false)
    }

    fn list<T>(&mut self, item: impl Fn(&mut Self) -> Read<T>) -> Read<Vec<T>> {
        let mut items = vec![];
        self.expect("[")?;
        if self.take("]") {
            return Ok(items);
        }
        loop {
            items.push(item(self)?);
            if !self.take(",") {
                self.expect("]")?;
                return Ok(items);
            }
        }
    }

    fn kind(&mut self) -> Read<Kind> {
        if self.take("(") {
            let first = self.kind()?;
            self.expect(",")?;
            let second = self.kind()?;
            self.expect(")")?;
            return Ok(Kind::pair(first, second));
        }
        let start = self.bad();
        match self.while_in(|c| c.is_ascii_lowercase()) {
            "i" => Ok(Kind::Instant),
            "p" => Ok(Kind::Pseudonym),
            "c" => Ok(Kind::College),
            "o" => Ok(Kind::Outcome),
            _ => Err(start),
        }
    }

    fn value(&mut self, kind: &Kind) -> Read<Value> {
        Ok(match kind {
            Kind::Instant => Value::Instant(self.number()?),
            Kind::College => Value::College(self.number()?),
            Kind::Pseudonym => {
                let first = self.number()?;
                self.expect(":")?;
                Value::Pseudonym(first, self.number()?)
            }
            Kind::Outcome if self.take("g") => Value::Outcome(LoginOutcome::Granted),
            Kind::Outcome if self.take("t") => Value::Outcome(LoginOutcome::TimedOut),
            Kind::Outcome => {
                self.expect("r")?;
                Value::Outcome(LoginOutcome::Refused(self.number()?))
            }
            Kind::Pair(a, b) => {
                self.expect("<")?;
                let first = self.value(a)?;
                self.expect(";")?;
                let second = self.value(b)?;
                self.expect(">")?;
                Value::Pair(Box::new(first), Box::new(second))
            }
        })
    }

    fn cell(&mut self, kind: &Kind) -> Read<Cell> {
        if self.take("_") {
            return Ok(None);
        }
        self.value(kind).map(Some)
    }

    fn column(&mut self, kind: &Kind, between: &str) -> Read<Column> {
        self.expect("V")?;
        let values = self.list(|c| c.value(kind))?;
        self.expect(between)?;
        self.expect("M")?;
        let marks = self.list(Self::flag)?;
        Ok(Column { values, marks })
    }

    fn span(&mut self) -> Read<Span> {
        let start = self.bad();
        let (s, e) = self
            .while_in(|c| c == '-' || c.is_ascii_digit())
            .split_once('-')
            .ok_or(start)?;
        Ok((s.parse().map_err(|_| start)?, e.parse().map_err(|_| start)?))
    }

    fn spans(&mut self, letter: &str) -> Read<Vec<Span>> {
        self.expect(letter)?;
        if self.take("-") {
            return Ok(vec![]);
        }
        self.list(Self::span)
    }

    fn argument(&mut self) -> Read<Argument> {
        let start = self.bad();
        match self.while_in(|c| c.is_ascii_lowercase()) {
            "missing" => Ok(Argument::Missing),
            "null" => Ok(Argument::Null),
            "noint" => Ok(Argument::NotInteger),
            "s" => Ok(Argument::Signed(self.number()?)),
            "u" => Ok(Argument::Unsigned(self.number()?)),
            _ => Err(start),
        }
    }

    fn colon<T>(&mut self, item: impl Fn(&mut Self) -> Read<T>) -> Read<T> {
        self.expect(":")?;
        item(self)
    }

    fn function(&mut self, kind: &Kind) -> Read<Function> {
        let start = self.bad();
        let name = self.while_in(|c| c.is_ascii_lowercase());
        Ok(match name {
            "lag" | "lead" => Function::Shift(Shift {
                lead: name == "lead",
                offset: self.colon(Self::argument)?,
                reversed: self.colon(Self::flag)?,
                ignoring: self.colon(Self::flag)?,
                default: self.colon(|c| c.cell(kind))?,
            }),
            "first" => Function::First {
                ignoring: self.colon(Self::flag)?,
            },
            "last" => Function::Last {
                ignoring: self.colon(Self::flag)?,
            },
            "nth" => Function::Nth {
                n: self.colon(Self::argument)?,
                ignoring: self.colon(Self::flag)?,
            },
            "rank" => Function::Rank,
            "dense" => Function::DenseRank,
            "rownum" => Function::RowNumber,
            "percent" => Function::PercentRank,
            "cume" => Function::CumeDist,
            _ => return Err(start),
        })
    }

    fn slots(&mut self) -> Read<Slots> {
        self.expect("O")?;
        let first = self.number()?;
        if self.take(",") {
            return Ok(Slots::Cells(first, self.number()?));
        }
        Ok(Slots::Numbers(first))
    }

    fn op(&mut self, kind: &Kind) -> Read<Op> {
        let start = self.bad();
        let letter = self.while_in(|c| c.is_ascii_lowercase());
        self.expect("{")?;
        let op = match letter {
            "q" => Op::Request(self.request(kind)?),
            "s" => Op::Settle,
            "m" => Op::Mark,
            "c" => Op::Close(self.number()?),
            "e" => Op::Finish,
            _ => return Err(start),
        };
        self.expect("}")?;
        if self.take(">") {
            self.while_in(|c| c != ' ');
        }
        Ok(op)
    }

    fn request(&mut self, kind: &Kind) -> Read<Request> {
        let begin = self.number()?;
        self.expect("|")?;
        let column = self.column(kind, "|")?;
        self.expect("|")?;
        let frame = if self.take("-") {
            None
        } else {
            Some(self.span()?)
        };
        Ok(Request {
            begin,
            column,
            frame,
        })
    }

    fn ops(&mut self, kind: &Kind) -> Read<Vec<Op>> {
        let mut ops = vec![];
        while !self.rest().is_empty() {
            self.expect(" ")?;
            ops.push(self.op(kind)?);
        }
        Ok(ops)
    }

    fn whole(&mut self, mirror: bool, function: Function, kind: Kind) -> Read<Line> {
        let column = self.column(&kind, " ")?;
        self.expect(" ")?;
        let frames = self.spans("F")?;
        self.expect(" ")?;
        let groups = self.spans("G")?;
        self.expect(" ")?;
        let slots = self.slots()?;
        Ok(Line::Whole(Whole {
            mirror,
            function,
            kind,
            column,
            frames,
            groups,
            slots,
        }))
    }

    fn groups(&mut self) -> Read<Line> {
        let kind = self.kind()?;
        self.expect(" ")?;
        let column = self.column(&kind, " ")?;
        self.expect(" O")?;
        let slots = self.number()?;
        Ok(Line::Groups(Groups {
            kind,
            column,
            slots,
        }))
    }

    fn run(&mut self, function: Function, kind: Kind) -> Read<Line> {
        self.expect("Z")?;
        let from_zero = self.flag()?;
        self.expect(" L")?;
        let start = self.bad();
        if self.number::<usize>()? != ROW_LIMIT {
            return Err(start);
        }
        let ops = self.ops(&kind)?;
        Ok(Line::Run(Run {
            function,
            kind,
            from_zero,
            ops,
        }))
    }

    /// The kind is read before the function, whose default is a cell of it.
    fn line(&mut self) -> Read<Line> {
        let letter = self.while_in(|c| c.is_ascii_uppercase());
        self.expect(" ")?;
        if letter == "G" {
            return self.groups();
        }
        let at = self.at;
        self.while_in(|c| c != ' ');
        self.expect(" ")?;
        let kind = self.kind()?;
        let after = self.at;
        self.at = at;
        let function = self.function(&kind)?;
        self.expect(" ")?;
        self.at = after;
        self.expect(" ")?;
        match letter {
            "W" | "X" => self.whole(letter == "X", function, kind),
            "H" => self.run(function, kind),
            _ => Err(Bad(1)),
        }
    }
}

/// A line, without regard to outcomes that stand in it.
pub fn parse(line: &str) -> Result<Line, Bad> {
    let text = line.split_once(" = ").map_or(line, |(text, _)| text);
    let mut cursor = Cursor { text, at: 0 };
    let line = cursor.line()?;
    if !cursor.rest().is_empty() {
        return Err(cursor.bad());
    }
    Ok(line)
}
