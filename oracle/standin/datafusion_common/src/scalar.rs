use crate::{DataFusionError, Result, exec_err};
use arrow::array::{ArrayRef, Datum, array_of, array_of_one};
use arrow::datatypes::DataType;
use kinds::{Kind, Value};

/// A cell with its type; two are the same when both are NULL or both present and the same.
#[derive(Debug, Clone, PartialEq)]
pub enum ScalarValue {
    Null,
    Int64(Option<i64>),
    UInt64(Option<u64>),
    Float64(Option<f64>),
    Utf8(Option<String>),
    Kind(Kind, Option<Value>),
}

impl ScalarValue {
    pub fn is_null(&self) -> bool {
        match self {
            ScalarValue::Null => true,
            ScalarValue::Int64(v) => v.is_none(),
            ScalarValue::UInt64(v) => v.is_none(),
            ScalarValue::Float64(v) => v.is_none(),
            ScalarValue::Utf8(v) => v.is_none(),
            ScalarValue::Kind(_, v) => v.is_none(),
        }
    }

    pub fn data_type(&self) -> DataType {
        match self {
            ScalarValue::Null => DataType::Null,
            ScalarValue::Int64(_) => DataType::Int64,
            ScalarValue::UInt64(_) => DataType::UInt64,
            ScalarValue::Float64(_) => DataType::Float64,
            ScalarValue::Utf8(_) => DataType::Utf8,
            ScalarValue::Kind(kind, _) => DataType::Kind(kind.clone()),
        }
    }

    /// A number out of the new type's range is an error.
    pub fn cast_to(&self, data_type: &DataType) -> Result<ScalarValue> {
        if self.data_type() == *data_type {
            return Ok(self.clone());
        }
        let cast = match (self, data_type) {
            (ScalarValue::UInt64(Some(n)), DataType::Int64) => {
                i64::try_from(*n).ok().map(|n| ScalarValue::Int64(Some(n)))
            }
            (ScalarValue::Int64(Some(n)), DataType::UInt64) => {
                u64::try_from(*n).ok().map(|n| ScalarValue::UInt64(Some(n)))
            }
            (null, other) if null.is_null() => Some(ScalarValue::try_from(other)?),
            _ => None,
        };
        match cast {
            Some(value) => Ok(value),
            None => exec_err!("Can't cast value {self:?} to type {data_type:?}"),
        }
    }

    pub fn try_from_array(array: &ArrayRef, index: usize) -> Result<ScalarValue> {
        Self::of(array.data_type(), array.cell(index))
    }

    pub fn to_array_of_size(&self, size: usize) -> Result<ArrayRef> {
        let cell = self.datum();
        Ok(array_of_one(&self.data_type(), cell.as_ref(), size)?)
    }

    pub fn iter_to_array(scalars: impl IntoIterator<Item = ScalarValue>) -> Result<ArrayRef> {
        let mut scalars = scalars.into_iter().peekable();
        let Some(first) = scalars.peek() else {
            return exec_err!("Empty iterator passed to ScalarValue::iter_to_array");
        };
        let data_type = first.data_type();
        Ok(array_of(&data_type, &mut scalars.map(|s| s.datum()))?)
    }

    fn of(data_type: &DataType, cell: Option<Datum>) -> Result<ScalarValue> {
        match (data_type, cell) {
            (DataType::UInt64, Some(Datum::Whole(n))) => Ok(ScalarValue::UInt64(Some(n))),
            (DataType::Float64, Some(Datum::Fraction(x))) => Ok(ScalarValue::Float64(Some(x))),
            (DataType::Kind(kind), Some(Datum::Value(v))) => {
                Ok(ScalarValue::Kind(kind.clone(), Some(v)))
            }
            (other, None) => ScalarValue::try_from(other),
            (other, cell) => exec_err!("{cell:?} as {other:?}"),
        }
    }

    fn datum(&self) -> Option<Datum> {
        match self {
            ScalarValue::UInt64(v) => v.map(Datum::Whole),
            ScalarValue::Float64(v) => v.map(Datum::Fraction),
            ScalarValue::Kind(_, v) => v.clone().map(Datum::Value),
            ScalarValue::Null | ScalarValue::Int64(_) | ScalarValue::Utf8(_) => None,
        }
    }
}

/// NULL of a type.
impl TryFrom<&DataType> for ScalarValue {
    type Error = DataFusionError;

    fn try_from(data_type: &DataType) -> Result<ScalarValue> {
        Ok(match data_type {
            DataType::Null => ScalarValue::Null,
            DataType::Int64 => ScalarValue::Int64(None),
            DataType::UInt64 => ScalarValue::UInt64(None),
            DataType::Float64 => ScalarValue::Float64(None),
            DataType::Utf8 => ScalarValue::Utf8(None),
            DataType::Kind(kind) => ScalarValue::Kind(kind.clone(), None),
        })
    }
}

impl TryFrom<ScalarValue> for i64 {
    type Error = DataFusionError;

    fn try_from(value: ScalarValue) -> Result<i64> {
        match value {
            ScalarValue::Int64(Some(n)) => Ok(n),
            other => exec_err!("{other:?} is no i64"),
        }
    }
}

impl TryFrom<ScalarValue> for u64 {
    type Error = DataFusionError;

    fn try_from(value: ScalarValue) -> Result<u64> {
        match value {
            ScalarValue::UInt64(Some(n)) => Ok(n),
            other => exec_err!("{other:?} is no u64"),
        }
    }
}
