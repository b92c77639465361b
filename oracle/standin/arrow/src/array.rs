use crate::buffer::{NullBuffer, NullBufferBuilder};
use crate::datatypes::DataType;
use crate::error::ArrowError;
use kinds::{CollegeCode, Instant, Kind, LoginOutcome, Pair, Pseudonym, Typed, Value};
use std::any::Any;
use std::fmt::Debug;
use std::sync::Arc;

pub type ArrayRef = Arc<dyn Array>;

/// A present value of an array, whatever its type.
#[derive(Debug, Clone, PartialEq)]
pub enum Datum {
    Whole(u64),
    Fraction(f64),
    Value(Value),
}

/// What an array may hold.
pub trait Native: Debug + Copy + PartialEq + Send + Sync + 'static {
    fn data_type() -> DataType;
    fn datum(self) -> Datum;
    fn of(datum: &Datum) -> Option<Self>;
    fn blank() -> Self;
}

macro_rules! native_kind {
    ($kind:ty $(, $part:ident)*) => {
        impl<$($part: Typed),*> Native for $kind {
            fn data_type() -> DataType {
                DataType::Kind(<$kind as Typed>::kind())
            }
            fn datum(self) -> Datum {
                Datum::Value(self.value())
            }
            fn of(datum: &Datum) -> Option<Self> {
                match datum {
                    Datum::Value(value) => <$kind as Typed>::of(value),
                    _ => None,
                }
            }
            fn blank() -> Self {
                <$kind as Typed>::blank()
            }
        }
    };
}

native_kind!(Instant);
native_kind!(Pseudonym);
native_kind!(CollegeCode);
native_kind!(LoginOutcome);
native_kind!(Pair<A, B>, A, B);

impl Native for u64 {
    fn data_type() -> DataType {
        DataType::UInt64
    }
    fn datum(self) -> Datum {
        Datum::Whole(self)
    }
    fn of(datum: &Datum) -> Option<Self> {
        match datum {
            Datum::Whole(n) => Some(*n),
            _ => None,
        }
    }
    fn blank() -> Self {
        0
    }
}

impl Native for f64 {
    fn data_type() -> DataType {
        DataType::Float64
    }
    fn datum(self) -> Datum {
        Datum::Fraction(self)
    }
    fn of(datum: &Datum) -> Option<Self> {
        match datum {
            Datum::Fraction(x) => Some(*x),
            _ => None,
        }
    }
    fn blank() -> Self {
        0.0
    }
}

pub trait Array: Debug + Send + Sync {
    fn as_any(&self) -> &dyn Any;
    fn data_type(&self) -> &DataType;
    fn len(&self) -> usize;
    fn nulls(&self) -> Option<&NullBuffer>;
    fn slice(&self, offset: usize, length: usize) -> ArrayRef;
    /// The cell at a row.
    fn cell(&self, i: usize) -> Option<Datum>;
    /// The rows at the indices; NULL at a NULL index.
    fn take(&self, indices: &UInt64Array) -> ArrayRef;
    /// Picked cells of arrays of this type: the array by its place in the list, and the row.
    fn interleave(
        &self,
        arrays: &[&dyn Array],
        picks: &[(usize, usize)],
    ) -> Result<ArrayRef, ArrowError>;
    /// Arrays of this type one behind the other.
    fn concat(&self, arrays: &[&dyn Array]) -> Result<ArrayRef, ArrowError>;

    /// The same array with a bitmap, though no row may be NULL.
    fn with_bitmap(&self) -> ArrayRef;

    fn is_empty(&self) -> bool {
        self.len() == 0
    }

    fn is_valid(&self, i: usize) -> bool {
        self.nulls().is_none_or(|nulls| nulls.is_valid(i))
    }

    fn is_null(&self, i: usize) -> bool {
        !self.is_valid(i)
    }
}

/// Values side by side, of which a slice shares the buffer.
#[derive(Debug, Clone)]
pub struct PrimitiveArray<T> {
    data_type: DataType,
    values: Arc<Vec<T>>,
    offset: usize,
    len: usize,
    nulls: Option<NullBuffer>,
}

pub type UInt64Array = PrimitiveArray<u64>;
pub type Float64Array = PrimitiveArray<f64>;

impl<T: Native> PrimitiveArray<T> {
    pub fn new(values: Vec<T>, nulls: Option<NullBuffer>) -> Self {
        assert!(
            nulls
                .as_ref()
                .is_none_or(|nulls| nulls.len() == values.len())
        );
        PrimitiveArray {
            data_type: T::data_type(),
            offset: 0,
            len: values.len(),
            values: Arc::new(values),
            nulls,
        }
    }

    pub fn from_iter_values(values: impl IntoIterator<Item = T>) -> Self {
        Self::new(values.into_iter().collect(), None)
    }

    pub fn values(&self) -> &[T] {
        &self.values[self.offset..self.offset + self.len]
    }

    /// From cells: with a bitmap only where it is needed.
    pub fn from_cells(cells: impl Iterator<Item = Option<T>>) -> Self {
        let mut nulls = NullBufferBuilder::new(cells.size_hint().0);
        let value = |cell: Option<T>| {
            nulls.append(cell.is_some());
            cell.unwrap_or(T::blank())
        };
        let values = cells.map(value).collect();
        Self::new(values, nulls.finish())
    }

    /// The bitmap where a row is NULL.
    fn some_nulls(&self) -> Option<&NullBuffer> {
        self.nulls.as_ref().filter(|nulls| nulls.null_count() > 0)
    }

    fn typed<'a>(arrays: &[&'a dyn Array]) -> Result<Vec<&'a Self>, ArrowError> {
        let typed = arrays.iter().map(|array| array.as_any().downcast_ref());
        typed
            .collect::<Option<Vec<_>>>()
            .ok_or_else(|| ArrowError("arrays of different types".to_string()))
    }

    /// A NULL index may name any row.
    fn take_values(&self, indices: &UInt64Array) -> Vec<T> {
        let values = self.values();
        let rows = indices.values().iter().map(|row| *row as usize);
        match indices.some_nulls() {
            None => rows.map(|row| values[row]).collect(),
            Some(nulls) => rows
                .enumerate()
                .map(|(i, row)| match values.get(row) {
                    Some(value) => *value,
                    None if nulls.is_null(i) => T::blank(),
                    None => panic!("row {row} of {}", values.len()),
                })
                .collect(),
        }
    }

    fn take_nulls(&self, indices: &UInt64Array) -> Option<NullBuffer> {
        let Some(own) = self.some_nulls() else {
            return indices.nulls.clone();
        };
        let rows = indices.values();
        let is_valid = |i: usize| own.is_valid(rows[i] as usize);
        let taken = match indices.some_nulls() {
            None => NullBuffer::collect_bool(rows.len(), is_valid),
            Some(nulls) => {
                NullBuffer::collect_bool(rows.len(), |i| nulls.is_valid(i) && is_valid(i))
            }
        };
        Some(taken).filter(|nulls| nulls.null_count() > 0)
    }
}

impl<T: Native> Array for PrimitiveArray<T> {
    fn as_any(&self) -> &dyn Any {
        self
    }

    fn data_type(&self) -> &DataType {
        &self.data_type
    }

    fn len(&self) -> usize {
        self.len
    }

    fn nulls(&self) -> Option<&NullBuffer> {
        self.nulls.as_ref()
    }

    fn slice(&self, offset: usize, length: usize) -> ArrayRef {
        assert!(
            offset.saturating_add(length) <= self.len,
            "slice {offset}+{length} of {}",
            self.len
        );
        Arc::new(PrimitiveArray {
            data_type: self.data_type.clone(),
            values: Arc::clone(&self.values),
            offset: self.offset + offset,
            len: length,
            nulls: self.nulls.as_ref().map(|nulls| nulls.slice(offset, length)),
        })
    }

    fn with_bitmap(&self) -> ArrayRef {
        let mut array = self.clone();
        let all = || NullBuffer::new(std::iter::repeat_n(true, self.len));
        array.nulls = Some(array.nulls.unwrap_or_else(all));
        Arc::new(array)
    }

    fn cell(&self, i: usize) -> Option<Datum> {
        self.is_valid(i).then(|| self.values()[i].datum())
    }

    fn take(&self, indices: &UInt64Array) -> ArrayRef {
        Arc::new(Self::new(
            self.take_values(indices),
            self.take_nulls(indices),
        ))
    }

    fn interleave(
        &self,
        arrays: &[&dyn Array],
        picks: &[(usize, usize)],
    ) -> Result<ArrayRef, ArrowError> {
        let arrays = Self::typed(arrays)?;
        let values = picks
            .iter()
            .map(|(array, row)| arrays[*array].values()[*row]);
        let values = values.collect();
        let some_null = arrays.iter().any(|array| array.some_nulls().is_some());
        let nulls = some_null.then(|| {
            NullBuffer::collect_bool(picks.len(), |i| {
                let (array, row) = picks[i];
                arrays[array].is_valid(row)
            })
        });
        Ok(Arc::new(Self::new(values, nulls)))
    }

    fn concat(&self, arrays: &[&dyn Array]) -> Result<ArrayRef, ArrowError> {
        let arrays = Self::typed(arrays)?;
        let len = arrays.iter().map(|array| array.len).sum();
        let mut values = Vec::with_capacity(len);
        let mut nulls = NullBufferBuilder::new(len);
        for array in arrays {
            values.extend_from_slice(array.values());
            match &array.nulls {
                Some(own) => nulls.append_buffer(own),
                None => nulls.append_n_non_nulls(array.len),
            }
        }
        Ok(Arc::new(Self::new(values, nulls.finish())))
    }
}

#[derive(Debug)]
pub struct UInt64Builder {
    values: Vec<u64>,
    nulls: NullBufferBuilder,
}

impl UInt64Builder {
    pub fn with_capacity(capacity: usize) -> Self {
        UInt64Builder {
            values: Vec::with_capacity(capacity),
            nulls: NullBufferBuilder::new(capacity),
        }
    }

    pub fn append_option(&mut self, value: Option<u64>) {
        self.nulls.append(value.is_some());
        self.values.push(value.unwrap_or(0));
    }

    pub fn finish(&mut self) -> UInt64Array {
        UInt64Array::new(std::mem::take(&mut self.values), self.nulls.finish())
    }
}

/// What is done with a type that is known only when it runs.
trait AtType {
    fn at<T: Native>(self) -> Result<ArrayRef, ArrowError>;
}

fn at_type(data_type: &DataType, work: impl AtType) -> Result<ArrayRef, ArrowError> {
    type InstantCode = Pair<Instant, CollegeCode>;
    type OutcomeLogin = Pair<LoginOutcome, Pair<Instant, Pseudonym>>;
    match data_type {
        DataType::UInt64 => work.at::<u64>(),
        DataType::Float64 => work.at::<f64>(),
        DataType::Kind(Kind::Instant) => work.at::<Instant>(),
        DataType::Kind(Kind::Pseudonym) => work.at::<Pseudonym>(),
        DataType::Kind(Kind::College) => work.at::<CollegeCode>(),
        DataType::Kind(Kind::Outcome) => work.at::<LoginOutcome>(),
        DataType::Kind(kind) if *kind == InstantCode::kind() => work.at::<InstantCode>(),
        DataType::Kind(kind) if *kind == OutcomeLogin::kind() => work.at::<OutcomeLogin>(),
        other => Err(ArrowError(format!("no arrays of {other:?}"))),
    }
}

fn of_type<T: Native>(datum: &Datum) -> Result<T, ArrowError> {
    T::of(datum).ok_or_else(|| ArrowError(format!("{datum:?} in an array of {:?}", T::data_type())))
}

struct Cells<'a>(&'a mut dyn Iterator<Item = Option<Datum>>);

impl AtType for Cells<'_> {
    fn at<T: Native>(self) -> Result<ArrayRef, ArrowError> {
        let cells = self.0.map(|cell| cell.as_ref().map(of_type).transpose());
        let cells = cells.collect::<Result<Vec<_>, _>>()?;
        Ok(Arc::new(PrimitiveArray::<T>::from_cells(cells.into_iter())))
    }
}

struct Repeated<'a>(Option<&'a Datum>, usize);

impl AtType for Repeated<'_> {
    fn at<T: Native>(self) -> Result<ArrayRef, ArrowError> {
        let Repeated(cell, size) = self;
        let value = cell.map(of_type).transpose()?;
        let nulls = (value.is_none() && size > 0).then(|| NullBuffer::new_null(size));
        let values = vec![value.unwrap_or(T::blank()); size];
        Ok(Arc::new(PrimitiveArray::new(values, nulls)))
    }
}

/// An array of cells, of a type that is known only here.
pub fn array_of(
    data_type: &DataType,
    cells: &mut dyn Iterator<Item = Option<Datum>>,
) -> Result<ArrayRef, ArrowError> {
    at_type(data_type, Cells(cells))
}

/// An array of one cell many times.
pub fn array_of_one(
    data_type: &DataType,
    cell: Option<&Datum>,
    size: usize,
) -> Result<ArrayRef, ArrowError> {
    at_type(data_type, Repeated(cell, size))
}
