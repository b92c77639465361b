use std::sync::Arc;

/// Which rows are present: a bitmap, of which a slice shares the words.
#[derive(Debug, Clone)]
pub struct NullBuffer {
    words: Arc<Vec<u64>>,
    offset: usize,
    len: usize,
    null_count: usize,
}

/// The lowest `n` bits, `n` at most 64.
fn low_bits(n: usize) -> u64 {
    match n {
        64 => u64::MAX,
        _ => (1 << n) - 1,
    }
}

impl NullBuffer {
    pub fn new(marks: impl ExactSizeIterator<Item = bool>) -> Self {
        let mut builder = NullBufferBuilder::new(marks.len());
        marks.for_each(|mark| builder.append(mark));
        builder.into_bitmap()
    }

    /// Marks by the row, a word at a time.
    pub fn collect_bool(len: usize, mut mark: impl FnMut(usize) -> bool) -> Self {
        let mut words = Vec::with_capacity(len.div_ceil(64));
        for start in (0..len).step_by(64) {
            let bits = 64.min(len - start);
            words.push((0..bits).fold(0, |word, i| word | (mark(start + i) as u64) << i));
        }
        Self::of_words(words, len)
    }

    pub fn new_null(len: usize) -> Self {
        NullBuffer {
            words: Arc::new(vec![0; len.div_ceil(64)]),
            offset: 0,
            len,
            null_count: len,
        }
    }

    fn of_words(words: Vec<u64>, len: usize) -> Self {
        let mut nulls = NullBuffer {
            words: Arc::new(words),
            offset: 0,
            len,
            null_count: 0,
        };
        nulls.null_count = len - nulls.count_valid();
        nulls
    }

    pub fn len(&self) -> usize {
        self.len
    }

    pub fn is_empty(&self) -> bool {
        self.len == 0
    }

    pub fn null_count(&self) -> usize {
        self.null_count
    }

    pub fn is_valid(&self, i: usize) -> bool {
        assert!(i < self.len, "row {i} of {}", self.len);
        let bit = self.offset + i;
        self.words[bit / 64] >> (bit % 64) & 1 == 1
    }

    pub fn is_null(&self, i: usize) -> bool {
        !self.is_valid(i)
    }

    pub fn slice(&self, offset: usize, len: usize) -> Self {
        assert!(offset.saturating_add(len) <= self.len);
        let mut slice = NullBuffer {
            words: Arc::clone(&self.words),
            offset: self.offset + offset,
            len,
            null_count: 0,
        };
        slice.null_count = len - slice.count_valid();
        slice
    }

    /// A word at a time, and in it one step for each present row.
    pub fn valid_indices(&self) -> impl Iterator<Item = usize> + '_ {
        let words = self.len.div_ceil(64);
        let mut next = 0;
        let mut left = 0;
        std::iter::from_fn(move || {
            while left == 0 {
                if next == words {
                    return None;
                }
                left = self.word(next);
                next += 1;
            }
            let bit = left.trailing_zeros() as usize;
            left &= left - 1;
            Some((next - 1) * 64 + bit)
        })
    }

    /// The marks of rows from 64·i on, those past the end 0.
    fn word(&self, i: usize) -> u64 {
        let bit = self.offset + i * 64;
        let (word, shift) = (bit / 64, bit % 64);
        let bits = 64.min(self.len - i * 64);
        let low = self.words[word] >> shift;
        let high = match shift != 0 && bits > 64 - shift {
            true => self.words[word + 1] << (64 - shift),
            false => 0,
        };
        (low | high) & low_bits(bits)
    }

    fn count_valid(&self) -> usize {
        let (from, to) = (self.offset, self.offset + self.len);
        if self.len == 0 {
            return 0;
        }
        let (first, last) = (from / 64, (to - 1) / 64);
        let head = u64::MAX << (from % 64);
        let tail = low_bits((to - 1) % 64 + 1);
        if first == last {
            return (self.words[first] & head & tail).count_ones() as usize;
        }
        let between = &self.words[first + 1..last];
        let ends = (self.words[first] & head).count_ones() + (self.words[last] & tail).count_ones();
        ends as usize
            + between
                .iter()
                .map(|w| w.count_ones() as usize)
                .sum::<usize>()
    }
}

/// A bitmap as it grows, made only once a row is NULL.
#[derive(Debug)]
pub struct NullBufferBuilder {
    words: Option<Vec<u64>>,
    len: usize,
    capacity: usize,
}

impl NullBufferBuilder {
    pub fn new(capacity: usize) -> Self {
        NullBufferBuilder {
            words: None,
            len: 0,
            capacity,
        }
    }

    pub fn append(&mut self, mark: bool) {
        if mark {
            self.append_non_null();
        } else {
            self.append_null();
        }
    }

    pub fn append_non_null(&mut self) {
        if let Some(words) = &mut self.words {
            if self.len.is_multiple_of(64) {
                words.push(0);
            }
            words[self.len / 64] |= 1 << (self.len % 64);
        }
        self.len += 1;
    }

    pub fn append_null(&mut self) {
        let words = self.materialise();
        if words.len() * 64 == self.len {
            self.words.as_mut().unwrap().push(0);
        }
        self.len += 1;
    }

    pub fn append_n_non_nulls(&mut self, n: usize) {
        let words = n.div_ceil(64);
        if self.words.is_some() {
            self.append_bits(n, (0..words).map(|i| low_bits(64.min(n - i * 64))));
        } else {
            self.len += n;
        }
    }

    pub fn append_buffer(&mut self, nulls: &NullBuffer) {
        self.materialise();
        self.append_bits(
            nulls.len,
            (0..nulls.len.div_ceil(64)).map(|i| nulls.word(i)),
        );
    }

    pub fn finish(&mut self) -> Option<NullBuffer> {
        let len = std::mem::take(&mut self.len);
        Some(NullBuffer::of_words(self.words.take()?, len))
    }

    fn into_bitmap(mut self) -> NullBuffer {
        self.materialise();
        NullBuffer::of_words(self.words.take().unwrap(), self.len)
    }

    fn materialise(&mut self) -> &[u64] {
        self.words.get_or_insert_with(|| {
            let mut words = Vec::with_capacity(self.capacity.max(self.len).div_ceil(64));
            words.extend((0..self.len.div_ceil(64)).map(|i| low_bits(64.min(self.len - i * 64))));
            words
        })
    }

    /// `n` marks, in words whose bits past them are 0.
    fn append_bits(&mut self, n: usize, bits: impl Iterator<Item = u64>) {
        let words = self.words.as_mut().unwrap();
        let shift = self.len % 64;
        for word in bits {
            if shift == 0 {
                words.push(word);
            } else {
                *words.last_mut().unwrap() |= word << shift;
                words.push(word >> (64 - shift));
            }
        }
        self.len += n;
        words.truncate(self.len.div_ceil(64));
    }
}

#[cfg(test)]
mod tests {
    use super::{NullBuffer, NullBufferBuilder};

    fn marks() -> Vec<bool> {
        (0..200).map(|i| i % 3 != 1).collect()
    }

    #[test]
    fn slices_count_and_list_their_own() {
        let marks = marks();
        let all = NullBuffer::new(marks.iter().copied());
        for from in 0..200 {
            for len in 0..=200 - from {
                let slice = all.slice(from, len);
                let valid: Vec<usize> = (0..len).filter(|i| marks[from + i]).collect();
                assert_eq!(slice.null_count(), len - valid.len(), "{from} {len}");
                assert_eq!(
                    slice.valid_indices().collect::<Vec<_>>(),
                    valid,
                    "{from} {len}"
                );
            }
        }
    }

    #[test]
    fn a_bitmap_grows_by_buffers() {
        let marks = marks();
        let all = NullBuffer::new(marks.iter().copied());
        for from in (0..200).step_by(7) {
            for len in (0..=200 - from).step_by(5) {
                for before in [0, 1, 63, 64, 65, 130] {
                    let mut builder = NullBufferBuilder::new(0);
                    builder.append_n_non_nulls(before);
                    builder.append_buffer(&all.slice(from, len));
                    builder.append_n_non_nulls(before);
                    builder.append_null();
                    builder.append_non_null();
                    let mut want = vec![true; before];
                    want.extend(&marks[from..from + len]);
                    want.extend(vec![true; before]);
                    want.extend([false, true]);
                    let found = builder.finish().unwrap();
                    assert_eq!(found.len(), want.len());
                    let found: Vec<bool> = (0..want.len()).map(|i| found.is_valid(i)).collect();
                    assert_eq!(found, want, "{from} {len} {before}");
                }
            }
        }
    }

    #[test]
    fn marks_by_the_row() {
        let marks = marks();
        for len in 0..200 {
            let found = NullBuffer::collect_bool(len, |i| marks[i]);
            assert!((0..len).all(|i| found.is_valid(i) == marks[i]));
            assert_eq!(
                found.null_count(),
                marks[..len].iter().filter(|m| !**m).count()
            );
        }
    }
}
