//! Output buffers full of random bytes, each inside a wider vector.
//!
//! What lies before and behind a lent buffer is watched too.

use crate::rng::Rng;
use copp3_assembly::Buffers;
use reference::Assembled;

/// Places before and behind each lent buffer.
const MARGIN: usize = 3;

/// Lengths of the buffers, in the order of refusal 19, and of the index.
pub type Lengths = [usize; 8];

/// The vectors; the lent part of each leaves out the margins.
#[derive(Clone)]
pub struct Output {
    rows: Vec<u64>,
    columns: Vec<u64>,
    values: Vec<f64>,
    right: Vec<f64>,
    kinds: Vec<u8>,
    dimensions: Vec<u64>,
    cost: Vec<f64>,
    index: Vec<u64>,
}

/// The lengths that the assembled vectors need.
pub fn needed(assembled: &Assembled) -> Lengths {
    let [entries, rows, cones, columns] = assembled.counts().numbers();
    let index = assembled.index.len();
    [
        entries, entries, entries, rows, cones, cones, columns, index,
    ]
}

fn random<T>(rng: &mut Rng, len: usize, from: impl Fn(u64) -> T) -> Vec<T> {
    (0..len + 2 * MARGIN).map(|_| from(rng.bits())).collect()
}

fn lent<T>(buffer: &mut [T]) -> &mut [T] {
    let end = buffer.len() - MARGIN;
    &mut buffer[MARGIN..end]
}

fn put<T: Copy>(buffer: &mut [T], numbers: &[T]) {
    buffer[MARGIN..MARGIN + numbers.len()].copy_from_slice(numbers);
}

/// The first place where two lists of bits differ.
fn differ<T: Copy, B: PartialEq>(a: &[T], b: &[T], bits: impl Fn(T) -> B) -> Option<usize> {
    if a.len() != b.len() {
        return Some(a.len().min(b.len()));
    }
    a.iter().zip(b).position(|(&x, &y)| bits(x) != bits(y))
}

impl Output {
    pub fn random(rng: &mut Rng, lengths: &Lengths) -> Self {
        Self {
            rows: random(rng, lengths[0], |bits| bits),
            columns: random(rng, lengths[1], |bits| bits),
            values: random(rng, lengths[2], f64::from_bits),
            right: random(rng, lengths[3], f64::from_bits),
            kinds: random(rng, lengths[4], |bits| bits as u8),
            dimensions: random(rng, lengths[5], |bits| bits),
            cost: random(rng, lengths[6], f64::from_bits),
            index: random(rng, lengths[7], |bits| bits),
        }
    }

    pub fn buffers(&mut self) -> Buffers<'_> {
        Buffers {
            rows: lent(&mut self.rows),
            columns: lent(&mut self.columns),
            values: lent(&mut self.values),
            right: lent(&mut self.right),
            kinds: lent(&mut self.kinds),
            dimensions: lent(&mut self.dimensions),
            cost: lent(&mut self.cost),
            index: lent(&mut self.index),
        }
    }

    /// The index as it was lent.
    pub fn index(&self) -> &[u64] {
        &self.index[MARGIN..self.index.len() - MARGIN]
    }

    /// What an accepted problem leaves: its numbers from index 0, and nothing else changed.
    pub fn accept(&mut self, assembled: &Assembled) {
        put(&mut self.rows, &assembled.row);
        put(&mut self.columns, &assembled.col);
        put(&mut self.values, &assembled.val);
        put(&mut self.right, &assembled.b);
        put(&mut self.kinds, &assembled.cones.kinds);
        put(&mut self.dimensions, &assembled.cones.dims);
        put(&mut self.cost, &assembled.q_object);
        put(&mut self.index, &assembled.index);
    }

    /// Compares every byte; an error names the first buffer and index that differ.
    pub fn same(&self, expected: &Self) -> Result<(), String> {
        let found = [
            differ(&self.rows, &expected.rows, |x| x),
            differ(&self.columns, &expected.columns, |x| x),
            differ(&self.values, &expected.values, f64::to_bits),
            differ(&self.right, &expected.right, f64::to_bits),
            differ(&self.kinds, &expected.kinds, |x| x),
            differ(&self.dimensions, &expected.dimensions, |x| x),
            differ(&self.cost, &expected.cost, f64::to_bits),
            differ(&self.index, &expected.index, |x| x),
        ];
        match found.iter().position(Option::is_some) {
            None => Ok(()),
            Some(buffer) => {
                let at = found[buffer].unwrap_or(0) as isize - MARGIN as isize;
                Err(format!("buffer {buffer} differs at index {at}"))
            }
        }
    }
}
