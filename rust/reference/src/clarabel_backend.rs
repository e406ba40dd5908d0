//! The growing vectors that the assembly functions pass on, as in copp's
//! `clarabel_backend.rs`, with the documents' number types.

use std::ops::Range;

/// Clarabel's cones, as far as the assembly uses them.
#[derive(Clone, Copy)]
pub enum SupportedConeT {
    ZeroConeT(usize),
    NonnegativeConeT(usize),
    SecondOrderConeT(usize),
}

impl SupportedConeT {
    /// Document 01's cone kind, and the dimension.
    fn parts(self) -> (u8, u64) {
        match self {
            Self::ZeroConeT(dim) => (0, dim as u64),
            Self::NonnegativeConeT(dim) => (1, dim as u64),
            Self::SecondOrderConeT(dim) => (2, dim as u64),
        }
    }
}

/// The cone list, kinds and dimensions side by side.
#[derive(Clone, Debug, Default)]
pub struct Cones {
    pub kinds: Vec<u8>,
    pub dims: Vec<u64>,
}

impl Cones {
    pub fn with_capacity(capacity: usize) -> Self {
        Self {
            kinds: Vec::with_capacity(capacity),
            dims: Vec::with_capacity(capacity),
        }
    }

    pub fn len(&self) -> usize {
        self.kinds.len()
    }

    pub fn is_empty(&self) -> bool {
        self.kinds.is_empty()
    }

    pub fn push(&mut self, cone: SupportedConeT) {
        let (kind, dim) = cone.parts();
        self.kinds.push(kind);
        self.dims.push(dim);
    }

    pub fn resize(&mut self, len: usize, cone: SupportedConeT) {
        let (kind, dim) = cone.parts();
        self.kinds.resize(len, kind);
        self.dims.resize(len, dim);
    }
}

/// `Vec<usize>` of the published Rust, kept in 64 bits on every machine.
pub trait Indices {
    fn extend_range(&mut self, range: Range<usize>);
    fn extend_each<const N: usize>(&mut self, numbers: [usize; N]);
    fn push_index(&mut self, number: usize);
    fn resize_with_index(&mut self, len: usize, number: usize);
}

impl Indices for Vec<u64> {
    fn extend_range(&mut self, range: Range<usize>) {
        self.extend(range.start as u64..range.end as u64);
    }

    fn extend_each<const N: usize>(&mut self, numbers: [usize; N]) {
        self.extend(numbers.map(|number| number as u64));
    }

    fn push_index(&mut self, number: usize) {
        self.push(number as u64);
    }

    fn resize_with_index(&mut self, len: usize, number: usize) {
        self.resize(len, number as u64);
    }
}

/// (row, col, val, b, cones)
pub type ConstraintsClarabel<'a> = (
    &'a mut Vec<u64>, // row
    &'a mut Vec<u64>, // col
    &'a mut Vec<f64>, // val
    &'a mut Vec<f64>, // b
    &'a mut Cones,    // cones
);

/// (row, col, val, b, cones, q_object)
pub type ObjConsClarabel<'a> = (
    &'a mut Vec<u64>, // row
    &'a mut Vec<u64>, // col
    &'a mut Vec<f64>, // val
    &'a mut Vec<f64>, // b
    &'a mut Cones,    // cones
    &'a mut Vec<f64>, // q_object
);
