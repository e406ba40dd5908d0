//! Stand-ins for what the published files take from clarabel, nalgebra and itertools.

/// What the solver was given, just before it would have solved.
#[derive(Clone, Debug, Default)]
pub struct Given {
    pub rows: usize,
    pub columns: usize,
    pub row: Vec<usize>,
    pub col: Vec<usize>,
    pub val: Vec<f64>,
    pub b: Vec<f64>,
    /// Kind and dimension, kinds as document 01 has them.
    pub cones: Vec<(u8, usize)>,
    pub q: Vec<f64>,
}

pub mod algebra {
    use super::solver::GIVEN;
    use std::marker::PhantomData;

    pub struct CscMatrix<T>(PhantomData<T>);

    impl CscMatrix<f64> {
        /// Keeps the triplets.
        pub fn new_from_triplets(
            rows: usize,
            columns: usize,
            row: Vec<usize>,
            col: Vec<usize>,
            val: Vec<f64>,
        ) -> Self {
            GIVEN.with_borrow_mut(|given| {
                (given.rows, given.columns) = (rows, columns);
                (given.row, given.col, given.val) = (row, col, val);
            });
            Self(PhantomData)
        }

        pub fn zeros(_: (usize, usize)) -> Self {
            Self(PhantomData)
        }

        pub fn nnz(&self) -> usize {
            0
        }
    }
}

pub mod solver {
    use super::Given;
    use super::algebra::CscMatrix;
    use std::cell::RefCell;
    use std::marker::PhantomData;

    pub use SupportedConeT::{NonnegativeConeT, SecondOrderConeT, ZeroConeT};

    thread_local! {
        pub(super) static GIVEN: RefCell<Given> = RefCell::default();
    }

    pub fn take_given() -> Given {
        GIVEN.take()
    }

    #[derive(Clone)]
    pub enum SupportedConeT<T> {
        ZeroConeT(usize),
        NonnegativeConeT(usize),
        SecondOrderConeT(usize),
        Other(PhantomData<T>),
    }

    #[derive(Clone, Copy, Debug)]
    pub enum SolverStatus {
        AlmostSolved,
        MaxIterations,
        MaxTime,
        CallbackTerminated,
        InsufficientProgress,
    }

    #[derive(Debug)]
    pub struct SolverError;

    #[derive(Clone, Default)]
    pub struct DefaultSettings {
        pub tol_gap_rel: f64,
        pub tol_feas: f64,
        pub max_iter: u32,
        pub verbose: bool,
    }

    pub struct DefaultSolution<T> {
        pub status: SolverStatus,
        pub x: Vec<T>,
    }

    pub struct Info {
        pub linsolver: (),
    }

    pub struct DefaultSolver<T> {
        pub info: Info,
        pub solution: DefaultSolution<T>,
    }

    pub trait IPSolver {
        fn solve(&mut self);
    }

    impl IPSolver for DefaultSolver<f64> {
        fn solve(&mut self) {}
    }

    impl DefaultSolver<f64> {
        /// Keeps cost, right side and cones.
        pub fn new(
            _: &CscMatrix<f64>,
            q: &[f64],
            _: &CscMatrix<f64>,
            b: &[f64],
            cones: &[SupportedConeT<f64>],
            _: DefaultSettings,
        ) -> Result<Self, SolverError> {
            let kinds = cones.iter().map(|cone| match cone {
                ZeroConeT(dim) => Ok((0, *dim)),
                NonnegativeConeT(dim) => Ok((1, *dim)),
                SecondOrderConeT(dim) => Ok((2, *dim)),
                SupportedConeT::Other(_) => Err(SolverError),
            });
            let cones = kinds.collect::<Result<_, _>>()?;
            GIVEN.with_borrow_mut(|given| {
                (given.q, given.b, given.cones) = (q.to_vec(), b.to_vec(), cones);
            });
            let (status, x) = (SolverStatus::MaxTime, vec![]);
            Ok(Self {
                info: Info { linsolver: () },
                solution: DefaultSolution { status, x },
            })
        }
    }
}

/// A column of a lent table.
#[derive(Clone, Copy)]
pub struct Column<'a>(pub &'a [f64]);

impl<'a> Column<'a> {
    pub fn iter(&self) -> std::slice::Iter<'a, f64> {
        self.0.iter()
    }

    pub fn nrows(&self) -> usize {
        self.0.len()
    }
}

pub struct ColumnMut<'a>(&'a mut [f64]);

impl ColumnMut<'_> {
    pub fn component_mul_assign(&mut self, other: &DVectorView<f64>) {
        for (number, scale) in self.0.iter_mut().zip(other.0) {
            *number *= *scale;
        }
    }
}

pub struct DVectorView<'a, T>(&'a [T]);

impl<'a, T> DVectorView<'a, T> {
    pub fn from_slice(numbers: &'a [T], len: usize) -> Self {
        Self(&numbers[..len])
    }
}

/// Column by column, as nalgebra stores it.
#[derive(Clone)]
pub struct DMatrix<T> {
    rows: usize,
    numbers: Vec<T>,
}

impl DMatrix<f64> {
    pub fn lent(rows: usize, numbers: &[f64]) -> Self {
        let numbers = numbers.to_vec();
        Self { rows, numbers }
    }

    pub fn zeros(rows: usize, columns: usize) -> Self {
        let numbers = vec![0.0; rows * columns];
        Self { rows, numbers }
    }

    pub fn nrows(&self) -> usize {
        self.rows
    }

    pub fn ncols(&self) -> usize {
        self.numbers.len() / self.rows
    }

    pub fn column(&self, k: usize) -> Column<'_> {
        Column(&self.numbers[k * self.rows..(k + 1) * self.rows])
    }

    pub fn column_iter(&self) -> impl Iterator<Item = Column<'_>> {
        self.numbers.chunks_exact(self.rows).map(Column)
    }

    pub fn column_iter_mut(&mut self) -> impl Iterator<Item = ColumnMut<'_>> {
        self.numbers.chunks_exact_mut(self.rows).map(ColumnMut)
    }
}

/// `itertools::izip`, for the arities in use.
#[macro_export]
macro_rules! izip {
    ($a:expr, $b:expr, $c:expr $(,)?) => {
        ($a).into_iter()
            .zip($b)
            .zip($c)
            .map(|((a, b), c)| (a, b, c))
    };
    ($a:expr, $b:expr, $c:expr, $d:expr $(,)?) => {
        $crate::izip!($a, $b, $c)
            .zip($d)
            .map(|((a, b, c), d)| (a, b, c, d))
    };
    ($a:expr, $b:expr, $c:expr, $d:expr, $e:expr, $f:expr $(,)?) => {
        $crate::izip!($a, $b, $c, $d)
            .zip($e)
            .zip($f)
            .map(|(((a, b, c, d), e), f)| (a, b, c, d, e, f))
    };
}

/// Each item with the one after it.
pub struct TupleWindows<I: Iterator> {
    items: I,
    last: Option<I::Item>,
}

impl<I: Iterator<Item: Clone>> Iterator for TupleWindows<I> {
    type Item = (I::Item, I::Item);

    fn next(&mut self) -> Option<Self::Item> {
        let next = self.items.next()?;
        let last = self.last.replace(next.clone())?;
        Some((last, next))
    }
}

pub trait Itertools: Iterator<Item: Clone> + Sized {
    fn tuple_windows(mut self) -> TupleWindows<Self> {
        let last = self.next();
        TupleWindows { items: self, last }
    }
}

impl<I: Iterator<Item: Clone>> Itertools for I {}
