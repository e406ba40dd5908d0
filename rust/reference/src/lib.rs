//! Plain Rust reference for the assembly half of copp's third-order cone program.
//!
//! `clarabel_constraints`, `copp3_socp` and `formulation` follow the published
//! Rust of TOPP-THU/copp f9a5f800ee function by function (MIT licence, see
//! NOTICE): same names, same order of pushes, same order of float operations.
//! Where that Rust asks other code (stationary bounds, `amax`, acceleration and
//! jerk blocks, torque coefficients, thermal weights, cube roots), the lent
//! table stands instead.
//!
//! Beside what is assembled, the core notes how long its vectors are before and
//! after each owner's part; that is request 6's index.
//!
//! `refusals`, `counts` and `owners` are a second reading of documents 01 and 02,
//! kept apart from the translation: the first says which problems never reach it,
//! the second only checks what it has produced, the third answers whose a row or a
//! column is by any index.

pub mod clarabel_backend;
pub mod clarabel_constraints;
pub mod copp3_socp;
pub mod counts;
pub mod formulation;
pub mod index;
pub mod objectives;
pub mod owners;
pub mod refusals;
pub mod sample;

pub use clarabel_backend::Cones;
pub use copp3_socp::{Assembled, Reserve, copp3_socp_core};
pub use counts::Counts;
pub use refusals::Refusal;

/// The states at both ends of the path, `(initial, terminal)`.
#[derive(Clone, Copy, Debug)]
pub struct Boundary {
    pub a: (f64, f64),
    pub b: (f64, f64),
}

/// The lent bounds of `a` behind one stationary end.
#[derive(Clone, Copy, Debug)]
pub struct Bounds {
    pub maximum: f64,
    pub minimum: f64,
}

/// A part of the lent pool.
#[derive(Clone, Copy, Debug)]
pub struct Part {
    pub start: usize,
    pub len: usize,
}

/// An objective with the places of its lists in the pool.
#[derive(Clone, Copy, Debug)]
pub enum Objective {
    Time(f64),
    ThermalEnergy(f64, Part),
    TotalVariationTorque(f64, Part),
    Linear(f64, Part, Part),
}

/// Everything the assembly is lent, save the output buffers.
///
/// `count` is what the caller says of his objectives; `objectives` has to hold
/// them only as long as `count` is at most 16.
#[derive(Clone, Copy)]
pub struct Problem<'a> {
    pub boundary: Boundary,
    pub start: Bounds,
    pub end: Bounds,
    pub d: usize,
    pub num_stationary: (usize, usize),
    pub count: usize,
    pub objectives: &'a [Objective],
    pub grid: &'a [f64],
    pub acc_rows: &'a [u32],
    pub jerk_rows: &'a [u32],
    pub amax: &'a [f64],
    pub acc_a: &'a [f64],
    pub acc_b: &'a [f64],
    pub acc_max: &'a [f64],
    pub jerk_a: &'a [f64],
    pub jerk_b: &'a [f64],
    pub jerk_c: &'a [f64],
    pub jerk_max: &'a [f64],
    pub thermal: &'a [f64],
    pub torque_a: &'a [f64],
    pub torque_b: &'a [f64],
    pub torque_g: &'a [f64],
    pub start_roots: &'a [f64],
    pub end_roots: &'a [f64],
    pub pool: &'a [f64],
}

/// Refusals 1 to 18, then the assembled vectors, finite or not.
pub fn judge(problem: &Problem) -> Result<Assembled, Refusal> {
    refusals::before_buffers(problem)?;
    let assembled = copp3_socp_core(problem, Reserve::Nothing);
    Ok(assembled.expect("refusals 1 to 18 leave nothing for the Rust to stop at"))
}

/// Sizing: every refusal tested before 19, or the lengths of the vectors.
pub fn size(problem: &Problem) -> Result<Counts, Refusal> {
    judge(problem).map(|assembled| assembled.counts())
}

/// The assembly, for output buffers of the lengths given (in the order of refusal 19) and an
/// index buffer.
pub fn assemble(
    problem: &Problem,
    lengths: &[usize; 7],
    index_len: usize,
) -> Result<Assembled, Refusal> {
    let assembled = judge(problem)?;
    refusals::short_buffer(assembled.counts(), lengths)?;
    refusals::short_index(problem.count, index_len)?;
    refusals::not_finite(&assembled)?;
    Ok(assembled)
}
