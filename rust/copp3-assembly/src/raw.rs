//! The library's C interface, and the only unsafe code of this crate.
//!
//! The functions here are safe: a slice is never null, `&mut` buffers neither
//! overlap each other nor any table, and the library demands nothing else.

use crate::{Assembly, Boundary, Bounds, index_places};

/// What the library takes by value beside the objectives.
#[repr(C)]
#[derive(Clone, Copy, Debug)]
pub struct Job {
    pub boundary: Boundary,
    pub start: Bounds,
    pub end: Bounds,
    pub d: usize,
    pub n0: usize,
    pub n1: usize,
    /// Number of objectives.
    pub count: usize,
}

/// An objective as the C interface has it; an unknown kind is answered by 40.
#[repr(C)]
#[derive(Clone, Copy, Debug, Default)]
pub struct Record {
    pub kind: u64,
    pub weight: f64,
    pub start: usize,
    pub len: usize,
    pub start2: usize,
    pub len2: usize,
}

/// Sixteen records; those from the job's count on are not looked at.
#[repr(C)]
#[derive(Clone, Copy, Debug, Default)]
pub struct Records {
    pub items: [Record; 16],
}

/// Number 0 is acceptance, with the four counts; else a refusal with its place.
#[repr(C)]
#[derive(Clone, Copy, Debug, PartialEq, Eq)]
pub struct Answer {
    pub number: u64,
    pub place: u64,
    pub entries: u64,
    pub rows: u64,
    pub cones: u64,
    pub columns: u64,
}

/// Whose a row or a column is. Number 0 comes with the owner, 28 and 29 with owner 0.
#[repr(C)]
#[derive(Clone, Copy, Debug, PartialEq, Eq)]
pub struct OwnerAnswer {
    pub number: u64,
    pub place: u64,
    /// 0 the standard rows, 1 the root stage, 2 + i objective i.
    pub owner: u64,
}

/// The lent tables: grid, tables 0 to 15 in order, pool.
#[derive(Clone, Copy, Debug)]
pub struct Tables<'a> {
    pub grid: &'a [f64],
    pub acc_rows: &'a [u32],
    pub jerk_rows: &'a [u32],
    pub amax: &'a [f64],
    pub acc_a: &'a [f64],
    pub acc_b: &'a [f64],
    pub acc_max: &'a [f64],
    pub jerk_a: &'a [f64],
    pub jerk_b: &'a [f64],
    pub jerk_c: &'a [f64],
    pub jerk_max: &'a [f64],
    pub thermal: &'a [f64],
    pub torque_a: &'a [f64],
    pub torque_b: &'a [f64],
    pub torque_g: &'a [f64],
    pub start_roots: &'a [f64],
    pub end_roots: &'a [f64],
    pub pool: &'a [f64],
}

/// The output buffers: seven in the order of refusal 19's places, then the index.
#[derive(Debug)]
pub struct Buffers<'a> {
    pub rows: &'a mut [u64],
    pub columns: &'a mut [u64],
    pub values: &'a mut [f64],
    pub right: &'a mut [f64],
    pub kinds: &'a mut [u8],
    pub dimensions: &'a mut [u64],
    pub cost: &'a mut [f64],
    /// Needs eight places for each owner: [`index_places`].
    pub index: &'a mut [u64],
}

/// Where a buffer begins, and its length.
type Place<T> = (*mut T, usize);

/// The buffers as the C interface takes them.
struct Places {
    rows: Place<u64>,
    columns: Place<u64>,
    values: Place<f64>,
    right: Place<f64>,
    kinds: Place<u8>,
    dimensions: Place<u64>,
    cost: Place<f64>,
    index: Place<u64>,
}

fn lent<T>(buffer: &mut [T]) -> Place<T> {
    (buffer.as_mut_ptr(), buffer.len())
}

fn reserved<T>(vector: &mut Vec<T>) -> Place<T> {
    (vector.as_mut_ptr(), vector.capacity())
}

unsafe extern "C" {
    fn copp3_owner_of_row(
        index: *const u64,
        index_len: usize,
        objectives: usize,
        row: usize,
    ) -> OwnerAnswer;

    fn copp3_owner_of_column(
        index: *const u64,
        index_len: usize,
        objectives: usize,
        column: usize,
    ) -> OwnerAnswer;
}

/// The lowest owner of a row by any index: 28 where it is too short, 29 where no owner has the row.
pub fn owner_of_row(index: &[u64], objectives: usize, row: usize) -> OwnerAnswer {
    // SAFETY: the pointer comes with its slice's length, and is only read.
    unsafe { copp3_owner_of_row(index.as_ptr(), index.len(), objectives, row) }
}

/// The same for a column.
pub fn owner_of_column(index: &[u64], objectives: usize, column: usize) -> OwnerAnswer {
    // SAFETY: as in `owner_of_row`.
    unsafe { copp3_owner_of_column(index.as_ptr(), index.len(), objectives, column) }
}

/// Declares both entry points over the same list of lent tables.
macro_rules! entry_points {
    ($($table:ident $len:ident $kind:ty,)*) => {
        unsafe extern "C" {
            fn copp3_size(job: Job, objectives: Records, $($table: *const $kind, $len: usize,)*) -> Answer;

            fn copp3_assemble(
                job: Job, objectives: Records, $($table: *const $kind, $len: usize,)*
                rows: *mut u64, rows_len: usize,
                columns: *mut u64, columns_len: usize,
                values: *mut f64, values_len: usize,
                right: *mut f64, right_len: usize,
                kinds: *mut u8, kinds_len: usize,
                dimensions: *mut u64, dimensions_len: usize,
                cost: *mut f64, cost_len: usize,
                index: *mut u64, index_len: usize,
            ) -> Answer;
        }

        /// Sizing: every refusal tested before the buffers, or the four counts.
        pub fn size(job: Job, objectives: Records, t: &Tables) -> Answer {
            // SAFETY: every pointer comes with its own slice's length, and all are only read.
            unsafe { copp3_size(job, objectives, $(t.$table.as_ptr(), t.$table.len(),)*) }
        }

        /// # Safety
        /// Each place has its length of memory of its own that may be written.
        unsafe fn assemble_at(job: Job, objectives: Records, t: &Tables, out: Places) -> Answer {
            // SAFETY: as in `size`, and what is asked of the places.
            unsafe {
                copp3_assemble(
                    job, objectives, $(t.$table.as_ptr(), t.$table.len(),)*
                    out.rows.0, out.rows.1,
                    out.columns.0, out.columns.1,
                    out.values.0, out.values.1,
                    out.right.0, out.right.1,
                    out.kinds.0, out.kinds.1,
                    out.dimensions.0, out.dimensions.1,
                    out.cost.0, out.cost.1,
                    out.index.0, out.index.1,
                )
            }
        }
    };
}

entry_points! {
    grid grid_len f64,
    acc_rows acc_rows_len u32,
    jerk_rows jerk_rows_len u32,
    amax amax_len f64,
    acc_a acc_a_len f64,
    acc_b acc_b_len f64,
    acc_max acc_max_len f64,
    jerk_a jerk_a_len f64,
    jerk_b jerk_b_len f64,
    jerk_c jerk_c_len f64,
    jerk_max jerk_max_len f64,
    thermal thermal_len f64,
    torque_a torque_a_len f64,
    torque_b torque_b_len f64,
    torque_g torque_g_len f64,
    start_roots start_roots_len f64,
    end_roots end_roots_len f64,
    pool pool_len f64,
}

/// Assembly into the buffers; a refusal changes none of them.
pub fn assemble(job: Job, objectives: Records, t: &Tables, out: &mut Buffers) -> Answer {
    let places = Places {
        rows: lent(out.rows),
        columns: lent(out.columns),
        values: lent(out.values),
        right: lent(out.right),
        kinds: lent(out.kinds),
        dimensions: lent(out.dimensions),
        cost: lent(out.cost),
        index: lent(out.index),
    };
    // SAFETY: the buffers are borrowed mutably, so nothing overlaps them.
    unsafe { assemble_at(job, objectives, t, places) }
}

/// Assembly into what the vectors have reserved, which need not be zeroed: after
/// acceptance they have just the lengths of what was written. A refusal changes nothing.
pub fn assemble_reserved(job: Job, objectives: Records, t: &Tables, out: &mut Assembly) -> Answer {
    let places = Places {
        rows: reserved(&mut out.rows),
        columns: reserved(&mut out.columns),
        values: reserved(&mut out.values),
        right: reserved(&mut out.right),
        kinds: reserved(&mut out.kinds),
        dimensions: reserved(&mut out.dimensions),
        cost: reserved(&mut out.cost),
        index: reserved(&mut out.index),
    };
    // SAFETY: a vector owns what it has reserved, and all are borrowed mutably.
    let answer = unsafe { assemble_at(job, objectives, t, places) };
    if answer.number == 0 {
        let [entries, rows, cones, columns] = [
            answer.entries as usize,
            answer.rows as usize,
            answer.cones as usize,
            answer.columns as usize,
        ];
        // SAFETY: proved of the library: after acceptance every place below these counts was
        // written, and of the index those of all owners; each buffer has them, since a shorter
        // one is refused as 19 or 28. An accepted job has at most 16 objectives.
        unsafe {
            out.rows.set_len(entries);
            out.columns.set_len(entries);
            out.values.set_len(entries);
            out.right.set_len(rows);
            out.kinds.set_len(cones);
            out.dimensions.set_len(cones);
            out.cost.set_len(columns);
            out.index.set_len(index_places(job.count));
        }
    }
    answer
}
