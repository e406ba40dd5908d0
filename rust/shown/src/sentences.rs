//! What a refusal means, and who is to look where.

/// The sentence of a refusal, without its full stop. The place stands at its end where the last
/// word is numbered.
pub fn sentence(number: u64, place: u64) -> String {
    let (text, numbered) = words(number);
    if numbered {
        format!("{text} {place}")
    } else {
        text.to_string()
    }
}

/// The sentence before the place, and whether the place belongs to it.
fn words(number: u64) -> (&'static str, bool) {
    match number {
        1..=7 => path(number),
        8..=13 => set_up(number),
        14..=18 | 20 => tables(number),
        19 | 28 => buffers(number),
        _ => UNKNOWN,
    }
}

const UNKNOWN: (&str, bool) = (
    "this number is not one of the assembly's; whoever calls the library is to look at document 01",
    false,
);

#[rustfmt::skip]
fn path(number: u64) -> (&'static str, bool) {
    match number {
        1 => ("a boundary number is not finite; whoever draws the path is to look at boundary number", true),
        2 => ("a boundary a is below 0; whoever draws the path is to look at end", true),
        3 => ("a path at rest moves backward; whoever draws the path is to look at end", true),
        4 => ("there are fewer than 3 stations; whoever draws the path is to look at the grid", false),
        5 => ("there are too many stations; whoever draws the path is to look at the grid", false),
        6 => ("a grid number is not finite; whoever draws the path is to look at station", true),
        7 => ("a grid number is not above the one before; whoever draws the path is to look at station", true),
        _ => UNKNOWN,
    }
}

#[rustfmt::skip]
fn set_up(number: u64) -> (&'static str, bool) {
    match number {
        8 => ("d is outside 1 to 32; whoever sets up the job is to look at d", false),
        9 => ("there is no objective; whoever sets up the job is to look at the objectives", false),
        10 => ("there are more than 16 objectives; whoever sets up the job is to look at the objectives", false),
        11 => ("a weight is NaN, infinite or negative; whoever sets up the job is to look at objective", true),
        12 => ("a list has a wrong length or runs past the pool; whoever sets up the job is to look at objective", true),
        13 => ("a scale is NaN, infinite or negative; whoever sets up the job is to look at objective", true),
        _ => UNKNOWN,
    }
}

#[rustfmt::skip]
fn tables(number: u64) -> (&'static str, bool) {
    match number {
        14 => ("the stationary counts leave no moving interval; whoever fills the tables is to look at N0 and N1", false),
        15 => ("a table has a wrong length; whoever fills the tables is to look at table", true),
        16 => ("a row count is above 256; whoever fills the tables is to look at tables 0 and 1, station", true),
        17 => ("a bound is NaN or infinite where it may not be; whoever fills the tables is to look at bound", true),
        18 => ("a stationary maximum is below its minimum; whoever fills the tables is to look at end", true),
        20 => ("a number to be written is not finite; whoever fills the tables is to look at the grid, the tables and the objectives", false),
        _ => UNKNOWN,
    }
}

#[rustfmt::skip]
fn buffers(number: u64) -> (&'static str, bool) {
    match number {
        19 => ("a buffer is too short; whoever lends the buffers is to look at buffer", true),
        28 => ("the index is too short; whoever lends the buffers is to look at the index", false),
        _ => UNKNOWN,
    }
}
