//! The refusals of documents 01 and 02, by name, in the planner's words.

use std::error::Error;
use std::fmt;

/// Which end of the path.
#[derive(Clone, Copy, Debug, PartialEq, Eq)]
pub enum End {
    Start,
    Terminal,
}

/// Why a problem or a question was refused, and where. No output buffer has changed.
#[derive(Clone, Copy, Debug, PartialEq, Eq)]
pub enum Refusal {
    /// 1; place 0 to 3 for initial a, terminal a, initial b, terminal b.
    BoundaryNotFinite { place: u64 },
    /// 2
    BoundaryNegative { end: End },
    /// 3
    BoundaryLeavesPath { end: End },
    /// 4
    TooFewStations,
    /// 5
    TooManyStations,
    /// 6
    GridNotFinite { station: u64 },
    /// 7
    GridNotRising { station: u64 },
    /// 8
    Dimension,
    /// 9
    NoObjective,
    /// 10
    TooManyObjectives,
    /// 11
    Weight { objective: u64 },
    /// 12
    List { objective: u64 },
    /// 13
    Scale { objective: u64 },
    /// 14
    StationaryCounts,
    /// 15
    TableLength { table: u64 },
    /// 16
    RowCount { station: u64 },
    /// 17; place 0 start, 1 end, 2 + k for amax of station k.
    Bound { place: u64 },
    /// 18
    BoundsCrossed { end: End },
    /// 19; the buffer's place among the seven before the index.
    ShortBuffer { buffer: u64 },
    /// 20
    NotFinite,
    /// 28, tested between 19 and 20; also of an index that is asked for an owner.
    ShortIndex,
    /// 29, of a row or column that is asked for.
    NoOwner,
    /// 40, of the C interface: a record's kind is none of the four.
    UnknownKind { objective: u64 },
    /// A number that this crate doesn't know.
    Other { number: u64, place: u64 },
}

fn end(place: u64) -> Option<End> {
    match place {
        0 => Some(End::Start),
        1 => Some(End::Terminal),
        _ => None,
    }
}

impl Refusal {
    /// The refusal with this number and place; what isn't known stays as it is.
    pub fn new(number: u64, place: u64) -> Self {
        let other = Self::Other { number, place };
        let at_end = |refusal: fn(End) -> Self| end(place).map_or(other, refusal);
        match number {
            1 => Self::BoundaryNotFinite { place },
            2 => at_end(|end| Self::BoundaryNegative { end }),
            3 => at_end(|end| Self::BoundaryLeavesPath { end }),
            4 => Self::TooFewStations,
            5 => Self::TooManyStations,
            6 => Self::GridNotFinite { station: place },
            7 => Self::GridNotRising { station: place },
            8 => Self::Dimension,
            9 => Self::NoObjective,
            10 => Self::TooManyObjectives,
            11 => Self::Weight { objective: place },
            12 => Self::List { objective: place },
            13 => Self::Scale { objective: place },
            14 => Self::StationaryCounts,
            15 => Self::TableLength { table: place },
            16 => Self::RowCount { station: place },
            17 => Self::Bound { place },
            18 => at_end(|end| Self::BoundsCrossed { end }),
            19 => Self::ShortBuffer { buffer: place },
            20 => Self::NotFinite,
            28 => Self::ShortIndex,
            29 => Self::NoOwner,
            40 => Self::UnknownKind { objective: place },
            _ => other,
        }
    }

    /// The number in documents 01 and 02.
    pub fn number(self) -> u64 {
        self.parts().0
    }

    /// The place, 0 where none is named.
    pub fn place(self) -> u64 {
        self.parts().1
    }

    fn parts(self) -> (u64, u64) {
        match self {
            Self::BoundaryNotFinite { place } => (1, place),
            Self::BoundaryNegative { end } => (2, end as u64),
            Self::BoundaryLeavesPath { end } => (3, end as u64),
            Self::TooFewStations => (4, 0),
            Self::TooManyStations => (5, 0),
            Self::GridNotFinite { station } => (6, station),
            Self::GridNotRising { station } => (7, station),
            Self::Dimension => (8, 0),
            Self::NoObjective => (9, 0),
            Self::TooManyObjectives => (10, 0),
            Self::Weight { objective } => (11, objective),
            Self::List { objective } => (12, objective),
            Self::Scale { objective } => (13, objective),
            Self::StationaryCounts => (14, 0),
            Self::TableLength { table } => (15, table),
            Self::RowCount { station } => (16, station),
            Self::Bound { place } => (17, place),
            Self::BoundsCrossed { end } => (18, end as u64),
            Self::ShortBuffer { buffer } => (19, buffer),
            Self::NotFinite => (20, 0),
            Self::ShortIndex => (28, 0),
            Self::NoOwner => (29, 0),
            Self::UnknownKind { objective } => (40, objective),
            Self::Other { number, place } => (number, place),
        }
    }
}

/// A name from a list, or the place itself where the list has none.
fn name(names: &[&str], place: u64) -> String {
    let known = usize::try_from(place).ok().and_then(|at| names.get(at));
    known.map_or(format!("number {place}"), |name| name.to_string())
}

const BOUNDARY: [&str; 4] = ["initial a", "terminal a", "initial b", "terminal b"];
const BUFFERS: [&str; 7] = [
    "rows",
    "columns",
    "values",
    "right side",
    "cone kinds",
    "cone dimensions",
    "cost",
];
/// Document 01's tables 0 to 15, by name.
pub const TABLES: [&str; 16] = [
    "acceleration row counts",
    "jerk row counts",
    "amax",
    "acc a",
    "acc b",
    "acc max",
    "jerk a",
    "jerk b",
    "jerk c",
    "jerk max",
    "thermal weights",
    "torque a",
    "torque b",
    "torque g",
    "start roots",
    "end roots",
];

impl fmt::Display for End {
    fn fmt(&self, f: &mut fmt::Formatter) -> fmt::Result {
        f.write_str(match self {
            Self::Start => "start",
            Self::Terminal => "end",
        })
    }
}

impl fmt::Display for Refusal {
    fn fmt(&self, f: &mut fmt::Formatter) -> fmt::Result {
        match *self {
            Self::BoundaryNotFinite { place } => {
                write!(f, "boundary: {} is not finite", name(&BOUNDARY, place))
            }
            Self::BoundaryNegative { end } => write!(f, "boundary: a at the {end} is below 0"),
            Self::BoundaryLeavesPath { end } => {
                write!(
                    f,
                    "boundary: a at the {end} is zero and b points off the path"
                )
            }
            Self::TooFewStations => f.write_str("grid: fewer than 3 stations"),
            Self::TooManyStations => f.write_str("grid: more than 65537 stations"),
            Self::GridNotFinite { station } => write!(f, "grid: station {station} is not finite"),
            Self::GridNotRising { station } => {
                write!(f, "grid: station {station} is not above the one before")
            }
            Self::Dimension => f.write_str("the dimension is not between 1 and 32"),
            Self::NoObjective => f.write_str("there is no objective"),
            Self::TooManyObjectives => f.write_str("there are more than 16 objectives"),
            Self::Weight { objective } => write!(
                f,
                "objective {objective}: the weight is NaN, infinite or negative"
            ),
            Self::List { objective } => write!(
                f,
                "objective {objective}: a list has a wrong length or runs past the pool"
            ),
            Self::Scale { objective } => write!(
                f,
                "objective {objective}: a scale is NaN, infinite or negative"
            ),
            Self::StationaryCounts => {
                f.write_str("the stationary counts leave no moving interval between them")
            }
            Self::TableLength { table } => {
                write!(
                    f,
                    "table {table} ({}) has a wrong length",
                    name(&TABLES, table)
                )
            }
            Self::RowCount { station } => {
                write!(f, "station {station} has a row count above 256")
            }
            Self::Bound {
                place: place @ (0 | 1),
            } => {
                let end = if place == 0 {
                    End::Start
                } else {
                    End::Terminal
                };
                write!(f, "the stationary bounds of the {end} are no bounds")
            }
            Self::Bound { place } => {
                write!(f, "amax of station {} is NaN or minus infinity", place - 2)
            }
            Self::BoundsCrossed { end } => write!(
                f,
                "the stationary maximum of the {end} is below its minimum"
            ),
            Self::ShortBuffer { buffer } => {
                write!(f, "the buffer for {} is too short", name(&BUFFERS, buffer))
            }
            Self::NotFinite => {
                f.write_str("a number to be written to values, right side or cost is not finite")
            }
            Self::ShortIndex => f.write_str("the index has fewer than eight places for each owner"),
            Self::NoOwner => f.write_str("no owner has this row or column"),
            Self::UnknownKind { objective } => {
                write!(f, "objective {objective}: the kind is unknown")
            }
            Self::Other { number, place } => write!(f, "refusal {number} at place {place}"),
        }
    }
}

impl Error for Refusal {}
