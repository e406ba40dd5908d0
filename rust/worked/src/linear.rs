//! The cost that Linear writes at a stationary end's last station, in the published order of
//! operations and in others.

use reference::Objective;
use reference::sample::Sample;

#[derive(Clone, Copy, PartialEq, Eq)]
pub enum Side {
    Start,
    End,
}

/// What one station within the stationary stretch is charged by.
#[derive(Clone, Copy)]
pub struct Charge {
    pub weight: f64,
    pub gamma: f64,
    pub root: f64,
    pub alpha: f64,
    pub beta: f64,
    /// The distance from the end.
    pub x: f64,
}

impl Charge {
    pub fn sum(self) -> f64 {
        self.alpha + self.beta / (1.5 * self.x)
    }

    pub fn with_sum(self, sum: f64) -> f64 {
        self.weight * self.gamma * self.root * sum
    }

    fn published(self) -> f64 {
        self.with_sum(self.sum())
    }
}

/// A Linear objective's charges, station by station, and what the last station itself is charged.
struct Charges {
    stations: Vec<Charge>,
    own: f64,
}

/// The last station of the stretch: its cost is written.
pub fn column(s: &Sample, side: Side) -> usize {
    match side {
        Side::Start => s.num_stationary.0,
        Side::End => s.grid.len() - 1 - s.num_stationary.1,
    }
}

/// As the Rust has it: both sides take stations from 1 on.
fn charges(s: &Sample, side: Side) -> Vec<Charges> {
    let (g, last) = (&s.grid, column(s, side));
    let (count, end, table) = match side {
        Side::Start => (s.num_stationary.0, g[0], 14),
        Side::End => (s.num_stationary.1, g[g.len() - 1], 15),
    };
    let of = |o: &Objective| match *o {
        Objective::Linear(weight, alpha, beta) => {
            let charge = |k: usize| Charge {
                weight,
                gamma: (g[k] - end) / (g[last] - end),
                root: s.table(table)[k - 1],
                alpha: s.pool[alpha.start + k],
                beta: s.pool[beta.start + k],
                x: g[k] - end,
            };
            let stations = (1..count).map(charge).collect();
            let own = weight * s.pool[alpha.start + last];
            Some(Charges { stations, own })
        }
        _ => None,
    };
    s.objectives[..s.count].iter().filter_map(of).collect()
}

/// The cost with each station's charge worked out like this, in the published order of sums.
pub fn with_charge(s: &Sample, side: Side, charge: impl Fn(Charge) -> f64) -> f64 {
    let mut cost = 0.0;
    for objective in charges(s, side) {
        for station in objective.stations {
            cost += charge(station);
        }
        cost += objective.own;
    }
    cost
}

/// The cost in the published order.
pub fn total(s: &Sample, side: Side) -> f64 {
    with_charge(s, side, Charge::published)
}

/// From the last station on.
pub fn reversed(s: &Sample, side: Side) -> f64 {
    let mut cost = 0.0;
    for objective in charges(s, side) {
        for station in objective.stations.iter().rev() {
            cost += station.published();
        }
        cost += objective.own;
    }
    cost
}

/// The last station itself before the others.
pub fn charged_first(s: &Sample, side: Side) -> f64 {
    let mut cost = 0.0;
    for objective in charges(s, side) {
        cost += objective.own;
        for station in objective.stations {
            cost += station.published();
        }
    }
    cost
}
