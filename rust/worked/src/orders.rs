//! Other orders of the same operations. A problem tells one from the published order if another
//! number is written.

use crate::linear::{Side, charged_first, reversed, total, with_charge};
use reference::Objective;
use reference::sample::Sample;

/// An order that is published, and whether a problem tells the others from it.
pub struct Order {
    pub name: &'static str,
    pub told_by: fn(&Sample) -> bool,
}

const fn order(name: &'static str, told_by: fn(&Sample) -> bool) -> Order {
    Order { name, told_by }
}

pub const TIME_START: Order = order("Time weight at the start: (5s + s) - 6s", time_start);
pub const TIME_END: Order = order("Time weight at the end: (6s - 5s) - s", time_end);
pub const TIME_BETWEEN: Order = order("Time weight between: 0.5 (s - s)", time_between);
pub const ROW_START: Order = order("stationary row at the start: -1.5 (s - s)", row_start);
pub const ROW_END: Order = order("stationary row at the end: -1.5 (s - s)", row_end);
pub const JERK_PRODUCT: Order = order("jerk: c times the reciprocal", jerk_product);
pub const JERK_QUOTIENT: Order = order("jerk: that product in the sum", jerk_quotient);
pub const JERK_SUM: Order = order("jerk: b + c r rounded twice", jerk_sum);
pub const THERMAL: Order = order("ThermalEnergy: (4 weight) table 10", thermal);
pub const GRAVITY_LESS: Order = order("torque g: scaled, then subtracted", gravity_less);
pub const GRAVITY_MORE: Order = order("torque g at an end: scaled, then added", gravity_more);
pub const LINEAR_FUSED: Order = order("Linear: weight alpha rounded, then added", linear_fused);
pub const START_FACTORS: Order = order("Linear at the start: ((weight gamma) root) sum", |s| {
    factors(s, Side::Start)
});
pub const END_FACTORS: Order = order("Linear at the end: ((weight gamma) root) sum", |s| {
    factors(s, Side::End)
});
pub const START_BETA: Order = order("Linear at the start: beta / (1.5 x)", |s| {
    beta(s, Side::Start)
});
pub const END_BETA: Order = order("Linear at the end: beta / (1.5 x)", |s| beta(s, Side::End));
pub const START_SUMS: Order = order("Linear at the start: stations, then the own one", |s| {
    sums(s, Side::Start)
});
pub const END_SUMS: Order = order("Linear at the end: stations, then the own one", |s| {
    sums(s, Side::End)
});

/// Every order.
pub const ORDERS: [Order; 18] = [
    TIME_START,
    TIME_END,
    TIME_BETWEEN,
    ROW_START,
    ROW_END,
    JERK_PRODUCT,
    JERK_QUOTIENT,
    JERK_SUM,
    THERMAL,
    GRAVITY_LESS,
    GRAVITY_MORE,
    LINEAR_FUSED,
    START_FACTORS,
    END_FACTORS,
    START_BETA,
    END_BETA,
    START_SUMS,
    END_SUMS,
];

fn differ(left: f64, right: f64) -> bool {
    left.to_bits() != right.to_bits()
}

/// Whether each of the others is another number.
fn all_differ<const N: usize>(written: f64, others: [f64; N]) -> bool {
    others.iter().all(|&other| differ(written, other))
}

fn counting(s: &Sample) -> &[Objective] {
    &s.objectives[..s.count]
}

/// Whether the cost of a Time, which is its weight times half of something, differs.
fn time(s: &Sample, twice: f64, others: [f64; 2]) -> bool {
    counting(s).iter().any(|o| match *o {
        Objective::Time(w) => all_differ(w * (0.5 * twice), others.map(|o| w * (0.5 * o))),
        _ => false,
    })
}

fn time_start(s: &Sample) -> bool {
    let (n0, g) = (s.num_stationary.0, &s.grid);
    let (a, b, c) = (5.0 * g[n0], g[n0 + 1], 6.0 * g[0]);
    n0 > 0 && time(s, a + b - c, [a + (b - c), a - c + b])
}

fn time_end(s: &Sample) -> bool {
    let (n1, g, n) = (s.num_stationary.1, &s.grid, s.grid.len() - 1);
    let (a, b, c) = (6.0 * g[n], 5.0 * g[n - n1], g[n - n1 - 1]);
    n1 > 0 && time(s, a - b - c, [a - (b + c), a - c - b])
}

fn time_between(s: &Sample) -> bool {
    let (n, (n0, n1), g) = (s.grid.len() - 1, s.num_stationary, &s.grid);
    (n0 + 1..n - n1).any(|k| {
        let steps = (g[k + 1] - g[k]) + (g[k] - g[k - 1]);
        time(s, g[k + 1] - g[k - 1], [steps, steps])
    })
}

fn row(here: f64, end: f64) -> bool {
    differ(-1.5 * (here - end), 1.5 * end - 1.5 * here)
}

fn row_start(s: &Sample) -> bool {
    let (n0, g) = (s.num_stationary.0, &s.grid);
    n0 > 0 && row(g[n0], g[0])
}

fn row_end(s: &Sample) -> bool {
    let (n1, g, n) = (s.num_stationary.1, &s.grid, s.grid.len() - 1);
    n1 > 0 && row(g[n - n1], g[n])
}

/// A jerk row's b and c, with the spacings before and after its station: both groups have to tell.
fn jerk(s: &Sample, test: impl Fn(f64, f64, f64) -> bool) -> bool {
    let (n, (n0, n1)) = (s.grid.len() - 1, s.num_stationary);
    let first = |k: usize| s.rows[1][..k].iter().sum::<u32>() as usize;
    let h = |k: usize| s.grid[k + 1] - s.grid[k];
    let at = |table: usize, k: usize| s.table(table)[first(k)];
    (n0 + 1..n - n1).any(|k| {
        s.rows[1][k] > 0 && test(at(7, k), at(8, k), h(k - 1)) && test(at(7, k), -at(8, k), h(k))
    })
}

fn jerk_product(s: &Sample) -> bool {
    jerk(s, |_, c, h| differ(c * (1.0 / h), c / h))
}

fn jerk_quotient(s: &Sample) -> bool {
    jerk(s, |b, c, h| differ(b + c * (1.0 / h), b + c / h))
}

fn jerk_sum(s: &Sample) -> bool {
    jerk(s, |b, c, h| {
        differ(b + c * (1.0 / h), c.mul_add(1.0 / h, b))
    })
}

fn thermal(s: &Sample) -> bool {
    let (n0, n1) = s.num_stationary;
    let last = s.grid.len() - 1 - n1.max(1);
    counting(s).iter().any(|o| match *o {
        Objective::ThermalEnergy(w, _) => s.table(10)[n0.max(1)..=last]
            .iter()
            .any(|t| differ(4.0 * w * t, 4.0 * (w * t))),
        _ => false,
    })
}

/// The first torque's g at a station.
fn gravity(s: &Sample, k: usize) -> f64 {
    s.table(13)[k * s.d]
}

fn gravity_less(s: &Sample) -> bool {
    let n0 = s.num_stationary.0;
    counting(s).iter().any(|o| match *o {
        Objective::TotalVariationTorque(_, part) => {
            let (here, next, x) = (gravity(s, n0), gravity(s, n0 + 1), s.pool[part.start]);
            differ(next * x - here * x, (next - here) * x)
        }
        _ => false,
    })
}

fn gravity_more(s: &Sample) -> bool {
    let n0 = s.num_stationary.0;
    counting(s).iter().any(|o| match *o {
        Objective::ThermalEnergy(_, part) if n0 > 0 => {
            let (here, end, x) = (gravity(s, n0), gravity(s, 0), s.pool[part.start]);
            differ(here * x + end * x, (here + end) * x)
        }
        _ => false,
    })
}

/// The cost of b at the first moving station, where nothing else is added.
fn linear_fused(s: &Sample) -> bool {
    let first = s.num_stationary.0;
    let (mut written, mut fused) = (0.0, 0.0f64);
    for o in counting(s) {
        if let Objective::Linear(w, _, beta) = *o {
            let beta = s.pool[beta.start + first];
            (written, fused) = (written + w * beta, w.mul_add(beta, fused));
        }
    }
    differ(written, fused)
}

fn factors(s: &Sample, side: Side) -> bool {
    let others = [
        with_charge(s, side, |c| c.weight * (c.gamma * (c.root * c.sum()))),
        with_charge(s, side, |c| c.weight * (c.gamma * c.root) * c.sum()),
        with_charge(s, side, |c| c.weight * c.gamma * (c.root * c.sum())),
        with_charge(s, side, |c| c.weight * c.root * c.gamma * c.sum()),
    ];
    all_differ(total(s, side), others)
}

fn beta(s: &Sample, side: Side) -> bool {
    let others = [
        with_charge(s, side, |c| c.with_sum(c.alpha + c.beta / 1.5 / c.x)),
        with_charge(s, side, |c| {
            c.with_sum(c.alpha + 1.0 / (1.5 * c.x) * c.beta)
        }),
    ];
    all_differ(total(s, side), others)
}

fn sums(s: &Sample, side: Side) -> bool {
    all_differ(total(s, side), [reversed(s, side), charged_first(s, side)])
}
