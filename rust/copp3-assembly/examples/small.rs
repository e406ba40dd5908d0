//! Assembles two small problems and prints them, each row with its owner: document
//! 01's case A, and a path that starts at rest, with rows of every sort and all four
//! objectives.

use copp3_assembly::{Assembly, Boundary, Bounds, Objective, Problem, Refusal, assemble};

const UNLIMITED: f64 = f64::INFINITY;

/// Case A: three stations, everything 0, no upper bound, one Time. It has no
/// feasible point, so do not try a solver on it.
fn case_a() -> Problem<'static> {
    Problem {
        boundary: Boundary::default(),
        start: Bounds::default(),
        end: Bounds::default(),
        d: 1,
        n0: 0,
        n1: 0,
        objectives: &[Objective::Time { weight: 1.0 }],
        grid: &[0.0, 1.0, 2.0],
        acc_rows: &[0; 3],
        jerk_rows: &[0; 3],
        amax: &[UNLIMITED; 3],
        acc_a: &[],
        acc_b: &[],
        acc_max: &[],
        jerk_a: &[],
        jerk_b: &[],
        jerk_c: &[],
        jerk_max: &[],
        thermal: &[],
        torque_a: &[],
        torque_b: &[],
        torque_g: &[],
        start_roots: &[],
        end_roots: &[],
        pool: &[],
    }
}

/// Who has written a row, in words.
fn owner(out: &Assembly, row: u64) -> String {
    match out.owner_of_row(row as usize) {
        Ok(owner) => owner.to_string(),
        Err(refusal) => refusal.to_string(),
    }
}

/// The owners of the columns behind those of a and b.
fn print_column_owners(out: &Assembly) {
    for column in 0..out.cost.len() {
        if let Ok(owner) = out.owner_of_column(column) {
            println!("  z{column} belongs to {owner}");
        }
    }
}

fn print(title: &str, answer: Result<Assembly, Refusal>) {
    println!("{title}");
    let out = match answer {
        Ok(out) => out,
        Err(refusal) => {
            println!("  refused {}: {refusal}", refusal.number());
            return;
        }
    };
    println!(
        "  {} entries, {} rows, {} cones, {} columns",
        out.values.len(),
        out.right.len(),
        out.kinds.len(),
        out.cost.len()
    );
    let mut row = 0;
    for (kind, dimension) in out.cones() {
        match kind {
            Some(kind) => println!("  {kind:?} cone of {dimension}"),
            None => println!("  unknown cone of {dimension}"),
        }
        for _ in 0..dimension {
            print!("    row {row}:");
            for i in (0..out.rows.len()).filter(|&i| out.rows[i] == row) {
                print!(" {:+} z{}", out.values[i], out.columns[i]);
            }
            println!(" | {} ({})", out.right[row as usize], owner(&out, row));
            row += 1;
        }
    }
    println!("  cost {:?}", out.cost);
    print_column_owners(&out);
}

fn main() {
    let plain = case_a();
    print("case A", assemble(&plain));

    // The pool: two torque scales, then alpha and beta of four stations each.
    let pool = [0.5, 2.0, 0.0, 0.25, 0.5, 0.75, 0.0, 0.0, 0.125, 0.0];
    let objectives = [
        Objective::Time { weight: 1.0 },
        Objective::ThermalEnergy {
            weight: 0.1,
            scales: (0..2).into(),
        },
        Objective::TotalVariationTorque {
            weight: 0.01,
            scales: (0..2).into(),
        },
        Objective::Linear {
            weight: 0.05,
            alpha: (2..6).into(),
            beta: (6..10).into(),
        },
    ];
    let richer = Problem {
        start: Bounds {
            maximum: 4.0,
            minimum: 0.0,
        },
        d: 2,
        n0: 1,
        objectives: &objectives,
        grid: &[0.0, 0.5, 1.0, 2.0],
        acc_rows: &[0, 0, 1, 0],
        jerk_rows: &[0, 1, 0, 1],
        amax: &[UNLIMITED, UNLIMITED, 9.0, UNLIMITED],
        acc_a: &[1.0],
        acc_b: &[0.5],
        acc_max: &[6.0],
        jerk_a: &[0.5, 0.25],
        jerk_b: &[1.0, 1.0],
        jerk_c: &[0.125, 0.125],
        jerk_max: &[20.0, 20.0],
        thermal: &[1.5, 0.25, 0.75, 0.0],
        torque_a: &[1.0, 2.0, 1.0, 2.0, 1.5, 2.5, 1.0, 2.0],
        torque_b: &[0.5, 0.25, 0.5, 0.25, 0.5, 0.25, 0.5, 0.25],
        torque_g: &[9.0, 3.0, 8.0, 3.0, 7.0, 3.0, 6.0, 3.0],
        pool: &pool,
        ..plain
    };
    print("a path that starts at rest", assemble(&richer));

    // The same path with two stations that coincide.
    let joined = Problem {
        grid: &[0.0, 0.5, 0.5, 2.0],
        ..richer
    };
    print("two stations that coincide", assemble(&joined));
}
