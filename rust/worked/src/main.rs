//! Says again what the worked problems are chosen for: `cargo run --release -p worked`.
//!
//! Stops where a problem's answer differs from the published files', where an order of operations
//! is told from others by no problem, or where a seed is not the first.

use worked::orders::ORDERS;
use worked::{PLANS, answer, worked};

fn main() {
    let problems = worked();
    for (plan, problem) in PLANS.iter().zip(&problems) {
        let [entries, rows, cones, columns] = answer(problem).counts().numbers();
        println!(
            "{:<9} {entries} entries, {rows} rows, {cones} cones, {columns} columns, as published",
            plan.name
        );
    }
    for order in ORDERS {
        let telling = problems.iter().filter(|p| (order.told_by)(&p.sample));
        let names: Vec<&str> = telling.map(|problem| problem.name).collect();
        assert!(!names.is_empty(), "hidden: {}", order.name);
        println!("{:<48} {}", order.name, names.join(" "));
    }
    println!("none of {} orders is hidden", ORDERS.len());
    for plan in &PLANS {
        let first = plan.first_seed();
        println!("{:<9} first seed {first}", plan.name);
        assert_eq!(first, plan.seed, "{}", plan.name);
    }
}
