//! Stand-in for copp's messages and for the checks that weren't published with the rest.

use crate::solver::{SolverError, SolverStatus};
use std::cell::RefCell;

#[derive(Debug)]
pub enum CoppError {
    Infeasible(String, String),
    InvalidInput(String, String),
    ClarabelSolverStatus(String, SolverStatus),
    ClarabelSolverError(String, SolverError),
}

pub enum Verbosity {
    Silent,
    Summary,
    Debug,
    Trace,
}

/// Says nothing, unless told otherwise.
pub trait Verboser {
    fn is_enabled(&self, _: Verbosity) -> bool {
        false
    }

    fn record_start_time(&mut self) {}

    fn elapsed(&self) -> u64 {
        0
    }
}

macro_rules! verbosers {
    ($($name:ident $body:tt)*) => {$(
        #[derive(Default)]
        pub struct $name;

        impl $name {
            pub fn new() -> Self {
                Self
            }
        }

        impl Verboser for $name $body
    )*};
}

verbosers! {
    SilentVerboser {}
    SummaryVerboser {}
    DebugVerboser {
        fn is_enabled(&self, level: Verbosity) -> bool {
            matches!(level, Verbosity::Debug)
        }
    }
    TraceVerboser {}
}

thread_local! {
    static MESSAGES: RefCell<Vec<String>> = RefCell::default();
}

pub fn keep_message(message: String) {
    MESSAGES.with_borrow_mut(|messages| messages.push(message));
}

/// The messages of this thread since they were last taken.
pub fn take_messages() -> Vec<String> {
    MESSAGES.take()
}

pub fn format_duration_human(ticks: u64) -> u64 {
    ticks
}

/// Not published with the rest; refusals 1 to 3 stand for it.
pub fn check_boundary_state_copp3_valid(_: (f64, f64), _: (f64, f64)) -> Result<(), CoppError> {
    Ok(())
}

/// Not published with the rest; refusal 4 stands for it.
pub fn check_s_interval_valid(_: &str, _: usize, _: usize) -> Result<(), CoppError> {
    Ok(())
}

/// Keeps the message; only where a verboser is enabled is there one.
#[macro_export]
macro_rules! verbosity_log {
    ($verbosity:expr, $($message:tt)*) => {{
        let _ = $verbosity;
        $crate::diag::keep_message(format!($($message)*));
    }};
}
