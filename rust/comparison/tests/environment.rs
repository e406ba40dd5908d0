//! The library promises its bits for the floating-point environment that a program begins with:
//! rounding to nearest, subnormals kept. Here are small problems that it answers otherwise in
//! another environment, and rightly again once the first one is back.
#![cfg(target_arch = "x86_64")]

use comparison::buffers::{Lengths, Output};
use comparison::case::Case;
use comparison::rng::Rng;
use copp3_assembly::raw;
use reference::sample::Sample;
use std::arch::asm;
use std::thread;

/// Bits of MXCSR, the register of that environment.
const ROUND_UP: u32 = 0x4000;
const ROUND_TOWARD_ZERO: u32 = 0x6000;
const FLUSH_TO_ZERO: u32 = 0x8000;
const DENORMALS_ARE_ZERO: u32 = 0x0040;
/// Rounding to nearest, nothing flushed, every exception masked.
const USUAL: u32 = 0x1f80;

/// Places in every buffer; the problems here need fewer.
const ROOM: Lengths = [64; 8];

fn set(mxcsr: u32) {
    // SAFETY: USUAL with rounding and flushing changed sets no reserved bit and masks every
    // exception; a test calls nothing but the library before it sets USUAL again.
    unsafe { asm!("ldmxcsr [{}]", in(reg) &mxcsr, options(nostack)) }
}

fn environment() -> u32 {
    let mut mxcsr = 0u32;
    // SAFETY: four bytes are written to a place of four bytes.
    unsafe { asm!("stmxcsr [{}]", in(reg) &mut mxcsr, options(nostack)) }
    // The lowest six bits tell which exceptions there were.
    mxcsr & !0x3f
}

/// What the assembly answers: a refusal's number and place, or the cost of station 0's a.
#[derive(Clone, Copy, Debug)]
enum Told {
    Refused(u64, u64),
    Cost(f64),
}
use Told::{Cost, Refused};

impl PartialEq for Told {
    fn eq(&self, other: &Self) -> bool {
        match (*self, *other) {
            (Refused(number, place), Refused(other, at)) => (number, place) == (other, at),
            (Cost(cost), Cost(other)) => cost.to_bits() == other.to_bits(),
            _ => false,
        }
    }
}

/// Assembles with these bits of MXCSR set beside the usual ones.
fn assemble(sample: &Sample, bits: u32) -> Told {
    let mut rng = Rng::new(1);
    let case = Case::new(sample.clone());
    let (job, records, tables) = (case.job(), case.records(&mut rng), case.tables());
    let mut output = Output::random(&mut rng, &ROOM);
    let mut buffers = output.buffers();
    set(USUAL | bits);
    let answer = raw::assemble(job, records, &tables, &mut buffers);
    set(USUAL);
    match answer.number {
        0 => Cost(buffers.cost[0]),
        number => Refused(number, answer.place),
    }
}

/// The right answer, the one of another environment, and the right one again; in a thread of its
/// own, as the environment is the thread's.
fn differs(name: &'static str, sample: Sample, bits: u32, right: Told, otherwise: Told) {
    let asked = thread::spawn(move || {
        assert_eq!(environment(), USUAL);
        let answers = [0, bits, 0].map(|bits| assemble(&sample, bits));
        assert_eq!(environment(), USUAL);
        answers
    });
    let answers = asked.join().unwrap();
    println!(
        "{name}: {:?}, in that environment {:?}",
        answers[0], answers[1]
    );
    assert_eq!(answers, [right, otherwise, right]);
}

/// Grid 0, 1, 2 and one Linear; the cost of station 0's a is weight times alpha.
fn linear(weight: f64, alpha: f64) -> Sample {
    Sample::plain(2, (0, 0), 1).with_linear(weight, &[alpha, 0.0, 0.0], &[0.0; 3])
}

fn on_grid(grid: [f64; 3]) -> Sample {
    let mut sample = linear(1.0, 1.0);
    sample.grid = grid.to_vec();
    sample
}

#[test]
fn rounding_toward_zero_writes_another_number() {
    let (right, otherwise) = (Cost(0.010000000000000002), Cost(0.01));
    let name = "weight 0.1, alpha 0.1, rounding toward zero";
    differs(name, linear(0.1, 0.1), ROUND_TOWARD_ZERO, right, otherwise);
}

#[test]
fn rounding_up_writes_another_number() {
    let (right, otherwise) = (Cost(0.03), Cost(0.030000000000000002));
    let name = "weight 0.1, alpha 0.3, rounding up";
    differs(name, linear(0.1, 0.3), ROUND_UP, right, otherwise);
}

/// What overflows is then the largest double, which is finite.
#[test]
fn rounding_toward_zero_accepts_what_is_refused() {
    let (right, otherwise) = (Refused(20, 0), Cost(f64::MAX));
    let name = "weight 1.7976931348623157e308, alpha 2, rounding toward zero";
    let sample = linear(f64::MAX, 2.0);
    differs(name, sample, ROUND_TOWARD_ZERO, right, otherwise);
}

#[test]
fn flushing_to_zero_writes_another_number() {
    let (right, otherwise) = (Cost(1e-320), Cost(0.0));
    let name = "weight 1e-160, alpha 1e-160, flush-to-zero";
    differs(
        name,
        linear(1e-160, 1e-160),
        FLUSH_TO_ZERO,
        right,
        otherwise,
    );
}

#[test]
fn denormals_as_zero_refuse_what_is_accepted() {
    let (right, otherwise) = (Cost(1.0), Refused(7, 1));
    let name = "grid 0, 5e-324, 1, denormals-are-zero";
    let sample = on_grid([0.0, 5e-324, 1.0]);
    differs(name, sample, DENORMALS_ARE_ZERO, right, otherwise);
}

#[test]
fn denormals_as_zero_accept_what_is_refused() {
    let mut sample = linear(1.0, 1.0);
    sample.boundary.a.0 = -5e-324;
    let (right, otherwise) = (Refused(2, 0), Cost(1.0));
    let name = "initial a -5e-324, denormals-are-zero";
    differs(name, sample, DENORMALS_ARE_ZERO, right, otherwise);
}
