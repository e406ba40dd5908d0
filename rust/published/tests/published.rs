//! The reference against the published files, on random problems of all shapes.

use problems::generate;
use problems::long;
use problems::rng::Rng;
use published::against::{assert_same, own_roots};
use published::diag::CoppError;
use published::published;
use reference::sample::{Sample, ledger};
use reference::{Objective, judge};

#[test]
fn ledger_cases() {
    for (sample, _) in ledger() {
        let problem = sample.problem();
        if let Ok(ours) = judge(&problem) {
            assert_same(&published(&problem).unwrap(), &ours);
        }
    }
}

#[test]
fn random_problems() {
    let (mut equal, mut infeasible) = (0, 0);
    for index in 0..100_000 {
        let mut rng = Rng::of_problem(99, index);
        let mut sample = generate::sample(&mut rng);
        own_roots(&mut sample);
        if rng.chance(5) {
            sample.start.maximum = sample.start.minimum.next_down();
        }
        let problem = sample.problem();
        match judge(&problem) {
            Ok(ours) => {
                assert_same(&published(&problem).unwrap(), &ours);
                equal += 1;
            }
            Err(refusal) if refusal.number == 18 => {
                assert!(matches!(
                    published(&problem),
                    Err(CoppError::Infeasible(..))
                ));
                infeasible += 1;
            }
            // Spoiled bounds, which only the port refuses.
            Err(refusal) => assert_eq!(refusal.number, 17),
        }
    }
    println!("{equal} equal, {infeasible} infeasible on both sides");
    assert!(equal > 90_000 && infeasible > 500);
}

/// Up to the most stations that are accepted.
#[test]
fn long_paths() {
    for (index, stations) in [4_098, 20_000, 65_537, 65_537].into_iter().enumerate() {
        let mut rng = Rng::of_problem(98, index as u64);
        let mut sample = long::sample(&mut rng, stations, 2_000_000);
        own_roots(&mut sample);
        let problem = sample.problem();
        assert_same(&published(&problem).unwrap(), &judge(&problem).unwrap());
    }
}

/// Refusals 9, 11, 12 (length) and 13 are the published validator's own.
#[test]
fn refused_objectives() {
    let plain = || Sample::plain(3, (0, 0), 2);
    let samples = [
        plain(),
        plain().with_time(f64::NAN),
        plain().with_time(-1.0),
        plain().with_linear(f64::INFINITY, &[0.0; 4], &[0.0; 4]),
        plain().with_thermal(1.0, &[1.0]),
        plain().with_variation(1.0, &[1.0; 3]),
        plain().with_linear(1.0, &[0.0; 4], &[0.0; 3]),
        plain().with_thermal(1.0, &[1.0, -1.0]),
        plain().with_variation(1.0, &[f64::NAN, 1.0]),
    ];
    for sample in &samples {
        let problem = sample.problem();
        assert!(judge(&problem).is_err());
        assert!(matches!(
            published(&problem),
            Err(CoppError::InvalidInput(..))
        ));
    }
    let fine = plain().with(Objective::Time(-0.0));
    assert!(judge(&fine.problem()).is_ok() && published(&fine.problem()).is_ok());
}
