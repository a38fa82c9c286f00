//! A sum-check: that the values of a multilinear polynomial at all corners have a sum, from its value at one point.
//!
//! Over `ark-poly` the same program has these lines in the place of its `use`, and a field of `ark-ff`'s:
//!
//! ```text
//! use ark_ff::Field;
//! use ark_poly::{DenseMultilinearExtension, MultilinearExtension, Polynomial};
//! ```
use ark_poly_proved::Field;
use ark_poly_proved::{DenseMultilinearExtension, MultilinearExtension, Polynomial};

type F = ark_poly_proved::Goldilocks;

/// What a round says: the sums where the first variable is 0, and where it is 1.
struct Round(F, F);

/// The verifier's challenge, which has to be unknown before the round: here by a hash that is none.
fn challenge(transcript: &mut F, round: &Round) -> F {
    *transcript = (*transcript + round.0).pow([7]) + round.1;
    *transcript
}

fn prove(table: &DenseMultilinearExtension<F>) -> Vec<Round> {
    let mut transcript = F::from(1u64);
    let mut left = table.clone();
    let mut rounds = Vec::new();
    while left.num_vars() > 0 {
        let values = left.to_evaluations();
        let round = Round(values.iter().step_by(2).sum(), values.iter().skip(1).step_by(2).sum());
        left = left.fix_variables(&[challenge(&mut transcript, &round)]);
        rounds.push(round);
    }
    rounds
}

/// The point and the value there to which the rounds take the claim on the sum, and `None` where a round is false.
fn verify(mut claim: F, rounds: &[Round]) -> Option<(Vec<F>, F)> {
    let mut transcript = F::from(1u64);
    let mut point = Vec::new();
    for round in rounds {
        if round.0 + round.1 != claim {
            return None;
        }
        let x = challenge(&mut transcript, round);
        claim = round.0 + (round.1 - round.0) * x;
        point.push(x);
    }
    Some((point, claim))
}

fn main() {
    let table =
        DenseMultilinearExtension::from_evaluations_vec(10, (0..1 << 10).map(|i: u64| F::from(i * i)).collect());
    let sum: F = table.evaluations.iter().sum();
    let mut rounds = prove(&table);

    let (point, value) = verify(sum, &rounds).expect("true rounds");
    assert_eq!(table.evaluate(&point), value);
    assert!(verify(sum + F::ONE, &rounds).is_none());
    rounds[3].0 += F::ONE;
    assert!(verify(sum, &rounds).is_none());
    println!("the sum is {sum}");
}
