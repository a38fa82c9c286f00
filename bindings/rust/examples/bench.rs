//! Times transforms in place through the package, and long ones and products by several threads: a line
//! `name<TAB>size<TAB>nanoseconds` each, the least of many batches. `cargo run --release --example bench`
use ark_poly_proved::{
    parallel, BabyBear, Bls12_381Fr, DensePolynomial, DenseUVPolynomial, EvaluationDomain, FftField, Goldilocks,
    Radix2EvaluationDomain,
};
use std::time::Instant;

/// The least time of a call.
fn least(batches: usize, calls: u32, mut call: impl FnMut()) -> u128 {
    let batch = || {
        let begin = Instant::now();
        (0..calls).for_each(|_| call());
        begin.elapsed().as_nanos() / u128::from(calls)
    };
    std::iter::repeat_with(batch).take(batches).min().unwrap()
}

fn squares<F: FftField>(size: usize) -> Vec<F> {
    (0..size as u64).map(|i| F::from(i * i)).collect()
}

fn time<F: FftField>(name: &str) {
    for (size, calls) in [(1 << 10, 200), (1 << 12, 50), (1 << 16, 3)] {
        let domain = Radix2EvaluationDomain::<F>::new(size).unwrap();
        let mut list: Vec<F> = squares(size);
        println!("{name}_fft\t{size}\t{}", least(30, calls, || domain.fft_in_place(&mut list)));
    }
}

fn time_threads<F: FftField>(name: &str) {
    const SIZE: usize = 1 << 22;
    let domain = Radix2EvaluationDomain::<F>::new(SIZE).unwrap();
    let mut list: Vec<F> = squares(SIZE);
    println!("{name}_fft\t{SIZE}\t{}", least(5, 1, || domain.fft_in_place(&mut list)));
    for threads in [1, 2, 4] {
        let each = least(5, 1, || parallel::fft_in_place(domain, &mut list, threads));
        println!("{name}_fft_threads_{threads}\t{SIZE}\t{each}");
    }
    let factor = DensePolynomial::from_coefficients_slice(&list[..SIZE / 2]);
    println!("{name}_mul\t{SIZE}\t{}", least(3, 1, || drop(&factor * &factor)));
    for threads in [1, 2, 4] {
        let each = least(3, 1, || drop(parallel::mul(&factor, &factor, threads)));
        println!("{name}_mul_threads_{threads}\t{SIZE}\t{each}");
    }
}

fn main() {
    time::<BabyBear>("babybear");
    time::<Goldilocks>("goldilocks");
    time::<Bls12_381Fr>("bls12_381");
    time_threads::<BabyBear>("babybear");
    time_threads::<Goldilocks>("goldilocks");
    time_threads::<Bls12_381Fr>("bls12_381");
}
