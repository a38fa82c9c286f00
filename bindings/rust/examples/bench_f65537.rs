//! Times the package over the field of 65537 elements: a line `name<TAB>size<TAB>nanoseconds` each, the least of 30 batches.
//! The rows have the names of ark-poly's calls, whose times they are compared with.
//! `cargo run --release --example bench_f65537`
use ark_poly_proved::{
    DenseMultilinearExtension, DensePolynomial, DenseUVPolynomial, EvaluationDomain, Field, Polynomial,
    Radix2EvaluationDomain, SparseMultilinearExtension, F65537 as F,
};
use std::hint::black_box;
use std::time::{Duration, Instant};

/// The least time of a call, of batches of some 20 milliseconds.
fn row<R>(name: &str, size: usize, mut call: impl FnMut() -> R) {
    let mut batch = |calls: u32| {
        let begin = Instant::now();
        (0..calls).for_each(|_| drop(black_box(call())));
        begin.elapsed() / calls
    };
    let once = batch(1).max(Duration::from_nanos(1));
    let calls = (20_000_000 / once.as_nanos()).clamp(1, 1_000_000) as u32;
    let least = std::iter::repeat_with(|| batch(calls)).take(30).min().unwrap();
    println!("{name}\t{size}\t{}", least.as_nanos());
}

/// Elements that look like any.
fn list(size: usize) -> Vec<F> {
    (1..=size as u64).map(|i| F::from(i.wrapping_mul(0x9e37_79b9_7f4a_7c15) >> 40)).collect()
}

fn polynomial(size: usize) -> DensePolynomial<F> {
    let mut coeffs = list(size);
    coeffs[size - 1] = F::ONE;
    DensePolynomial::from_coefficients_vec(coeffs)
}

fn transforms() {
    for log in [10, 12, 14, 16] {
        let domain = Radix2EvaluationDomain::<F>::new(1 << log).unwrap();
        let mut items = list(1 << log);
        row("radix2_fft_in_place", 1 << log, || domain.fft_in_place(black_box(&mut items)));
        row("radix2_ifft_in_place", 1 << log, || domain.ifft_in_place(black_box(&mut items)));
    }
    let domain = Radix2EvaluationDomain::<F>::new(1 << 16).unwrap();
    let coset = domain.get_coset(F::from(3)).unwrap();
    let mut items = list(1 << 16);
    row("coset_fft_in_place", 1 << 16, || coset.fft_in_place(black_box(&mut items)));
    let coeffs = list(1 << 10);
    row("degree_aware_fft_1024_over", 1 << 16, || domain.fft(black_box(&coeffs)));
    row("lagrange_all", 1 << 16, || domain.evaluate_all_lagrange_coefficients(black_box(F::ZERO)));
    let last = domain.element((1 << 16) - 1);
    row("lagrange_all_at_last_element", 1 << 16, || domain.evaluate_all_lagrange_coefficients(black_box(last)));
}

fn polynomials() {
    for size in [1 << 13, (1 << 15) - 1] {
        let factor = polynomial(size);
        row("dense_mul", size, || black_box(&factor) * black_box(&factor));
    }
    let (dividend, divisor) = (polynomial(1 << 12), polynomial(1 << 11));
    row("divide_with_q_and_r_by_2048", 1 << 12, || black_box(&dividend).divide_with_q_and_r(black_box(&divisor)));
    let (long, x) = (polynomial(1 << 16), F::from(12345));
    row("dense_evaluate", 1 << 16, || black_box(&long).evaluate(black_box(&x)));
}

fn extensions() {
    let point = list(16);
    let dense = DenseMultilinearExtension::from_evaluations_vec(16, list(1 << 16));
    row("mle_dense_evaluate", 16, || black_box(&dense).evaluate(black_box(&point)));
    let entries: Vec<(usize, F)> = list(1 << 8).into_iter().enumerate().map(|(i, x)| (i * 251 + 7, x)).collect();
    let sparse = SparseMultilinearExtension::from_evaluations(16, &entries);
    row("mle_sparse_evaluate_16_vars", 1 << 8, || black_box(&sparse).evaluate(black_box(&point)));
}

fn main() {
    transforms();
    polynomials();
    extensions();
}
