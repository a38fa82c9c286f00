//! The rows of `answers.txt`, which are the library's own answers, and what this crate adds beside them.

use crate::calls::{self, Refusal};
use crate::field::Element;
use crate::pieces::{FileCode, PieceError};
use crate::sum_check::{self, Addend, SumCheckError, SumField};
use crate::*;
use std::fs;

#[derive(Clone)]
struct Row {
    call: String,
    field: u64,
    status: u32,
    given: Vec<Vec<u64>>,
    left: Vec<Vec<u64>>,
}

/// What stands in a list before a call writes it, and in the place of a word that a row doesn't know.
const OLD: u64 = 0xfeedfacecafef00d;

fn rows() -> Vec<Row> {
    let path = concat!(env!("CARGO_MANIFEST_DIR"), "/../answers.txt");
    let text = fs::read_to_string(path).expect(path);
    let word = |word: &str| if word == "-" { OLD } else { u64::from_str_radix(word, 16).unwrap() };
    let lists = |part: &str| part.split('|').map(|list| list.split_whitespace().map(word).collect()).collect();
    text.lines()
        .map(|line| {
            let (head, lists_of_line) = line.split_once(':').unwrap();
            let head: Vec<&str> = head.split(' ').collect();
            let (given, left) = lists_of_line.split_once('>').unwrap();
            Row {
                call: head[0].into(),
                field: head[1].parse().unwrap(),
                status: head[2].parse().unwrap(),
                given: lists(given),
                left: lists(left),
            }
        })
        .collect()
}

fn status(outcome: Result<(), Refusal>) -> u32 {
    match outcome {
        Ok(()) => 0,
        Err(Refusal::NoField) => 2,
        Err(Refusal::Length) => 3,
        Err(Refusal::NotReduced) => 4,
        Err(Refusal::NoDomain) => 5,
        Err(Refusal::ZeroDivisor) => 6,
        Err(Refusal::EqualPoints) => 7,
        Err(Refusal::TooFew) => 8,
        Err(Refusal::NoCodeword) => 9,
        Err(Refusal::NotPieces) => 10,
        Err(Refusal::Damaged) => 11,
        Err(Refusal::Addends) => 12,
        Err(Refusal::Refused) => 13,
        Err(Refusal::Other(other)) => other,
    }
}

/// Bytes that a call wrote, and the old words for those that it left.
fn as_words(made: &[u8], outcome: &Result<(), Refusal>) -> Vec<u64> {
    let old = |byte: u8| outcome.is_err() && byte == OLD as u8;
    made.iter().map(|byte| if old(*byte) { OLD } else { u64::from(*byte) }).collect()
}

/// What a row's call leaves, with its status.
fn answer(row: &Row) -> (u32, Vec<Vec<u64>>) {
    let (field, given) = (row.field, &row.given);
    let mut left: Vec<Vec<u64>> = row.left.iter().map(|list| vec![OLD; list.len()]).collect();
    let erased = |i: usize| given[i].iter().map(|mark| *mark != 0).collect::<Vec<bool>>();
    let bytes = |i: usize| given[i].iter().map(|byte| *byte as u8).collect::<Vec<u8>>();
    let shape = |numbers: &[u64]| [numbers[0] as u32, numbers[1] as u32];
    let outcome = match row.call.as_str() {
        "domain_size" => calls::domain_size(field, given[0][0]).map(|size| left[0][0] = size),
        "fft" | "ifft" | "multiply_values" => {
            left[0] = given[0].clone();
            let call = match row.call.as_str() {
                "fft" => calls::fft,
                "ifft" => calls::ifft,
                _ => calls::multiply_values,
            };
            call(field, &mut left[0], &given[1])
        }
        "fft_columns" | "ifft_columns" => {
            left[0] = given[0].clone();
            let call = if row.call == "fft_columns" { calls::fft_columns } else { calls::ifft_columns };
            call(field, &mut left[0], shape(&given[1]), &given[2])
        }
        "fft_rows" | "ifft_rows" => {
            left[0] = given[0].clone();
            let call = if row.call == "fft_rows" { calls::fft_rows } else { calls::ifft_rows };
            call(field, &mut left[0], shape(&given[1]), given[1][2], &given[2])
        }
        "divide" => {
            let (quotient, remainder) = left.split_at_mut(1);
            calls::divide(field, &given[0], &given[1], &mut quotient[0], &mut remainder[0])
        }
        "multilinear_evaluate_sparse" => {
            calls::multilinear_evaluate_sparse(field, &given[0], &given[1], &given[2], &mut left[0])
        }
        "code_encode" => calls::code_encode(field, &given[0], &mut left[0]),
        "code_encode_systematic" => calls::code_encode_systematic(field, &given[0], &mut left[0]),
        "code_restore" => {
            left[0] = given[0].clone();
            calls::code_restore(field, &mut left[0], &erased(1), given[2][0])
        }
        "code_message" => calls::code_message(field, &given[0], &erased(1), &mut left[0]),
        "sum_proof_size" => calls::sum_proof_size(field, shape(&given[0])).map(|size| left[0][0] = size),
        "sum_prove" => {
            let said = [&bytes(1)[..], &bytes(2)];
            let mut made = vec![OLD as u8; left[0].len()];
            let outcome =
                calls::sum_prove(field, said, shape(&given[0]), &given[3], &given[4], &mut made, &mut left[1]);
            left[0] = as_words(&made, &outcome);
            outcome
        }
        "sum_verify" => {
            let (said, proof, (point, value)) = ([&bytes(1)[..], &bytes(2)], bytes(4), left.split_at_mut(1));
            calls::sum_verify(field, said, shape(&given[0]), &given[3], &proof, &mut point[0], &mut value[0])
        }
        "sum_value" => calls::sum_value(field, shape(&given[0]), &given[1], &given[2], &given[3], &mut left[0]),
        "piece_size" => calls::piece_size(given[0].clone().try_into().unwrap()).map(|size| left[0][0] = size),
        "file_size" => calls::file_size(given[0][0], &bytes(1)).map(|size| left[0][0] = size),
        "split" | "join" => {
            let (k, n) = (given[0][0], given[0][1]);
            let mut made = vec![OLD as u8; left[0].len()];
            let outcome = match row.call.as_str() {
                "split" => calls::split(k, n, &bytes(1), &bytes(2), &mut made),
                _ => calls::join(k, n, &bytes(1), &mut made),
            };
            left[0] = as_words(&made, &outcome);
            outcome
        }
        call => {
            let call = match call {
                "multiply" => calls::multiply,
                "evaluate" => calls::evaluate,
                "interpolate" => calls::interpolate,
                "lagrange" => calls::lagrange,
                "multilinear_evaluate" => calls::multilinear_evaluate,
                "multilinear_fix" => calls::multilinear_fix,
                other => panic!("no call: {other}"),
            };
            call(field, &given[0], &given[1], &mut left[0])
        }
    };
    (status(outcome), left)
}

#[test]
fn the_rows() {
    let rows = rows();
    assert!(rows.len() > 1000);
    for row in rows {
        let (status, left) = answer(&row);
        assert_eq!((status, left), (row.status, row.left), "{} over {} of {:?}", row.call, row.field, row.given);
    }
}

#[test]
fn the_version() {
    assert_eq!(library_version(), (0, 5, 0));
}

#[test]
fn files_in_pieces() {
    let file: Vec<u8> = drawn::<F65537>(5000).iter().map(|x| x.to_words()[0] as u8).collect();
    for (k, n) in [(1, 1), (1, 4), (3, 5), (4, 20)] {
        let code = FileCode::new(k, n).unwrap();
        assert_eq!((code.k(), code.n()), (k, n));
        for len in [0, 1, 7, 4096, 5000] {
            let pieces = code.split(b"label", &file[..len]).unwrap();
            assert_eq!(pieces.len(), n);
            for (number, piece) in pieces.iter().enumerate() {
                assert_eq!(code.piece_size(number, 5, len), Some(piece.len()));
            }
            assert_eq!(code.join(&pieces).unwrap(), file[..len]);
            assert_eq!(code.join(&pieces[n - k..]).unwrap(), file[..len]);
            let reversed: Vec<_> = pieces.iter().rev().collect();
            assert_eq!(code.join(&reversed[..k]).unwrap(), file[..len]);
            assert_eq!(code.join(&pieces[1..k]), Err(PieceError::NotPieces));
            let mut damaged = pieces[n - k..].to_vec();
            damaged[0][28] ^= 1;
            assert_eq!(code.join(&damaged), Err(PieceError::Damaged));
        }
        assert_eq!(code.split(&[0; 65536], &[]), Err(PieceError::TooLong));
        assert_eq!(code.piece_size(n, 0, 0), None);
        assert_eq!(code.piece_size(0, 0, 1 << 62), None);
    }
    assert_eq!(FileCode::new(0, 1), None);
    assert_eq!(FileCode::new(2, 1), None);
    assert_eq!(FileCode::new(1, 65537), None);
}

/// The rows by their types, and what is refused.
fn sums<F: SumField>() {
    assert_eq!(calls::challenge_words(F::NAME), F::Challenge::default().as_ref().len() * F::WORDS);
    let elements =
        |words: &[u64]| words.chunks(F::WORDS).map(|words| F::from_words(words).unwrap()).collect::<Vec<F>>();
    let challenges = |words: &[u64]| sum_check::challenges(&elements(words));
    let addends = |mut words: &[u64]| {
        let mut addends = Vec::new();
        while !words.is_empty() {
            let (coefficient, factors) = (elements(&words[..F::WORDS])[0], words[F::WORDS] as usize);
            let (listed, rest) = words[F::WORDS + 1..].split_at(factors);
            addends.push(Addend::new(coefficient, listed.iter().map(|place| *place as usize).collect::<Vec<_>>()));
            words = rest;
        }
        addends
    };
    let bytes = |words: &[u64]| words.iter().map(|byte| *byte as u8).collect::<Vec<u8>>();
    for Row { call, given, left, status, .. } in rows().into_iter().filter(|row| row.field == F::NAME) {
        let (m, d) = (given[0].first().map_or(0, |m| *m as usize), given[0].get(1).map_or(0, |d| *d as usize));
        match (call.as_str(), status) {
            ("sum_proof_size", 0) => assert_eq!(sum_check::proof_size::<F>(m, d), Ok(left[0][0] as usize)),
            ("sum_proof_size", _) => assert_eq!(sum_check::proof_size::<F>(m, d), Err(SumCheckError::WrongLength)),
            ("sum_prove", 0) => {
                let (tables, addends) = (elements(&given[3]), addends(&given[4]));
                let made = sum_check::prove(&bytes(&given[1]), &bytes(&given[2]), m, d, &tables, &addends);
                assert_eq!(made, Ok((elements(&left[1])[0], bytes(&left[0]))));
            }
            ("sum_verify", 0 | 13) => {
                let (sum, proof) = (elements(&given[3])[0], bytes(&given[4]));
                let verdict = sum_check::verify(&bytes(&given[1]), &bytes(&given[2]), m, d, sum, &proof);
                match status {
                    0 => assert_eq!(verdict, Ok((challenges(&left[0]), challenges(&left[1])[0]))),
                    _ => assert_eq!(verdict, Err(SumCheckError::Refused)),
                }
            }
            ("sum_value", 0) => {
                let (tables, addends, point) = (elements(&given[1]), addends(&given[2]), challenges(&given[3]));
                assert_eq!(sum_check::value_at(m, d, &tables, &addends, &point), Ok(challenges(&left[0])[0]));
            }
            _ => {}
        }
    }
    // a product of two tables, longer ones too
    for m in 0..8 {
        let (tables, addend) = (drawn::<F>(2 << m), [Addend::new(-F::ONE, [1, 0])]);
        let (sum, proof) = sum_check::prove(b"test", b"drawn", m, 2, &tables, &addend).unwrap();
        assert_eq!(sum, -(0..1 << m).map(|i| tables[i] * tables[(1 << m) + i]).sum::<F>());
        assert_eq!(sum_check::proof_size::<F>(m, 2), Ok(proof.len()));
        let (point, value) = sum_check::verify(b"test", b"drawn", m, 2, sum, &proof).unwrap();
        assert_eq!(sum_check::value_at(m, 2, &tables, &addend, &point), Ok(value));
        let (length, wrong) = (SumCheckError::WrongLength, SumCheckError::WrongAddends);
        if m > 0 {
            let refused = Err(SumCheckError::Refused);
            assert_eq!(sum_check::verify(b"test", b"drawn", m, 2, sum + F::ONE, &proof), refused);
            assert_eq!(sum_check::prove(b"test", b"drawn", m, 2, &tables[1..], &addend), Err(length));
            assert_eq!(sum_check::value_at(m, 2, &tables, &addend, &point[1..]), Err(length));
        }
        assert_eq!(sum_check::verify(b"test", b"drawn", m, 2, sum, &proof[1..]), Err(length));
        assert_eq!(sum_check::prove(b"test", b"drawn", m, 2, &tables[..1 << m], &addend), Err(wrong));
        assert_eq!(sum_check::prove(b"test", b"drawn", m, 3, &tables, &addend), Err(wrong));
        assert_eq!(sum_check::value_at(m, 1, &tables, &addend, &point), Err(wrong));
        for (m, d) in [(64, 2), (usize::MAX, 2), (m, 0), (m, 65536), (m, 1 << 32 | 2)] {
            assert_eq!(sum_check::proof_size::<F>(m, d), Err(length));
            assert_eq!(sum_check::prove(b"test", b"drawn", m, d, &tables, &addend), Err(length));
            assert_eq!(sum_check::verify(b"test", b"drawn", m, d, sum, &proof), Err(length));
            assert_eq!(sum_check::value_at(m, d, &tables, &addend, &point), Err(length));
        }
    }
}

#[test]
fn sums_over_the_cube() {
    sums::<BabyBear>();
    sums::<KoalaBear>();
    sums::<Goldilocks>();
    sums::<Bls12_381Fr>();
    sums::<Bn254Fr>();
    assert_eq!(calls::challenge_words(F65537::NAME), 0);
    // of a field that has the challenges itself, the extension's value
    let table = drawn::<Bn254Fr>(16);
    let addend = [Addend::new(Bn254Fr::ONE, [0])];
    let (sum, proof) = sum_check::prove(b"test", b"drawn", 4, 1, &table, &addend).unwrap();
    let (point, [value]) = sum_check::verify(b"test", b"drawn", 4, 1, sum, &proof).unwrap();
    let extension = DenseMultilinearExtension::from_evaluations_vec(4, table);
    assert_eq!(extension.evaluate(&point.concat()), value);
}

#[test]
fn in_eight_threads() {
    let rows = rows();
    std::thread::scope(|scope| {
        for thread in 0..8 {
            let rows = &rows;
            scope.spawn(move || {
                for i in 0..rows.len() {
                    let row = &rows[(i + thread * rows.len() / 8) % rows.len()];
                    assert_eq!(answer(row), (row.status, row.left.clone()));
                }
            });
        }
    });
}

#[test]
fn send_and_sync() {
    fn is<T: Send + Sync>() {}
    is::<Bls12_381Fr>();
    is::<GeneralEvaluationDomain<BabyBear>>();
    is::<DensePolynomial<Bn254Fr>>();
    is::<Evaluations<Goldilocks>>();
    is::<DenseMultilinearExtension<KoalaBear>>();
    is::<SparseMultilinearExtension<KoalaBear>>();
    is::<Code<F65537>>();
    is::<Addend<Goldilocks>>();
}

/// Numbers at the ends of the field and between.
fn drawn<F: Field>(n: usize) -> Vec<F> {
    let mut state = 1u64;
    (0..n)
        .map(|i| {
            state ^= state << 13;
            state ^= state >> 7;
            state ^= state << 17;
            match i % 8 {
                0 => -F::one(),
                1 => F::zero(),
                2 => F::one(),
                _ => (F::from(state) * F::from(u64::MAX) + F::from(state >> 3)) * F::from(state) - F::from(i as u64),
            }
        })
        .collect()
}

/// A test for each field.
macro_rules! over_fields {
    ($($name:ident)*) => {
        $(#[test]
        fn $name() {
            generic::$name::<F65537>();
            generic::$name::<BabyBear>();
            generic::$name::<KoalaBear>();
            generic::$name::<Goldilocks>();
            generic::$name::<Bls12_381Fr>();
            generic::$name::<Bn254Fr>();
        })*
    };
}

over_fields! {
    elements_as_the_library_has_them
    numbers
    domains
    polynomials
    values
    extensions
    sparse_extensions
    codes
    parts
    long_lists_in_parts
    many_words
}

mod generic {
    use super::*;
    use crate::field::{words, words_mut};
    use crate::parallel::{self, Parts};

    /// The library's sum, product and difference: values of linear polynomials.
    fn linear<F: Field>(c: F, b: F, x: F) -> F {
        let mut value = [F::zero()];
        calls::evaluate(F::NAME, words(&[c, b]), words(&[x]), words_mut(&mut value)).unwrap();
        value[0]
    }

    pub fn elements_as_the_library_has_them<F: FftField>() {
        let all = drawn::<F>(40);
        for a in &all {
            for b in &all {
                assert_eq!(*a * *b, linear(F::zero(), *a, *b));
                assert_eq!(*a + *b, linear(*a, *b, F::one()));
                assert_eq!(*a - *b, linear(*a, *b, -F::one()));
            }
            assert_eq!(*a + -*a, F::zero());
            match a.inverse() {
                Some(inverse) => assert!((inverse * *a).is_one()),
                None => assert!(a.is_zero()),
            }
            assert_eq!(F::from_words(&a.to_words()), Some(*a));
            assert_eq!(a.to_string().parse(), Ok(*a));
            assert_eq!(a.square(), a.pow([2]));
            assert_eq!(a.double(), *a * F::from(2));
        }
        let less: Vec<u64> = (-F::one()).to_words();
        assert_eq!(less[0], F::MODULUS[0] - 1);
        assert_eq!(less[1..], F::MODULUS[1..]);
        assert!(F::zero() < F::one() && F::one() < -F::one());
        assert_eq!((-F::one()).pow(F::MODULUS), -F::one());
        assert_eq!(all.iter().sum::<F>(), all.iter().fold(F::zero(), |sum, a| sum + a));
        assert_eq!(all.iter().product::<F>(), F::zero());
    }

    pub fn numbers<F: FftField>() {
        assert_eq!(F::from_words(F::MODULUS), None);
        assert_eq!(F::from_words(&vec![u64::MAX; F::WORDS]), None);
        assert_eq!(F::from_words(&[]), None);
        assert_eq!(F::from(-3) + F::from(3), F::zero());
        assert_eq!(F::from(i64::MIN), -F::from(1u64 << 63));
        assert_eq!(F::from(u64::MAX) + F::one(), F::from(1u128 << 64));
        assert_eq!(F::from(u128::MAX), (F::from(u64::MAX) + F::one()).square() - F::one());
        assert_eq!(F::from(true), F::one());
        assert_eq!("".parse::<F>(), Err(ParseFieldError));
        assert_eq!("-1".parse::<F>(), Err(ParseFieldError));
        assert_eq!("+1".parse::<F>(), Err(ParseFieldError));
        assert_eq!("007".parse::<F>(), Ok(F::from(7)));
        assert_eq!(format!("{} {:>4} {:?}", F::zero(), F::from(12), F::from(7)), "0   12 7");
        let text = format!("{}", -F::one());
        assert_eq!(text.parse::<F>().unwrap() + F::one(), F::zero());
    }

    pub fn domains<F: FftField>() {
        for n in [1, 2, 4, 64] {
            let coset = Radix2EvaluationDomain::<F>::new_coset(n, F::GENERATOR).unwrap();
            assert_eq!(coset.size(), n);
            assert_eq!(coset.log_size_of_group(), n.trailing_zeros() as u64);
            let coeffs = drawn::<F>(n);
            let values = coset.fft(&coeffs);
            for (i, x) in coset.elements().enumerate() {
                assert_eq!(x, coset.element(i));
                assert_eq!(values[i], coeffs.iter().rev().fold(F::zero(), |y, c| y * x + c));
                assert!(coset.evaluate_vanishing_polynomial(x).is_zero());
            }
            assert_eq!(coset.ifft(&values), coeffs);
            let weights = coset.evaluate_all_lagrange_coefficients(F::from(12345));
            let value: F = weights.iter().zip(&values).map(|(w, v)| *w * v).sum();
            assert_eq!(value, coeffs.iter().rev().fold(F::zero(), |y, c| y * F::from(12345) + c));
            // too many coefficients, and too few
            let mut more = coeffs.clone();
            more.push(F::one());
            assert_eq!(coset.fft(&more), values);
            let mut fewer = coeffs[..n / 2].to_vec();
            coset.fft_in_place(&mut fewer);
            coset.ifft_in_place(&mut fewer);
            assert_eq!(fewer[..n / 2], coeffs[..n / 2]);
            assert!(fewer[n / 2..].iter().all(Field::is_zero));
        }
        let general = GeneralEvaluationDomain::<F>::new(5).unwrap();
        assert_eq!(general.size(), 8);
        assert_eq!(general.size_as_field_element(), F::from(8));
        assert_eq!(GeneralEvaluationDomain::<F>::compute_size_of_domain(9), Some(16));
        assert_eq!(general.get_coset(F::zero()), None);
        assert_eq!(general.get_coset(F::from(3)).unwrap().coset_offset(), F::from(3));
        let most = 1usize << F::TWO_ADICITY;
        assert_eq!(Radix2EvaluationDomain::<F>::new(most).unwrap().size(), most);
        assert_eq!(Radix2EvaluationDomain::<F>::new(most + 1), None);
        assert_eq!(Radix2EvaluationDomain::<F>::new(usize::MAX), None);
        let root = F::two_adic_root_of_unity();
        assert_eq!(root.pow([1 << (F::TWO_ADICITY - 1)]), -F::one());
        assert_eq!(F::get_root_of_unity(3), None);
    }

    pub fn polynomials<F: FftField>() {
        let a = DensePolynomial::<F>::from_coefficients_vec(drawn(21));
        let b = DensePolynomial::<F>::from_coefficients_slice(&drawn::<F>(13)[3..]);
        let x = F::from(98765);
        assert_eq!(a.degree(), 20);
        assert_eq!((&a * &b).evaluate(&x), a.evaluate(&x) * b.evaluate(&x));
        assert_eq!((&a + &b).evaluate(&x), a.evaluate(&x) + b.evaluate(&x));
        assert_eq!((&b - &a).evaluate(&x), b.evaluate(&x) - a.evaluate(&x));
        assert_eq!((-a.clone()).evaluate(&x), -a.evaluate(&x));
        assert_eq!((&a * x).evaluate(&x), a.evaluate(&x) * x);
        assert_eq!((&a - &a.clone()).coeffs(), []);
        let (q, r) = a.divide_with_q_and_r(&b).unwrap();
        assert!(r.degree() < b.degree());
        assert_eq!(q.clone() * b.clone() + r, a);
        assert_eq!(&a / &b, q);
        let pair = DenseOrSparsePolynomial::from(&a).divide_with_q_and_r(&b.clone().into()).unwrap();
        assert_eq!(pair.0, q);
        let zero = DensePolynomial::zero();
        assert_eq!(a.divide_with_q_and_r(&zero), None);
        assert_eq!(zero.divide_with_q_and_r(&zero), Some((zero.clone(), zero.clone())));
        assert_eq!(b.divide_with_q_and_r(&a), Some((zero.clone(), b.clone())));
        assert_eq!(&a * &zero, zero);
        assert_eq!((zero.degree(), zero.evaluate(&x)), (0, F::zero()));

        let points: Vec<F> = (1..=21).map(F::from).collect();
        let values = a.evaluate_at(&points);
        let pairs: Vec<_> = points.iter().copied().zip(values).collect();
        assert_eq!(DensePolynomial::from_points(&pairs), Some(a));
        assert_eq!(DensePolynomial::from_points(&[pairs[0], pairs[0]]), None);
        assert_eq!(DensePolynomial::<F>::from_points(&[]), Some(zero));
    }

    pub fn values<F: FftField>() {
        let domain = GeneralEvaluationDomain::<F>::new(32).unwrap();
        let a = DensePolynomial::<F>::from_coefficients_vec(drawn(16));
        let b = DensePolynomial::<F>::from_coefficients_vec(drawn(15));
        let (at_a, at_b) = (a.evaluate_over_domain_by_ref(domain), b.clone().evaluate_over_domain(domain));
        assert_eq!(at_a[3], a.evaluate(&domain.element(3)));
        let product = &at_a * &at_b;
        (0..32).for_each(|i| assert_eq!(product[i], at_a[i] * at_b[i]));
        assert_eq!(product.interpolate(), &a * &b);
        // as many as the shorter list has
        let fewer = Evaluations::from_vec_and_domain(at_b.evals[..5].to_vec(), domain);
        assert_eq!((&at_a * &fewer).evals, (&at_a * &at_b).evals[..5]);
        assert_eq!((&fewer * &at_a).evals, (&at_a * &at_b).evals[..5]);
        assert_eq!((&at_a + &at_b).interpolate_by_ref(), &a + &b);
        assert_eq!((&at_a - &at_b).interpolate(), &a - &b);
        assert_eq!(at_a.domain(), domain);
    }

    pub fn extensions<F: FftField>() {
        let table = DenseMultilinearExtension::<F>::from_evaluations_vec(4, drawn(16));
        let point = drawn::<F>(9)[5..].to_vec();
        let mut bound = table.clone();
        for (i, x) in point.iter().enumerate() {
            assert_eq!(bound.num_vars(), 4 - i);
            assert_eq!(bound.evaluate(&point[i..].to_vec()), table.evaluate(&point));
            bound = bound.fix_variables(&[*x]);
        }
        assert_eq!(bound.to_evaluations(), [table.evaluate(&point)]);
        assert_eq!(table.fix_variables(&point), bound);
        assert_eq!(table.fix_variables(&[]), table);
        for (i, value) in table.evaluations.iter().enumerate() {
            let corner = (0..4).map(|j| F::from((i >> j & 1) as u64)).collect();
            assert_eq!(table.evaluate(&corner), *value);
        }
    }

    pub fn sparse_extensions<F: FftField>() {
        let values = drawn::<F>(8);
        let mut entries: Vec<(usize, F)> =
            values.iter().enumerate().map(|(i, value)| (i * 5 % 8 + 8, *value)).collect();
        entries.insert(3, (entries[5].0, F::from(9)));
        let sparse = SparseMultilinearExtension::from_evaluations(4, &entries);
        let mut table = vec![F::zero(); 16];
        entries.iter().for_each(|(i, value)| table[*i] = *value);
        let dense = DenseMultilinearExtension::from_evaluations_slice(4, &table);
        assert_eq!((sparse.degree(), sparse.num_vars()), (4, 4));
        for shift in 0..4 {
            let point = drawn::<F>(12)[shift + 4..shift + 8].to_vec();
            assert_eq!(sparse.evaluate(&point), dense.evaluate(&point));
        }
        (0..16).for_each(|i| assert_eq!(sparse[i], dense[i]));
        // one entry alone, at the last of 2^63 corners
        let last = SparseMultilinearExtension::from_evaluations(63, &[(usize::MAX >> 1, F::from(7))]);
        assert_eq!(last.evaluate(&vec![F::from(2); 63]), F::from(7) * F::from(2).pow([63]));
        let zero = SparseMultilinearExtension::<F>::from_evaluations(0, &[]);
        assert_eq!(zero.evaluate(&vec![]), F::zero());
    }

    pub fn codes<F: FftField>() {
        let code = Code::<F>::new(5, 12).unwrap();
        assert_eq!((code.k(), code.n()), (5, 16));
        let messages = drawn::<F>(15);
        let codewords: Vec<F> = messages.chunks(5).flat_map(|message| code.encode(message).unwrap()).collect();
        let erased: Vec<bool> = (0..16).map(|i| i % 3 != 1).collect();
        let mut holed = codewords.clone();
        holed.iter_mut().enumerate().filter(|(i, _)| erased[i % 16]).for_each(|(_, item)| *item = F::zero());
        assert_eq!(code.messages(&holed, &erased).unwrap(), messages);
        code.restore_in_place(&mut holed, &erased).unwrap();
        assert_eq!(holed, codewords);
        let word: Vec<_> = (0..16).map(|i| (!erased[i]).then_some(codewords[i])).collect();
        assert_eq!(code.restore(&word).unwrap(), codewords[..16]);
        holed[1] += F::one();
        assert_eq!(code.restore_in_place(&mut holed, &[false; 16]), Err(RsError::NoCodeword));
        assert_eq!(code.messages(&holed, &[false; 16]), Err(RsError::NoCodeword));
        assert_eq!(code.restore(&word[1..]), Err(RsError::WrongLength));
        assert_eq!(code.restore(&[None; 16]), Err(RsError::TooManyErased));
        assert_eq!(code.restore_in_place(&mut holed[1..], &erased), Err(RsError::WrongLength));
        assert_eq!(code.messages(&holed, &erased[1..]), Err(RsError::WrongLength));
        assert_eq!(code.encode(&messages[..6]), Err(RsError::WrongLength));
        let systematic = code.encode_systematic(&messages[..5]).unwrap();
        assert_eq!(systematic[..5], messages[..5]);
        let word: Vec<_> = (0..16).map(|i| (!erased[i]).then_some(systematic[i])).collect();
        assert_eq!(code.restore(&word).unwrap(), systematic);
        assert_eq!(code.encode_systematic(&messages[..4]), Err(RsError::WrongLength));
        assert_eq!(code.encode(&[]).unwrap(), vec![F::zero(); 16]);
        assert_eq!(code.encode(&messages[..1]).unwrap(), vec![messages[0]; 16]);
        assert_eq!(code.messages(&[], &erased).unwrap(), []);
        assert_eq!(Code::<F>::new(0, 4), None);
        assert_eq!(Code::<F>::new(5, 4), None);
        assert_eq!(Code::<F>::new(1, usize::MAX), None);
    }

    /// Lists of any shape, in blocks of one of their longer columns or rows, of some, and of all.
    pub fn parts<F: FftField>() {
        for log in 0..=12 {
            let size = 1 << log;
            let items = drawn::<F>(size);
            for (i, threads) in [1, 2, 3, 4, 7].into_iter().enumerate() {
                let offset = [F::ONE, F::GENERATOR][i % 2];
                let values = Radix2EvaluationDomain::new_coset(size, offset).unwrap().fft(&items);
                for log_rows in [0, log / 3, (log + 1) / 2, log] {
                    let shape = [log_rows, log - log_rows];
                    let block = F::WORDS * 8 * [1, 3, size][(i + log_rows as usize) % 3] << shape[0].max(shape[1]);
                    let parts = Parts { shape, threads, block };
                    let mut list = items.clone();
                    parts.fft(&mut list, offset).unwrap();
                    assert_eq!(list, values, "{parts:?}");
                    parts.ifft(&mut list, offset).unwrap();
                    assert_eq!(list, items, "{parts:?}");
                }
            }
            for threads in [2, 7] {
                let parts = Parts { shape: [log / 2, log - log / 2], threads, block: 1 << 10 };
                let (left, right) = (&items[..(size + 1) / 2], &items[size / 2..]);
                let mut product = vec![F::ZERO; size];
                calls::multiply(F::NAME, words(left), words(right), words_mut(&mut product)).unwrap();
                assert_eq!(parts.product(left, right).unwrap(), product, "{parts:?}");
                // of fewer items and more
                let domain = Radix2EvaluationDomain::<F>::new(size).unwrap();
                let mut list = left.to_vec();
                parts.fft(&mut list, F::ONE).unwrap();
                assert_eq!(list, domain.fft(left), "{parts:?}");
                list.truncate(size / 2);
                let coeffs = domain.ifft(&list);
                parts.ifft(&mut list, F::ONE).unwrap();
                assert_eq!(list, coeffs, "{parts:?}");
                list.push(F::ONE);
                parts.fft(&mut list, F::ONE).unwrap();
                assert_eq!(list, domain.fft(&coeffs), "{parts:?}");
            }
        }
    }

    pub fn long_lists_in_parts<F: FftField>() {
        let coset = GeneralEvaluationDomain::<F>::new_coset(1 << 16, F::GENERATOR).unwrap();
        let items = drawn::<F>(1 << 16);
        let values = coset.fft(&items);
        for threads in [0, 1, 3] {
            let mut list = items.clone();
            parallel::fft_in_place(coset, &mut list, threads);
            assert_eq!(list, values);
            parallel::ifft_in_place(coset, &mut list, threads);
            assert_eq!(list, items);
        }
        let (left, right) = items.split_at(1 << 15);
        let [left, right] = [left, right].map(DensePolynomial::from_coefficients_slice);
        assert_eq!(parallel::mul(&left, &right, 2), &left * &right);
        let zero = DensePolynomial::zero();
        assert_eq!(parallel::mul(&left, &zero, 2), zero);
        assert_eq!(parallel::mul(&zero, &zero, 2), zero);
    }

    pub fn many_words<F: FftField>() {
        let code = Code::<F>::new(5, 12).unwrap();
        let erased: Vec<bool> = (0..16).map(|i| i % 3 != 1).collect();
        for (count, threads) in [(0, 2), (1, 2), (5000, 1), (5000, 2), (5000, 7)] {
            let messages = drawn::<F>(5 * count);
            let codewords: Vec<F> = messages.chunks(5).flat_map(|message| code.encode(message).unwrap()).collect();
            assert_eq!(parallel::encode(&code, &messages, threads).unwrap(), codewords);
            let mut holed = codewords.clone();
            holed.iter_mut().enumerate().filter(|(i, _)| erased[i % 16]).for_each(|(_, item)| *item = F::ONE);
            assert_eq!(parallel::messages(&code, &holed, &erased, threads).unwrap(), messages);
            let before = holed.clone();
            parallel::restore_in_place(&code, &mut holed, &erased, threads).unwrap();
            assert_eq!(holed, codewords);
            holed.copy_from_slice(&before);
            let none = [true; 16];
            if count > 0 {
                assert_eq!(parallel::messages(&code, &holed, &none, threads), Err(RsError::TooManyErased));
                // one of the last word's places is wrong, and nothing is changed
                let mut left = [false; 16];
                left[..10].copy_from_slice(&erased[..10]);
                let mut wrong = holed.clone();
                wrong[16 * count - 1] += F::ONE;
                let before = wrong.clone();
                let outcome = parallel::restore_in_place(&code, &mut wrong, &left, threads);
                assert_eq!(outcome, Err(RsError::NoCodeword));
                assert_eq!(wrong, before);
                assert_eq!(parallel::messages(&code, &wrong, &left, threads), Err(RsError::NoCodeword));
                assert_eq!(parallel::encode(&code, &messages[1..], threads), Err(RsError::WrongLength));
            }
            assert_eq!(parallel::restore_in_place(&code, &mut holed, &erased[1..], threads), Err(RsError::WrongLength));
            assert_eq!(parallel::messages(&code, &drawn::<F>(17), &erased, threads), Err(RsError::WrongLength));
        }
    }
}
