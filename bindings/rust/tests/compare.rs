//! Drawn commands are answered as the program `polyrun` answers them, whose path is in `POLYRUN`.
use ark_poly_proved::univariate::DensePolynomial;
use ark_poly_proved::{
    BabyBear, Bls12_381Fr, Bn254Fr, DenseMultilinearExtension, DenseUVPolynomial, EvaluationDomain, FftField,
    GeneralEvaluationDomain, Goldilocks, KoalaBear, Polynomial, F65537,
};
use std::env;
use std::process::Command;

const COMMANDS_A_FIELD: usize = 60;

/// Numbers that look drawn: the linear congruential generator of Knuth's MMIX.
struct Draws(u64);

impl Draws {
    fn below(&mut self, n: u64) -> u64 {
        self.0 = self.0.wrapping_mul(6364136223846793005).wrapping_add(1442695040888963407);
        (self.0 >> 33) % n
    }

    fn element<F: FftField>(&mut self) -> F {
        match self.below(4) {
            0 => F::from(self.below(3)),
            1 => -F::from(self.below(3)),
            _ => F::from(self.below(1 << 31)) * F::from(self.below(1 << 31)) + F::from(self.below(1 << 31)),
        }
    }

    fn list<F: FftField>(&mut self, len: u64) -> Vec<F> {
        (0..len).map(|_| self.element()).collect()
    }

    fn some<F: FftField>(&mut self) -> Vec<F> {
        let len = self.below(9);
        self.list(len)
    }
}

fn line<F: FftField>(items: &[F]) -> String {
    let words: Vec<_> = items.iter().map(F::to_string).collect();
    words.join(",")
}

/// A command, and what the package answers.
fn drawn<F: FftField>(draws: &mut Draws) -> (Vec<String>, String) {
    match draws.below(6) {
        command @ (0 | 1) => {
            let (k, h, items) = (draws.below(18) + 1, draws.element::<F>(), draws.some::<F>());
            let words = [["fft", "ifft"][command as usize].into(), k.to_string(), h.to_string(), line(&items)];
            let answer = match GeneralEvaluationDomain::new_coset(k as usize, h) {
                Some(domain) if command == 0 => line(&domain.fft(&items)),
                Some(domain) => line(&domain.ifft(&items)),
                None => "error 2: NoDomain".into(),
            };
            (words.into(), answer)
        }
        2 => {
            let (a, b) = (draws.some::<F>(), draws.some::<F>());
            let product = &DensePolynomial::from_coefficients_slice(&a) * &DensePolynomial::from_coefficients_slice(&b);
            (["mul".into(), line(&a), line(&b)].into(), line(&product.coeffs))
        }
        3 => {
            let (a, mut b) = (draws.some::<F>(), draws.some::<F>());
            b.push(F::ONE);
            let (dividend, divisor) =
                (DensePolynomial::from_coefficients_slice(&a), DensePolynomial::from_coefficients_slice(&b));
            let (quotient, remainder) = dividend.divide_with_q_and_r(&divisor).unwrap();
            (["div".into(), line(&a), line(&b)].into(), format!("{}\n{}", line(&quotient.coeffs), line(&remainder.coeffs)))
        }
        4 => {
            let (a, x) = (draws.some::<F>(), draws.element::<F>());
            let value = DensePolynomial::from_coefficients_slice(&a).evaluate(&x);
            (["eval".into(), line(&a), x.to_string()].into(), value.to_string())
        }
        _ => {
            let m = draws.below(4);
            let (table, point) = (draws.list::<F>(1 << m), draws.list::<F>(m));
            let words = ["mle".into(), m.to_string(), line(&table), line(&point)].into();
            let extension = DenseMultilinearExtension::from_evaluations_vec(m as usize, table);
            (words, extension.evaluate(&point).to_string())
        }
    }
}

fn compare<F: FftField>(field: &str, draws: &mut Draws) {
    let polyrun = env::var_os("POLYRUN").expect("the path of polyrun");
    for _ in 0..COMMANDS_A_FIELD {
        let (words, answer) = drawn::<F>(draws);
        let done = Command::new(&polyrun).arg(field).args(&words).output().expect("polyrun runs");
        assert_eq!(String::from_utf8(done.stdout).unwrap(), answer + "\n", "{field} {words:?}");
    }
}

#[test]
#[ignore = "takes the program polyrun"]
fn answers_are_those_of_polyrun() {
    let draws = &mut Draws(61);
    compare::<F65537>("65537", draws);
    compare::<BabyBear>("babybear", draws);
    compare::<KoalaBear>("koalabear", draws);
    compare::<Goldilocks>("goldilocks", draws);
    compare::<Bls12_381Fr>("bls12-381", draws);
    compare::<Bn254Fr>("bn254", draws);
}
