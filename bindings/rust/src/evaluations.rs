//! Polynomials by their values over a domain.

use crate::calls;
use crate::domain::{EvaluationDomain, GeneralEvaluationDomain};
use crate::field::{words, words_mut, FftField};
use crate::polynomial::{DensePolynomial, DenseUVPolynomial};
use std::ops::{Add, Index, Mul, Sub};

/// The values of a polynomial over a domain.
///
/// ```
/// use ark_poly_proved::{EvaluationDomain, Evaluations, Goldilocks, Radix2EvaluationDomain};
///
/// let domain = Radix2EvaluationDomain::<Goldilocks>::new(4).unwrap();
/// let squares = domain.elements().map(|x| x * x).collect();
/// let p = Evaluations::from_vec_and_domain(squares, domain).interpolate();
/// assert_eq!(p.coeffs, [0, 0, 1].map(Goldilocks::from));
/// ```
#[derive(Clone, Debug, PartialEq, Eq, Hash)]
pub struct Evaluations<F: FftField, D: EvaluationDomain<F> = GeneralEvaluationDomain<F>> {
    /// The values, in the order of the domain's elements.
    pub evals: Vec<F>,
    domain: D,
}

impl<F: FftField, D: EvaluationDomain<F>> Evaluations<F, D> {
    /// These values over this domain.
    pub fn from_vec_and_domain(evals: Vec<F>, domain: D) -> Self {
        Evaluations { evals, domain }
    }

    /// The domain.
    pub fn domain(&self) -> D {
        self.domain
    }

    /// The only polynomial with no more coefficients than the domain has elements that has these values.
    pub fn interpolate(self) -> DensePolynomial<F> {
        let mut coeffs = self.evals;
        self.domain.ifft_in_place(&mut coeffs);
        DensePolynomial::from_coefficients_vec(coeffs)
    }

    /// The same of a copy.
    pub fn interpolate_by_ref(&self) -> DensePolynomial<F> {
        DensePolynomial::from_coefficients_vec(self.domain.ifft(&self.evals))
    }

    fn each(&self, other: &Self, of: impl Fn(F, F) -> F) -> Self {
        assert_eq!(self.domain, other.domain, "domains differ");
        let pairs = self.evals.iter().zip(&other.evals);
        Self::from_vec_and_domain(pairs.map(|(a, b)| of(*a, *b)).collect(), self.domain)
    }
}

impl<F: FftField, D: EvaluationDomain<F>> Index<usize> for Evaluations<F, D> {
    type Output = F;

    fn index(&self, i: usize) -> &F {
        &self.evals[i]
    }
}

macro_rules! each {
    ($($op:ident $name:ident)*) => {
        $(impl<'a, F: FftField, D: EvaluationDomain<F>> $op<&'a Evaluations<F, D>> for &Evaluations<F, D> {
            type Output = Evaluations<F, D>;

            /// Value by value. Panics where the domains differ.
            fn $name(self, other: &'a Evaluations<F, D>) -> Evaluations<F, D> {
                self.each(other, $op::$name)
            }
        })*
    };
}

each! {
    Add add
    Sub sub
}

impl<'a, F: FftField, D: EvaluationDomain<F>> Mul<&'a Evaluations<F, D>> for &Evaluations<F, D> {
    type Output = Evaluations<F, D>;

    /// Value by value: the values of the product of the polynomials, by a call of the library. Panics where the domains differ.
    fn mul(self, other: &'a Evaluations<F, D>) -> Evaluations<F, D> {
        assert_eq!(self.domain, other.domain, "domains differ");
        let len = self.evals.len().min(other.evals.len());
        let mut evals = self.evals[..len].to_vec();
        calls::multiply_values(F::NAME, words_mut(&mut evals), words(&other.evals[..len])).expect("as many elements");
        Evaluations::from_vec_and_domain(evals, self.domain)
    }
}
