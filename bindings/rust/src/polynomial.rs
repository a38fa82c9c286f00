//! Polynomials in one variable by their coefficients.

use crate::calls;
use crate::domain::EvaluationDomain;
use crate::evaluations::Evaluations;
use crate::field::{words, words_mut, FftField, Field};
use std::borrow::Cow;
use std::ops::{Add, AddAssign, Div, Mul, Neg, Sub, SubAssign};

/// A polynomial over a field, in any number of variables.
pub trait Polynomial<F: Field> {
    /// Where it has a value.
    type Point;

    /// Its degree, 0 of the zero polynomial.
    fn degree(&self) -> usize;

    /// Its value at a point.
    fn evaluate(&self, point: &Self::Point) -> F;
}

/// A polynomial in one variable by its coefficients.
pub trait DenseUVPolynomial<F: Field>: Polynomial<F, Point = F> + Sized {
    /// The polynomial with these coefficients, the lowest first.
    fn from_coefficients_slice(coeffs: &[F]) -> Self {
        Self::from_coefficients_vec(coeffs.to_vec())
    }

    /// The polynomial with these coefficients, the lowest first.
    fn from_coefficients_vec(coeffs: Vec<F>) -> Self;

    /// Its coefficients, of which the last isn't 0.
    fn coeffs(&self) -> &[F];
}

/// A polynomial in one variable by its coefficients, the lowest first, of which the last isn't 0.
///
/// ```
/// use ark_poly_proved::univariate::DensePolynomial;
/// use ark_poly_proved::{DenseUVPolynomial, F65537, Polynomial};
///
/// let left = DensePolynomial::from_coefficients_vec([4, 8, 5, 1].map(F65537::from).to_vec());
/// let right = DensePolynomial::from_coefficients_vec([1, 1].map(F65537::from).to_vec());
/// let (quotient, remainder) = left.divide_with_q_and_r(&right).unwrap();
/// assert_eq!(quotient.coeffs(), [4, 4, 1].map(F65537::from));
/// assert_eq!(&(&quotient * &right) + &remainder, left);
/// assert_eq!(left.evaluate(&F65537::from(2)), F65537::from(48));
/// ```
#[derive(Clone, Debug, Default, PartialEq, Eq, Hash)]
pub struct DensePolynomial<F: Field> {
    /// The coefficients.
    pub coeffs: Vec<F>,
}

impl<F: Field> DensePolynomial<F> {
    /// The zero polynomial.
    pub fn zero() -> Self {
        DensePolynomial { coeffs: Vec::new() }
    }

    /// Whether it is the zero polynomial.
    pub fn is_zero(&self) -> bool {
        self.coeffs.iter().all(Field::is_zero)
    }

    /// The quotient and the remainder: `self = quotient * divisor + remainder`, where the remainder has a lower degree than
    /// the divisor. `None` where the divisor is zero, and this isn't.
    pub fn divide_with_q_and_r(&self, divisor: &Self) -> Option<(Self, Self)> {
        if self.is_zero() {
            return Some((Self::zero(), Self::zero()));
        }
        let mut quotient = vec![F::ZERO; self.coeffs.len()];
        let mut remainder = vec![F::ZERO; divisor.coeffs.len()];
        calls::divide(
            F::NAME,
            words(&self.coeffs),
            words(&divisor.coeffs),
            words_mut(&mut quotient),
            words_mut(&mut remainder),
        )
        .ok()?;
        Some((Self::from_coefficients_vec(quotient), Self::from_coefficients_vec(remainder)))
    }

    /// The values at points of one's own.
    pub fn evaluate_at(&self, points: &[F]) -> Vec<F> {
        let mut values = vec![F::ZERO; points.len()];
        calls::evaluate(F::NAME, words(&self.coeffs), words(points), words_mut(&mut values)).expect("elements");
        values
    }

    /// The only polynomial with no more coefficients than points that has these values at these points, a pair for each:
    /// `None` where two points are equal.
    ///
    /// ```
    /// use ark_poly_proved::{Bn254Fr, DensePolynomial};
    ///
    /// let points = [1, 2, 3].map(Bn254Fr::from);
    /// let squares = points.map(|x| (x, x * x));
    /// let p = DensePolynomial::from_points(&squares).unwrap();
    /// assert_eq!(p.coeffs, [0, 0, 1].map(Bn254Fr::from));
    /// ```
    pub fn from_points(pairs: &[(F, F)]) -> Option<Self> {
        let (points, values): (Vec<F>, Vec<F>) = pairs.iter().copied().unzip();
        let mut coeffs = vec![F::ZERO; pairs.len()];
        calls::interpolate(F::NAME, words(&points), words(&values), words_mut(&mut coeffs)).ok()?;
        Some(Self::from_coefficients_vec(coeffs))
    }
}

impl<F: FftField> DensePolynomial<F> {
    /// Its values over a domain, which has room for its coefficients.
    pub fn evaluate_over_domain<D: EvaluationDomain<F>>(self, domain: D) -> Evaluations<F, D> {
        assert!(self.coeffs.len() <= domain.size(), "the domain has no room for the polynomial");
        let mut evals = self.coeffs;
        domain.fft_in_place(&mut evals);
        Evaluations::from_vec_and_domain(evals, domain)
    }

    /// The same of a copy.
    pub fn evaluate_over_domain_by_ref<D: EvaluationDomain<F>>(&self, domain: D) -> Evaluations<F, D> {
        self.clone().evaluate_over_domain(domain)
    }
}

impl<F: Field> Polynomial<F> for DensePolynomial<F> {
    type Point = F;

    fn degree(&self) -> usize {
        self.coeffs.iter().rposition(|coeff| !coeff.is_zero()).unwrap_or(0)
    }

    fn evaluate(&self, point: &F) -> F {
        let mut value = [F::ZERO];
        calls::evaluate(F::NAME, words(&self.coeffs), words(&[*point]), words_mut(&mut value)).expect("elements");
        value[0]
    }
}

impl<F: Field> DenseUVPolynomial<F> for DensePolynomial<F> {
    fn from_coefficients_vec(mut coeffs: Vec<F>) -> Self {
        let len = coeffs.iter().rposition(|coeff| !coeff.is_zero()).map_or(0, |last| last + 1);
        coeffs.truncate(len);
        DensePolynomial { coeffs }
    }

    fn coeffs(&self) -> &[F] {
        &self.coeffs
    }
}

impl<'a, F: Field> Mul<&'a DensePolynomial<F>> for &DensePolynomial<F> {
    type Output = DensePolynomial<F>;

    /// The product.
    ///
    /// Panics where the library has no way to a product so long: over the fields of this crate, one that no domain has
    /// room for.
    fn mul(self, other: &'a DensePolynomial<F>) -> DensePolynomial<F> {
        if self.is_zero() || other.is_zero() {
            return DensePolynomial::zero();
        }
        let mut product = vec![F::ZERO; self.coeffs.len() + other.coeffs.len() - 1];
        calls::multiply(F::NAME, words(&self.coeffs), words(&other.coeffs), words_mut(&mut product))
            .expect("a domain with room for the product");
        DensePolynomial::from_coefficients_vec(product)
    }
}

impl<F: Field> Mul for DensePolynomial<F> {
    type Output = DensePolynomial<F>;

    fn mul(self, other: DensePolynomial<F>) -> DensePolynomial<F> {
        &self * &other
    }
}

impl<F: Field> Mul<F> for &DensePolynomial<F> {
    type Output = DensePolynomial<F>;

    fn mul(self, factor: F) -> DensePolynomial<F> {
        DensePolynomial::from_coefficients_vec(self.coeffs.iter().map(|coeff| *coeff * factor).collect())
    }
}

impl<'a, F: Field> Div<&'a DensePolynomial<F>> for &DensePolynomial<F> {
    type Output = DensePolynomial<F>;

    /// The quotient. Panics where the divisor is zero.
    fn div(self, divisor: &'a DensePolynomial<F>) -> DensePolynomial<F> {
        self.divide_with_q_and_r(divisor).expect("division by zero").0
    }
}

impl<'a, F: Field> AddAssign<&'a DensePolynomial<F>> for DensePolynomial<F> {
    fn add_assign(&mut self, other: &'a DensePolynomial<F>) {
        let mut sums = std::mem::take(&mut self.coeffs);
        sums.resize(sums.len().max(other.coeffs.len()), F::ZERO);
        sums.iter_mut().zip(&other.coeffs).for_each(|(sum, coeff)| *sum += coeff);
        *self = Self::from_coefficients_vec(sums);
    }
}

impl<'a, F: Field> SubAssign<&'a DensePolynomial<F>> for DensePolynomial<F> {
    fn sub_assign(&mut self, other: &'a DensePolynomial<F>) {
        let mut differences = std::mem::take(&mut self.coeffs);
        differences.resize(differences.len().max(other.coeffs.len()), F::ZERO);
        differences.iter_mut().zip(&other.coeffs).for_each(|(difference, coeff)| *difference -= coeff);
        *self = Self::from_coefficients_vec(differences);
    }
}

impl<'a, F: Field> Add<&'a DensePolynomial<F>> for &DensePolynomial<F> {
    type Output = DensePolynomial<F>;

    fn add(self, other: &'a DensePolynomial<F>) -> DensePolynomial<F> {
        let mut sum = self.clone();
        sum += other;
        sum
    }
}

impl<F: Field> Add for DensePolynomial<F> {
    type Output = DensePolynomial<F>;

    fn add(self, other: DensePolynomial<F>) -> DensePolynomial<F> {
        &self + &other
    }
}

impl<'a, F: Field> Sub<&'a DensePolynomial<F>> for &DensePolynomial<F> {
    type Output = DensePolynomial<F>;

    fn sub(self, other: &'a DensePolynomial<F>) -> DensePolynomial<F> {
        let mut difference = self.clone();
        difference -= other;
        difference
    }
}

impl<F: Field> Sub for DensePolynomial<F> {
    type Output = DensePolynomial<F>;

    fn sub(self, other: DensePolynomial<F>) -> DensePolynomial<F> {
        &self - &other
    }
}

impl<F: Field> Neg for DensePolynomial<F> {
    type Output = DensePolynomial<F>;

    fn neg(mut self) -> DensePolynomial<F> {
        self.coeffs.iter_mut().for_each(|coeff| *coeff = -*coeff);
        self
    }
}

/// What ark-poly divides: here a dense polynomial, borrowed or not.
#[derive(Clone, Debug, PartialEq, Eq)]
pub struct DenseOrSparsePolynomial<'a, F: Field>(Cow<'a, DensePolynomial<F>>);

impl<'a, F: Field> From<&'a DensePolynomial<F>> for DenseOrSparsePolynomial<'a, F> {
    fn from(polynomial: &'a DensePolynomial<F>) -> Self {
        DenseOrSparsePolynomial(Cow::Borrowed(polynomial))
    }
}

impl<F: Field> From<DensePolynomial<F>> for DenseOrSparsePolynomial<'_, F> {
    fn from(polynomial: DensePolynomial<F>) -> Self {
        DenseOrSparsePolynomial(Cow::Owned(polynomial))
    }
}

impl<F: Field> DenseOrSparsePolynomial<'_, F> {
    /// As [`DensePolynomial::divide_with_q_and_r`].
    pub fn divide_with_q_and_r(&self, divisor: &Self) -> Option<(DensePolynomial<F>, DensePolynomial<F>)> {
        self.0.divide_with_q_and_r(&divisor.0)
    }
}
