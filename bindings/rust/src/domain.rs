//! Domains, over which polynomials are transformed.

use crate::calls::{self, Refusal};
use crate::field::{words, words_mut, FftField};
use std::fmt::Debug;
use std::hash::Hash;

/// A domain: the elements `offset * w^i`, where `w` is a root of unity of the order of the domain's size.
pub trait EvaluationDomain<F: FftField>: Copy + Debug + Eq + Hash + Send + Sync + 'static {
    /// The domain of the least size with room for so many coefficients, with the offset 1, and `None` where all are smaller.
    fn new(num_coeffs: usize) -> Option<Self>;

    /// The domain of the same size with another offset, and `None` where that is 0.
    fn get_coset(&self, offset: F) -> Option<Self>;

    /// How many elements there are.
    fn size(&self) -> usize;

    /// The first element.
    fn coset_offset(&self) -> F;

    /// The root of unity by which an element follows another.
    fn group_gen(&self) -> F;

    /// The domain of `new` with another offset.
    fn new_coset(num_coeffs: usize, offset: F) -> Option<Self> {
        Self::new(num_coeffs)?.get_coset(offset)
    }

    /// The size of the domain of `new`.
    fn compute_size_of_domain(num_coeffs: usize) -> Option<usize> {
        Self::new(num_coeffs).map(|domain| domain.size())
    }

    /// The logarithm of the size, rounded up.
    fn log_size_of_group(&self) -> u64 {
        self.size().next_power_of_two().trailing_zeros() as u64
    }

    /// The size as an element.
    fn size_as_field_element(&self) -> F {
        F::from(self.size() as u64)
    }

    /// Element `i`.
    fn element(&self, i: usize) -> F {
        self.coset_offset() * self.group_gen().pow([i as u64])
    }

    /// All elements in order.
    fn elements(&self) -> Elements<F> {
        Elements { next: self.coset_offset(), ratio: self.group_gen(), left: self.size() }
    }

    /// The values over the domain of the polynomial with these coefficients, the lowest first. Coefficients beyond the size
    /// don't count.
    fn fft(&self, coeffs: &[F]) -> Vec<F> {
        let mut values = first(coeffs, self.size());
        self.fft_in_place(&mut values);
        values
    }

    /// The same in place; the list is made as long as the domain.
    fn fft_in_place(&self, coeffs: &mut Vec<F>) {
        coeffs.resize(self.size(), F::ZERO);
        expect_domain(calls::fft(F::NAME, words_mut(coeffs), words(&[self.coset_offset()])));
    }

    /// The coefficients of the only polynomial with fewer coefficients than this that has these values over the domain. Where
    /// values are missing they are 0.
    fn ifft(&self, evals: &[F]) -> Vec<F> {
        let mut coeffs = first(evals, self.size());
        self.ifft_in_place(&mut coeffs);
        coeffs
    }

    /// The same in place; the list is made as long as the domain.
    fn ifft_in_place(&self, evals: &mut Vec<F>) {
        evals.resize(self.size(), F::ZERO);
        expect_domain(calls::ifft(F::NAME, words_mut(evals), words(&[self.coset_offset()])));
    }

    /// The weights of the values over the domain in the value at `tau`.
    ///
    /// ```
    /// use ark_poly_proved::{EvaluationDomain, Field, GeneralEvaluationDomain, Goldilocks};
    ///
    /// let domain = GeneralEvaluationDomain::<Goldilocks>::new(8).unwrap();
    /// let weights = domain.evaluate_all_lagrange_coefficients(Goldilocks::from(5));
    /// assert!(weights.iter().sum::<Goldilocks>().is_one());
    /// ```
    fn evaluate_all_lagrange_coefficients(&self, tau: F) -> Vec<F> {
        let mut weights = vec![F::ZERO; self.size()];
        let offset = [self.coset_offset()];
        expect_domain(calls::lagrange(F::NAME, words(&offset), words(&[tau]), words_mut(&mut weights)));
        weights
    }

    /// The value at `tau` of the polynomial that is 0 at the domain's elements, `x^n - offset^n`.
    fn evaluate_vanishing_polynomial(&self, tau: F) -> F {
        let n = [self.size() as u64];
        tau.pow(n) - self.coset_offset().pow(n)
    }
}

fn first<F: FftField>(list: &[F], n: usize) -> Vec<F> {
    let mut items = Vec::with_capacity(n);
    items.extend_from_slice(&list[..list.len().min(n)]);
    items
}

// A domain has a size of the field, and no offset 0.
pub(crate) fn expect_domain(outcome: Result<(), Refusal>) {
    outcome.expect("a domain of the library's");
}

/// The elements of a domain.
#[derive(Clone, Debug)]
pub struct Elements<F: FftField> {
    next: F,
    ratio: F,
    left: usize,
}

impl<F: FftField> Iterator for Elements<F> {
    type Item = F;

    fn next(&mut self) -> Option<F> {
        self.left = self.left.checked_sub(1)?;
        let element = self.next;
        self.next *= self.ratio;
        Some(element)
    }

    fn size_hint(&self) -> (usize, Option<usize>) {
        (self.left, Some(self.left))
    }
}

impl<F: FftField> ExactSizeIterator for Elements<F> {}

/// A domain whose size is a power of two.
///
/// ```
/// use ark_poly_proved::{EvaluationDomain, Field, KoalaBear, Radix2EvaluationDomain};
///
/// let domain = Radix2EvaluationDomain::<KoalaBear>::new(5).unwrap();
/// assert_eq!(domain.size(), 8);
/// let coset = domain.get_coset(KoalaBear::from(3)).unwrap();
/// assert_eq!(coset.fft(&[KoalaBear::zero(), KoalaBear::one()]), coset.elements().collect::<Vec<_>>());
/// ```
#[derive(Clone, Copy, Debug, PartialEq, Eq, Hash)]
pub struct Radix2EvaluationDomain<F: FftField> {
    size: usize,
    group_gen: F,
    offset: F,
}

impl<F: FftField> EvaluationDomain<F> for Radix2EvaluationDomain<F> {
    fn new(num_coeffs: usize) -> Option<Self> {
        let size = calls::domain_size(F::NAME, num_coeffs as u64).ok()?;
        Some(Radix2EvaluationDomain {
            size: size.try_into().ok()?,
            group_gen: F::get_root_of_unity(size)?,
            offset: F::ONE,
        })
    }

    fn get_coset(&self, offset: F) -> Option<Self> {
        (!offset.is_zero()).then_some(Radix2EvaluationDomain { offset, ..*self })
    }

    fn size(&self) -> usize {
        self.size
    }

    fn coset_offset(&self) -> F {
        self.offset
    }

    fn group_gen(&self) -> F {
        self.group_gen
    }
}

/// A domain of any kind that the field has: over the fields of this crate these are the radix 2 ones.
#[derive(Clone, Copy, Debug, PartialEq, Eq, Hash)]
#[non_exhaustive]
pub enum GeneralEvaluationDomain<F: FftField> {
    /// A domain whose size is a power of two.
    Radix2(Radix2EvaluationDomain<F>),
}

impl<F: FftField> GeneralEvaluationDomain<F> {
    fn inner(&self) -> &Radix2EvaluationDomain<F> {
        match self {
            GeneralEvaluationDomain::Radix2(domain) => domain,
        }
    }
}

impl<F: FftField> EvaluationDomain<F> for GeneralEvaluationDomain<F> {
    fn new(num_coeffs: usize) -> Option<Self> {
        Radix2EvaluationDomain::new(num_coeffs).map(GeneralEvaluationDomain::Radix2)
    }

    fn get_coset(&self, offset: F) -> Option<Self> {
        self.inner().get_coset(offset).map(GeneralEvaluationDomain::Radix2)
    }

    fn size(&self) -> usize {
        self.inner().size()
    }

    fn coset_offset(&self) -> F {
        self.inner().coset_offset()
    }

    fn group_gen(&self) -> F {
        self.inner().group_gen()
    }
}
