//! Multilinear extensions by their tables, and by the entries of these.

use crate::calls;
use crate::field::{words, words_mut, Field};
use crate::polynomial::Polynomial;
use std::collections::BTreeMap;
use std::ops::Index;

/// A polynomial in several variables, linear in each, by its values at the corners.
pub trait MultilinearExtension<F: Field>: Polynomial<F, Point = Vec<F>> + Sized {
    /// How many variables there are.
    fn num_vars(&self) -> usize;

    /// The polynomial in the other variables, where the first ones are bound to these elements.
    fn fix_variables(&self, partial_point: &[F]) -> Self;

    /// The values at all corners; variable `j` is bit `j` of the place.
    fn to_evaluations(&self) -> Vec<F>;
}

/// A multilinear polynomial by all its values at the corners.
///
/// ```
/// use ark_poly_proved::{DenseMultilinearExtension, F65537, MultilinearExtension, Polynomial};
///
/// let table = DenseMultilinearExtension::from_evaluations_vec(2, [2, 3, 2, 6].map(F65537::from).to_vec());
/// let point = [1, 17].map(F65537::from);
/// assert_eq!(table.evaluate(&point.to_vec()), F65537::from(54));
/// assert_eq!(table.fix_variables(&point[..1]).to_evaluations(), [3, 6].map(F65537::from));
/// ```
#[derive(Clone, Debug, PartialEq, Eq, Hash)]
pub struct DenseMultilinearExtension<F: Field> {
    /// The values; variable `j` is bit `j` of the place.
    pub evaluations: Vec<F>,
    /// How many variables there are.
    pub num_vars: usize,
}

impl<F: Field> DenseMultilinearExtension<F> {
    /// The polynomial with these `2^num_vars` values. Panics where there are more or fewer.
    pub fn from_evaluations_vec(num_vars: usize, evaluations: Vec<F>) -> Self {
        assert_eq!(Some(evaluations.len()), 1usize.checked_shl(num_vars as u32), "there are 2^num_vars values");
        DenseMultilinearExtension { evaluations, num_vars }
    }

    /// The same of a slice.
    pub fn from_evaluations_slice(num_vars: usize, evaluations: &[F]) -> Self {
        Self::from_evaluations_vec(num_vars, evaluations.to_vec())
    }
}

impl<F: Field> Polynomial<F> for DenseMultilinearExtension<F> {
    type Point = Vec<F>;

    fn degree(&self) -> usize {
        self.num_vars
    }

    /// Panics where the point hasn't an element for each variable.
    fn evaluate(&self, point: &Vec<F>) -> F {
        assert_eq!(point.len(), self.num_vars, "the point has an element for each variable");
        let mut value = [F::ZERO];
        calls::multilinear_evaluate(F::NAME, words(&self.evaluations), words(point), words_mut(&mut value))
            .expect("a table of 2^num_vars values");
        value[0]
    }
}

impl<F: Field> MultilinearExtension<F> for DenseMultilinearExtension<F> {
    fn num_vars(&self) -> usize {
        self.num_vars
    }

    /// Panics where there are more elements than variables.
    fn fix_variables(&self, partial_point: &[F]) -> Self {
        let num_vars = self.num_vars.checked_sub(partial_point.len()).expect("no more elements than variables");
        let mut evaluations = vec![F::ZERO; 1 << num_vars];
        calls::multilinear_fix(F::NAME, words(&self.evaluations), words(partial_point), words_mut(&mut evaluations))
            .expect("a table of 2^num_vars values");
        DenseMultilinearExtension { evaluations, num_vars }
    }

    fn to_evaluations(&self) -> Vec<F> {
        self.evaluations.clone()
    }
}

impl<F: Field> Index<usize> for DenseMultilinearExtension<F> {
    type Output = F;

    fn index(&self, i: usize) -> &F {
        &self.evaluations[i]
    }
}

/// A multilinear polynomial by some of its values at the corners; all others are zero.
///
/// ```
/// use ark_poly_proved::{F65537, Polynomial, SparseMultilinearExtension};
///
/// let entries = [(2, F65537::from(5)), (0, F65537::from(7))];
/// let table = SparseMultilinearExtension::from_evaluations(40, &entries);
/// let mut point = vec![F65537::from(0); 40];
/// point[1] = F65537::from(3);
/// assert_eq!(table.evaluate(&point), F65537::from(3 * 5 - 2 * 7));
/// assert_eq!((table[0], table[1]), (F65537::from(7), F65537::from(0)));
/// ```
#[derive(Clone, Debug, PartialEq, Eq, Hash)]
pub struct SparseMultilinearExtension<F: Field> {
    /// The values by their places; variable `j` is bit `j` of the place.
    pub evaluations: BTreeMap<usize, F>,
    /// How many variables there are.
    pub num_vars: usize,
    zero: F,
}

impl<F: Field> SparseMultilinearExtension<F> {
    /// The polynomial with these values at these places, in any order; the last value of a place counts. Panics for more than 63
    /// variables, and where a place isn't below `2^num_vars`.
    pub fn from_evaluations<'a>(num_vars: usize, evaluations: impl IntoIterator<Item = &'a (usize, F)>) -> Self {
        assert!(num_vars < 64, "no more than 63 variables");
        let evaluations: BTreeMap<usize, F> = evaluations.into_iter().copied().collect();
        assert!(evaluations.keys().all(|place| place >> num_vars == 0), "places below 2^num_vars");
        SparseMultilinearExtension { evaluations, num_vars, zero: F::ZERO }
    }

    /// How many variables there are.
    pub fn num_vars(&self) -> usize {
        self.num_vars
    }
}

impl<F: Field> Polynomial<F> for SparseMultilinearExtension<F> {
    type Point = Vec<F>;

    fn degree(&self) -> usize {
        self.num_vars
    }

    /// Panics where the point hasn't an element for each variable.
    fn evaluate(&self, point: &Vec<F>) -> F {
        assert_eq!(point.len(), self.num_vars, "the point has an element for each variable");
        let places: Vec<u64> = self.evaluations.keys().map(|place| *place as u64).collect();
        let values: Vec<F> = self.evaluations.values().copied().collect();
        let mut value = [F::ZERO];
        calls::multilinear_evaluate_sparse(F::NAME, &places, words(&values), words(point), words_mut(&mut value))
            .expect("places below 2^num_vars");
        value[0]
    }
}

impl<F: Field> Index<usize> for SparseMultilinearExtension<F> {
    type Output = F;

    fn index(&self, i: usize) -> &F {
        self.evaluations.get(&i).unwrap_or(&self.zero)
    }
}
