//! Sum-checks: that a sum of products of tables, over all corners, is an element, by a proof in bytes that needs no answers.
//!
//! ```
//! use ark_poly_proved::sum_check::{prove, value_at, verify, Addend};
//! use ark_poly_proved::BabyBear;
//!
//! // two tables of 2^2 values, one after another; the product of both, and three times the second
//! let tables = [1, 2, 3, 4, 5, 6, 7, 8].map(BabyBear::from);
//! let addends = [Addend::new(BabyBear::from(1), [0, 1]), Addend::new(BabyBear::from(3), [1])];
//! let (sum, proof) = prove(b"my protocol", b"these tables", 2, 2, &tables, &addends)?;
//! assert_eq!(sum, BabyBear::from(148));
//!
//! let (point, value) = verify(b"my protocol", b"these tables", 2, 2, sum, &proof)?;
//! assert_eq!(value_at(2, 2, &tables, &addends, &point)?, value);
//! # Ok::<(), ark_poly_proved::sum_check::SumCheckError>(())
//! ```
//!
//! A sum is over `num_vars` variables, 63 at most. A table has the `2^num_vars` values of a multilinear polynomial at the
//! corners, as a [`DenseMultilinearExtension`](crate::DenseMultilinearExtension), and tables stand one after another. The
//! `degree`, of 1 to 65535, is the number of factors of the longest addend, and 1 where none has any.
//!
//! Each challenge is drawn by SHA-256 from what was said before it (Fiat-Shamir). The label names the protocol. **The statement
//! must fix tables and addends**, as their own bytes or a commitment to them do: otherwise a prover may choose tables after it
//! sees the challenges.

use crate::calls::{self, Refusal, SumShape};
use crate::field::{words, words_mut, BabyBear, Bls12_381Fr, Bn254Fr, Field, Goldilocks, KoalaBear};
use std::error::Error;
use std::fmt::{self, Debug, Display};
use std::hash::Hash;
use std::slice;

/// A field over which sums are checked.
pub trait SumField: Field {
    /// A challenge, by its coefficients: an element of a field of 2^123 elements or more that this one lies in.
    type Challenge: Copy + Debug + Default + Eq + Hash + Send + Sync + AsRef<[Self]> + AsMut<[Self]>;
}

/// Where y^4 is 11, by the coefficients of 1, y^2, y and y^3.
impl SumField for BabyBear {
    type Challenge = [Self; 4];
}

/// Where y^4 is 3, by the coefficients of 1, y^2, y and y^3.
impl SumField for KoalaBear {
    type Challenge = [Self; 4];
}

/// Where y^2 is 7, by the coefficients of 1 and y.
impl SumField for Goldilocks {
    type Challenge = [Self; 2];
}

/// Of the field itself.
impl SumField for Bls12_381Fr {
    type Challenge = [Self; 1];
}

/// Of the field itself.
impl SumField for Bn254Fr {
    type Challenge = [Self; 1];
}

/// A coefficient times a product of tables.
#[derive(Clone, Debug, PartialEq, Eq, Hash)]
pub struct Addend<F: SumField> {
    /// What the product is multiplied by.
    pub coefficient: F,
    /// The place of each factor's table, the first one being 0. A table may be a factor several times. Without factors the
    /// addend is its coefficient.
    pub factors: Vec<usize>,
}

impl<F: SumField> Addend<F> {
    /// The addend of these.
    pub fn new(coefficient: F, factors: impl Into<Vec<usize>>) -> Self {
        Addend { coefficient, factors: factors.into() }
    }
}

/// Why a call over sums refused.
#[derive(Clone, Copy, Debug, PartialEq, Eq, Hash)]
#[non_exhaustive]
pub enum SumCheckError {
    /// There are more than 63 variables, the degree is none of 1 to 65535, tables aren't whole, a proof has not as many bytes
    /// as it must, or a point not as many challenges.
    WrongLength,
    /// A factor's table isn't there, or the longest addend has not as many factors as the degree.
    WrongAddends,
    /// The bytes are no proof of the sum.
    Refused,
}

impl Display for SumCheckError {
    fn fmt(&self, f: &mut fmt::Formatter<'_>) -> fmt::Result {
        f.write_str(match self {
            SumCheckError::WrongLength => "WrongLength",
            SumCheckError::WrongAddends => "WrongAddends",
            SumCheckError::Refused => "Refused",
        })
    }
}

impl Error for SumCheckError {}

fn outcome<T>(outcome: Result<T, Refusal>) -> Result<T, SumCheckError> {
    outcome.map_err(|refusal| match refusal {
        Refusal::Length => SumCheckError::WrongLength,
        Refusal::Addends => SumCheckError::WrongAddends,
        Refusal::Refused => SumCheckError::Refused,
        // the field has challenges, and numbers are elements
        other => unreachable!("{other:?} of a sum"),
    })
}

/// How many bytes a proof has.
pub fn proof_size<F: SumField>(num_vars: usize, degree: usize) -> Result<usize, SumCheckError> {
    let size = outcome(calls::sum_proof_size(F::NAME, shape(num_vars, degree)))?;
    Ok(size as usize)
}

/// The sum over all corners, and a proof of it, which [`verify`] takes with the same label and statement.
pub fn prove<F: SumField>(
    label: &[u8],
    statement: &[u8],
    num_vars: usize,
    degree: usize,
    tables: &[F],
    addends: &[Addend<F>],
) -> Result<(F, Vec<u8>), SumCheckError> {
    let (said, shape) = ([label, statement], shape(num_vars, degree));
    let (mut sum, mut proof) = (F::ZERO, vec![0; proof_size::<F>(num_vars, degree)?]);
    let (addends, place) = (words_of(addends), words_mut(slice::from_mut(&mut sum)));
    outcome(calls::sum_prove(F::NAME, said, shape, words(tables), &addends, &mut proof, place))?;
    Ok((sum, proof))
}

/// What is left to check of a proof of this sum: a point, and the value there of the sum of products, which [`value_at`] finds.
/// If it is that, the sum is true, or one of the point's challenges is unlucky: one of at most `degree`. `Refused` where the
/// bytes are no proof, and `WrongLength` where they are not [`proof_size`] bytes.
///
/// ```
/// use ark_poly_proved::sum_check::{prove, verify, Addend, SumCheckError};
/// use ark_poly_proved::Goldilocks;
///
/// let table = [1, 2, 3, 4].map(Goldilocks::from);
/// let (sum, proof) = prove(b"my protocol", b"1 to 4", 2, 1, &table, &[Addend::new(Goldilocks::from(1), [0])])?;
/// assert!(verify(b"my protocol", b"1 to 4", 2, 1, sum, &proof).is_ok());
/// assert_eq!(verify(b"my protocol", b"1 to 4", 2, 1, sum + sum, &proof), Err(SumCheckError::Refused));
/// # Ok::<(), SumCheckError>(())
/// ```
pub fn verify<F: SumField>(
    label: &[u8],
    statement: &[u8],
    num_vars: usize,
    degree: usize,
    sum: F,
    proof: &[u8],
) -> Result<(Vec<F::Challenge>, F::Challenge), SumCheckError> {
    // (so that no room is made for too many variables)
    proof_size::<F>(num_vars, degree)?;
    let (said, shape, mut value) = ([label, statement], shape(num_vars, degree), F::Challenge::default());
    let mut point = vec![F::ZERO; num_vars * value.as_ref().len()];
    let (sum, place) = (words(slice::from_ref(&sum)), words_mut(value.as_mut()));
    outcome(calls::sum_verify(F::NAME, said, shape, sum, proof, words_mut(&mut point), place))?;
    Ok((challenges(&point), value))
}

/// The value of such a sum of products at a point of `num_vars` challenges. Of one table and an addend with the coefficient 1
/// and this factor alone it is the value of the table's multilinear polynomial.
pub fn value_at<F: SumField>(
    num_vars: usize,
    degree: usize,
    tables: &[F],
    addends: &[Addend<F>],
    point: &[F::Challenge],
) -> Result<F::Challenge, SumCheckError> {
    let point: Vec<F> = point.iter().flat_map(|challenge| challenge.as_ref()).copied().collect();
    let (shape, mut value) = (shape(num_vars, degree), F::Challenge::default());
    let (addends, place) = (words_of(addends), words_mut(value.as_mut()));
    outcome(calls::sum_value(F::NAME, shape, words(tables), &addends, words(&point), place))?;
    Ok(value)
}

/// The challenges of these coefficients, one after another.
pub(crate) fn challenges<F: SumField>(coefficients: &[F]) -> Vec<F::Challenge> {
    let degree = F::Challenge::default().as_ref().len();
    let of_each = coefficients.chunks(degree).map(|some| {
        let mut challenge = F::Challenge::default();
        challenge.as_mut().copy_from_slice(some);
        challenge
    });
    of_each.collect()
}

/// What 32 bits don't hold is refused as the greatest number that they do.
fn shape(num_vars: usize, degree: usize) -> SumShape {
    [num_vars, degree].map(|number| u32::try_from(number).unwrap_or(u32::MAX))
}

/// Of each addend its coefficient, the number of its factors, and their places.
fn words_of<F: SumField>(addends: &[Addend<F>]) -> Vec<u64> {
    let mut spelled = Vec::new();
    for addend in addends {
        spelled.extend_from_slice(words(slice::from_ref(&addend.coefficient)));
        spelled.push(addend.factors.len() as u64);
        spelled.extend(addend.factors.iter().map(|place| *place as u64));
    }
    spelled
}
