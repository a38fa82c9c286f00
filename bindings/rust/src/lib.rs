//! Polynomials, transforms, multilinear extensions and Reed-Solomon codes over prime fields, in ark-poly's own names, sum-checks,
//! and files in pieces.
//!
//! ```
//! use ark_poly_proved::{BabyBear, EvaluationDomain, Radix2EvaluationDomain};
//!
//! let domain = Radix2EvaluationDomain::<BabyBear>::new(4).unwrap();
//! let coeffs = [1, 2, 3, 4].map(BabyBear::from);
//! let values = domain.fft(&coeffs); // values[i] is the sum over j of coeffs[j] * domain.element(i)^j
//! assert_eq!(values[0], BabyBear::from(10));
//! assert_eq!(domain.ifft(&values), coeffs);
//! ```
//!
//! # What is proved
//!
//! The calls of the library: transforms and their inverses, Lagrange's weights, products, quotients, values and interpolation
//! of polynomials, products of their [`Evaluations`], values and bound variables of multilinear extensions, sums over the cube with
//! their proofs, all of codes and of pieces, and the inverse of an element. Each takes a list of elements where it stands, without a copy. Not proved is what this
//! crate adds: sums, products and powers of single elements, sums of lists, how threads share a list, and that the lists of the
//! library are these types; tests compare them with the library.
//!
//! # Threads
//!
//! Calls may be made from any number of threads, and each is done by the thread that makes it. [`parallel`] shares one among several:
//! a long transform in parts, which are blocks of columns and of rows of its list, a product of polynomials, and many words of a code.
//!
//! # What differs from ark-poly
//!
//! - The fields are six types of this crate, with the operators and functions that `ark-ff` has for elements.
//! - There is no generic module over the field, no sparse form but that of multilinear polynomials, which has their values
//!   alone, and no other polynomial in several variables.
//! - Where memory is refused the program ends as it does where a `Vec` can't grow.
//! - [`Code`], [`sum_check`], [`pieces`] and [`parallel`] are beyond ark-poly.

#![warn(missing_docs)]
#![deny(unsafe_op_in_unsafe_fn)]

mod arithmetic;
mod calls;
mod code;
mod domain;
mod evaluations;
mod field;
mod multilinear;
pub mod parallel;
pub mod pieces;
mod polynomial;
pub mod sum_check;
#[cfg(test)]
mod tests;

pub use code::{Code, RsError};
pub use domain::{Elements, EvaluationDomain, GeneralEvaluationDomain, Radix2EvaluationDomain};
pub use evaluations::Evaluations;
pub use field::{BabyBear, Bls12_381Fr, Bn254Fr, FftField, Field, Goldilocks, KoalaBear, ParseFieldError, F65537};
pub use multilinear::{DenseMultilinearExtension, MultilinearExtension, SparseMultilinearExtension};
pub use polynomial::{DenseUVPolynomial, Polynomial};

/// Polynomials in one variable, at ark-poly's path.
pub mod univariate {
    pub use crate::polynomial::{DenseOrSparsePolynomial, DensePolynomial};
}

pub use univariate::{DenseOrSparsePolynomial, DensePolynomial};

/// The version of the library that is linked, as major, minor and patch.
pub fn library_version() -> (u8, u8, u8) {
    let version = calls::version();
    ((version >> 16) as u8, (version >> 8) as u8, version as u8)
}
