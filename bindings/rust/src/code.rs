//! Reed-Solomon codes.

use crate::calls::{self, Refusal};
use crate::field::{words, words_mut, FftField};
use std::error::Error;
use std::fmt::{self, Display};
use std::marker::PhantomData;

/// A Reed-Solomon code: a codeword is the `n` values, over a domain, of the polynomial whose coefficients are a message of `k`
/// elements. Any `k` of them give the others back.
///
/// ```
/// use ark_poly_proved::{BabyBear, Code};
///
/// let code = Code::<BabyBear>::new(5, 8).unwrap();
/// let message = [3, 1, 4, 1, 5].map(BabyBear::from);
/// let codeword = code.encode(&message)?;
/// let mut word: Vec<_> = codeword.iter().copied().map(Some).collect();
/// for lost in [0, 2, 7] {
///     word[lost] = None;
/// }
/// assert_eq!(code.restore(&word)?, codeword);
/// # Ok::<(), ark_poly_proved::RsError>(())
/// ```
#[derive(Clone, Copy, Debug, PartialEq, Eq, Hash)]
pub struct Code<F: FftField> {
    k: usize,
    n: usize,
    field: PhantomData<F>,
}

/// Why a call on a code refused.
#[derive(Clone, Copy, Debug, PartialEq, Eq, Hash)]
#[non_exhaustive]
pub enum RsError {
    /// A word has no place for each of the code's, or a message more items than the code's messages.
    WrongLength,
    /// Fewer than `k` places are left.
    TooManyErased,
    /// No codeword has what is left. Words are not corrected.
    NoCodeword,
}

impl Display for RsError {
    fn fmt(&self, f: &mut fmt::Formatter<'_>) -> fmt::Result {
        f.write_str(match self {
            RsError::WrongLength => "WrongLength",
            RsError::TooManyErased => "TooManyErased",
            RsError::NoCodeword => "NoCodeword",
        })
    }
}

impl Error for RsError {}

fn outcome(outcome: Result<(), Refusal>) -> Result<(), RsError> {
    outcome.map_err(|refusal| match refusal {
        Refusal::Length => RsError::WrongLength,
        Refusal::TooFew => RsError::TooManyErased,
        Refusal::NoCodeword => RsError::NoCodeword,
        // words are elements, and the code's domain is there
        other => unreachable!("{other:?} of a code"),
    })
}

impl<F: FftField> Code<F> {
    /// The code for messages of `k` items whose codewords have the least size of a domain at or above `n_at_least`. `None` for
    /// `k` zero or above that size, or without such a domain.
    pub fn new(k: usize, n_at_least: usize) -> Option<Self> {
        let n = calls::domain_size(F::NAME, n_at_least as u64).ok()?.try_into().ok()?;
        (1..=n).contains(&k).then_some(Code { k, n, field: PhantomData })
    }

    /// The greatest number of a message's items.
    pub fn k(&self) -> usize {
        self.k
    }

    /// The number of a codeword's places.
    pub fn n(&self) -> usize {
        self.n
    }

    /// The message's codeword. A message of fewer than `k` items is one with zeros behind it; `WrongLength` for more.
    pub fn encode(&self, message: &[F]) -> Result<Vec<F>, RsError> {
        if message.len() > self.k {
            return Err(RsError::WrongLength);
        }
        let mut codeword = vec![F::ZERO; self.n];
        if !message.is_empty() {
            self.encode_into(message, &mut codeword)?;
        }
        Ok(codeword)
    }

    pub(crate) fn encode_into(&self, message: &[F], codeword: &mut [F]) -> Result<(), RsError> {
        outcome(calls::code_encode(F::NAME, words(message), words_mut(codeword)))
    }

    /// The only codeword that begins with the message: the same code in systematic form. `WrongLength` for more or fewer than `k`
    /// items.
    pub fn encode_systematic(&self, message: &[F]) -> Result<Vec<F>, RsError> {
        if message.len() != self.k {
            return Err(RsError::WrongLength);
        }
        let mut codeword = vec![F::ZERO; self.n];
        outcome(calls::code_encode_systematic(F::NAME, words(message), words_mut(&mut codeword)))?;
        Ok(codeword)
    }

    /// The codeword that has what is left of the word; `None` is a lost place.
    pub fn restore(&self, word: &[Option<F>]) -> Result<Vec<F>, RsError> {
        let erased: Vec<bool> = word.iter().map(Option::is_none).collect();
        let mut codeword: Vec<F> = word.iter().map(|item| item.unwrap_or(F::ZERO)).collect();
        if word.len() != self.n {
            return Err(RsError::WrongLength);
        }
        self.restore_in_place(&mut codeword, &erased)?;
        Ok(codeword)
    }

    /// Fills the lost places of one word or many, one after another, that are lost in all of them: `erased` has `true` where a
    /// place is lost. For many words this is faster than a call for each. After an error nothing is changed.
    pub fn restore_in_place(&self, many: &mut [F], erased: &[bool]) -> Result<(), RsError> {
        self.fits(many, erased)?;
        if many.is_empty() {
            return Ok(());
        }
        outcome(calls::code_restore(F::NAME, words_mut(many), erased, self.k as u64))
    }

    /// The messages of such words, `k` items each, one after another.
    pub fn messages(&self, many: &[F], erased: &[bool]) -> Result<Vec<F>, RsError> {
        self.fits(many, erased)?;
        let mut messages = vec![F::ZERO; many.len() / self.n * self.k];
        if !many.is_empty() {
            self.messages_into(many, erased, &mut messages)?;
        }
        Ok(messages)
    }

    pub(crate) fn messages_into(&self, many: &[F], erased: &[bool], messages: &mut [F]) -> Result<(), RsError> {
        outcome(calls::code_message(F::NAME, words(many), erased, words_mut(messages)))
    }

    pub(crate) fn fits(&self, many: &[F], erased: &[bool]) -> Result<(), RsError> {
        if erased.len() != self.n || many.len() % self.n != 0 {
            return Err(RsError::WrongLength);
        }
        Ok(())
    }
}
