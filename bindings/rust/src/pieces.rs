//! Files in pieces, any `k` of which give the file back.
//!
//! ```
//! use ark_poly_proved::pieces::FileCode;
//!
//! let code = FileCode::new(2, 4).unwrap(); // any 2 of 4 pieces
//! let pieces = code.split(b"a label", b"hello")?;
//! assert_eq!(code.join(&[&pieces[3], &pieces[1]])?, b"hello");
//! # Ok::<(), ark_poly_proved::pieces::PieceError>(())
//! ```

use crate::calls::{self, Refusal};
use std::error::Error;
use std::fmt::{self, Display};

/// A code of files: a Reed-Solomon code in systematic form, of `k` pieces with the file's own bytes and `n - k` others. Any `k`
/// of them give the file back.
///
/// A piece has a header, a label, which says what the caller likes of the file, its part of the file, and the SHA-256 of all
/// pieces.
#[derive(Clone, Copy, Debug, PartialEq, Eq, Hash)]
pub struct FileCode {
    k: usize,
    n: usize,
}

/// Why a call over pieces refused.
#[derive(Clone, Copy, Debug, PartialEq, Eq, Hash)]
#[non_exhaustive]
pub enum PieceError {
    /// A label has 2^16 bytes or more, or a file 2^62.
    TooLong,
    /// There are no `k` pieces of this code that differ, or the last one hasn't a trailer.
    NotPieces,
    /// A piece has not the SHA-256 that is listed for it.
    Damaged,
}

impl Display for PieceError {
    fn fmt(&self, f: &mut fmt::Formatter<'_>) -> fmt::Result {
        f.write_str(match self {
            PieceError::TooLong => "TooLong",
            PieceError::NotPieces => "NotPieces",
            PieceError::Damaged => "Damaged",
        })
    }
}

impl Error for PieceError {}

fn outcome(outcome: Result<(), Refusal>) -> Result<(), PieceError> {
    outcome.map_err(|refusal| match refusal {
        Refusal::NotPieces => PieceError::NotPieces,
        Refusal::Damaged => PieceError::Damaged,
        // the code is there, and lists are as long as the library says
        other => unreachable!("{other:?} of a code of files"),
    })
}

impl FileCode {
    /// The code of `n` pieces, any `k` of which give a file back; `None` unless `0 < k`, `k <= n` and `n <= 65536`.
    pub fn new(k: usize, n: usize) -> Option<Self> {
        (0 < k && k <= n && n <= 65536).then_some(FileCode { k, n })
    }

    /// How many pieces give a file back.
    pub fn k(&self) -> usize {
        self.k
    }

    /// How many pieces a file has.
    pub fn n(&self) -> usize {
        self.n
    }

    /// How many bytes the piece of this number has, of a file of so many with such a label; `None` where there is no such piece.
    ///
    /// ```
    /// use ark_poly_proved::pieces::FileCode;
    ///
    /// let code = FileCode::new(2, 3).unwrap();
    /// let pieces = code.split(b"", b"hello")?;
    /// assert_eq!(code.piece_size(2, 0, 5), Some(pieces[2].len()));
    /// assert_eq!(code.piece_size(3, 0, 5), None);
    /// # Ok::<(), ark_poly_proved::pieces::PieceError>(())
    /// ```
    pub fn piece_size(&self, number: usize, label_len: usize, len: usize) -> Option<usize> {
        calls::piece_size([self.k, self.n, number, label_len, len].map(|it| it as u64)).ok()?.try_into().ok()
    }

    /// All pieces of a file, with this label; `TooLong` for a label of 2^16 bytes or more.
    pub fn split(&self, label: &[u8], file: &[u8]) -> Result<Vec<Vec<u8>>, PieceError> {
        let sizes: Option<Vec<usize>> =
            (0..self.n).map(|number| self.piece_size(number, label.len(), file.len())).collect();
        let sizes = sizes.ok_or(PieceError::TooLong)?;
        let mut all = vec![0; sizes.iter().sum()];
        outcome(calls::split(self.k as u64, self.n as u64, label, file, &mut all))?;
        let mut rest = all.as_slice();
        let pieces = sizes.into_iter().map(|size| {
            let (piece, behind) = rest.split_at(size);
            rest = behind;
            piece.to_vec()
        });
        Ok(pieces.collect())
    }

    /// The file of `k` of its pieces or more, in any order. The first `k` are read, and the trailer of the last one.
    ///
    /// ```
    /// use ark_poly_proved::pieces::{FileCode, PieceError};
    ///
    /// let code = FileCode::new(2, 3).unwrap();
    /// let mut pieces = code.split(b"", b"hello")?;
    /// assert_eq!(code.join(&pieces[2..]), Err(PieceError::NotPieces));
    /// pieces[1][24] ^= 1;
    /// assert_eq!(code.join(&pieces[1..]), Err(PieceError::Damaged));
    /// # Ok::<(), PieceError>(())
    /// ```
    pub fn join<P: AsRef<[u8]>>(&self, pieces: &[P]) -> Result<Vec<u8>, PieceError> {
        let all: Vec<u8> = pieces.iter().flat_map(AsRef::as_ref).copied().collect();
        let mut len = 0;
        outcome(calls::file_size(self.n as u64, &all).map(|found| len = found))?;
        // pieces have no fewer bytes than their file
        let len = usize::try_from(len).ok().filter(|len| *len <= all.len()).ok_or(PieceError::NotPieces)?;
        let mut file = vec![0; len];
        outcome(calls::join(self.k as u64, self.n as u64, &all, &mut file))?;
        Ok(file)
    }
}
