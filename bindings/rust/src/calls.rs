//! The library's calls over slices. What its contracts ask of C is what Rust's types say of slices: valid, aligned, and
//! nobody else's where they are `&mut`. So these functions are safe.

use std::alloc::{handle_alloc_error, Layout};

mod sys {
    extern "C" {
        pub fn ark_version() -> u32;
        #[cfg(test)]
        pub fn ark_challenge_words(field: u64) -> usize;
        pub fn ark_domain_size(field: u64, at_least: u64, size: *mut u64) -> u32;
        pub fn ark_fft(field: u64, words: *mut u64, len: usize, offset: *const u64, offset_len: usize) -> u32;
        pub fn ark_ifft(field: u64, words: *mut u64, len: usize, offset: *const u64, offset_len: usize) -> u32;
        pub fn ark_multiply_values(
            field: u64,
            values: *mut u64,
            values_len: usize,
            others: *const u64,
            others_len: usize,
        ) -> u32;
        pub fn ark_code_restore(
            field: u64,
            words: *mut u64,
            words_len: usize,
            erased: *const u8,
            erased_len: usize,
            k: u64,
        ) -> u32;
        pub fn ark_code_message(
            field: u64,
            words: *const u64,
            words_len: usize,
            erased: *const u8,
            erased_len: usize,
            messages: *mut u64,
            messages_len: usize,
        ) -> u32;
        pub fn ark_code_encode(
            field: u64,
            message: *const u64,
            message_len: usize,
            word: *mut u64,
            word_len: usize,
        ) -> u32;
        pub fn ark_code_encode_systematic(
            field: u64,
            message: *const u64,
            message_len: usize,
            word: *mut u64,
            word_len: usize,
        ) -> u32;
        pub fn ark_multilinear_evaluate_sparse(
            field: u64,
            indices: *const u64,
            indices_len: usize,
            values: *const u64,
            values_len: usize,
            point: *const u64,
            point_len: usize,
            value: *mut u64,
            value_len: usize,
        ) -> u32;
        pub fn ark_divide(
            field: u64,
            dividend: *const u64,
            dividend_len: usize,
            divisor: *const u64,
            divisor_len: usize,
            quotient: *mut u64,
            quotient_len: usize,
            remainder: *mut u64,
            remainder_len: usize,
        ) -> u32;
        pub fn ark_sum_proof_size(field: u64, num_vars: u32, degree: u32, size: *mut u64) -> u32;
        pub fn ark_sum_prove(
            field: u64,
            label: *const u8,
            label_len: usize,
            statement: *const u8,
            statement_len: usize,
            num_vars: u32,
            degree: u32,
            tables: *const u64,
            tables_len: usize,
            addends: *const u64,
            addends_len: usize,
            proof: *mut u8,
            proof_len: usize,
            sum: *mut u64,
            sum_len: usize,
        ) -> u32;
        pub fn ark_sum_verify(
            field: u64,
            label: *const u8,
            label_len: usize,
            statement: *const u8,
            statement_len: usize,
            num_vars: u32,
            degree: u32,
            sum: *const u64,
            sum_len: usize,
            proof: *const u8,
            proof_len: usize,
            point: *mut u64,
            point_len: usize,
            value: *mut u64,
            value_len: usize,
        ) -> u32;
        pub fn ark_sum_value(
            field: u64,
            num_vars: u32,
            degree: u32,
            tables: *const u64,
            tables_len: usize,
            addends: *const u64,
            addends_len: usize,
            point: *const u64,
            point_len: usize,
            value: *mut u64,
            value_len: usize,
        ) -> u32;
        pub fn ark_piece_size(k: u64, n: u64, number: u64, label_len: u64, len: u64, size: *mut u64) -> u32;
        pub fn ark_split(
            k: u64,
            n: u64,
            label: *const u8,
            label_len: usize,
            file: *const u8,
            file_len: usize,
            pieces: *mut u8,
            pieces_len: usize,
        ) -> u32;
        pub fn ark_file_size(n: u64, pieces: *const u8, pieces_len: usize, len: *mut u64) -> u32;
        pub fn ark_join(k: u64, n: u64, pieces: *const u8, pieces_len: usize, file: *mut u8, file_len: usize) -> u32;
    }

    // Calls that make one list of two.
    macro_rules! of_two {
        ($($name:ident)*) => {
            extern "C" {
                $(pub fn $name(
                    field: u64,
                    a: *const u64,
                    a_len: usize,
                    b: *const u64,
                    b_len: usize,
                    made: *mut u64,
                    made_len: usize,
                ) -> u32;)*
            }
        };
    }

    // Of blocks of columns, and of rows.
    macro_rules! of_columns {
        ($($name:ident)*) => {
            extern "C" {
                $(pub fn $name(
                    field: u64,
                    words: *mut u64,
                    words_len: usize,
                    log_rows: u32,
                    log_columns: u32,
                    offset: *const u64,
                    offset_len: usize,
                ) -> u32;)*
            }
        };
    }

    macro_rules! of_rows {
        ($($name:ident)*) => {
            extern "C" {
                $(pub fn $name(
                    field: u64,
                    words: *mut u64,
                    words_len: usize,
                    log_rows: u32,
                    log_columns: u32,
                    first: u64,
                    offset: *const u64,
                    offset_len: usize,
                ) -> u32;)*
            }
        };
    }

    of_columns! { ark_fft_columns ark_ifft_columns }
    of_rows! { ark_fft_rows ark_ifft_rows }

    of_two! {
        ark_multiply ark_evaluate ark_interpolate ark_lagrange ark_multilinear_evaluate ark_multilinear_fix
    }
}

/// Why a call refused. What it was given is then as it was.
#[derive(Clone, Copy, Debug, PartialEq, Eq)]
pub enum Refusal {
    NoField,
    Length,
    NotReduced,
    NoDomain,
    ZeroDivisor,
    EqualPoints,
    TooFew,
    NoCodeword,
    NotPieces,
    Damaged,
    Addends,
    Refused,
    Other(u32),
}

/// What a status says. Refused memory ends the program, as it does where a `Vec` can't grow.
fn outcome(status: u32) -> Result<(), Refusal> {
    Err(match status {
        0 => return Ok(()),
        1 => handle_alloc_error(Layout::new::<u64>()),
        2 => Refusal::NoField,
        3 => Refusal::Length,
        4 => Refusal::NotReduced,
        5 => Refusal::NoDomain,
        6 => Refusal::ZeroDivisor,
        7 => Refusal::EqualPoints,
        8 => Refusal::TooFew,
        9 => Refusal::NoCodeword,
        10 => Refusal::NotPieces,
        11 => Refusal::Damaged,
        12 => Refusal::Addends,
        13 => Refusal::Refused,
        other => Refusal::Other(other),
    })
}

pub fn version() -> u32 {
    // SAFETY: the call has no condition.
    unsafe { sys::ark_version() }
}

/// The types have it, and tests compare.
#[cfg(test)]
pub fn challenge_words(field: u64) -> usize {
    // SAFETY: the call has no condition.
    unsafe { sys::ark_challenge_words(field) }
}

pub fn domain_size(field: u64, at_least: u64) -> Result<u64, Refusal> {
    let mut size = 0;
    // SAFETY: the place is a word of this function's own.
    outcome(unsafe { sys::ark_domain_size(field, at_least, &mut size) })?;
    Ok(size)
}

// In each of these the slices are what the library asks of pointers and lengths, and no `&mut` one overlaps another.

pub fn fft(field: u64, words: &mut [u64], offset: &[u64]) -> Result<(), Refusal> {
    // SAFETY: as above.
    outcome(unsafe { sys::ark_fft(field, words.as_mut_ptr(), words.len(), offset.as_ptr(), offset.len()) })
}

pub fn ifft(field: u64, words: &mut [u64], offset: &[u64]) -> Result<(), Refusal> {
    // SAFETY: as above.
    outcome(unsafe { sys::ark_ifft(field, words.as_mut_ptr(), words.len(), offset.as_ptr(), offset.len()) })
}

/// Logarithms of the numbers of rows and of columns in which a list is read.
pub type Shape = [u32; 2];

macro_rules! of_columns {
    ($($name:ident = $call:ident)*) => {
        $(pub fn $name(field: u64, words: &mut [u64], shape: Shape, offset: &[u64]) -> Result<(), Refusal> {
            let (place, len, [log_rows, log_columns]) = (words.as_mut_ptr(), words.len(), shape);
            // SAFETY: as above.
            outcome(unsafe { sys::$call(field, place, len, log_rows, log_columns, offset.as_ptr(), offset.len()) })
        })*
    };
}

macro_rules! of_rows {
    ($($name:ident = $call:ident)*) => {
        $(pub fn $name(field: u64, words: &mut [u64], shape: Shape, first: u64, offset: &[u64]) -> Result<(), Refusal> {
            let (place, len, [log_rows, log_columns]) = (words.as_mut_ptr(), words.len(), shape);
            // SAFETY: as above.
            outcome(unsafe { sys::$call(field, place, len, log_rows, log_columns, first, offset.as_ptr(), offset.len()) })
        })*
    };
}

of_columns! {
    fft_columns = ark_fft_columns
    ifft_columns = ark_ifft_columns
}

of_rows! {
    fft_rows = ark_fft_rows
    ifft_rows = ark_ifft_rows
}

macro_rules! of_two {
    ($($name:ident = $call:ident)*) => {
        $(pub fn $name(field: u64, a: &[u64], b: &[u64], made: &mut [u64]) -> Result<(), Refusal> {
            // SAFETY: as above.
            outcome(unsafe {
                sys::$call(field, a.as_ptr(), a.len(), b.as_ptr(), b.len(), made.as_mut_ptr(), made.len())
            })
        })*
    };
}

of_two! {
    multiply = ark_multiply
    evaluate = ark_evaluate
    interpolate = ark_interpolate
    lagrange = ark_lagrange
    multilinear_evaluate = ark_multilinear_evaluate
    multilinear_fix = ark_multilinear_fix
}

pub fn multiply_values(field: u64, values: &mut [u64], others: &[u64]) -> Result<(), Refusal> {
    let (place, len) = (values.as_mut_ptr(), values.len());
    // SAFETY: as above.
    outcome(unsafe { sys::ark_multiply_values(field, place, len, others.as_ptr(), others.len()) })
}

pub fn multilinear_evaluate_sparse(
    field: u64,
    indices: &[u64],
    values: &[u64],
    point: &[u64],
    value: &mut [u64],
) -> Result<(), Refusal> {
    // SAFETY: as above.
    outcome(unsafe {
        sys::ark_multilinear_evaluate_sparse(
            field,
            indices.as_ptr(),
            indices.len(),
            values.as_ptr(),
            values.len(),
            point.as_ptr(),
            point.len(),
            value.as_mut_ptr(),
            value.len(),
        )
    })
}

pub fn divide(
    field: u64,
    dividend: &[u64],
    divisor: &[u64],
    quotient: &mut [u64],
    remainder: &mut [u64],
) -> Result<(), Refusal> {
    // SAFETY: as above.
    outcome(unsafe {
        sys::ark_divide(
            field,
            dividend.as_ptr(),
            dividend.len(),
            divisor.as_ptr(),
            divisor.len(),
            quotient.as_mut_ptr(),
            quotient.len(),
            remainder.as_mut_ptr(),
            remainder.len(),
        )
    })
}

pub fn code_encode(field: u64, message: &[u64], word: &mut [u64]) -> Result<(), Refusal> {
    // SAFETY: as above.
    outcome(unsafe { sys::ark_code_encode(field, message.as_ptr(), message.len(), word.as_mut_ptr(), word.len()) })
}

pub fn code_encode_systematic(field: u64, message: &[u64], word: &mut [u64]) -> Result<(), Refusal> {
    // SAFETY: as above.
    outcome(unsafe {
        sys::ark_code_encode_systematic(field, message.as_ptr(), message.len(), word.as_mut_ptr(), word.len())
    })
}

pub fn code_restore(field: u64, words: &mut [u64], erased: &[bool], k: u64) -> Result<(), Refusal> {
    let (marks, places) = (erased.as_ptr().cast(), erased.len());
    // SAFETY: as above; a `bool` is a byte, 0 or 1.
    outcome(unsafe { sys::ark_code_restore(field, words.as_mut_ptr(), words.len(), marks, places, k) })
}

pub fn code_message(field: u64, words: &[u64], erased: &[bool], messages: &mut [u64]) -> Result<(), Refusal> {
    let (marks, places) = (erased.as_ptr().cast(), erased.len());
    // SAFETY: as in `code_restore`.
    outcome(unsafe {
        sys::ark_code_message(field, words.as_ptr(), words.len(), marks, places, messages.as_mut_ptr(), messages.len())
    })
}

/// How many variables a sum has, and of which degree it is.
pub type SumShape = [u32; 2];

pub fn sum_proof_size(field: u64, [num_vars, degree]: SumShape) -> Result<u64, Refusal> {
    let mut size = 0;
    // SAFETY: the place is a word of this function's own.
    outcome(unsafe { sys::ark_sum_proof_size(field, num_vars, degree, &mut size) })?;
    Ok(size)
}

/// Of what is said, label and statement.
pub fn sum_prove(
    field: u64,
    [label, statement]: [&[u8]; 2],
    [num_vars, degree]: SumShape,
    tables: &[u64],
    addends: &[u64],
    proof: &mut [u8],
    sum: &mut [u64],
) -> Result<(), Refusal> {
    // SAFETY: as above.
    outcome(unsafe {
        sys::ark_sum_prove(
            field,
            label.as_ptr(),
            label.len(),
            statement.as_ptr(),
            statement.len(),
            num_vars,
            degree,
            tables.as_ptr(),
            tables.len(),
            addends.as_ptr(),
            addends.len(),
            proof.as_mut_ptr(),
            proof.len(),
            sum.as_mut_ptr(),
            sum.len(),
        )
    })
}

pub fn sum_verify(
    field: u64,
    [label, statement]: [&[u8]; 2],
    [num_vars, degree]: SumShape,
    sum: &[u64],
    proof: &[u8],
    point: &mut [u64],
    value: &mut [u64],
) -> Result<(), Refusal> {
    // SAFETY: as above.
    outcome(unsafe {
        sys::ark_sum_verify(
            field,
            label.as_ptr(),
            label.len(),
            statement.as_ptr(),
            statement.len(),
            num_vars,
            degree,
            sum.as_ptr(),
            sum.len(),
            proof.as_ptr(),
            proof.len(),
            point.as_mut_ptr(),
            point.len(),
            value.as_mut_ptr(),
            value.len(),
        )
    })
}

pub fn sum_value(
    field: u64,
    [num_vars, degree]: SumShape,
    tables: &[u64],
    addends: &[u64],
    point: &[u64],
    value: &mut [u64],
) -> Result<(), Refusal> {
    // SAFETY: as above.
    outcome(unsafe {
        sys::ark_sum_value(
            field,
            num_vars,
            degree,
            tables.as_ptr(),
            tables.len(),
            addends.as_ptr(),
            addends.len(),
            point.as_ptr(),
            point.len(),
            value.as_mut_ptr(),
            value.len(),
        )
    })
}

/// Of `k`, `n`, the piece's number, the label's length and the file's.
pub fn piece_size([k, n, number, label_len, len]: [u64; 5]) -> Result<u64, Refusal> {
    let mut size = 0;
    // SAFETY: the place is a word of this function's own.
    outcome(unsafe { sys::ark_piece_size(k, n, number, label_len, len, &mut size) })?;
    Ok(size)
}

pub fn split(k: u64, n: u64, label: &[u8], file: &[u8], pieces: &mut [u8]) -> Result<(), Refusal> {
    let (made, room) = (pieces.as_mut_ptr(), pieces.len());
    // SAFETY: as above.
    outcome(unsafe { sys::ark_split(k, n, label.as_ptr(), label.len(), file.as_ptr(), file.len(), made, room) })
}

pub fn file_size(n: u64, pieces: &[u8]) -> Result<u64, Refusal> {
    let mut len = 0;
    // SAFETY: as above; the place is a word of this function's own.
    outcome(unsafe { sys::ark_file_size(n, pieces.as_ptr(), pieces.len(), &mut len) })?;
    Ok(len)
}

pub fn join(k: u64, n: u64, pieces: &[u8], file: &mut [u8]) -> Result<(), Refusal> {
    // SAFETY: as above.
    outcome(unsafe { sys::ark_join(k, n, pieces.as_ptr(), pieces.len(), file.as_mut_ptr(), file.len()) })
}
