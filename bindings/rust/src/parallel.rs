//! The longest calls by several threads, which answer as those of one do.
//!
//! ```
//! use ark_poly_proved::{parallel, BabyBear, EvaluationDomain, Radix2EvaluationDomain};
//!
//! let domain = Radix2EvaluationDomain::<BabyBear>::new(1 << 16).unwrap();
//! let mut list: Vec<_> = (0..1 << 16).map(|i| BabyBear::from(i as u64)).collect();
//! let values = domain.fft(&list);
//! parallel::fft_in_place(domain, &mut list, 0);
//! assert_eq!(list, values);
//! ```
//!
//! Each takes the number of threads, 0 for as many as the machine runs at once. They start anew, and it panics where the system
//! has none. A list that is too short for threads goes by the call of one.
//!
//! A transform of `n = r * c` items goes in parts: it is read as `r` rows of `c` items, and the threads share the columns and then
//! the rows. Item `(i, j)` is then item `i + r * j` of what is made. Beside the list this takes a second one, and for each thread
//! some four blocks, which its second cache holds.

use crate::calls::{self, Refusal, Shape};
use crate::code::{Code, RsError};
use crate::domain::{expect_domain, EvaluationDomain};
use crate::field::{words, words_mut, zeros, FftField, Field};
use crate::polynomial::{DensePolynomial, DenseUVPolynomial};
use crate::Radix2EvaluationDomain;
use std::mem::{size_of, take};
use std::ops::Range;
use std::panic::resume_unwind;
use std::thread;

/// The bytes of the shortest list that threads share: over shorter ones their start takes longer than the work.
const SHORTEST: usize = 1 << 19;

/// The bytes of a block: with what the library takes beside it, it fits a second cache of 1 MiB.
const BLOCK: usize = 1 << 18;

/// The bytes of a line of the cache.
const LINE: usize = 64;

/// The items of a tile's side.
const TILE: usize = 8;

/// [`EvaluationDomain::fft_in_place`] by several threads.
///
/// ```
/// use ark_poly_proved::{parallel, EvaluationDomain, Field, Goldilocks, Radix2EvaluationDomain};
///
/// let coset = Radix2EvaluationDomain::new_coset(1 << 16, Goldilocks::from(7)).unwrap();
/// let mut list = vec![Goldilocks::zero(), Goldilocks::one()]; // zeros fill what is left
/// parallel::fft_in_place(coset, &mut list, 2);
/// assert_eq!(list, coset.elements().collect::<Vec<_>>());
/// ```
pub fn fft_in_place<F: FftField, D: EvaluationDomain<F>>(domain: D, coeffs: &mut Vec<F>, threads: usize) {
    match Parts::of::<F>(domain.size(), threads) {
        Some(parts) => expect_domain(parts.fft(coeffs, domain.coset_offset())),
        None => domain.fft_in_place(coeffs),
    }
}

/// [`EvaluationDomain::ifft_in_place`] by several threads.
///
/// ```
/// use ark_poly_proved::{parallel, EvaluationDomain, Field, Goldilocks, Radix2EvaluationDomain};
///
/// let coset = Radix2EvaluationDomain::new_coset(1 << 16, Goldilocks::from(7)).unwrap();
/// let mut list = coset.elements().collect();
/// parallel::ifft_in_place(coset, &mut list, 2);
/// assert!(list[0].is_zero() && list[1].is_one() && list[2..].iter().all(Field::is_zero));
/// ```
pub fn ifft_in_place<F: FftField, D: EvaluationDomain<F>>(domain: D, evals: &mut Vec<F>, threads: usize) {
    match Parts::of::<F>(domain.size(), threads) {
        Some(parts) => expect_domain(parts.ifft(evals, domain.coset_offset())),
        None => domain.ifft_in_place(evals),
    }
}

/// The product of two polynomials by several threads. Panics as their product by `*` does. Between the transforms, which are the
/// library's, values are multiplied where they stand, by this crate's own product of elements.
///
/// ```
/// use ark_poly_proved::{parallel, DensePolynomial, DenseUVPolynomial, Field, KoalaBear};
///
/// let ones = DensePolynomial::from_coefficients_vec(vec![KoalaBear::one(); 1 << 15]);
/// let square = parallel::mul(&ones, &ones, 2);
/// assert_eq!(square.coeffs[1000], KoalaBear::from(1001));
/// assert_eq!(square, &ones * &ones);
/// ```
pub fn mul<F: FftField>(left: &DensePolynomial<F>, right: &DensePolynomial<F>, threads: usize) -> DensePolynomial<F> {
    let len = (left.coeffs.len() + right.coeffs.len()).saturating_sub(1);
    let size = Radix2EvaluationDomain::<F>::compute_size_of_domain(len);
    match size.and_then(|size| Parts::of::<F>(size, threads)) {
        Some(parts) => {
            let product = parts.product(&left.coeffs, &right.coeffs).expect("a domain with room for the product");
            DensePolynomial::from_coefficients_vec(product)
        }
        None => left * right,
    }
}

/// The codewords of messages of `k` items each, one after another, by several threads. `WrongLength` where the list isn't whole
/// messages.
///
/// ```
/// use ark_poly_proved::{parallel, BabyBear, Code};
///
/// let code = Code::<BabyBear>::new(2, 4).unwrap();
/// let messages = [3, 1, 4, 1].map(BabyBear::from);
/// let codewords = parallel::encode(&code, &messages, 0)?;
/// assert_eq!(codewords[..4], code.encode(&messages[..2])?);
/// assert_eq!(codewords[4..], code.encode(&messages[2..])?);
/// # Ok::<(), ark_poly_proved::RsError>(())
/// ```
pub fn encode<F: FftField>(code: &Code<F>, messages: &[F], threads: usize) -> Result<Vec<F>, RsError> {
    let (k, n) = (code.k(), code.n());
    if messages.len() % k != 0 {
        return Err(RsError::WrongLength);
    }
    let count = messages.len() / k;
    let mut codewords = zeros(count * n);
    let shares = shares(count, 1, threads_for::<F>(codewords.len(), threads));
    let jobs =
        shares.iter().map(|share| &messages[share.start * k..share.end * k]).zip(cut(&mut codewords, &shares, n));
    each(jobs, |(messages, codewords)| {
        let mut pairs = messages.chunks_exact(k).zip(codewords.chunks_exact_mut(n));
        pairs.try_for_each(|(message, codeword)| code.encode_into(message, codeword))
    })?;
    Ok(codewords)
}

/// [`Code::restore_in_place`] by several threads, each with some of the words. It keeps a copy of them while it runs, as after an
/// error nothing is changed.
///
/// ```
/// use ark_poly_proved::{parallel, BabyBear, Code};
///
/// let code = Code::<BabyBear>::new(1, 2).unwrap();
/// let mut words = [3, 0, 5, 0].map(BabyBear::from);
/// parallel::restore_in_place(&code, &mut words, &[false, true], 0)?;
/// assert_eq!(words, [3, 3, 5, 5].map(BabyBear::from));
/// # Ok::<(), ark_poly_proved::RsError>(())
/// ```
pub fn restore_in_place<F: FftField>(
    code: &Code<F>,
    many: &mut [F],
    erased: &[bool],
    threads: usize,
) -> Result<(), RsError> {
    code.fits(many, erased)?;
    let threads = threads_for::<F>(many.len(), threads);
    if threads == 1 {
        return code.restore_in_place(many, erased);
    }
    let before = many.to_vec();
    let shares = shares(many.len() / code.n(), 1, threads);
    let outcome = each(cut(many, &shares, code.n()), |words| code.restore_in_place(words, erased));
    if outcome.is_err() {
        many.copy_from_slice(&before);
    }
    outcome
}

/// [`Code::messages`] by several threads, each with some of the words.
///
/// ```
/// use ark_poly_proved::{parallel, BabyBear, Code};
///
/// let code = Code::<BabyBear>::new(1, 2).unwrap();
/// let words = [3, 0, 5, 0].map(BabyBear::from);
/// assert_eq!(parallel::messages(&code, &words, &[false, true], 0)?, [3, 5].map(BabyBear::from));
/// # Ok::<(), ark_poly_proved::RsError>(())
/// ```
pub fn messages<F: FftField>(code: &Code<F>, many: &[F], erased: &[bool], threads: usize) -> Result<Vec<F>, RsError> {
    code.fits(many, erased)?;
    let (k, n) = (code.k(), code.n());
    let mut messages = zeros(many.len() / n * k);
    let shares = shares(many.len() / n, 1, threads_for::<F>(many.len(), threads));
    let jobs = shares.iter().map(|share| &many[share.start * n..share.end * n]).zip(cut(&mut messages, &shares, k));
    each(jobs, |(words, messages)| code.messages_into(words, erased, messages))?;
    Ok(messages)
}

/// How many threads share a list of so many elements.
fn threads_for<F>(len: usize, threads: usize) -> usize {
    match threads {
        _ if len * size_of::<F>() < SHORTEST => 1,
        0 => thread::available_parallelism().map_or(1, usize::from),
        _ => threads,
    }
}

/// What each of so many threads has of `len` items: about as many as any other, and `unit` of them stay together. None has none.
fn shares(len: usize, unit: usize, threads: usize) -> Vec<Range<usize>> {
    let threads = threads.min(len);
    let end = |thread: usize| if thread == threads { len } else { len * thread / threads / unit * unit };
    (0..threads).map(|thread| end(thread)..end(thread + 1)).filter(|share| !share.is_empty()).collect()
}

/// The parts of a list that shares of its items are, of so many elements each.
fn cut<'a, T>(
    mut list: &'a mut [T],
    shares: &'a [Range<usize>],
    width: usize,
) -> impl Iterator<Item = &'a mut [T]> + 'a {
    shares.iter().map(move |share| {
        let (part, rest) = take(&mut list).split_at_mut(share.len() * width);
        list = rest;
        part
    })
}

/// Does each job by a thread of its own, the last by this one. Of errors that of the first job is the answer.
fn each<J: Send, E: Send>(
    jobs: impl IntoIterator<Item = J>,
    work: impl Fn(J) -> Result<(), E> + Sync,
) -> Result<(), E> {
    let mut jobs: Vec<J> = jobs.into_iter().collect();
    let work = &work;
    thread::scope(|scope| {
        let last = jobs.pop();
        let started: Vec<_> = jobs.into_iter().map(|job| scope.spawn(move || work(job))).collect();
        let own = last.map_or(Ok(()), work);
        let outcomes = started.into_iter().map(|thread| thread.join().unwrap_or_else(|panic| resume_unwind(panic)));
        outcomes.chain([own]).collect()
    })
}

/// A transform in parts: how its list is read, and the threads and the bytes of a block.
#[derive(Clone, Copy, Debug)]
pub(crate) struct Parts {
    pub shape: Shape,
    pub threads: usize,
    pub block: usize,
}

impl Parts {
    /// Those of a list of so many elements, and `None` where one thread is as quick.
    fn of<F: Field>(size: usize, threads: usize) -> Option<Self> {
        let threads = threads_for::<F>(size, threads);
        let log = size.trailing_zeros();
        let shape = [log / 2, log - log / 2];
        // a row of the block is a line at least
        let block = BLOCK.max(LINE << shape[1]);
        (threads > 1 && size.is_power_of_two()).then_some(Parts { shape, threads, block })
    }

    fn rows(&self) -> usize {
        1 << self.shape[0]
    }

    fn columns(&self) -> usize {
        1 << self.shape[1]
    }

    fn size(&self) -> usize {
        self.rows() * self.columns()
    }

    /// How many columns or rows of so many elements a block has.
    fn at_once<F>(&self, len: usize) -> usize {
        (self.block / size_of::<F>() / len).max(1)
    }

    /// What each thread has of so many columns or rows: whole lines, as threads that write to one wait for each other.
    fn shares<F>(&self, len: usize) -> Vec<Range<usize>> {
        shares(len, LINE / size_of::<F>(), self.threads)
    }

    pub fn fft<F: FftField>(&self, coeffs: &mut Vec<F>, offset: F) -> Result<(), Refusal> {
        coeffs.truncate(self.size());
        let mut halfway = zeros(self.size());
        self.each_column(coeffs, &mut halfway, calls::fft_columns, offset)?;
        coeffs.resize(self.size(), F::ZERO);
        self.each_row_to_values(&mut halfway, coeffs, offset)
    }

    pub fn ifft<F: FftField>(&self, evals: &mut Vec<F>, offset: F) -> Result<(), Refusal> {
        evals.resize(self.size(), F::ZERO);
        let mut halfway = zeros(self.size());
        self.each_row_of_values(evals, &mut halfway, offset)?;
        self.each_column(&halfway, evals, calls::ifft_columns, offset)
    }

    /// The product of two polynomials for which there is room, with zeros behind it. The values are multiplied in the order that
    /// the rows have them in.
    pub fn product<F: FftField>(&self, left: &[F], right: &[F]) -> Result<Vec<F>, Refusal> {
        let (mut product, mut other) = (zeros(self.size()), zeros(self.size()));
        self.each_column(left, &mut product, calls::fft_columns, F::ONE)?;
        self.each_column(right, &mut other, calls::fft_columns, F::ONE)?;
        self.each_row_times(&mut product, &mut other)?;
        self.each_column(&product, &mut other, calls::ifft_columns, F::ONE)?;
        Ok(other)
    }

    /// Writes what the call makes of each column of a list, behind which zeros stand.
    fn each_column<F: FftField>(
        &self,
        from: &[F],
        into: &mut [F],
        call: ColumnsCall,
        offset: F,
    ) -> Result<(), Refusal> {
        let (rows, columns) = (self.rows(), self.columns());
        let at_once = self.at_once::<F>(rows);
        let shares = self.shares::<F>(columns);
        each(shares.iter().zip(strips(into, columns, &shares)), |(share, mut strip)| {
            let mut block = Vec::with_capacity(rows * at_once.min(share.len()));
            for start in share.clone().step_by(at_once) {
                let end = share.end.min(start + at_once);
                block.clear();
                for row in 0..rows {
                    let place = |column: usize| from.len().min(row * columns + column);
                    block.extend_from_slice(&from[place(start)..place(end)]);
                    block.resize((row + 1) * (end - start), F::ZERO);
                }
                call(F::NAME, words_mut(&mut block), self.shape, words(&[offset]))?;
                for (row, made) in strip.iter_mut().zip(block.chunks_exact(end - start)) {
                    row[start - share.start..end - share.start].copy_from_slice(made);
                }
            }
            Ok(())
        })
    }

    /// Transforms the rows, and writes them to their places among the values of the whole.
    fn each_row_to_values<F: FftField>(&self, rows: &mut [F], values: &mut [F], offset: F) -> Result<(), Refusal> {
        let (height, columns) = (self.rows(), self.columns());
        let at_once = self.at_once::<F>(columns);
        let shares = self.shares::<F>(height);
        let jobs = shares.iter().zip(cut(rows, &shares, columns)).zip(strips(values, height, &shares));
        each(jobs, |((share, rows), mut strip)| {
            for (start, block) in (0..).step_by(at_once).zip(rows.chunks_mut(at_once * columns)) {
                self.rows_call(calls::fft_rows, block, share.start + start, offset)?;
                let made: Vec<&[F]> = block.chunks_exact(columns).collect();
                let mut places: Vec<_> = strip.iter_mut().map(|row| &mut row[start..start + made.len()]).collect();
                transpose(&made, &mut places);
            }
            Ok(())
        })
    }

    /// Writes what the rows were before they were transformed, of their places among the values of the whole.
    fn each_row_of_values<F: FftField>(&self, values: &[F], rows: &mut [F], offset: F) -> Result<(), Refusal> {
        let (height, columns) = (self.rows(), self.columns());
        let at_once = self.at_once::<F>(columns);
        let shares = self.shares::<F>(height);
        each(shares.iter().zip(cut(rows, &shares, columns)), |(share, rows)| {
            for (first, block) in (share.start..).step_by(at_once).zip(rows.chunks_mut(at_once * columns)) {
                let mut made: Vec<_> = block.chunks_exact_mut(columns).collect();
                let places: Vec<_> = values.chunks_exact(height).map(|row| &row[first..first + made.len()]).collect();
                transpose(&places, &mut made);
                self.rows_call(calls::ifft_rows, block, first, offset)?;
            }
            Ok(())
        })
    }

    /// Multiplies the rows' values, place by place, and takes them back.
    fn each_row_times<F: FftField>(&self, left: &mut [F], right: &mut [F]) -> Result<(), Refusal> {
        let columns = self.columns();
        let at_once = self.at_once::<F>(columns);
        let shares = self.shares::<F>(self.rows());
        let jobs = shares.iter().zip(cut(left, &shares, columns)).zip(cut(right, &shares, columns));
        each(jobs, |((share, left), right)| {
            let blocks = left.chunks_mut(at_once * columns).zip(right.chunks_mut(at_once * columns));
            for (first, (left, right)) in (share.start..).step_by(at_once).zip(blocks) {
                self.rows_call(calls::fft_rows, left, first, F::ONE)?;
                self.rows_call(calls::fft_rows, right, first, F::ONE)?;
                left.iter_mut().zip(right).for_each(|(a, b)| *a *= *b);
                self.rows_call(calls::ifft_rows, left, first, F::ONE)?;
            }
            Ok(())
        })
    }

    fn rows_call<F: FftField>(&self, call: RowsCall, block: &mut [F], first: usize, offset: F) -> Result<(), Refusal> {
        call(F::NAME, words_mut(block), self.shape, first as u64, words(&[offset]))
    }
}

type ColumnsCall = fn(u64, &mut [u64], Shape, &[u64]) -> Result<(), Refusal>;
type RowsCall = fn(u64, &mut [u64], Shape, u64, &[u64]) -> Result<(), Refusal>;

/// For each share of the columns its part of every row.
fn strips<'a, T>(list: &'a mut [T], columns: usize, shares: &'a [Range<usize>]) -> Vec<Vec<&'a mut [T]>> {
    let mut strips: Vec<_> = shares.iter().map(|_| Vec::with_capacity(list.len() / columns)).collect();
    for row in list.chunks_exact_mut(columns) {
        strips.iter_mut().zip(cut(row, shares, 1)).for_each(|(strip, part)| strip.push(part));
    }
    strips
}

/// Writes item `i` of list `j` to place `j` of list `i`. It goes by tiles, which it gathers first, so that each line of memory is
/// read once and written once.
fn transpose<F: Field>(from: &[&[F]], into: &mut [&mut [F]]) {
    let mut tile = [[F::ZERO; TILE]; TILE];
    for (left, into) in (0..).step_by(TILE).zip(into.chunks_mut(TILE)) {
        for (top, from) in (0..).step_by(TILE).zip(from.chunks(TILE)) {
            for (i, list) in from.iter().enumerate() {
                let items = &list[left..left + into.len()];
                tile.iter_mut().zip(items).for_each(|(line, item)| line[i] = *item);
            }
            for (list, line) in into.iter_mut().zip(&tile) {
                list[top..top + from.len()].copy_from_slice(&line[..from.len()]);
            }
        }
    }
}
