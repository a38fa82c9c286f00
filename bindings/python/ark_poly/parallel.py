"""The long calls on many threads, with the answers of the plain ones. It needs numpy.

>>> from ark_poly import F65537, fft, parallel
>>> parallel.fft(F65537, range(1 << 16), threads=2) == fft(F65537, range(1 << 16))
True

Each call takes what the plain one of its name takes, and `threads`: 0 for one on each core. Short lists, one thread, and what a
part of the work is refused for go as the plain call does, which raises what is to be raised.
"""
from __future__ import annotations

import os
from concurrent.futures import ThreadPoolExecutor
from typing import Any, Callable, Iterable, List, Optional, Sequence, Tuple

try:
    import numpy
except ImportError as error:
    raise ImportError(f"ark_poly.parallel needs numpy ({error})") from None

import ark_poly

from . import ArkError, Elements, WrongLength, _as_array, _calls, _check, _count, _Words

__all__ = ["code_encode", "code_message", "code_restore", "fft", "ifft", "multiply"]

# A block, with the memory that a call takes for it, stays in the second cache.
_BLOCK_BYTES = 1 << 18
# Threads cost more than they save below that.
_LEAST_BYTES = 1 << 19
# A product by so few coefficients needs no transform.
_FEW = 64


def fft(field: int, values: Elements, offset: int = 1, threads: int = 0) -> Any:
    """`ark_poly.fft` on threads: with memory for the list twice, one of which is the answer."""
    given, threads = _Words.given(field, values), _cores(threads)
    if given.count & given.count - 1 or not _is_worth(given.count * given.width, threads):
        return ark_poly.fft(field, given, offset)
    grid = _Grid(field, given.count, given.width, threads)
    source = _items(given).reshape(grid.shape)
    work, made = numpy.empty_like(source), numpy.empty_like(source)
    target = grid.in_order(made)

    def columns(at: slice) -> None:
        grid.columns(ark_poly.fft_columns_in_place, source, work, at, offset)

    def rows(at: slice) -> None:
        grid.rows(ark_poly.fft_rows_in_place, work, at, offset)
        target[at] = work[at]

    try:
        _run(threads, (columns, grid.column_blocks), (rows, grid.row_blocks))
    except ArkError:
        return ark_poly.fft(field, given, offset)
    return _like(given, made)


def ifft(field: int, values: Elements, offset: int = 1, threads: int = 0) -> Any:
    """`ark_poly.ifft` on threads."""
    given, threads = _Words.given(field, values), _cores(threads)
    if given.count & given.count - 1 or not _is_worth(given.count * given.width, threads):
        return ark_poly.ifft(field, given, offset)
    grid = _Grid(field, given.count, given.width, threads)
    source = grid.in_order(_items(given))
    made = numpy.empty(grid.shape, dtype=numpy.uint64)

    def rows(at: slice) -> None:
        made[at] = source[at]
        grid.rows(ark_poly.ifft_rows_in_place, made, at, offset)

    def columns(at: slice) -> None:
        grid.columns(ark_poly.ifft_columns_in_place, made, made, at, offset)

    try:
        _run(threads, (rows, grid.row_blocks), (columns, grid.column_blocks))
    except ArkError:
        return ark_poly.ifft(field, given, offset)
    return _like(given, made)


def multiply(field: int, left: Elements, right: Elements, threads: int = 0) -> Any:
    """`ark_poly.multiply` on threads: the values of both stay in the order in which the rows leave them."""
    left, right, threads = _Words.given(field, left), _Words.given(field, right), _cores(threads)
    size, width = left.count + right.count - 1, left.width
    if min(left.count, right.count) <= _FEW or not _is_worth(size * width, threads):
        return ark_poly.multiply(field, left, right)
    grid = _Grid(field, 1 << (size - 1).bit_length(), width, threads)
    factors = []
    for factor in (left, right):
        padded = numpy.zeros(grid.shape, dtype=numpy.uint64)
        padded.reshape(-1)[: factor.count * width] = _items(factor)
        factors.append(padded)
    made, other = factors

    def columns(at: slice) -> None:
        for factor in factors:
            grid.columns(ark_poly.fft_columns_in_place, factor, factor, at)

    def rows(at: slice) -> None:
        for factor in factors:
            grid.rows(ark_poly.fft_rows_in_place, factor, at)
        ark_poly.multiply_values_in_place(field, made[at], other[at].reshape(-1))
        grid.rows(ark_poly.ifft_rows_in_place, made, at)

    def back(at: slice) -> None:
        grid.columns(ark_poly.ifft_columns_in_place, made, made, at)

    try:
        _run(threads, (columns, grid.column_blocks), (rows, grid.row_blocks), (back, grid.column_blocks))
    except ArkError:
        return ark_poly.multiply(field, left, right)
    return _like(left, made.reshape(-1)[: size * width])


def code_encode(field: int, messages: Elements, n: int, k: Optional[int] = None, threads: int = 0) -> Any:
    """The codewords of n items, one after another, of messages of k items each, one after another, or without k of one message.

    It raises what `ark_poly.code_encode` does for one of the messages, and `WrongLength` where the list isn't whole messages.
    """
    given = _Words.given(field, messages)
    if k is None:
        return ark_poly.code_encode(field, given, n)
    k, n = _count(k), _count(n)
    if not k or given.count % k:
        raise WrongLength(WrongLength.__doc__)
    ark_poly.domain_size(field, n)
    count, width = given.count // k, given.width
    made = numpy.empty(count * n * width, dtype=numpy.uint64)
    source, target = _items(given).ctypes.data, made.ctypes.data

    def encode(at: slice) -> None:
        for i in range(at.start, at.stop):
            message, word = source + 8 * i * k * width, target + 8 * i * n * width
            _check(_calls.ark_code_encode(field, message, k * width, word, n * width))

    threads = _cores(threads) if _is_worth(made.size, 2) else 1
    _run(threads, (encode, _shares(count, threads)))
    return _like(given, made)


def code_restore(field: int, words: Elements, k: int, erased: Optional[Sequence[Any]] = None, threads: int = 0) -> Any:
    """`ark_poly.code_restore` on threads, of which each takes some words whole: one word is restored by one."""
    if erased is None:
        return ark_poly.code_restore(field, words, k)
    given, erased, threads = _Words.given(field, words), list(erased), _cores(threads)
    if not _are_many(given, len(erased), threads):
        return ark_poly.code_restore(field, given, k, erased)
    source = _items(given).reshape(-1, len(erased) * given.width)
    made = numpy.empty_like(source)

    def restore(at: slice) -> None:
        made[at] = source[at]
        ark_poly.code_restore_in_place(field, made[at], k, erased)

    try:
        _run(threads, (restore, _shares(len(source), threads)))
    except ArkError:
        return ark_poly.code_restore(field, given, k, erased)
    return _like(given, made)


def code_message(field: int, words: Elements, k: int, erased: Optional[Sequence[Any]] = None, threads: int = 0) -> Any:
    """`ark_poly.code_message` on threads, of which each takes some words whole."""
    if erased is None:
        return ark_poly.code_message(field, words, k)
    given, erased, threads = _Words.given(field, words), list(erased), _cores(threads)
    if not _are_many(given, len(erased), threads) or not 0 < _count(k) <= len(erased):
        return ark_poly.code_message(field, given, k, erased)
    source = _items(given).reshape(-1, len(erased) * given.width)
    made = numpy.empty((len(source), k * given.width), dtype=numpy.uint64)

    def read(at: slice) -> None:
        made[at] = ark_poly.code_message(field, source[at].reshape(-1), k, erased).reshape(made[at].shape)

    try:
        _run(threads, (read, _shares(len(source), threads)))
    except ArkError:
        return ark_poly.code_message(field, given, k, erased)
    return _like(given, made)


class _Grid:
    """A list of a power of two of elements as rows and columns, and the blocks of both."""

    def __init__(self, field: int, count: int, width: int, threads: int) -> None:
        log = count.bit_length() - 1
        self.field = field
        self.logs = log // 2, log - log // 2
        rows, columns = (1 << it for it in self.logs)
        self.shape = rows, columns, width
        # two blocks or more for each thread, of a power of two of items
        most = min(_BLOCK_BYTES // (8 * width), count // (2 * threads))
        most = 1 << max(most.bit_length() - 1, 0)
        self.column_blocks = _slices(columns, max(most // rows, 1))
        self.row_blocks = _slices(rows, max(most // columns, 1))

    def in_order(self, items: Any) -> Any:
        """Where item (i, j) stands in a transform."""
        rows, columns, width = self.shape
        return items.reshape(columns, rows, width).swapaxes(0, 1)

    def columns(self, call: Callable[..., None], source: Any, target: Any, at: slice, offset: int = 1) -> None:
        """Puts what the call makes of a block of columns into their places in the target."""
        block = source[:, at].copy()
        call(self.field, block, *self.logs, offset)
        target[:, at] = block

    def rows(self, call: Callable[..., None], items: Any, at: slice, offset: int = 1) -> None:
        """Puts what the call makes of a block of rows in its place."""
        call(self.field, items[at], *self.logs, at.start, offset)


def _cores(threads: int) -> int:
    return threads or len(os.sched_getaffinity(0))


def _is_worth(words: int, threads: int) -> bool:
    return threads > 1 and 8 * words >= _LEAST_BYTES


def _are_many(words: _Words, n: int, threads: int) -> bool:
    """Whether these are words of n items, so many that threads are worth it."""
    return n > 0 and words.count % n == 0 and words.count > n and _is_worth(words.count * words.width, threads)


def _slices(count: int, size: int) -> List[slice]:
    return [slice(start, min(start + size, count)) for start in range(0, count, size)]


def _shares(count: int, threads: int) -> List[slice]:
    return _slices(count, max(-(-count // threads), 1))


def _run(threads: int, *passes: Tuple[Callable[[slice], None], Iterable[slice]]) -> None:
    """Does each pass, one after another, over all of its blocks."""
    with ThreadPoolExecutor(threads) as pool:
        for task, blocks in passes:
            for _ in pool.map(task, blocks):
                pass


def _items(words: _Words) -> Any:
    return numpy.frombuffer(words.buffer, dtype=numpy.uint64)


def _like(words: _Words, made: Any) -> Any:
    """The elements as an answer of the same kind as these words."""
    made = made.reshape(-1)
    if words._answer is _as_array:
        answer = words.room(made.size // words.width)
        _items(answer)[:] = made
        return answer.answer()
    return _Words(words.width, memoryview(made), words._answer).answer()
