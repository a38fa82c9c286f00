"""Transforms, products and codes over lists in chunks, by Dask on one machine or on many.

    import dask.array
    from ark_poly import BLS12_381_FR, dask as ark_dask

    coefficients = dask.array.from_zarr("coefficients.zarr")    # of the shape (n, 4), in chunks of some megabytes
    values = ark_dask.fft(coefficients, BLS12_381_FR)

A list is an array of uint64: of the shape (n,) over a field of one word, of (n, 4) over one of four. The answer is another, in
chunks of about the same size, which nothing computes yet. Lengths and fields are judged at once, numbers when it is computed:
then `NotReduced` and `NoCodeword` are raised. Each worker needs `ark_poly`, and memory for its share of what a step reads and
of what it makes, and for some five chunks for each of its threads.

A transform takes the list as r rows of c elements: blocks of columns, then blocks of rows. Between these steps, and before and
after them, Dask's `rechunk` moves the list.
"""
from __future__ import annotations

from typing import Any, Sequence, Tuple

import dask.array
import numpy

import ark_poly

from . import NoDomain, WrongLength

__all__ = ["fft", "ifft", "multiply", "restore"]


def fft(array: Any, field: int, offset: int = 1) -> Any:
    """`ark_poly.fft` of a list in chunks, of a power of two of elements."""
    grid = _Grid(array, field, offset)
    return grid.from_order(grid.forward(grid.listed(array), offset), array.ndim)


def ifft(array: Any, field: int, offset: int = 1) -> Any:
    """`ark_poly.ifft` of a list in chunks, of a power of two of elements."""
    grid = _Grid(array, field, offset)
    return grid.flat(grid.back(grid.to_order(array), offset), array.ndim)


def multiply(left: Any, right: Any, field: int) -> Any:
    """The product of two polynomials in chunks, each of one coefficient or more: it needs a domain of as many elements as it has
    coefficients, or `NoDomain` is raised. The values stay in the order in which the rows leave them."""
    size = _count(left, field) + _count(right, field) - 1
    if not len(left) or not len(right):
        raise WrongLength(WrongLength.__doc__)
    left, right = (_padded(factor, 1 << (size - 1).bit_length()) for factor in (left, right))
    grid = _Grid(left, field)
    values = [grid.forward(grid.listed(factor)) for factor in (left, right)]
    product = dask.array.map_blocks(_products, *values, field, dtype=numpy.uint64, meta=_META)
    return grid.flat(grid.back(product), left.ndim)[:size]


def restore(array: Any, field: int, k: int, erased: Sequence[Any]) -> Any:
    """`ark_poly.code_restore` of many words in chunks, one after another: all have lost the places that `erased` marks."""
    marks = bytes(1 if mark else 0 for mark in erased)
    if not marks or not _count(array, field) or len(array) % len(marks):
        raise WrongLength(WrongLength.__doc__)
    whole = max(max(array.chunks[0]) // len(marks), 1) * len(marks)
    words = array.rechunk({0: whole, **{axis: -1 for axis in range(1, array.ndim)}})
    return words.map_blocks(_restored, field, k, marks, dtype=numpy.uint64, meta=array._meta)


# Up to twice so many chunks are cut into pieces for all others in one step.
_PIECES = 64
_META = numpy.empty((0, 0, 0), dtype=numpy.uint64)


class _Grid:
    """A list in chunks as r rows of c elements, and in how many blocks columns and rows go."""

    def __init__(self, array: Any, field: int, offset: int = 1) -> None:
        count = _count(array, field)
        log = count.bit_length() - 1
        if count != 1 << max(log, 0) or ark_poly.domain_size(field, count) != count or not offset:
            raise NoDomain(NoDomain.__doc__)
        self.field = field
        self.width = ark_poly.words(field)
        self.logs = log // 2, log - log // 2
        self.rows, self.columns = (1 << it for it in self.logs)
        # as many as there are chunks, a power of two
        chunks = 1 << (-(-count // max(array.chunks[0])) - 1).bit_length()
        self.blocks = min(chunks, self.rows)

    def listed(self, array: Any) -> Any:
        """The list as rows."""
        return array.reshape(self.rows, self.columns, self.width)

    def flat(self, rows: Any, ndim: int) -> Any:
        """Rows as a list."""
        shape = (self.rows * self.columns, self.width)[:ndim]
        return self.by_rows(rows).reshape(shape)

    def to_order(self, array: Any) -> Any:
        """The rows of a transform: item (i, j) is its number i + r * j."""
        return array.reshape(self.columns, self.rows, self.width).transpose(1, 0, 2)

    def from_order(self, rows: Any, ndim: int) -> Any:
        """The transform of which these are the rows."""
        return self.flat(rows.transpose(1, 0, 2), ndim)

    def forward(self, rows: Any, offset: int = 1) -> Any:
        """All columns, then all rows."""
        return self.each_row("fft_rows", self.each_column("fft_columns", rows, offset), offset)

    def back(self, rows: Any, offset: int = 1) -> Any:
        """All rows, then all columns."""
        return self.each_column("ifft_columns", self.each_row("ifft_rows", rows, offset), offset)

    def by_rows(self, items: Any) -> Any:
        return self.moved(items, (max(items.shape[0] // self.blocks, 1), -1, -1))

    def moved(self, items: Any, chunks: Tuple[int, int, int]) -> Any:
        """The items in other chunks: at once where there are few, and never by greater ones, which Dask would put in between."""
        most = 8 * self.width * self.rows * self.columns // self.blocks
        return items.rechunk(chunks, threshold=_PIECES, block_size_limit=most)

    def each_row(self, call: str, rows: Any, offset: int) -> Any:
        size = self.rows // self.blocks
        return self.by_rows(rows).map_blocks(
            _rows, call, self.field, self.logs, size, offset, dtype=numpy.uint64, meta=_META
        )

    def each_column(self, call: str, rows: Any, offset: int) -> Any:
        blocks = self.moved(rows, (-1, self.columns // self.blocks, -1))
        return blocks.map_blocks(_columns, call, self.field, self.logs, offset, dtype=numpy.uint64, meta=_META)


# What a task does. None writes over what it is given, which others may read.


def _columns(block: Any, call: str, field: int, logs: Tuple[int, int], offset: int) -> Any:
    return _made(call + "_in_place", block, field, *logs, offset)


def _rows(block: Any, call: str, field: int, logs: Tuple[int, int], size: int, offset: int, block_id: Any = None) -> Any:
    return _made(call + "_in_place", block, field, *logs, block_id[0] * size, offset)


def _made(call: str, block: Any, field: int, *given: Any) -> Any:
    made = numpy.array(block, order="C")
    getattr(ark_poly, call)(field, made, *given)
    return made


def _products(left: Any, right: Any, field: int) -> Any:
    return _made("multiply_values_in_place", left, field, right.reshape(-1))


def _restored(words: Any, field: int, k: int, marks: bytes) -> Any:
    return _made("code_restore_in_place", words, field, k, marks)


# Lists.


def _count(array: Any, field: int) -> int:
    """How many elements a list in chunks has."""
    width = ark_poly.words(field)
    if array.dtype != numpy.uint64:
        raise TypeError("an array of uint64 is wanted")
    if array.shape[1:] != (width,) and (width > 1 or array.ndim != 1):
        raise WrongLength(WrongLength.__doc__)
    return len(array)


def _padded(array: Any, count: int) -> Any:
    """The list with zeros behind."""
    shape = (count - len(array), *array.shape[1:])
    if not shape[0]:
        return array
    chunks = (max(array.chunks[0]), *array.shape[1:])
    return dask.array.concatenate([array, dask.array.zeros(shape, dtype=numpy.uint64, chunks=chunks)])
