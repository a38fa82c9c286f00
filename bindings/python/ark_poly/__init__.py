"""Polynomials, transforms, multilinear extensions, sum-checks and Reed-Solomon codes over prime fields, and files in pieces, by a
library that is proved.

>>> fft(F65537, [1, 2, 3, 4])[0]
10
>>> multiply(BLS12_381_FR, [1, 1], [1, 1])
[1, 2, 1]

A field is one of the names below, or for one of one word its modulus. An element is a number below the modulus. A list of
elements is any sequence of `int`, and the answer is then a `list`. It may also be words of 64 bits: an array of numpy's
`uint64`, an `array.array("Q")` or a `memoryview` of one. Words that stand in one piece and may be written are taken without a
copy, and the answer is of the same kind (an `array` where a `memoryview` was given); that of `evaluate` is of the points' kind.
An element of a field of four words, as `BN254_FR`, is four of them, the low one first; an array of numpy has them in rows, of
the shape `(n, 4)`, or flat.

The functions that end in `_in_place` write over such words, or over a `list`. Where a call raises, nothing was written. While a
call runs, other threads do too, and none may write over what the call was given. `ark_poly.parallel` makes the long calls on
many threads, `ark_poly.dask` on many machines.
"""
from __future__ import annotations

import array
import ctypes
import operator
import sys
from typing import Any, Callable, Iterable, List, Optional, Sequence, Tuple, Type, Union, overload

from ._library import (
    ArkError,
    Damaged,
    EqualPoints,
    NoCodeword,
    NoDomain,
    NoField,
    NotPieces,
    NotReduced,
    OutOfMemory,
    Refused,
    TooFew,
    WrongAddends,
    WrongLength,
    ZeroDivisor,
    check as _check,
    library as _calls,
)

__version__ = "0.5.0+proved.1"

__all__ = [
    "BABYBEAR", "BLS12_381_FR", "BN254_FR", "F433", "F5", "F65537", "GOLDILOCKS", "KOALABEAR",
    "ArkError", "Damaged", "EqualPoints", "NoCodeword", "NoDomain", "NoField", "NotPieces", "NotReduced", "OutOfMemory",
    "Refused", "TooFew", "WrongAddends", "WrongLength", "ZeroDivisor",
    "challenge_degree", "code_encode", "code_encode_systematic", "code_message", "code_restore", "code_restore_in_place",
    "divide", "domain_size", "evaluate", "fft", "fft_columns", "fft_columns_in_place", "fft_in_place", "fft_rows",
    "fft_rows_in_place", "ifft", "ifft_columns", "ifft_columns_in_place", "ifft_in_place", "ifft_rows", "ifft_rows_in_place",
    "interpolate", "join", "lagrange", "library_version", "modulus", "multilinear_evaluate", "multilinear_evaluate_sparse",
    "multilinear_fix", "multiply", "multiply_values", "multiply_values_in_place", "split", "sum_check_proof_size",
    "sum_check_prove", "sum_check_value", "sum_check_verify", "words",
]  # fmt: skip

F5 = 5
F433 = 433
F65537 = 65537
BABYBEAR = 2013265921
KOALABEAR = 2130706433
GOLDILOCKS = 18446744069414584321
BN254_FR = 254
BLS12_381_FR = 12381

_OF_FOUR_WORDS = {
    BN254_FR: 0x30644E72E131A029B85045B68181585D2833E84879B9709143E1F593F0000001,
    BLS12_381_FR: 0x73EDA753299D7D483339D80809A1D80553BDA402FFFE5BFEFFFFFFFF00000001,
}

# What stands for a list of elements: a sequence of numbers, or words in one piece.
Elements = Any
# A product of tables: its coefficient, and the places of its factors' tables.
Addend = Tuple[int, Iterable[int]]
# An element of the field of the challenges: its coefficients.
Challenge = Tuple[int, ...]


def library_version() -> Tuple[int, int, int]:
    """The version of the library that is loaded: major, minor and patch."""
    version = _calls.ark_version()
    return version >> 16, version >> 8 & 255, version & 255


def words(field: int) -> int:
    """How many words of 64 bits an element has."""
    width = _calls.ark_words(_name(field))
    if not width:
        raise NoField(f"no field {field}")
    return width


def modulus(field: int) -> int:
    """The prime below which the elements are."""
    words(field)
    return _OF_FOUR_WORDS.get(field, field)


def domain_size(field: int, at_least: int) -> int:
    """The least size of a domain at or above this one: a power of two wherever there is one."""
    size = ctypes.c_uint64()
    at_least = operator.index(at_least)
    if at_least >= 1 << 64:
        words(field)
        raise NoDomain(NoDomain.__doc__)
    _check(_calls.ark_domain_size(_name(field), max(at_least, 0), ctypes.byref(size)))
    return size.value


# ---- transforms


def fft(field: int, values: Elements, offset: int = 1) -> Any:
    """The values of the polynomial with these n coefficients, the lowest first, at the elements `offset * w**i`, where `w` is
    the field's root of unity of order n."""
    return _transformed(_calls.ark_fft, field, values, offset)


def ifft(field: int, values: Elements, offset: int = 1) -> Any:
    """The coefficients that `fft` takes to these values."""
    return _transformed(_calls.ark_ifft, field, values, offset)


def fft_in_place(field: int, words: Any, offset: int = 1) -> None:
    """`fft` over writable words of 64 bits in one piece, or a `list`."""
    _write(_calls.ark_fft, field, words, offset)


def ifft_in_place(field: int, words: Any, offset: int = 1) -> None:
    """`ifft` over writable words of 64 bits in one piece, or a `list`."""
    _write(_calls.ark_ifft, field, words, offset)


def _write(call: Callable[..., int], field: int, words: Any, offset: int, *place: int) -> None:
    if isinstance(words, list):
        words[:] = _transformed(call, field, words, offset, *place)
    else:
        _transform(call, field, _Words.written(field, words), offset, *place)


def _transformed(call: Callable[..., int], field: int, values: Elements, offset: int, *place: int) -> Any:
    copy = _Words.given(field, values).copy()
    _transform(call, field, copy, offset, *place)
    return copy.answer()


def _transform(call: Callable[..., int], field: int, words: _Words, offset: int, *place: int) -> None:
    at = _Words.given(field, [offset])
    _check(call(field, *words.pair, *place, *at.pair))


# ---- transforms in parts


def fft_columns(field: int, block: Elements, log_rows: int, log_columns: int, offset: int = 1) -> Any:
    """The first half of `fft` with this offset, on some columns of a list of r = 2**log_rows rows of c = 2**log_columns elements:
    item (i, j) is its number i * c + j. The block is r rows of any number of elements, in each of the columns that are taken one.

    When all columns are done, and then by `fft_rows` all rows, item (i, j) is number i + r * j of the transform.

    >>> fft(F65537, [1, 2, 3, 4])
    [10, 510, 65535, 65023]
    >>> columns = [fft_columns(F65537, column, 1, 1) for column in ([1, 3], [2, 4])]
    >>> [fft_rows(F65537, row, 1, 1, i) for i, row in enumerate(zip(*columns))]
    [[10, 65535], [510, 65023]]

    It raises `WrongLength` where the block isn't r rows or log_rows + log_columns is above 63, and `NoDomain` where the field has
    no domain of r * c elements or the offset is zero.
    """
    return _transformed(_calls.ark_fft_columns, field, block, offset, *_logs(field, log_rows, log_columns))


def fft_rows(field: int, block: Elements, log_rows: int, log_columns: int, first: int, offset: int = 1) -> Any:
    """The second half of `fft`, on some whole rows of such a list, of which the first is row number `first`.

    It raises `WrongLength` where the block isn't whole rows, they go beyond row r - 1 or log_rows + log_columns is above 63, and
    `NoDomain` where the field has no domain of r * c elements or the offset is zero.
    """
    return _transformed(_calls.ark_fft_rows, field, block, offset, *_logs(field, log_rows, log_columns), _count(first))


def ifft_rows(field: int, block: Elements, log_rows: int, log_columns: int, first: int, offset: int = 1) -> Any:
    """The rows that `fft_rows` takes to these: the first half of `ifft`."""
    return _transformed(_calls.ark_ifft_rows, field, block, offset, *_logs(field, log_rows, log_columns), _count(first))


def ifft_columns(field: int, block: Elements, log_rows: int, log_columns: int, offset: int = 1) -> Any:
    """The columns that `fft_columns` takes to these: the second half of `ifft`."""
    return _transformed(_calls.ark_ifft_columns, field, block, offset, *_logs(field, log_rows, log_columns))


def fft_columns_in_place(field: int, words: Any, log_rows: int, log_columns: int, offset: int = 1) -> None:
    """`fft_columns` over writable words of 64 bits in one piece, or a `list`."""
    _write(_calls.ark_fft_columns, field, words, offset, *_logs(field, log_rows, log_columns))


def fft_rows_in_place(field: int, words: Any, log_rows: int, log_columns: int, first: int, offset: int = 1) -> None:
    """`fft_rows` over writable words of 64 bits in one piece, or a `list`."""
    _write(_calls.ark_fft_rows, field, words, offset, *_logs(field, log_rows, log_columns), _count(first))


def ifft_rows_in_place(field: int, words: Any, log_rows: int, log_columns: int, first: int, offset: int = 1) -> None:
    """`ifft_rows` over writable words of 64 bits in one piece, or a `list`."""
    _write(_calls.ark_ifft_rows, field, words, offset, *_logs(field, log_rows, log_columns), _count(first))


def ifft_columns_in_place(field: int, words: Any, log_rows: int, log_columns: int, offset: int = 1) -> None:
    """`ifft_columns` over writable words of 64 bits in one piece, or a `list`."""
    _write(_calls.ark_ifft_columns, field, words, offset, *_logs(field, log_rows, log_columns))


def _logs(field: int, log_rows: int, log_columns: int) -> Tuple[int, int]:
    words(field)
    logs = operator.index(log_rows), operator.index(log_columns)
    if min(logs) < 0 or sum(logs) >= 64:
        raise WrongLength(WrongLength.__doc__)
    return logs


# ---- polynomials


def multiply(field: int, left: Elements, right: Elements) -> Any:
    """The coefficients of the product of two polynomials, the lowest first: one fewer than both have together."""
    left, right = _Words.given(field, left), _Words.given(field, right)
    product = left.room(max(left.count + right.count - 1, 0) if left.count and right.count else 0)
    if product.count:
        _check(_calls.ark_multiply(field, *left.pair, *right.pair, *product.pair))
    return product.answer()


def multiply_values(field: int, values: Elements, others: Elements) -> Any:
    """The products place by place. Where both lists are values of polynomials at the same points, in any order, as that in which
    `fft_rows` leaves them, these are the values of the product. It raises `WrongLength` where the lists differ in length.

    >>> multiply_values(F65537, [1, 2, 3], [4, 5, 6])
    [4, 10, 18]
    """
    products = _Words.given(field, values).copy()
    _check(_calls.ark_multiply_values(field, *products.pair, *_Words.given(field, others).pair))
    return products.answer()


def multiply_values_in_place(field: int, words: Any, others: Elements) -> None:
    """`multiply_values` over writable words of 64 bits in one piece, or a `list`. The others may be the same list."""
    if isinstance(words, list):
        words[:] = multiply_values(field, words, others)
    else:
        values = _Words.written(field, words)
        _check(_calls.ark_multiply_values(field, *values.pair, *_Words.given(field, others).apart_from(values).pair))


def divide(field: int, dividend: Elements, divisor: Elements) -> Tuple[Any, Any]:
    """The quotient, as long as the dividend, and the remainder, as long as the divisor, with zeros behind."""
    dividend, divisor = _Words.given(field, dividend), _Words.given(field, divisor)
    quotient, remainder = dividend.room(dividend.count), dividend.room(divisor.count)
    _check(_calls.ark_divide(field, *dividend.pair, *divisor.pair, *quotient.pair, *remainder.pair))
    return quotient.answer(), remainder.answer()


@overload
def evaluate(field: int, coefficients: Elements, points: int) -> int: ...
@overload
def evaluate(field: int, coefficients: Elements, points: Elements) -> Any: ...
def evaluate(field: int, coefficients: Elements, points: Any) -> Any:
    """The polynomial's value at a point, or the list of its values at points."""
    if _is_number(points):
        return evaluate(field, _Words.given(field, coefficients), [points])[0]
    coefficients, points = _Words.given(field, coefficients), _Words.given(field, points)
    values = points.room(points.count)
    _check(_calls.ark_evaluate(field, *coefficients.pair, *points.pair, *values.pair))
    return values.answer()


def interpolate(field: int, points: Elements, values: Elements) -> Any:
    """The n coefficients of the only polynomial that has these n values at these n points."""
    points, values = _Words.given(field, points), _Words.given(field, values)
    coefficients = values.room(points.count)
    _check(_calls.ark_interpolate(field, *points.pair, *values.pair, *coefficients.pair))
    return coefficients.answer()


def lagrange(field: int, size: int, point: int, offset: int = 1) -> List[int]:
    """The weights of the values over a domain of this size in the value at the point."""
    first, at = _Words.given(field, [offset]), _Words.given(field, [point])
    domain_size(field, size)
    weights = first.room(_count(size))
    _check(_calls.ark_lagrange(field, *first.pair, *at.pair, *weights.pair))
    return weights.answer()


# ---- multilinear extensions


def multilinear_evaluate(field: int, table: Elements, point: Elements) -> int:
    """The value at a point of the multilinear polynomial with these 2^m values at the corners: variable j is bit j of the
    place."""
    table, point = _Words.given(field, table), _Words.given(field, point)
    value = point.room(1)
    _check(_calls.ark_multilinear_evaluate(field, *table.pair, *point.pair, *value.pair))
    return value.numbers()[0]


def multilinear_evaluate_sparse(field: int, indices: Elements, values: Elements, point: Elements) -> int:
    """The same of the table that has these values at these indices, and zero elsewhere. The indices stand in any order; the last
    value of an index counts.

    >>> multilinear_evaluate_sparse(F65537, [2, 0], [5, 7], [0, 1])
    5
    """
    places, values, point = _indices(indices), _Words.given(field, values), _Words.given(field, point)
    value = point.room(1)
    _check(_calls.ark_multilinear_evaluate_sparse(field, *places.pair, *values.pair, *point.pair, *value.pair))
    return value.numbers()[0]


def multilinear_fix(field: int, table: Elements, point: Elements) -> Any:
    """The table of the polynomial in the other variables, where the first ones are bound to the point's elements."""
    table, point = _Words.given(field, table), _Words.given(field, point)
    result = table.room(table.count >> min(point.count, 64))
    _check(_calls.ark_multilinear_fix(field, *table.pair, *point.pair, *result.pair))
    return result.answer()


# ---- sum-checks


def challenge_degree(field: int) -> int:
    """How many coefficients a challenge has, an element of a field of 2**123 or more that this one lies in. They are those of 1,
    y^2, y and y^3 where y^4 is 11, for BABYBEAR, or 3, for KOALABEAR, and those of 1 and y where y^2 is 7, for GOLDILOCKS. BN254_FR
    and BLS12_381_FR have their own elements as challenges; the other fields have none, and it raises `NoField`."""
    width = _calls.ark_challenge_words(_name(field))
    if not width:
        raise NoField(f"no challenges over the field {field}")
    return width // words(field)


def sum_check_proof_size(field: int, num_vars: int, degree: int) -> int:
    """How many bytes a proof has. It raises `WrongLength` where there are more than 63 variables, or the degree is none of 1 to
    65535, and so do the next calls."""
    size = ctypes.c_uint64()
    challenge_degree(field)
    _check(_calls.ark_sum_proof_size(field, *_shape(num_vars, degree), ctypes.byref(size)))
    return size.value


def sum_check_prove(
    field: int, label: Any, statement: Any, num_vars: int, degree: int, tables: Elements, addends: Iterable[Addend]
) -> Tuple[int, bytes]:
    """The sum over all corners of products of tables, and a proof of it, which needs no answers.

    The tables have 2**num_vars elements each, as that of `multilinear_evaluate`, and stand one after another. An addend is its
    coefficient and the places of its factors' tables, the first of which is 0; a table may be a factor several times, and an
    addend may have none. The degree is the number of factors of the longest addend, and 1 where none has any.

    The label, bytes, names the protocol. **The statement, bytes too, must fix tables and addends**, as their own bytes or a
    commitment to them do: otherwise a prover may choose tables after it sees the challenges.

    >>> tables, addends = [1, 2, 3, 4, 5, 6, 7, 8], [(1, [0, 1]), (3, [1])]
    >>> total, proof = sum_check_prove(BABYBEAR, b"my protocol", b"these tables", 2, 2, tables, addends)
    >>> total
    148
    >>> point, value = sum_check_verify(BABYBEAR, b"my protocol", b"these tables", 2, 2, total, proof)
    >>> sum_check_value(BABYBEAR, 2, 2, tables, addends, point) == value
    True
    """
    size = sum_check_proof_size(field, num_vars, degree)
    shape, said, proof = _shape(num_vars, degree), _said(label, statement), bytearray(size)
    values, products, total = _Words.given(field, tables), _addends(field, addends), _Words.given(field, [0])
    room = (ctypes.c_char * size).from_buffer(proof)
    _check(_calls.ark_sum_prove(field, *said, *shape, *values.pair, *products.pair, room, size, *total.pair))
    return total.numbers()[0], bytes(proof)


def sum_check_verify(
    field: int, label: Any, statement: Any, num_vars: int, degree: int, total: int, proof: Any
) -> Tuple[List[Challenge], Challenge]:
    """What is left to check of a proof of this sum: a point, and the value there of the sum of products, which `sum_check_value`
    finds. If it is that, the sum is true, or one of the point's challenges is unlucky: one of at most as many as the degree. A
    challenge, as the value, is a tuple of `challenge_degree(field)` coefficients.

    It raises `Refused` where the bytes are no proof, and `WrongLength` where they aren't as many as a proof has.
    """
    sum_check_proof_size(field, num_vars, degree)
    shape, coefficients = _shape(num_vars, degree), challenge_degree(field)
    claim, said, proof = _Words.given(field, [total]), _said(label, statement), _bytes(proof)
    point, value = claim.room(shape[0] * coefficients), claim.room(coefficients)
    _check(_calls.ark_sum_verify(field, *said, *shape, *claim.pair, proof, len(proof), *point.pair, *value.pair))
    return _challenges(field, point), _challenges(field, value)[0]


def sum_check_value(
    field: int, num_vars: int, degree: int, tables: Elements, addends: Iterable[Addend], point: Iterable[Challenge]
) -> Challenge:
    """The value of such a sum of products at a point of `num_vars` challenges. Of one table and the addend `(1, [0])` it is the
    value of the table's multilinear polynomial."""
    sum_check_proof_size(field, num_vars, degree)
    shape, coefficients, challenges = _shape(num_vars, degree), challenge_degree(field), list(map(tuple, point))
    if any(len(challenge) != coefficients for challenge in challenges):
        raise WrongLength(WrongLength.__doc__)
    values, products = _Words.given(field, tables), _addends(field, addends)
    at = _Words.given(field, [number for challenge in challenges for number in challenge])
    value = at.room(coefficients)
    _check(_calls.ark_sum_value(field, *shape, *values.pair, *products.pair, *at.pair, *value.pair))
    return _challenges(field, value)[0]


def _shape(num_vars: int, degree: int) -> Tuple[int, int]:
    """The numbers of variables and of factors. What 32 bits don't hold the library refuses as the greatest that they do."""
    most = (1 << 32) - 1
    num_vars, degree = operator.index(num_vars), operator.index(degree)
    return num_vars if 0 <= num_vars < most else most, degree if 0 <= degree < most else most


def _said(label: Any, statement: Any) -> Tuple[bytes, int, bytes, int]:
    label, statement = _bytes(label), _bytes(statement)
    return label, len(label), statement, len(statement)


def _addends(field: int, addends: Iterable[Addend]) -> _Words:
    """The words of addends: of each its coefficient, the number of its factors, and their places."""
    spelled = array.array("Q")
    for coefficient, factors in addends:
        places = list(factors)
        spelled += _Words.given(field, [coefficient]).buffer
        spelled += _indices([len(places), *places], WrongAddends).buffer
    return _Words.of_width(1, spelled)


def _challenges(field: int, found: _Words) -> List[Challenge]:
    numbers, coefficients = found.numbers(), challenge_degree(field)
    return [tuple(numbers[i : i + coefficients]) for i in range(0, len(numbers), coefficients)]


# ---- Reed-Solomon codes


def code_encode(field: int, message: Elements, n: int) -> Any:
    """The codeword of a message: the values of the polynomial with these k coefficients at the n elements of a domain."""
    return _encoded(_calls.ark_code_encode, field, message, n)


def code_encode_systematic(field: int, message: Elements, n: int) -> Any:
    """The only codeword that begins with a message of k items.

    >>> code_encode_systematic(F65537, [1, 2], 4)[:2]
    [1, 2]
    """
    return _encoded(_calls.ark_code_encode_systematic, field, message, n)


def _encoded(call: Callable[..., int], field: int, message: Elements, n: int) -> Any:
    message = _Words.given(field, message)
    domain_size(field, n)
    word = message.room(_count(n))
    _check(call(field, *message.pair, *word.pair))
    return word.answer()


def code_restore(field: int, words: Elements, k: int, erased: Optional[Sequence[Any]] = None) -> Any:
    """The codewords, of messages of k items, that have what is left of these words.

    Without `erased`, one word is a list with `None` at its lost places. With it, `words` has one word or many, one after
    another, and `erased` one item for each place, true where that place is lost in all of them.

    >>> word = code_encode(F65537, [1, 2], 4)
    >>> code_restore(F65537, [None, word[1], word[2], None], 2) == word
    True
    """
    holed, marks = _holed(field, words, erased)
    copy = holed.copy()
    _check(_calls.ark_code_restore(field, *copy.pair, *marks.pair, _count(k)))
    return copy.answer()


def code_restore_in_place(field: int, words: Any, k: int, erased: Sequence[Any]) -> None:
    """`code_restore` over writable words of 64 bits in one piece, or a `list`, whose lost places hold any numbers."""
    if isinstance(words, list):
        words[:] = code_restore(field, words, k, erased)
    else:
        marks = _Marks(erased)
        _check(_calls.ark_code_restore(field, *_Words.written(field, words).pair, *marks.pair, _count(k)))


def code_message(field: int, words: Elements, k: int, erased: Optional[Sequence[Any]] = None) -> Any:
    """The messages, of k items each, one after another, of such words as `code_restore` takes."""
    holed, marks = _holed(field, words, erased)
    count = holed.count // marks.count if marks.count else 0
    messages = holed.room(count * min(_count(k), marks.count + 1))
    _check(_calls.ark_code_message(field, *holed.pair, *marks.pair, *messages.pair))
    return messages.answer()


def _holed(field: int, words: Elements, erased: Optional[Sequence[Any]]) -> Tuple[_Words, _Marks]:
    if erased is not None:
        return _Words.given(field, words), _Marks(erased)
    items = list(words)
    return _Words.given(field, [0 if item is None else item for item in items]), _Marks([item is None for item in items])


# ---- files in pieces


def split(k: int, n: int, file: Any, label: Any = b"") -> List[bytes]:
    """The n pieces of a file's bytes, any k of which give it back: 1 <= k <= n <= 65536. The label, of fewer than 65536 bytes, is
    the same in all pieces.

    >>> pieces = split(2, 4, b"hello", b"a label")
    >>> join(2, 4, [pieces[3], pieces[1]])
    b'hello'
    """
    k, n, file, label = _count(k), _count(n), _bytes(file), _bytes(label)
    sizes = [_piece_size(k, n, number, len(label), len(file)) for number in (0, max(n - 1, 0))]
    first = k * sizes[0]
    made = bytearray(first + (n - k) * sizes[1])
    room = (ctypes.c_char * len(made)).from_buffer(made)
    _check(_calls.ark_split(k, n, label, len(label), file, len(file), room, len(made)))
    starts = [*range(0, first, sizes[0]), *range(first, len(made), sizes[1])]
    return [bytes(made[start:end]) for start, end in zip(starts, [*starts[1:], len(made)])]


def join(k: int, n: int, pieces: Union[bytes, bytearray, memoryview, Iterable[Any]]) -> bytes:
    """The file of k of its n pieces or more, in any order: a list of them, or their bytes one after another. The first k are read,
    and the end of the last one.

    >>> join(1, 2, split(1, 2, b"hello")[1][:-1])
    Traceback (most recent call last):
    ...
    ark_poly._library.NotPieces: The bytes are not as many pieces as give a file back, of this k and n, that differ.
    """
    k, n, size = _count(k), _count(n), ctypes.c_uint64()
    given = _bytes(pieces) if isinstance(pieces, (bytes, bytearray, memoryview)) else b"".join(map(_bytes, pieces))
    _check(_calls.ark_file_size(n, given, len(given), ctypes.byref(size)))
    if size.value > len(given):
        # Pieces have no fewer bytes than their file.
        raise NotPieces(NotPieces.__doc__)
    file = bytearray(size.value)
    room = (ctypes.c_char * len(file)).from_buffer(file)
    _check(_calls.ark_join(k, n, given, len(given), room, len(file)))
    return bytes(file)


def _piece_size(k: int, n: int, number: int, label_len: int, length: int) -> int:
    size = ctypes.c_uint64()
    _check(_calls.ark_piece_size(k, n, number, label_len, length, ctypes.byref(size)))
    return size.value


def _bytes(it: Any) -> bytes:
    return it if isinstance(it, bytes) else memoryview(it).tobytes()


# ---- words


def _name(field: int) -> int:
    field = operator.index(field)
    if not 0 <= field < 1 << 64:
        raise NoField(f"no field {field}")
    return field


def _count(number: int) -> int:
    number = operator.index(number)
    # No list is so long; the library would take the number modulo 2^64.
    if not 0 <= number < 1 << 60:
        raise WrongLength(WrongLength.__doc__)
    return number


def _indices(indices: Elements, error: Type[ArkError] = WrongLength) -> _Words:
    """The words of indices, one each."""
    try:
        return _Words.of_width(1, indices)
    except NotReduced:
        # No table has such an index.
        raise error(error.__doc__) from None


def _is_number(it: Any) -> bool:
    try:
        operator.index(it)
    except TypeError:
        return False
    return True


def _numpy() -> Any:
    """numpy, where the caller has loaded it."""
    return sys.modules.get("numpy")


def _flat(buffer: memoryview) -> memoryview:
    if not buffer.nbytes:
        return memoryview(array.array("Q"))
    return buffer.cast("B").cast("Q")


def _are_words(buffer: memoryview) -> bool:
    return buffer.itemsize == 8 and buffer.format.lstrip("@") in ("Q", "L") and buffer.c_contiguous


class _Marks:
    """A byte for each place, 1 where it is lost."""

    def __init__(self, erased: Sequence[Any]) -> None:
        marks = bytearray(1 if mark else 0 for mark in erased)
        self.count = len(marks)
        self.pair = ((ctypes.c_char * self.count).from_buffer(marks), self.count)


class _Words:
    """Words of elements in one piece, and how an answer like them looks."""

    def __init__(self, width: int, buffer: Any, answer: Callable[[_Words], Any]) -> None:
        self.width = width
        self.buffer = buffer
        size = len(buffer)
        self.count = size // width
        # (what isn't writable has no `from_buffer`)
        self.pair = ((ctypes.c_uint64 * size).from_buffer(buffer), size)
        self._answer = answer

    @classmethod
    def given(cls, field: int, elements: Elements) -> _Words:
        """The words of a list that is read."""
        return elements if isinstance(elements, _Words) else cls.of_width(words(field), elements)

    @classmethod
    def of_width(cls, width: int, elements: Elements) -> _Words:
        """The same, of so many words to an element."""
        numpy = _numpy()
        if numpy is not None and isinstance(elements, numpy.ndarray):
            if elements.ndim > 2 or elements.ndim == 2 and elements.shape[1] != width:
                raise WrongLength(WrongLength.__doc__)
            if elements.dtype != numpy.uint64:
                # numbers of another type, each of them an element: as a list, so that none is taken for another one
                return cls(width, _spelled(width, elements.tolist()), _as_numpy if width == 1 else _as_rows)
            answer = _as_rows if elements.ndim == 2 else _as_numpy
            buffer = _flat(memoryview(numpy.ascontiguousarray(elements)))
        elif isinstance(elements, (array.array, memoryview)) and _are_words(memoryview(elements)):
            buffer, answer = _flat(memoryview(elements)), _as_array
        else:
            return cls(width, _spelled(width, elements), _Words.numbers)
        return cls(width, array.array("Q", buffer.tobytes()) if buffer.readonly else buffer, answer)

    @classmethod
    def written(cls, field: int, elements: Any) -> _Words:
        """The words of a list that is written where it stands."""
        width = words(field)
        try:
            buffer = memoryview(elements)
        except TypeError:
            raise TypeError("words of 64 bits in one piece are wanted") from None
        if buffer.readonly or not _are_words(buffer):
            raise TypeError("writable words of 64 bits in one piece are wanted")
        return cls(width, _flat(buffer), _as_array)

    def copy(self) -> _Words:
        return _Words(self.width, array.array("Q", memoryview(self.buffer).tobytes()), self._answer)

    def apart_from(self, other: _Words) -> _Words:
        """These words, or a copy where the other list has some of their memory."""
        here, there = ctypes.addressof(self.pair[0]), ctypes.addressof(other.pair[0])
        share = here < there + 8 * other.pair[1] and there < here + 8 * self.pair[1]
        return self.copy() if share else self

    def room(self, count: int) -> _Words:
        """Room for so many elements of an answer."""
        return _Words(self.width, array.array("Q", bytes(8 * count * self.width)), self._answer)

    def answer(self) -> Any:
        return self._answer(self)

    def numbers(self) -> List[int]:
        """The elements as numbers."""
        found = list(self.buffer)
        if self.width == 1:
            return found
        return [
            sum(word << 64 * j for j, word in enumerate(found[i : i + self.width])) for i in range(0, len(found), self.width)
        ]


def _spelled(width: int, elements: Sequence[int]) -> array.array[int]:
    try:
        spelled = array.array("Q", b"".join(operator.index(element).to_bytes(8 * width, "little") for element in elements))
    except OverflowError:
        raise NotReduced(NotReduced.__doc__) from None
    if sys.byteorder == "big":
        spelled.byteswap()
    return spelled


def _as_array(words: _Words) -> array.array[int]:
    return words.buffer


def _as_numpy(words: _Words) -> Any:
    numpy = _numpy()
    return numpy.frombuffer(words.buffer, dtype=numpy.uint64)


def _as_rows(words: _Words) -> Any:
    return _as_numpy(words).reshape(-1, words.width)
