"""The shared library and its calls, each over lists of words or of bytes."""
from __future__ import annotations

import ctypes
import os
from typing import Dict, Type


class ArkError(Exception):
    """Why a call gave no answer. What it was given is as it was."""

    status = 0


class OutOfMemory(ArkError, MemoryError):
    """Memory was refused."""

    status = 1


class NoField(ArkError, ValueError):
    """No field has this name."""

    status = 2


class WrongLength(ArkError, ValueError):
    """A list isn't as long as the call asks for."""

    status = 3


class NotReduced(ArkError, ValueError):
    """A number isn't below the field's modulus, or is negative."""

    status = 4


class NoDomain(ArkError, ValueError):
    """No domain of the field has so many elements, or the offset is zero."""

    status = 5


class ZeroDivisor(ArkError, ZeroDivisionError):
    """The divisor is the zero polynomial."""

    status = 6


class EqualPoints(ArkError, ValueError):
    """Two points are equal."""

    status = 7


class TooFew(ArkError, ValueError):
    """A codeword has fewer places left than its message has items."""

    status = 8


class NoCodeword(ArkError, ValueError):
    """No codeword has what is left of a word."""

    status = 9


class NotPieces(ArkError, ValueError):
    """The bytes are not as many pieces as give a file back, of this k and n, that differ."""

    status = 10


class Damaged(ArkError, ValueError):
    """A piece has not the digest that is listed for it."""

    status = 11


class WrongAddends(ArkError, ValueError):
    """The addends are no products of these tables, or the longest hasn't as many factors as the degree."""

    status = 12


class Refused(ArkError, ValueError):
    """The bytes are no proof of the sum."""

    status = 13


_ERRORS: Dict[int, Type[ArkError]] = {
    error.status: error
    for error in (
        OutOfMemory,
        NoField,
        WrongLength,
        NotReduced,
        NoDomain,
        ZeroDivisor,
        EqualPoints,
        TooFew,
        NoCodeword,
        NotPieces,
        Damaged,
        WrongAddends,
        Refused,
    )
}


def check(status: int) -> None:
    """Raises what a status says, but for 0."""
    if status:
        error = _ERRORS.get(status)
        raise error(error.__doc__) if error else ArkError(f"status {status}")


def _load() -> ctypes.CDLL:
    path = os.environ.get("ARK_POLY_SO") or os.path.join(os.path.dirname(os.path.abspath(__file__)), "libark_poly.so")
    try:
        library = ctypes.CDLL(path)
    except OSError as error:
        raise ImportError(f"no library: ARK_POLY_SO names libark_poly.so, or it stands beside {__file__} ({error})") from None
    word, size, status = ctypes.c_uint64, ctypes.c_size_t, ctypes.c_uint32
    words = [ctypes.c_void_p, size]
    shape = [ctypes.c_uint32] * 2
    for name, arguments, result in (
        ("version", [], ctypes.c_uint32),
        ("words", [word], size),
        ("domain_size", [word, word, ctypes.POINTER(word)], status),
        ("fft", [word, *words * 2], status),
        ("ifft", [word, *words * 2], status),
        ("fft_columns", [word, *words, *shape, *words], status),
        ("fft_rows", [word, *words, *shape, word, *words], status),
        ("ifft_rows", [word, *words, *shape, word, *words], status),
        ("ifft_columns", [word, *words, *shape, *words], status),
        ("multiply", [word, *words * 3], status),
        ("multiply_values", [word, *words * 2], status),
        ("divide", [word, *words * 4], status),
        ("evaluate", [word, *words * 3], status),
        ("interpolate", [word, *words * 3], status),
        ("lagrange", [word, *words * 3], status),
        ("multilinear_evaluate", [word, *words * 3], status),
        ("multilinear_evaluate_sparse", [word, *words * 4], status),
        ("multilinear_fix", [word, *words * 3], status),
        ("challenge_words", [word], size),
        ("sum_proof_size", [word, *shape, ctypes.POINTER(word)], status),
        ("sum_prove", [word, *words * 2, *shape, *words * 4], status),
        ("sum_verify", [word, *words * 2, *shape, *words * 4], status),
        ("sum_value", [word, *shape, *words * 4], status),
        ("code_encode", [word, *words * 2], status),
        ("code_encode_systematic", [word, *words * 2], status),
        ("code_restore", [word, *words * 2, word], status),
        ("code_message", [word, *words * 3], status),
        ("piece_size", [word] * 5 + [ctypes.POINTER(word)], status),
        ("split", [word, word, *words * 3], status),
        ("file_size", [word, *words, ctypes.POINTER(word)], status),
        ("join", [word, word, *words * 2], status),
    ):
        call = getattr(library, "ark_" + name)
        call.argtypes, call.restype = arguments, result
    return library


# Python's lock is free while a call runs, so that threads compute side by side.
library = _load()
