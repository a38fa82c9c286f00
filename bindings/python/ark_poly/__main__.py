"""`python -m ark_poly FIELD COMMAND ..`: what the program `polyrun` writes for the same words, with its status.

The field is 5, 433, 65537, babybear, koalabear, goldilocks, bls12-381 or bn254. The commands are:

    fft K H LIST, ifft K H LIST   the transform, or its inverse, over the domain for K with the offset H
    mul LIST LIST                 the product of two polynomials
    div LIST LIST                 the quotient and the remainder, a line each
    eval LIST X                   the value at X
    mle N LIST POINT              the value at POINT of the multilinear extension of 2^N items
    size K                        the size of the domain for K
    vectors                       `ok` or `bad` for each row of the field's table of answers

A list is numbers joined by commas, the lowest coefficient first; numbers may have any length. The status is 1 where an error
is reported or a row is bad, 2 where the words are no command, 3 where the answer couldn't be written.
"""
from __future__ import annotations

import os
import sys
from typing import List, Optional, Sequence, Tuple

import ark_poly
from ark_poly._vectors import VECTORS

FIELDS = {
    "5": ark_poly.F5,
    "433": ark_poly.F433,
    "65537": ark_poly.F65537,
    "babybear": ark_poly.BABYBEAR,
    "koalabear": ark_poly.KOALABEAR,
    "goldilocks": ark_poly.GOLDILOCKS,
    "bls12-381": ark_poly.BLS12_381_FR,
    "bn254": ark_poly.BN254_FR,
}

ERRORS = (
    (MemoryError, "error 1: Memory"),
    (ark_poly.NoDomain, "error 2: NoDomain"),
    (ark_poly.ZeroDivisor, "error 5: ZeroDivisor"),
)

USAGE = ("usage\n", 2)


class NoCommand(Exception):
    """The words are no command."""


def digits(word: str) -> str:
    if not (word.isascii() and word.isdigit()):
        raise NoCommand
    return word


def split(word: str) -> List[str]:
    return [digits(part) for part in word.split(",")] if word else []


def number(word: str, modulus: Optional[int] = None) -> int:
    """The number that the digits spell, less multiples of the modulus. (`int` takes some thousand digits at once.)"""
    found = 0
    for i in range(0, len(word), 1000):
        part = word[i : i + 1000]
        found = found * 10 ** len(part) + int(part)
        if modulus is not None:
            found %= modulus
    return found


def size(word: str) -> int:
    # A number beyond 64 bits is beyond all domains, however long it is.
    return number(word) if len(word.lstrip("0")) <= 20 else 1 << 64


def trimmed(items: List[int]) -> List[int]:
    while items and items[-1] == 0:
        items.pop()
    return items


def line(items: Sequence[int]) -> str:
    return ",".join(map(str, items)) + "\n"


def answer(field: int, command: str, words: Sequence[str]) -> str:
    """The text of the answer. Whether the words are a command is known before anything is computed."""
    counts = {"fft": 3, "ifft": 3, "mul": 2, "div": 2, "eval": 2, "mle": 3, "size": 1}
    if counts.get(command) != len(words):
        raise NoCommand
    p = ark_poly.modulus(field)

    def items(parts: Sequence[str]) -> List[int]:
        return [number(part, p) for part in parts]

    if command in ("fft", "ifft"):
        k, h, parts = digits(words[0]), digits(words[1]), split(words[2])
        offset = number(h, p)
        n = ark_poly.domain_size(field, size(k))
        if offset == 0:
            raise ark_poly.NoDomain
        found = items(parts[:n])
        call = ark_poly.fft if command == "fft" else ark_poly.ifft
        return line(call(field, found + [0] * (n - len(found)), offset))
    if command in ("mul", "div"):
        left_parts, right_parts = split(words[0]), split(words[1])
        left, right = trimmed(items(left_parts)), trimmed(items(right_parts))
        if command == "mul":
            if not left or not right:
                return "\n"
            ark_poly.domain_size(field, len(left) + len(right) - 1)
            return line(trimmed(ark_poly.multiply(field, left, right)))
        if not left:
            return "\n\n"
        quotient, remainder = ark_poly.divide(field, left, right)
        return line(trimmed(quotient)) + line(trimmed(remainder))
    if command == "eval":
        parts, at = split(words[0]), digits(words[1])
        return line([ark_poly.evaluate(field, items(parts), number(at, p))])
    if command == "mle":
        variables, table, point = size(digits(words[0])), split(words[1]), split(words[2])
        if variables > 63 or len(table) != 1 << variables or len(point) != variables:
            raise NoCommand
        return line([ark_poly.multilinear_evaluate(field, items(table), items(point))])
    return line([ark_poly.domain_size(field, size(digits(words[0])))])


def run(words: Sequence[str]) -> Tuple[str, int]:
    """What is written for the words of a command line, and the status."""
    if len(words) < 2 or words[0] not in FIELDS:
        return USAGE
    if words[1] == "vectors":
        if len(words) != 2:
            return USAGE
        verdicts = [run([words[0], *row])[0] == text + "\n" for row, text in VECTORS[words[0]]]
        lines = [f"{i} {'ok' if good else 'bad'}\n" for i, good in enumerate(verdicts, 1)]
        return "".join(lines), 0 if all(verdicts) else 1
    try:
        return answer(FIELDS[words[0]], words[1], words[2:]), 0
    except NoCommand:
        return USAGE
    except tuple(error for error, _ in ERRORS) as raised:
        return next(text for error, text in ERRORS if isinstance(raised, error)) + "\n", 1


def main() -> int:
    text, status = run(sys.argv[1:])
    try:
        sys.stdout.write(text)
        sys.stdout.flush()
    except (OSError, AttributeError):
        # (without this the interpreter would try once more at its end)
        os.dup2(os.open(os.devnull, os.O_WRONLY), 1)
        return 3
    return status


if __name__ == "__main__":
    sys.exit(main())
