#!/usr/bin/env python3
"""Writes answers.txt: calls of the library with their answers, computed by the definitions with Python's own numbers.

A line is a call, its field, its status, the lists that it is given and, after `>`, those that it leaves, all in hexadecimal
words. What a call changes in place stands in both. Where the status isn't 0, the lists after `>` are those that must still
be there: `-` is a word of which only that is known. The calls over pieces of files have bytes in place of words, but in the list
of numbers that they are given first. The calls over sums are given the number of variables and the degree first; label, statement
and proof are bytes.
"""
import hashlib
import random

BN254 = 0x30644E72E131A029B85045B68181585D2833E84879B9709143E1F593F0000001
BLS12_381 = 0x73EDA753299D7D483339D80809A1D80553BDA402FFFE5BFEFFFFFFFF00000001

# name, p, words, generator, sizes of domains that are tried
FIELDS = [
    (5, 5, 1, 2, (1, 2, 4)),
    (433, 433, 1, 5, (1, 3, 4, 12, 16, 18)),
    (65537, 65537, 1, 3, (1, 2, 8, 32)),
    (2013265921, 2013265921, 1, 31, (1, 2, 8, 32)),
    (2130706433, 2130706433, 1, 3, (1, 2, 8, 32)),
    (18446744069414584321, 18446744069414584321, 1, 7, (1, 2, 8, 32)),
    (254, BN254, 4, 5, (1, 2, 8)),
    (12381, BLS12_381, 4, 7, (1, 2, 8)),
]
# the first size for which there is no domain
BEYOND = {5: 5, 433: 433, 65537: 2**16 + 1, 2013265921: 2**27 + 1, 2130706433: 2**24 + 1, 18446744069414584321: 2**32 + 1,
          254: 2**28 + 1, 12381: 2**32 + 1}

OK, NO_FIELD, LENGTH, NOT_REDUCED, NO_DOMAIN, ZERO_DIVISOR, EQUAL_POINTS, TOO_FEW, NO_CODEWORD, NOT_PIECES, DAMAGED = 0, 2, 3, 4, 5, 6, 7, 8, 9, 10, 11
ADDENDS, REFUSED = 12, 13
UNKNOWN = "-"

rows = []


def row(call, field, status, given, left):
    text = " | ".join(" ".join("-" if word is UNKNOWN else f"{word:x}" for word in words) for words in given)
    then = " | ".join(" ".join("-" if word is UNKNOWN else f"{word:x}" for word in words) for words in left)
    rows.append(f"{call} {field} {status}: {text} > {then}".replace("  ", " ").rstrip())


def spread(elements, words):
    return [element >> 64 * i & 2**64 - 1 for element in elements for i in range(words)]


def value(c, x, p):
    y = 0
    for a in reversed(c):
        y = (y * x + a) % p
    return y


def domain(n, offset, p, g):
    w = pow(g, (p - 1) // n, p)
    return [offset * pow(w, i, p) % p for i in range(n)]


def columns_made(block, a, b, offset, p, g):
    """A block of columns of 2^a rows of 2^b items: the values of each."""
    k = len(block) >> a
    made = [[value(block[j::k], x, p) for x in domain(1 << a, pow(offset, 1 << b, p), p, g)] for j in range(k)]
    return [x for row in zip(*made) for x in row]


def rows_made(block, a, b, first, offset, p, g):
    """A block of rows from number `first` on: the values of each."""
    w, c = pow(g, p - 1 >> a + b, p), 1 << b
    rows = [block[i : i + c] for i in range(0, len(block), c)]
    return [value(row, x, p) for i, row in enumerate(rows, first) for x in domain(c, offset * pow(w, i, p), p, g)]


def product(a, b, p):
    out = [0] * max(len(a) + len(b) - 1, 0)
    for i, x in enumerate(a):
        for j, y in enumerate(b):
            out[i + j] = (out[i + j] + x * y) % p
    return out


def divided(a, b, p):
    rest, top = list(a), max(i for i, x in enumerate(b) if x)
    quotient = [0] * len(a)
    for i in range(len(a) - 1, top - 1, -1):
        c = rest[i] * pow(b[top], p - 2, p) % p
        quotient[i - top] = c
        for j in range(top + 1):
            rest[i - top + j] = (rest[i - top + j] - c * b[j]) % p
    return quotient, (rest + [0] * len(b))[:len(b)]


def weights(n, offset, x, p, g):
    at = domain(n, offset, p, g)
    out = []
    for i in range(n):
        top = low = 1
        for j in range(n):
            if j != i:
                top, low = top * (x - at[j]) % p, low * (at[i] - at[j]) % p
        out.append(top * pow(low, p - 2, p) % p)
    return out


def bound(table, point, p):
    for x in point:
        table = [(a + x * (b - a)) % p for a, b in zip(table[::2], table[1::2])]
    return table


def by_entries(indices, values, point, p):
    total = 0
    for i, y in dict(zip(indices, values)).items():
        for j, x in enumerate(point):
            y = y * (x if i >> j & 1 else 1 - x) % p
        total += y
    return [total % p]


def through(points, values, p):
    out = [0] * len(points)
    for i, x in enumerate(points):
        basis, low = [1], 1
        for j, z in enumerate(points):
            if j != i:
                basis, low = product(basis, [-z % p, 1], p), low * (x - z) % p
        for k, b in enumerate(basis):
            out[k] = (out[k] + values[i] * b * pow(low, p - 2, p)) % p
    return out


for name, p, words, g, sizes in FIELDS:
    rng = random.Random(name)
    draw = lambda n: [rng.choice((0, 1, p - 1, rng.randrange(p), rng.randrange(p), rng.randrange(p))) for _ in range(n)]
    s = lambda elements: spread(elements, words)
    unknown = lambda n: [UNKNOWN] * (n * words)
    good = lambda call, given, left: row(call, name, OK, given, left)
    bad = lambda call, status, given, left: row(call, name, status, given, left)

    none = [1, 2, 3] if name != 433 else [1, 2, 3, 4, 5]  # as many elements as no domain has

    # sizes
    for at_least in (0, 1, 2, 3, 4):
        good("domain_size", [[at_least]], [[1 << max(at_least - 1, 0).bit_length()]])
    bad("domain_size", NO_DOMAIN, [[BEYOND[name]]], [[UNKNOWN]])
    bad("domain_size", NO_DOMAIN, [[2**64 - 1]], [[UNKNOWN]])

    # transforms
    for n in sizes:
        for offset, c in ((1, [p - 1] * n), (g, draw(n)), (p - 1, draw(n)), (1, [0] * (n - 1) + [1])):
            v = [value(c, x, p) for x in domain(n, offset, p, g)]
            good("fft", [s(c), s([offset])], [s(v)])
            good("ifft", [s(v), s([offset])], [s(c)])
    for call in ("fft", "ifft"):
        bad(call, NO_DOMAIN, [s(none), s([1])], [s(none)])
        bad(call, NO_DOMAIN, [s([1, 2]), s([0])], [s([1, 2])])
        bad(call, NO_DOMAIN, [[], s([1])], [[]])
        bad(call, LENGTH, [s([1, 2]), []], [s([1, 2])])
        bad(call, LENGTH, [s([1, 2]), s([1, 1])], [s([1, 2])])
        bad(call, NOT_REDUCED, [s([1, p]), s([1])], [s([1, p])])
        bad(call, NOT_REDUCED, [s([2**(64 * words) - 1, 1]), s([1])], [s([2**(64 * words) - 1, 1])])
        bad(call, NOT_REDUCED, [s([1, 2]), s([p])], [s([1, 2])])
        # (of two reasons the first one)
        bad(call, LENGTH, [s([1, p, 2]), []], [s([1, p, 2])])
        bad(call, NOT_REDUCED, [s([1, p, 2]), s([0])], [s([1, p, 2])])

    # products
    for a, b in ((1, 1), (2, 2), (1, 4), (3, 2)) + (((5, 4), (16, 3)) if p > 5 else ()):
        for left, right in ((draw(a), draw(b)), ([p - 1] * a, [p - 1] * b)):
            good("multiply", [s(left), s(right)], [s(product(left, right, p))])
    good("multiply", [s([p - 1]), s([2, p - 1])], [s([p - 2, 1, 0, 0])])
    bad("multiply", LENGTH, [s([1, 2]), s([1, 2])], [unknown(2)])
    bad("multiply", NOT_REDUCED, [s([1, p]), s([1, 2])], [unknown(3)])
    bad("multiply", NOT_REDUCED, [s([1, 2]), s([2**(64 * words) - 1, 1])], [unknown(3)])
    bad("multiply", LENGTH, [s([1, p]), s([1, 2])], [unknown(2)])

    # division
    for a, b in ((1, 1), (4, 2), (2, 4), (5, 3), (9, 4)):
        left, right = draw(a), draw(b - 1) + [rng.randrange(1, p)]
        q, r = divided(left, right, p)
        good("divide", [s(left), s(right)], [s(q), s(r)])
        q, r = divided(left, right + [0, 0], p)
        good("divide", [s(left), s(right + [0, 0])], [s(q), s(r)])
    good("divide", [s([p - 1, 0, 0, 1]), s([p - 1, 1])], [s([1, 1, 1, 0]), s([0, 0])])
    good("divide", [s([0, 0]), s([1, 1])], [s([0, 0]), s([0, 0])])
    bad("divide", ZERO_DIVISOR, [s([1, 2]), s([0, 0])], [unknown(2), unknown(2)])
    bad("divide", ZERO_DIVISOR, [s([1, 2]), []], [unknown(2), []])
    bad("divide", LENGTH, [s([1, 2]), s([1, 1])], [unknown(1), unknown(2)])
    bad("divide", LENGTH, [s([1, 2]), s([1, 1])], [unknown(2), unknown(1)])
    bad("divide", NOT_REDUCED, [s([p, 2]), s([1, 1])], [unknown(2), unknown(2)])
    bad("divide", NOT_REDUCED, [s([1, 2]), s([1, p])], [unknown(2), unknown(2)])
    bad("divide", NOT_REDUCED, [s([1, p]), s([0, 0])], [unknown(2), unknown(2)])

    # values
    for n, m in ((1, 1), (3, 4), (8, 3), (2, 9), (0, 2), (3, 0)):
        c, at = draw(n), draw(m)
        good("evaluate", [s(c), s(at)], [s([value(c, x, p) for x in at])])
    bad("evaluate", LENGTH, [s([1, 2]), s([1, 2])], [unknown(1)])
    bad("evaluate", NOT_REDUCED, [s([1, p]), s([1, 2])], [unknown(2)])
    bad("evaluate", NOT_REDUCED, [s([1, 2]), s([p, 2])], [unknown(2)])

    # interpolation
    for n in (1, 2, 5, 9):
        if n <= p:
            at = rng.sample(range(p), n) if p < 2**32 else [0, 1, p - 1, *(rng.randrange(2, p - 1) for _ in range(6))][:n]
            v = draw(n)
            good("interpolate", [s(at), s(v)], [s(through(at, v, p))])
    bad("interpolate", EQUAL_POINTS, [s([1, 2, 1]), s([1, 2, 1])], [unknown(3)])
    bad("interpolate", LENGTH, [s([1, 2]), s([1])], [unknown(2)])
    bad("interpolate", LENGTH, [s([1, 2]), s([1, 2])], [unknown(3)])
    bad("interpolate", NOT_REDUCED, [s([p, 2]), s([1, 2])], [unknown(2)])
    bad("interpolate", NOT_REDUCED, [s([1, 1]), s([1, p])], [unknown(2)])

    # weights
    for n in sizes:
        for offset, x in ((1, 0), (g, p - 1), (g, domain(n, g, p, g)[-1]), (p - 1, rng.randrange(p))):
            good("lagrange", [s([offset]), s([x])], [s(weights(n, offset, x, p, g))])
    bad("lagrange", NO_DOMAIN, [s([1]), s([2])], [unknown(len(none))])
    bad("lagrange", NO_DOMAIN, [s([0]), s([2])], [unknown(2)])
    bad("lagrange", LENGTH, [s([1, 1]), s([2])], [unknown(2)])
    bad("lagrange", LENGTH, [s([1]), []], [unknown(2)])
    bad("lagrange", NOT_REDUCED, [s([p]), s([2])], [unknown(2)])
    bad("lagrange", NOT_REDUCED, [s([1]), s([p])], [unknown(2)])

    # multilinear extensions
    for m in range(5):
        table, at = draw(1 << m), draw(m)
        good("multilinear_evaluate", [s(table), s(at)], [s(bound(table, at, p))])
        for k in range(m + 1):
            good("multilinear_fix", [s(table), s(at[:k])], [s(bound(table, at[:k], p))])
    good("multilinear_evaluate", [s([p - 1] * 4), s([p - 1, 2])], [s([p - 1])])
    bad("multilinear_evaluate", LENGTH, [s([1, 2, 3]), s([1, 2])], [unknown(1)])
    bad("multilinear_evaluate", LENGTH, [s([1, 2]), s([1, 2])], [unknown(1)])
    bad("multilinear_evaluate", LENGTH, [s([1, 2]), s([1])], [unknown(2)])
    bad("multilinear_evaluate", NOT_REDUCED, [s([1, p]), s([1])], [unknown(1)])
    bad("multilinear_evaluate", NOT_REDUCED, [s([1, 2]), s([p])], [unknown(1)])
    bad("multilinear_fix", LENGTH, [s([1, 2]), s([1, 2])], [unknown(1)])
    bad("multilinear_fix", LENGTH, [s([1, 2, 3, 4]), s([1])], [unknown(3)])
    bad("multilinear_fix", LENGTH, [s([1, 2, 3]), s([1])], [unknown(2)])
    bad("multilinear_fix", LENGTH, [[], []], [[]])
    bad("multilinear_fix", NOT_REDUCED, [s([p, 2, 3, 4]), s([1])], [unknown(2)])
    bad("multilinear_fix", NOT_REDUCED, [s([1, 2, 3, 4]), s([p])], [unknown(2)])

    # codes
    for n in sizes:
        for k in sorted({1, (n + 1) // 2, n}):
            codewords, holed, messages = [], [], []
            erased = [1] * (n - k) + [0] * k
            rng.shuffle(erased)
            for _ in range(3):
                message = draw(k)
                codeword = [value(message, x, p) for x in domain(n, 1, p, g)]
                good("code_encode", [s(message)], [s(codeword)])
                messages += message
                codewords += codeword
                holed += [0 if lost else x for lost, x in zip(erased, codeword)]
            at = domain(n, 1, p, g)
            good("code_encode_systematic", [s(message)], [s([value(through(at[:k], message, p), x, p) for x in at])])
            good("code_restore", [s(holed[:n]), erased, [k]], [s(codewords[:n])])
            good("code_restore", [s(holed), [255 * lost for lost in erased], [k]], [s(codewords)])
            good("code_message", [s(holed[:n]), erased], [s(messages[:k])])
            good("code_message", [s(holed), erased], [s(messages)])
            good("code_message", [s(codewords), [0] * n], [s(messages)])
    for call in ("code_encode", "code_encode_systematic"):
        bad(call, NO_DOMAIN, [s([1, 2])], [unknown(len(none))])
        bad(call, LENGTH, [s([1, 2, 3])], [unknown(2)])
        bad(call, LENGTH, [[]], [unknown(2)])
        bad(call, NOT_REDUCED, [s([1, p])], [unknown(4)])
    word = s([value([1, 2], x, p) for x in domain(4, 1, p, g)])
    bad("code_restore", TOO_FEW, [word, [1, 1, 0, 1], [2]], [word])
    bad("code_restore", TOO_FEW, [word, [1, 1, 1, 1], [1]], [word])
    bad("code_restore", TOO_FEW, [word, [2, 255, 0, 128], [2]], [word])
    wrong = [word[0] ^ 1, *word[1:]]
    bad("code_restore", NO_CODEWORD, [wrong, [0, 0, 0, 0], [2]], [wrong])
    bad("code_restore", NO_CODEWORD, [wrong, [0, 0, 1, 0], [2]], [wrong])
    bad("code_restore", NO_CODEWORD, [word + wrong, [0, 0, 1, 0], [2]], [word + wrong])
    bad("code_message", NO_CODEWORD, [wrong, [0, 0, 1, 0]], [unknown(2)])
    bad("code_message", NO_CODEWORD, [word + wrong, [0, 0, 1, 0]], [unknown(4)])
    bad("code_restore", LENGTH, [word, [1, 0, 0], [2]], [word])
    bad("code_restore", LENGTH, [word, [1, 0, 0, 0], [5]], [word])
    bad("code_restore", LENGTH, [[], [1, 0, 0, 0], [2]], [[]])
    bad("code_restore", NO_DOMAIN, [s(none), [1] + [0] * (len(none) - 1), [2]], [s(none)])
    bad("code_restore", NOT_REDUCED, [s([0, 1, 2, p]), [1, 0, 0, 0], [2]], [s([0, 1, 2, p])])
    bad("code_message", TOO_FEW, [word, [1, 1, 0, 1]], [unknown(2)])
    bad("code_message", TOO_FEW, [word, [2, 255, 0, 128]], [unknown(2)])
    bad("code_message", LENGTH, [word, [1, 0, 0]], [unknown(2)])
    bad("code_message", LENGTH, [word, [1, 0, 0, 0]], [unknown(5)])
    bad("code_message", LENGTH, [word + word, [1, 0, 0, 0]], [unknown(5)])
    bad("code_message", NO_DOMAIN, [s(none), [1] + [0] * (len(none) - 1)], [unknown(2)])
    bad("code_message", NOT_REDUCED, [s([0, 1, 2, p]), [1, 0, 0, 0]], [unknown(2)])

    # multilinear extensions by entries
    for m, n in ((0, 0), (0, 2), (1, 1), (2, 3), (4, 9), (20, 6), (63, 4)):
        indices = [rng.randrange(1 << m) for _ in range(n - 1)] + [(1 << m) - 1] * min(n, 1)
        entries, at = draw(n), draw(m)
        good("multilinear_evaluate_sparse", [indices, s(entries), s(at)], [s(by_entries(indices, entries, at, p))])
    good("multilinear_evaluate_sparse", [[2, 1, 2], s([1, p - 1, 3]), s([2, 3])], [s([(2 * 2 - 9) % p])])
    bad("multilinear_evaluate_sparse", LENGTH, [[0], s([1, 2]), s([1])], [unknown(1)])
    bad("multilinear_evaluate_sparse", LENGTH, [[0, 1], s([1]), s([1])], [unknown(1)])
    bad("multilinear_evaluate_sparse", LENGTH, [[0, 4], s([1, 2]), s([1, 2])], [unknown(1)])
    bad("multilinear_evaluate_sparse", LENGTH, [[2**63], s([1]), s([1] * 63)], [unknown(1)])
    bad("multilinear_evaluate_sparse", LENGTH, [[], [], s([1] * 64)], [unknown(1)])
    bad("multilinear_evaluate_sparse", LENGTH, [[0], s([1]), s([1])], [unknown(2)])
    bad("multilinear_evaluate_sparse", LENGTH, [[2], s([p]), s([1])], [unknown(1)])
    bad("multilinear_evaluate_sparse", NOT_REDUCED, [[0], s([p]), s([1])], [unknown(1)])
    bad("multilinear_evaluate_sparse", NOT_REDUCED, [[0], s([1]), s([p])], [unknown(1)])

    # transforms in parts
    most = (p - 1 & 1 - p).bit_length() - 1
    parts = ("fft_columns", "ifft_columns", "fft_rows", "ifft_rows")
    shape = lambda call, a, b, first=0: [a, b, first][: 3 if "rows" in call else 2]

    def columns(block, a, b, offset):
        made = columns_made(block, a, b, offset, p, g)
        good("fft_columns", [s(block), [a, b], s([offset])], [s(made)])
        good("ifft_columns", [s(made), [a, b], s([offset])], [s(block)])
        return made

    def some_rows(block, a, b, first, offset):
        made = rows_made(block, a, b, first, offset, p, g)
        good("fft_rows", [s(block), [a, b, first], s([offset])], [s(made)])
        good("ifft_rows", [s(made), [a, b, first], s([offset])], [s(block)])
        return made

    for a, b, offset in ((0, 0, g), (1, 1, 1), (1, 2, g), (2, 1, p - 1)):
        if a + b <= most:
            r, c, items = 1 << a, 1 << b, draw(1 << a + b)
            made = some_rows(columns(items, a, b, offset), a, b, 0, offset)
            at = domain(r * c, offset, p, g)
            assert made == [value(items, at[i + r * j], p) for i in range(r) for j in range(c)]
    # some columns, more than a row has, and none; the last row, and none behind it; the greatest domain
    for a, b, k in ((1, 1, 1), (1, 0, 3), (1, 1, 0), (0, most, 2), (1, most - 1, 1), (most, 0, 0)):
        columns(draw(k << a), a, b, g)
    last = 2 ** (most - 1) - 1
    for a, b, first, k in ((1, 1, 1, 1), (1, 1, 2, 0), (most, 0, 2 * last, 2), (most - 1, 1, last, 1), (0, most, 0, 0)):
        some_rows(draw(k << b), a, b, first, g)
    for call in parts:
        bad(call, NO_DOMAIN, [[], shape(call, most + 1, 0), s([1])], [[]])
        bad(call, NO_DOMAIN, [[], shape(call, 1, 62), s([1])], [[]])
        bad(call, NO_DOMAIN, [s([1, 2]), shape(call, 1, 1), s([0])], [s([1, 2])])
        bad(call, LENGTH, [s([1, 2, 3]), shape(call, 1, 1), s([1])], [s([1, 2, 3])])
        bad(call, LENGTH, [s([1, 2]), shape(call, 1, 1), []], [s([1, 2])])
        bad(call, LENGTH, [s([1, 2]), shape(call, 1, 1), s([1, 1])], [s([1, 2])])
        for a, b in ((64, 0), (32, 32), (2**32 - 1, 1)):
            bad(call, LENGTH, [[], shape(call, a, b), s([1])], [[]])
        bad(call, NOT_REDUCED, [s([1, p]), shape(call, 1, 1), s([1])], [s([1, p])])
        bad(call, NOT_REDUCED, [[], shape(call, 1, 1), s([p])], [[]])
        # (of two reasons the first one)
        bad(call, LENGTH, [s([1, p, 2]), shape(call, 1, 1), s([p])], [s([1, p, 2])])
        bad(call, NOT_REDUCED, [s([1, p]), shape(call, 1, 1), s([0])], [s([1, p])])
        bad(call, NOT_REDUCED, [[], shape(call, most + 1, 0), s([2**(64 * words) - 1])], [[]])
    for call in parts[2:]:
        for first, k in ((1, 2), (2, 1), (3, 0), (2**64 - 1, 1), (2**64 - 1, 0)):
            bad(call, LENGTH, [s([1, 2] * k), [1, 1, first], s([1])], [s([1, 2] * k)])

    # values place by place
    for values, others in (([p - 1, 0, 1, p - 1], [p - 1, p - 1, p - 1, 0]), (draw(9), draw(9)), ([], [])):
        good("multiply_values", [s(values), s(others)], [s([x * y % p for x, y in zip(values, others)])])
    bad("multiply_values", LENGTH, [s([1, 2]), s([1])], [s([1, 2])])
    bad("multiply_values", LENGTH, [[], s([1])], [[]])
    bad("multiply_values", NOT_REDUCED, [s([1, p]), s([1, 2])], [s([1, p])])
    bad("multiply_values", NOT_REDUCED, [s([1, 2]), s([2**(64 * words) - 1, 1])], [s([1, 2])])
    # (of two reasons the first one)
    bad("multiply_values", LENGTH, [s([1, p]), s([1])], [s([1, p])])

    # lengths that are no multiple of four words
    if words == 4:
        five, four = [1, 0, 0, 0, 1], [1, 0, 0, 0]
        for call in ("fft", "ifft"):
            bad(call, LENGTH, [five, four], [five])
            bad(call, LENGTH, [four, [1]], [four])
        for call in parts:
            bad(call, LENGTH, [five, shape(call, 0, 0), four], [five])
            bad(call, LENGTH, [four, shape(call, 0, 0), [1]], [four])
        bad("multiply", LENGTH, [five, four], [unknown(2)])
        bad("multiply", LENGTH, [four, five], [unknown(2)])
        bad("multiply", LENGTH, [four, four], [[UNKNOWN] * 5])
        bad("multiply_values", LENGTH, [five, five], [five])
        bad("multiply_values", LENGTH, [four, five], [four])
        bad("divide", LENGTH, [five, four], [[UNKNOWN] * 5, unknown(1)])
        bad("divide", LENGTH, [four, five], [unknown(1), [UNKNOWN] * 5])
        bad("evaluate", LENGTH, [five, four], [unknown(1)])
        bad("evaluate", LENGTH, [four, five], [[UNKNOWN] * 5])
        bad("interpolate", LENGTH, [five, five], [[UNKNOWN] * 5])
        bad("lagrange", LENGTH, [four, four], [[UNKNOWN] * 5])
        bad("multilinear_evaluate", LENGTH, [four, [1]], [unknown(1)])
        bad("multilinear_evaluate_sparse", LENGTH, [[0], five, []], [unknown(1)])
        bad("multilinear_evaluate_sparse", LENGTH, [[0], four, five], [unknown(1)])
        bad("multilinear_fix", LENGTH, [five, []], [[UNKNOWN] * 5])
        for call in ("code_encode", "code_encode_systematic"):
            bad(call, LENGTH, [four], [[UNKNOWN] * 5])
        bad("code_restore", LENGTH, [five, [0], [1]], [five])
        bad("code_message", LENGTH, [four, [0]], [[UNKNOWN] * 5])

# fields that there are none of
for name in (0, 1, 4, 7, 434, 2013265920, 18446744069414584320, 2**64 - 1):
    row("domain_size", name, NO_FIELD, [[1]], [[UNKNOWN]])
    for call in ("fft", "ifft"):
        row(call, name, NO_FIELD, [[1], [1]], [[1]])
    for call in parts:
        row(call, name, NO_FIELD, [[1], shape(call, 64, 0), []], [[1]])
    row("multiply", name, NO_FIELD, [[1], [1]], [[UNKNOWN]])
    row("multiply_values", name, NO_FIELD, [[1], []], [[1]])
    row("divide", name, NO_FIELD, [[1], [1]], [[UNKNOWN], [UNKNOWN]])
    row("evaluate", name, NO_FIELD, [[1], [1]], [[UNKNOWN]])
    row("interpolate", name, NO_FIELD, [[1], [1]], [[UNKNOWN]])
    row("lagrange", name, NO_FIELD, [[1], [1]], [[UNKNOWN]])
    row("multilinear_evaluate", name, NO_FIELD, [[1], []], [[UNKNOWN]])
    row("multilinear_evaluate_sparse", name, NO_FIELD, [[0], [1], []], [[UNKNOWN]])
    row("multilinear_fix", name, NO_FIELD, [[1], []], [[UNKNOWN]])
    for call in ("code_encode", "code_encode_systematic"):
        row(call, name, NO_FIELD, [[1]], [[UNKNOWN]])
    row("code_restore", name, NO_FIELD, [[1], [0], [1]], [[1]])
    row("code_message", name, NO_FIELD, [[1], [0]], [[UNKNOWN]])


# ---- pieces of files, as docs/FORMAT.md has them


def part(i, k, numbers):
    if i < k:
        return b"".join(x.to_bytes(2, "little") for x in numbers)
    mark = 65536 if 65536 not in numbers else next(x for x in range(65537) if x not in numbers)
    return mark.to_bytes(4, "little") + b"".join((mark if x == 65536 else x).to_bytes(2, "little") for x in numbers)


def body(i, k, n, file):
    at = domain(1 << (n - 1).bit_length(), 1, 65537, 3)
    parts = b""
    for start in range(0, len(file), 2048 * k):
        block = file[start : start + 2048 * k]
        count = -(-len(block) // (2 * k))
        block += bytes(2 * k * count - len(block))
        items = [int.from_bytes(block[2 * j : 2 * j + 2], "little") for j in range(k * count)]
        stripes = [items[s::count] for s in range(count)]
        parts += part(i, k, [value(through(at[:k], stripe, 65537), at[i], 65537) for stripe in stripes])
    return parts


def pieces(k, n, label, file):
    heads = [b"shards\0\2" + b"".join(x.to_bytes(4, "little") for x in (k, n, i, len(label))) + label for i in range(n)]
    texts = [head + body(i, k, n, file) for i, head in enumerate(heads)]
    listing = b"".join(hashlib.sha256(text).digest() for text in texts) + len(file).to_bytes(8, "little")
    return [text + listing + hashlib.sha256(listing).digest() for text in texts]


CODE = 65537  # the field of the code of files


def of_pieces(call, status, given, left):
    row(call, CODE, status, given, left)


unknown = lambda n: [UNKNOWN] * n
rng = random.Random(CODE)
for k, n, label, file in (
    (1, 1, b"", b""),
    (2, 3, b"", b"hello"),
    (2, 4, bytes.fromhex("a401000001000000000000000200000061"), bytes.fromhex("0100020001ff02ff")),
    (1, 3, b"label", b""),
    (3, 3, b"", b"\xff" * 7),
    (3, 5, b"a", b"\0" * 6),
    (3, 6, b"two words", rng.randbytes(29)),
    (5, 6, b"", rng.randbytes(1)),
):
    made = pieces(k, n, label, file)
    run = b"".join(made)
    of_pieces("split", OK, [[k, n], label, file], [run])
    of_pieces("split", LENGTH, [[k, n], label, file], [unknown(len(run) - 1)])
    of_pieces("split", LENGTH, [[k, n], label, file], [unknown(len(run) + 1)])
    for i in range(n):
        of_pieces("piece_size", OK, [[k, n, i, len(label), len(file)]], [[len(made[i])]])
    of_pieces("file_size", OK, [[n], run], [[len(file)]])
    of_pieces("file_size", OK, [[n], made[-1]], [[len(file)]])
    of_pieces("file_size", NOT_PIECES, [[n + 1], run], [unknown(1)])
    of_pieces("file_size", NOT_PIECES, [[n], run[:-1]], [unknown(1)])
    of_pieces("join", OK, [[k, n], run], [file])
    last = made[n - k :]
    for chosen in (made[:k], last[::-1], rng.sample(made, k), last + last):
        of_pieces("join", OK, [[k, n], b"".join(chosen)], [file])
    # what stands behind the first k counts for nothing, but for the trailer at the end
    of_pieces("join", OK, [[k, n], b"".join(last) + b"none" + made[0][-32 * n - 40 :]], [file])
    of_pieces("join", LENGTH, [[k, n], run], [unknown(len(file) + 1)])
    of_pieces("join", NOT_PIECES, [[k, n], b"".join(last[1:])], [unknown(len(file))])
    of_pieces("join", NOT_PIECES, [[k, n], run[:-1]], [unknown(len(file))])
    of_pieces("join", NOT_PIECES, [[k, n], b"none" + run], [unknown(len(file))])
    of_pieces("join", NOT_PIECES, [[k, n + 1], run], [unknown(len(file))])
    if k > 1:
        of_pieces("join", NOT_PIECES, [[k, n], made[0] * k], [unknown(len(file))])
        of_pieces("join", NOT_PIECES, [[k - 1, n], run], [unknown(len(file))])
    if label:
        damaged = bytearray(run)
        damaged[24] ^= 1
        of_pieces("join", DAMAGED, [[k, n], damaged], [unknown(len(file))])
    if file:
        damaged = bytearray(run)
        damaged[24 + len(label)] ^= 128
        of_pieces("join", DAMAGED, [[k, n], damaged], [unknown(len(file))])
# more than a block
file = rng.randbytes(2049)
made = pieces(1, 2, b"", file)
of_pieces("split", OK, [[1, 2], b"", file], [b"".join(made)])
of_pieces("join", OK, [[1, 2], made[1]], [file])
for k, n, i, label_len, length in (
    (0, 1, 0, 0, 0), (2, 1, 0, 0, 0), (1, 65537, 0, 0, 0), (1, 1, 1, 0, 0), (1, 1, 0, 65536, 0), (1, 1, 0, 0, 2**62),
    (2**64 - 1, 2**64 - 1, 0, 0, 0), (1, 1, 2**64 - 1, 0, 0), (1, 1, 0, 2**64 - 1, 0), (1, 1, 0, 0, 2**64 - 1),
):  # fmt: skip
    of_pieces("piece_size", LENGTH, [[k, n, i, label_len, length]], [unknown(1)])
of_pieces("piece_size", OK, [[65536, 65536, 65535, 65535, 2**62 - 1]], [[24 + 65535 + 2**46 + 32 * 65536 + 40]])
of_pieces("piece_size", OK, [[1, 2, 1, 0, 2**62 - 1]], [[24 + 2**62 + 2**53 + 104]])
for k, n in ((0, 1), (2, 1), (0, 0), (1, 65537), (2**64 - 1, 2**64 - 1)):
    of_pieces("split", LENGTH, [[k, n], b"", b""], [unknown(96)])
    of_pieces("join", LENGTH, [[k, n], pieces(1, 1, b"", b"")[0]], [[]])
of_pieces("file_size", LENGTH, [[65537], b""], [unknown(1)])
of_pieces("file_size", LENGTH, [[2**64 - 1], b""], [unknown(1)])
of_pieces("file_size", NOT_PIECES, [[65536], b""], [unknown(1)])


# ---- sums over the cube, and proofs of them in bytes


class Challenges:
    """The field of the challenges of sums over a field of p elements: a root y of y^k = w, k the number of these powers of y.
    An element is the list of their coefficients. In bytes each coefficient has so many."""

    def __init__(self, p, words, size, powers=(0,), w=0):
        self.p, self.words, self.size, self.powers, self.w = p, words, size, powers, w
        self.degree = len(powers)

    def of(self, number):
        return [number % self.p] + [0] * (self.degree - 1)

    def plus(self, a, b):
        return [(x + y) % self.p for x, y in zip(a, b)]

    def times(self, a, b):
        made = [0] * self.degree
        for i, x in zip(self.powers, a):
            for j, y in zip(self.powers, b):
                place = self.powers.index((i + j) % self.degree)
                made[place] = (made[place] + x * y * (self.w if i + j >= self.degree else 1)) % self.p
        return made

    def spelled(self, x):
        return b"".join(c.to_bytes(self.size, "little") for c in x)

    def read(self, text):
        """The element that the bytes spell, if any."""
        x = [int.from_bytes(text[i : i + self.size], "little") for i in range(0, len(text), self.size)]
        return x if len(text) == self.degree * self.size and max(x) < self.p else None


SUMS = {
    2013265921: Challenges(2013265921, 1, 4, (0, 2, 1, 3), 11),
    2130706433: Challenges(2130706433, 1, 4, (0, 2, 1, 3), 3),
    18446744069414584321: Challenges(18446744069414584321, 1, 8, (0, 1), 7),
    254: Challenges(BN254, 4, 32),
    12381: Challenges(BLS12_381, 4, 32),
}


def counted(text):
    return len(text).to_bytes(8, "little") + text


class Transcript:
    """What was said, as bytes: each call begins with one that tells which it is."""

    def __init__(self, label):
        self.said = b"\0" + counted(label)

    def absorb(self, label, text):
        self.said += b"\1" + counted(label) + counted(text)

    def ask(self, label, size):
        self.said += b"\2" + counted(label) + size.to_bytes(8, "little")
        blocks = (hashlib.sha256(self.said + i.to_bytes(8, "little")).digest() for i in range(-(-size // 32)))
        return b"".join(blocks)[:size]

    def challenge(self, f):
        for _ in range(4096):
            x = f.read(self.ask(b"challenge", f.degree * f.size))
            if x is not None:
                return x
        return f.of(int.from_bytes(self.ask(b"challenge", 8), "little"))


def begun(f, label, statement, m, d, total):
    """The transcript before the first round of a claim on a sum."""
    transcript = Transcript(label)
    transcript.absorb(b"statement", statement)
    transcript.absorb(b"variables", m.to_bytes(8, "little"))
    transcript.absorb(b"degree", d.to_bytes(8, "little"))
    transcript.absorb(b"sum", f.spelled(f.of(total)))
    return transcript


def answered(f, transcript, values):
    """The challenge after a round."""
    for x in values:
        transcript.absorb(b"value", f.spelled(x))
    return transcript.challenge(f)


def between(f, values, x):
    """The value at x of the polynomial with these values at 0, 1, .., d."""
    y = f.of(0)
    for i, v in enumerate(values):
        weight = f.of(1)
        for j in range(len(values)):
            if j != i:
                weight = f.times(f.times(weight, f.plus(x, f.of(-j))), f.of(pow(i - j, -1, f.p)))
        y = f.plus(y, f.times(v, weight))
    return y


def first_bound(f, table, x):
    """The table in the other variables."""
    return [f.plus(a, f.times(x, f.plus(b, f.times(f.of(-1), a)))) for a, b in zip(table[::2], table[1::2])]


def over_corners(f, m, tables, addends):
    """The sum over all corners of m variables."""
    total = f.of(0)
    for corner in range(1 << m):
        for coefficient, factors in addends:
            product = f.of(coefficient)
            for i in factors:
                product = f.times(product, tables[i][corner])
            total = f.plus(total, product)
    return total


def within(f, tables):
    return [[f.of(x) for x in table] for table in tables]


def proof_size(f, m, d):
    return 8 + m * (8 + (d + 1) * f.degree * f.size)


def proved(f, label, statement, m, d, tables, addends):
    """The sum, and its proof."""
    tables = within(f, tables)
    total = over_corners(f, m, tables, addends)[0]
    transcript = begun(f, label, statement, m, d, total)
    proof = m.to_bytes(8, "little")
    for left in reversed(range(m)):
        at = lambda x: [first_bound(f, table, x) for table in tables]
        values = [over_corners(f, left, at(f.of(i)), addends) for i in range(d + 1)]
        proof += len(values).to_bytes(8, "little") + b"".join(map(f.spelled, values))
        tables = at(answered(f, transcript, values))
    assert len(proof) == proof_size(f, m, d)
    return total, proof


def verified(f, label, statement, m, d, total, proof):
    """The point, and the value there that is left to check; `None` where the bytes are no proof."""
    rest = proof

    def taken(count):
        nonlocal rest
        head, rest = rest[:count], rest[count:]
        return head

    transcript, claim, point = begun(f, label, statement, m, d, total), f.of(total), []
    if int.from_bytes(taken(8), "little") != m:
        return None
    for _ in range(m):
        if int.from_bytes(taken(8), "little") != d + 1:
            return None
        values = [f.read(taken(f.degree * f.size)) for _ in range(d + 1)]
        if None in values or f.plus(values[0], values[1]) != claim:
            return None
        point.append(answered(f, transcript, values))
        claim = between(f, values, point[-1])
    return None if rest else (point, claim)


def sum_value(f, tables, addends, point):
    tables = within(f, tables)
    for x in point:
        tables = [first_bound(f, table, x) for table in tables]
    return over_corners(f, 0, tables, addends)


def in_words(f, addends):
    return [word for c, factors in addends for word in spread([c], f.words) + [len(factors), *factors]]


def flat(lists):
    return [x for items in lists for x in items]


rng = random.Random(13)
LABEL, STATEMENT = b"answers", b"tables"


def sums(name, m, tables, addends, label=LABEL, statement=STATEMENT):
    """The rows of a sum that is proved, verified and found true; its degree, number and proof."""
    f = SUMS[name]
    s = lambda elements: spread(elements, f.words)
    d = max([1, *(len(factors) for _, factors in addends)])
    given = [s(flat(tables)), in_words(f, addends)]
    total, proof = proved(f, label, statement, m, d, tables, addends)
    point, last = verified(f, label, statement, m, d, total, proof)
    assert last == sum_value(f, tables, addends, point)
    row("sum_prove", name, OK, [[m, d], label, statement, *given], [proof, s([total])])
    row("sum_verify", name, OK, [[m, d], label, statement, s([total]), proof], [s(flat(point)), s(last)])
    row("sum_value", name, OK, [[m, d], *given, s(flat(point))], [s(last)])
    return d, total, proof


for name, f in SUMS.items():
    p, width = f.p, f.degree * f.words
    s = lambda elements: spread(elements, f.words)
    unknown = lambda n: [UNKNOWN] * n
    draw = lambda n: [rng.choice((0, 1, p - 1, rng.randrange(p), rng.randrange(p), rng.randrange(p))) for _ in range(n)]
    tables, addends = [draw(4), draw(4), draw(4)], [(1, [0, 1]), (p - 3, [2])]
    d, total, proof = sums(name, 2, tables, addends)

    row("sum_proof_size", name, OK, [[2, d]], [[len(proof)]])

    def refused(label, statement, claim, bytes_):
        assert verified(f, label, statement, 2, d, claim, bytes_) is None
        row("sum_verify", name, REFUSED, [[2, d], label, statement, s([claim]), bytes_], [unknown(2 * width), unknown(width)])

    def changed(place, byte):
        return proof[:place] + bytes([byte]) + proof[place + 1 :]

    # (a round's values beyond 0 and 1 count in the claim after it, which at the end is what is left to check)
    at, end = 16 + 2 * f.degree * f.size, len(proof) - f.size
    other = changed(end, proof[end] ^ 1)
    again, last = verified(f, LABEL, STATEMENT, 2, d, total, other)
    assert last != sum_value(f, tables, addends, again)
    row("sum_verify", name, OK, [[2, d], LABEL, STATEMENT, s([total]), other], [s(flat(again)), s(last)])
    refused(LABEL, STATEMENT, total, changed(at, proof[at] ^ 1))
    refused(LABEL, STATEMENT, (total + 1) % p, proof)
    refused(LABEL, b"others", total, proof)
    refused(b"", STATEMENT, total, proof)
    # an element that isn't reduced, and other lengths
    refused(LABEL, STATEMENT, total, proof[:end] + b"\xff" * f.size)
    for place, byte in ((0, 1), (8, 2), (15, 1)):
        refused(LABEL, STATEMENT, total, changed(place, byte))

# of no variable, of no factor, of one table as a factor many times, of no addend and no table, of tables that no addend has
sums(18446744069414584321, 0, [[5], [7]], [(3, [0, 1]), (2, [])])
sums(12381, 0, [], [], b"", b"")
sums(12381, 2, [[1, 2, 3, 4]], [(BLS12_381 - 1, []), (7, [])])
sums(2013265921, 1, [[2013265920, 3], [1, 2]], [(1, [0, 0, 0]), (0, [1, 0, 1]), (5, [])])
sums(254, 3, [list(range(8))], [(1, [0])], bytes(range(40)), bytes(100))
sums(2130706433, 1, [], [])
sums(2130706433, 4, [rng.sample(range(2130706433), 16) for _ in range(3)], [(1, [0, 2]), (2130706432, [2])])

# whatever can be wrong, in the order in which it is judged
name, f = 12381, SUMS[12381]
s = lambda elements: spread(elements, f.words)
tables, addends = s([1, 2, 3, 4, 5, 6, 7, 8]), in_words(f, [(1, [0, 1]), (f.p - 1, [1])])
wrong, point = s([1, 2, 3, 4, 5, 6, 7, f.p]), s([1, 2])
size, one, no_number = proof_size(f, 2, 2), s([1]), s([f.p])
of_no_table, too_large = in_words(f, [(1, [0, 2])]), in_words(f, [(1, [0, 1]), (f.p, [])])


def of_shape(status, m, d):
    row("sum_proof_size", name, status, [[m, d]], [unknown(1) if status else [proof_size(f, m, d)]])


def of_tables(status, m, d, tables=tables, addends=addends, proof_len=size, sum_len=4):
    row("sum_prove", name, status, [[m, d], LABEL, STATEMENT, tables, addends], [unknown(proof_len), unknown(sum_len)])


def of_claim(status, m, d, claim=one, proof_len=size, point_len=8, value_len=4):
    row("sum_verify", name, status, [[m, d], LABEL, STATEMENT, claim, bytes(proof_len)], [unknown(point_len), unknown(value_len)])


def of_point(status, m, d, tables=tables, addends=addends, point=point, value_len=4):
    row("sum_value", name, status, [[m, d], tables, addends, point], [unknown(value_len)])


of_shape(OK, 0, 1)
of_shape(OK, 63, 65535)
for m, d in ((64, 2), (2, 0), (2, 65536), (2**32 - 1, 2**32 - 1)):
    for call in (of_shape, of_tables, of_claim, of_point):
        call(LENGTH, m, d)
for call in (of_tables, of_point):
    call(LENGTH, 2, 2, tables + one)
    call(LENGTH, 2, 2, tables[:-1], of_no_table)
    call(ADDENDS, 2, 2, wrong, of_no_table)
    call(ADDENDS, 2, 2, tables, in_words(f, []))
    call(NOT_REDUCED, 2, 2, wrong)
    call(NOT_REDUCED, 2, 2, tables, too_large)
of_tables(LENGTH, 2, 2, wrong, of_no_table, size - 1)
of_tables(LENGTH, 2, 2, proof_len=size + 1)
of_tables(LENGTH, 2, 2, sum_len=0)
of_tables(LENGTH, 2, 2, sum_len=5)
for given in (
    in_words(f, [(1, [0, 2**64 - 1])]),
    addends[:-1],
    addends + [0],
    addends + one + [2**64 - 1],
    addends + one + [1, 0, 0],
    in_words(f, [(1, [0])]),
    in_words(f, [(1, [0, 0, 1])]),
    in_words(f, [(f.p, [2, 1])]),
):
    of_tables(ADDENDS, 2, 2, tables, given)
of_claim(LENGTH, 1, 2)
of_claim(LENGTH, 2, 2, one + one)
of_claim(LENGTH, 2, 2, [])
of_claim(LENGTH, 2, 2, no_number, size + 1)
of_claim(LENGTH, 2, 2, no_number, size - 1)
of_claim(LENGTH, 2, 2, point_len=7)
of_claim(LENGTH, 2, 2, value_len=8)
of_claim(NOT_REDUCED, 2, 2, no_number)
of_claim(REFUSED, 2, 2)
of_point(LENGTH, 2, 2, point=point + one)
of_point(LENGTH, 2, 2, wrong, of_no_table, point[:-1])
of_point(LENGTH, 2, 2, value_len=3)
of_point(ADDENDS, 2, 2, tables, of_no_table, s([f.p, 0]))
of_point(NOT_REDUCED, 2, 2, point=s([0, f.p]))
for name in (5, 433, 65537, 2**64 - 1):
    row("sum_proof_size", name, NO_FIELD, [[64, 0]], [unknown(1)])
row("sum_prove", 65537, NO_FIELD, [[64, 0], b"", b"", [1], [1]], [unknown(1), unknown(1)])
row("sum_verify", 65537, NO_FIELD, [[64, 0], b"", b"", [2**64 - 1], b"a"], [unknown(1), unknown(1)])
row("sum_value", 65537, NO_FIELD, [[64, 0], [1], [1], [1]], [unknown(1)])

if __name__ == "__main__":
    print("\n".join(rows))
