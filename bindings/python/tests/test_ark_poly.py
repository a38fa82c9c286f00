"""The rows of answers.txt by every kind of list, and what the package adds. Without numpy its cases aren't there."""
import array
import ctypes
import doctest
import os
import random
import subprocess
import sys
import threading
import unittest
from unittest import mock

import ark_poly
from ark_poly import __main__ as program
from ark_poly._library import library

try:
    import numpy
except ImportError:
    numpy = None
try:
    import dask.array
except ImportError:
    dask = None

HERE = os.path.dirname(os.path.abspath(__file__))
ANSWERS = os.path.join(HERE, "..", "..", "answers.txt")
# the cases of the program polyrun: words between tabs, a dash for the empty one, and lines between semicolons
CASES = os.path.join(HERE, "..", "..", "..", "crates", "test_command_answers")
FIELDS = list(program.FIELDS.values())
OLD = 0xFEEDFACECAFEF00D


def rows():
    def lists(part):
        return [[OLD if word == "-" else int(word, 16) for word in text.split()] for text in part.split("|")]

    with open(ANSWERS, encoding="ascii") as file:
        for text in file:
            head, _, rest = text.partition(":")
            call, field, status = head.split()
            given, _, left = rest.partition(">")
            yield call, int(field), int(status), lists(given), lists(left)


ROWS = list(rows())
OF_PARTS = ("fft_columns", "fft_rows", "ifft_rows", "ifft_columns")
OF_PIECES = ("piece_size", "split", "file_size", "join")
OF_SUMS = ("sum_proof_size", "sum_prove", "sum_verify", "sum_value")


def numbers(field, words):
    width = ark_poly.words(field)
    return [sum(word << 64 * j for j, word in enumerate(words[i : i + width])) for i in range(0, len(words), width)]


def spelled(field, items):
    return [item >> 64 * j & 2**64 - 1 for item in items for j in range(ark_poly.words(field))]


def raw_pieces(call, given, left):
    """The same of a call over pieces, whose lists are bytes."""
    function = getattr(library, "ark_" + call)
    lists = [it for words in given[1:] for it in (bytes(words), len(words))]
    if call in ("piece_size", "file_size"):
        size = ctypes.c_uint64(OLD)
        return function(*given[0], *lists, ctypes.byref(size)), [[size.value]]
    made = bytearray([OLD & 255] * len(left[0]))
    status = function(*given[0], *lists, (ctypes.c_char * len(made)).from_buffer(made), len(made))
    return status, [[OLD if status and byte == OLD & 255 else byte for byte in made]]


def raw_sums(call, field, given, left):
    """The same of a call over sums, whose label, statement and proof are bytes."""
    function = getattr(library, "ark_" + call)
    if call == "sum_proof_size":
        size = ctypes.c_uint64(OLD)
        return function(field, *given[0], ctypes.byref(size)), [[size.value]]
    said = [it for words in given[1:3] if call != "sum_value" for it in (bytes(words), len(words))]
    lists = given[3:] if said else given[1:]
    kinds = {"sum_prove": ("QQ", "BQ"), "sum_verify": ("QB", "QQ"), "sum_value": ("QQQ", "Q")}[call]
    lists = [array.array(kind, words) for kind, words in zip(kinds[0], lists)]
    made = [array.array(kind, [OLD & 255 if kind == "B" else OLD] * len(words)) for kind, words in zip(kinds[1], left)]
    pairs = [it for words in (*lists, *made) for it in words.buffer_info()]
    status = function(field, *said, *given[0], *pairs)
    old = lambda words: words.typecode == "B" and status
    return status, [[OLD if old(words) and word == OLD & 255 else word for word in words] for words in made]


def raw(call, field, given, left):
    """The library's own call over these lists, with what it leaves."""
    if call in OF_PIECES:
        return raw_pieces(call, given, left)
    if call in OF_SUMS:
        return raw_sums(call, field, given, left)
    lists = [array.array("Q", words) for words in given]
    if call == "domain_size":
        size = ctypes.c_uint64(OLD)
        return library.ark_domain_size(field, given[0][0], ctypes.byref(size)), [[size.value]]
    made = [array.array("Q", [OLD] * len(words)) for words in left]
    pair = lambda words: (words.buffer_info()[0], len(words))
    function = getattr(library, "ark_" + call)
    if call in OF_PARTS:
        return function(field, *pair(lists[0]), *given[1], *pair(lists[2])), [lists[0].tolist()]
    if call in ("fft", "ifft", "multiply_values"):
        return function(field, *pair(lists[0]), *pair(lists[1])), [lists[0].tolist()]
    if call in ("code_restore", "code_message"):
        marks = array.array("B", given[1])
        if call == "code_restore":
            return function(field, *pair(lists[0]), *pair(marks), given[2][0]), [lists[0].tolist()]
        return function(field, *pair(lists[0]), *pair(marks), *pair(made[0])), [made[0].tolist()]
    status = function(field, *(it for words in lists for it in pair(words)), *(it for words in made for it in pair(words)))
    return status, [words.tolist() for words in made]


def answer(call, field, given, left, kind):
    """What the package answers to a row, where elements are of a kind."""
    width = ark_poly.words(field)
    function = getattr(ark_poly, call)
    of_elements = given[1:] if call == "multilinear_evaluate_sparse" else given
    if call.startswith("code_") or call in OF_PARTS:
        of_elements = given[:1]
    lists = [kind(field, words) for words in of_elements]
    if call in OF_PARTS:
        return [function(field, lists[0], *given[1], numbers(field, given[2])[0])]
    if call in ("fft", "ifft"):
        return [function(field, lists[0], numbers(field, given[1])[0])]
    if call == "lagrange":
        return [function(field, len(left[0]) // width, numbers(field, given[1])[0], numbers(field, given[0])[0])]
    if call == "multilinear_evaluate":
        return [[function(field, *lists)]]
    if call == "multilinear_evaluate_sparse":
        return [[function(field, given[0], *lists)]]
    if call in ("code_encode", "code_encode_systematic"):
        return [function(field, lists[0], len(left[0]) // width)]
    if call == "code_restore":
        return [function(field, lists[0], given[2][0], given[1])]
    if call == "code_message":
        many = len(given[0]) // width // len(given[1])
        return [function(field, lists[0], len(left[0]) // width // many, given[1])]
    found = function(field, *lists)
    return list(found) if call == "divide" else [found]


class Answers(unittest.TestCase):
    def test_the_calls(self):
        for call, field, status, given, left in ROWS:
            with self.subTest(call=call, field=field, given=given):
                self.assertEqual(raw(call, field, given, left), (status, left))

    def check_kind(self, kind, back):
        for call, field, status, given, left in ROWS:
            if status or call == "domain_size" or call in OF_PIECES or call in OF_SUMS:
                continue
            # (the package's products have no zeros behind)
            if call == "multiply" and len(left[0]) != len(given[0]) + len(given[1]) - ark_poly.words(field):
                continue
            with self.subTest(call=call, field=field, given=given):
                found = answer(call, field, given, left, kind)
                wanted = [numbers(field, words) for words in left]
                if call in ("multilinear_evaluate", "multilinear_evaluate_sparse", "lagrange"):
                    self.assertEqual(found, wanted)
                else:
                    self.assertEqual([back(field, it) for it in found], wanted)

    def test_lists(self):
        def back(field, found):
            self.assertIs(type(found), list)
            return found

        self.check_kind(numbers, back)

    def test_tuples(self):
        self.check_kind(lambda field, words: tuple(numbers(field, words)), lambda field, found: found)

    def test_arrays(self):
        def back(field, found):
            self.assertIs(type(found), array.array)
            return numbers(field, found.tolist())

        self.check_kind(lambda field, words: array.array("Q", words), back)
        self.check_kind(lambda field, words: memoryview(array.array("Q", words)), back)
        self.check_kind(lambda field, words: memoryview(array.array("Q", words)).toreadonly(), back)

    @unittest.skipIf(numpy is None, "no numpy")
    def test_numpy(self):
        def back(field, found):
            self.assertIsInstance(found, numpy.ndarray)
            self.assertEqual(found.dtype, numpy.uint64)
            return numbers(field, found.ravel().tolist())

        def as_rows(field, words):
            return numpy.array(words, dtype=numpy.uint64).reshape(-1, ark_poly.words(field))

        self.check_kind(lambda field, words: numpy.array(words, dtype=numpy.uint64), back)
        self.check_kind(as_rows, back)
        self.assertEqual(ark_poly.fft(ark_poly.BN254_FR, as_rows(ark_poly.BN254_FR, [0] * 16)).shape, (4, 4))


class Places(unittest.TestCase):
    """What is written where it stands."""

    def check_in_place(self, words, back):
        c = [1, 2, 3, 4]
        v = ark_poly.fft(ark_poly.GOLDILOCKS, c, 7)
        place = words(c)
        ark_poly.fft_in_place(ark_poly.GOLDILOCKS, place, 7)
        self.assertEqual(back(place), v)
        ark_poly.ifft_in_place(ark_poly.GOLDILOCKS, place, 7)
        self.assertEqual(back(place), c)
        others = words([5, 0, ark_poly.GOLDILOCKS - 1, 1])
        ark_poly.multiply_values_in_place(ark_poly.GOLDILOCKS, place, others)
        self.assertEqual(back(place), [5, 0, ark_poly.GOLDILOCKS - 3, 4])
        ark_poly.multiply_values_in_place(ark_poly.GOLDILOCKS, place, place)
        self.assertEqual(back(place), [25, 0, 9, 16])
        with self.assertRaises(ark_poly.WrongLength):
            ark_poly.multiply_values_in_place(ark_poly.GOLDILOCKS, place, others[:3])
        self.assertEqual(back(place), [25, 0, 9, 16])
        word = words(ark_poly.code_encode(ark_poly.GOLDILOCKS, [5, 6], 4))
        whole = back(word)
        word[1] = word[2] = 0
        ark_poly.code_restore_in_place(ark_poly.GOLDILOCKS, word, 2, [0, 1, 1, 0])
        self.assertEqual(back(word), whole)
        wrong = words([1, 2, 3, ark_poly.GOLDILOCKS])
        with self.assertRaises(ark_poly.NotReduced):
            ark_poly.fft_in_place(ark_poly.GOLDILOCKS, wrong)
        self.assertEqual(back(wrong), [1, 2, 3, ark_poly.GOLDILOCKS])

    def test_list(self):
        self.check_in_place(list, list)

    def test_array(self):
        self.check_in_place(lambda c: array.array("Q", c), list)
        self.check_in_place(lambda c: memoryview(array.array("Q", c)), list)

    @unittest.skipIf(numpy is None, "no numpy")
    def test_numpy(self):
        self.check_in_place(lambda c: numpy.array(c, dtype=numpy.uint64), lambda it: it.tolist())
        rows = numpy.zeros((4, 4), dtype=numpy.uint64)
        rows[1, 0] = 1
        ark_poly.fft_in_place(ark_poly.BLS12_381_FR, rows)
        p = ark_poly.modulus(ark_poly.BLS12_381_FR)
        w = pow(7, (p - 1) // 4, p)
        self.assertEqual(numbers(ark_poly.BLS12_381_FR, rows.ravel().tolist()), [pow(w, i, p) for i in range(4)])
        # lists that share words
        some = numpy.array([2, 3, 5, 7], dtype=numpy.uint64)
        ark_poly.multiply_values_in_place(ark_poly.BABYBEAR, some[:3], some[1:])
        self.assertEqual(some.tolist(), [6, 15, 35, 7])
        ark_poly.multiply_values_in_place(ark_poly.BABYBEAR, some[2:], some[:2])
        self.assertEqual(some.tolist(), [6, 15, 210, 105])
        # another type, or not in one piece
        for other in (
            numpy.zeros(4, dtype=numpy.int64),
            numpy.zeros(4, dtype=numpy.float64),
            numpy.zeros(8, dtype=numpy.uint64)[::2],
            numpy.zeros(4, dtype=">u8"),
        ):
            with self.assertRaises(TypeError):
                ark_poly.fft_in_place(ark_poly.BABYBEAR, other)
        self.assertEqual(ark_poly.fft(ark_poly.BABYBEAR, numpy.array([1, 2, 3, 4])).tolist()[0], 10)
        self.assertEqual(ark_poly.fft(ark_poly.BABYBEAR, numpy.arange(8, dtype=numpy.uint64)[::2]).tolist()[0], 12)
        self.assertEqual(ark_poly.fft(ark_poly.BABYBEAR, list(numpy.array([1, 2, 3, 4])))[0], 10)
        with self.assertRaises(TypeError):
            ark_poly.fft(ark_poly.BABYBEAR, numpy.array([1.0, 2.0]))
        with self.assertRaises(ark_poly.NotReduced):
            ark_poly.fft(ark_poly.BABYBEAR, numpy.array([1, -2]))
        with self.assertRaises(ark_poly.WrongLength):
            ark_poly.fft(ark_poly.BABYBEAR, numpy.zeros((2, 2), dtype=numpy.uint64))

    def test_other_types(self):
        for other in (b"12345678", array.array("q", [1]), array.array("I", [1]), (1,), memoryview(b"12345678").cast("Q")):
            with self.assertRaises(TypeError):
                ark_poly.fft_in_place(ark_poly.BABYBEAR, other)
        for other in ([1.0], ["1"], [None], "1", 1):
            with self.assertRaises(TypeError):
                ark_poly.fft(ark_poly.BABYBEAR, other)
        self.assertEqual(ark_poly.fft(ark_poly.BABYBEAR, b"\1\2"), ark_poly.fft(ark_poly.BABYBEAR, [1, 2]))
        self.assertEqual(ark_poly.fft(ark_poly.BABYBEAR, range(4))[0], 6)
        self.assertEqual(ark_poly.fft(ark_poly.BABYBEAR, (i for i in range(4)))[0], 6)


class Parts(unittest.TestCase):
    """Transforms by columns and by rows, of every field."""

    def check_parts(self, kind, back):
        rng = random.Random(4)
        for field in FIELDS:
            p = ark_poly.modulus(field)
            for log_rows, log_columns in ((0, 0), (0, 2), (1, 1), (2, 0)) + (((2, 3), (3, 1)) if p > 433 else ()):
                r, c, offset = 1 << log_rows, 1 << log_columns, rng.randrange(1, p)
                logs = log_rows, log_columns
                list_ = [rng.randrange(p) for _ in range(r * c)]
                values = ark_poly.fft(field, list_, offset)
                # blocks of one column and of the others, then of one row and of the others
                rows = [[] for _ in range(r)]
                for j, k in ((0, 1), (1, c - 1)):
                    block = kind(field, [list_[i * c + j + a] for i in range(r) for a in range(k)])
                    made = ark_poly.fft_columns(field, block, *logs, offset)
                    self.assertEqual(back(field, ark_poly.ifft_columns(field, made, *logs, offset)), back(field, block))
                    ark_poly.fft_columns_in_place(field, block, *logs, offset)
                    self.assertEqual(back(field, block), back(field, made))
                    for i in range(r):
                        rows[i] += back(field, made)[i * k : (i + 1) * k]
                for i, k in ((0, 1), (1, r - 1)):
                    block = kind(field, sum(rows[i : i + k], []))
                    made = ark_poly.fft_rows(field, block, *logs, i, offset)
                    self.assertEqual(back(field, ark_poly.ifft_rows(field, made, *logs, i, offset)), back(field, block))
                    ark_poly.fft_rows_in_place(field, block, *logs, i, offset)
                    self.assertEqual(back(field, block), back(field, made))
                    wanted = [values[i + a + r * j] for a in range(k) for j in range(c)]
                    self.assertEqual(back(field, made), wanted)
                    ark_poly.ifft_rows_in_place(field, block, *logs, i, offset)
                    ark_poly.fft_rows_in_place(field, block, *logs, i, offset)
                    self.assertEqual(back(field, block), wanted)

    def test_list(self):
        self.check_parts(lambda field, items: items, lambda field, block: block)

    def test_array(self):
        as_array = lambda field, items: array.array("Q", spelled(field, items))
        self.check_parts(as_array, lambda field, block: numbers(field, block.tolist()))

    @unittest.skipIf(numpy is None, "no numpy")
    def test_numpy(self):
        def as_rows(field, items):
            return numpy.array(spelled(field, items), dtype=numpy.uint64).reshape(-1, ark_poly.words(field))

        self.check_parts(as_rows, lambda field, block: numbers(field, block.ravel().tolist()))

    def test_refusals(self):
        f = ark_poly.BABYBEAR
        for error, of_columns in (
            (ark_poly.NoField, (7, [1], 64, 0)),
            (ark_poly.WrongLength, (f, [1, 2, 3], 1, 0)),
            (ark_poly.WrongLength, (f, [], 64, 0)),
            (ark_poly.WrongLength, (f, [], 63, 1)),
            (ark_poly.WrongLength, (f, [], 2**32, 1)),
            (ark_poly.WrongLength, (f, [1], -1, 1)),
            (ark_poly.NotReduced, (f, [f], 0, 0)),
            (ark_poly.NotReduced, (f, [1], 0, 0, f)),
            (ark_poly.NoDomain, (f, [], 27, 1)),
            (ark_poly.NoDomain, (f, [1], 0, 0, 0)),
        ):
            for call in ("fft_columns", "ifft_columns", "fft_columns_in_place", "ifft_columns_in_place"):
                with self.subTest(call=call, given=of_columns), self.assertRaises(error):
                    getattr(ark_poly, call)(*of_columns)
        for error, of_rows in (
            (ark_poly.NoField, (7, [1], 0, 64, -1)),
            (ark_poly.WrongLength, (f, [1, 2, 3], 1, 1, 0)),
            (ark_poly.WrongLength, (f, [1, 2], 1, 1, 2)),
            (ark_poly.WrongLength, (f, [], 1, 1, 3)),
            (ark_poly.WrongLength, (f, [1, 2], 1, 1, -1)),
            (ark_poly.WrongLength, (f, [1, 2], 1, 1, 2**64)),
            (ark_poly.WrongLength, (f, [], 0, 64, 0)),
            (ark_poly.NotReduced, (f, [f], 0, 0, 0)),
            (ark_poly.NoDomain, (f, [], 27, 1, 0)),
            (ark_poly.NoDomain, (f, [1], 0, 0, 0, 0)),
        ):
            for call in ("fft_rows", "ifft_rows", "fft_rows_in_place", "ifft_rows_in_place"):
                with self.subTest(call=call, given=of_rows), self.assertRaises(error):
                    getattr(ark_poly, call)(*of_rows)


class Threads(unittest.TestCase):
    """The calls of `ark_poly.parallel`, at sizes for which threads are worth it, or are made to be."""

    @unittest.skipIf(numpy is not None, "numpy is there")
    def test_without_numpy(self):
        with self.assertRaisesRegex(ImportError, "needs numpy"):
            import ark_poly.parallel

    def setUp(self):
        if numpy is None and self._testMethodName != "test_without_numpy":
            self.skipTest("no numpy")
        self.rng = random.Random(5)

    def drawn(self, field, count):
        words = spelled(field, [self.rng.randrange(ark_poly.modulus(field)) for _ in range(count)])
        return numpy.array(words, dtype=numpy.uint64).reshape(-1, ark_poly.words(field))

    def check(self, found, wanted):
        self.assertIs(type(found), type(wanted))
        if isinstance(wanted, numpy.ndarray):
            self.assertEqual((found.shape, found.dtype), (wanted.shape, wanted.dtype))
            self.assertTrue(numpy.array_equal(found, wanted))
        else:
            self.assertEqual(found, wanted)

    def test_transforms_and_products(self):
        from ark_poly import parallel

        for least in (parallel._LEAST_BYTES, 1):
            with mock.patch.object(parallel, "_LEAST_BYTES", least), mock.patch.object(parallel, "_FEW", 1):
                for field in FIELDS[2:]:
                    for threads in (0, 1, 3):
                        for count in (1 << 16 if field == ark_poly.KOALABEAR else 1 << 9, 1 << 4, 2):
                            values = self.drawn(field, count)
                            made = ark_poly.fft(field, values, 3)
                            self.check(parallel.fft(field, values, 3, threads), made)
                            self.check(parallel.ifft(field, made, 3, threads), values)
                            left, right = values[: count // 2 + 1], values[: count // 3 + 1]
                            self.check(parallel.multiply(field, left, right, threads), ark_poly.multiply(field, left, right))

    def test_kinds(self):
        from ark_poly import parallel

        f = ark_poly.GOLDILOCKS
        for count in (1 << 16, 1 << 4):
            items = [self.rng.randrange(f) for _ in range(count)]
            words = array.array("Q", items)
            for kind in (items, tuple(items), words, memoryview(words).toreadonly(), numpy.array(items, dtype=numpy.uint64)):
                self.check(parallel.fft(f, kind, threads=2), ark_poly.fft(f, kind))

    def test_codes(self):
        from ark_poly import parallel

        for field in FIELDS[2:]:
            messages = self.drawn(field, 3 * 50)
            words = numpy.concatenate([ark_poly.code_encode(field, messages[i : i + 3], 8) for i in range(0, len(messages), 3)])
            self.check(parallel.code_encode(field, messages[:3], 8), words[:8])
            erased = [0, 1, 1, 0, 1, 0, 0, 1]
            holed = words.copy()
            holed.reshape(50, 8, -1)[:, [1, 2, 4, 7]] = 0
            for least in (parallel._LEAST_BYTES, 1):
                with mock.patch.object(parallel, "_LEAST_BYTES", least):
                    for threads in (0, 1, 3):
                        self.check(parallel.code_encode(field, messages, 8, 3, threads), words)
                        self.check(parallel.code_restore(field, holed, 3, erased, threads), words)
                        self.check(parallel.code_message(field, holed, 3, erased, threads), messages)
        word = [1, None, 1, 1]
        self.assertEqual(parallel.code_restore(ark_poly.BABYBEAR, word, 1), [1] * 4)
        self.assertEqual(parallel.code_message(ark_poly.BABYBEAR, word, 1), [1])

    def test_refusals(self):
        from ark_poly import parallel

        f = ark_poly.F65537
        good, bad = numpy.ones(1 << 16, dtype=numpy.uint64), numpy.full(1 << 16, f, dtype=numpy.uint64)
        words = numpy.ones(1 << 17, dtype=numpy.uint64)
        words[-1] = 2
        for error, call in (
            (ark_poly.NoField, lambda: parallel.fft(7, good)),
            (ark_poly.NotReduced, lambda: parallel.fft(f, bad)),
            (ark_poly.NotReduced, lambda: parallel.ifft(f, bad)),
            (ark_poly.NotReduced, lambda: parallel.multiply(f, good, bad)),
            (ark_poly.NotReduced, lambda: parallel.fft(f, numpy.concatenate([good, bad]))),
            (ark_poly.NoDomain, lambda: parallel.fft(f, good, 0)),
            (ark_poly.NoDomain, lambda: parallel.fft(f, numpy.concatenate([good, good]))),
            (ark_poly.NoDomain, lambda: parallel.fft(f, good[:-1])),
            (ark_poly.WrongLength, lambda: parallel.code_encode(f, good, 8, 0)),
            (ark_poly.WrongLength, lambda: parallel.code_encode(f, good, 8, 3)),
            (ark_poly.WrongLength, lambda: parallel.code_restore(f, words, 5, [0] * 4)),
            (ark_poly.WrongLength, lambda: parallel.code_message(f, words, 0, [0] * 4)),
            (ark_poly.NoCodeword, lambda: parallel.code_restore(f, words, 1, [0] * 4)),
            (ark_poly.TooFew, lambda: parallel.code_message(f, words, 2, [1, 1, 1, 0])),
        ):
            with self.subTest(error=error), self.assertRaises(error):
                call()


@unittest.skipIf(numpy is None or dask is None, "no numpy or no dask")
class Chunks(unittest.TestCase):
    """The calls of `ark_poly.dask`, on one thread; `cluster.py` has them on processes."""

    def setUp(self):
        self.rng = random.Random(6)
        scheduler = dask.config.set(scheduler="synchronous")
        scheduler.__enter__()
        self.addCleanup(scheduler.__exit__, None, None, None)

    def drawn(self, field, count):
        words = spelled(field, [self.rng.randrange(ark_poly.modulus(field)) for _ in range(count)])
        array_ = numpy.array(words, dtype=numpy.uint64)
        return array_ if ark_poly.words(field) == 1 else array_.reshape(-1, 4)

    def chunked(self, items, size):
        return dask.array.from_array(items, chunks=(size, *items.shape[1:]))

    def check(self, found, wanted):
        self.assertEqual((found.shape, found.dtype), (wanted.shape, wanted.dtype))
        computed = found.compute()
        self.assertEqual((computed.shape, computed.dtype), (wanted.shape, wanted.dtype))
        self.assertTrue(numpy.array_equal(computed, wanted))

    def test_transforms_and_products(self):
        from ark_poly import dask as ark_dask

        for field, count, size in (
            (ark_poly.F5, 4, 2),
            (ark_poly.F65537, 128, 16),
            (ark_poly.GOLDILOCKS, 64, 10),
            (ark_poly.GOLDILOCKS, 2, 1),
            (ark_poly.BLS12_381_FR, 128, 16),
            (ark_poly.BN254_FR, 32, 32),
            (ark_poly.BN254_FR, 1, 1),
        ):
            items = self.drawn(field, count)
            values = ark_poly.fft(field, items, 3)
            self.check(ark_dask.fft(self.chunked(items, size), field, 3), values)
            self.check(ark_dask.ifft(self.chunked(values, size), field, 3), items)
            if field != ark_poly.F5:
                other = self.drawn(field, count // 3 + 1)
                found = ark_dask.multiply(self.chunked(items, size), self.chunked(other, 3), field)
                self.check(found, ark_poly.multiply(field, items, other))

    def test_restore(self):
        from ark_poly import dask as ark_dask

        for field in (ark_poly.BABYBEAR, ark_poly.BN254_FR):
            words = numpy.concatenate([ark_poly.code_encode(field, self.drawn(field, 3), 8) for _ in range(10)])
            erased = [1, 0, 1, 1, 0, 0, 1, 1]
            holed = words.copy()
            holed.reshape(10, 8, -1)[:, [0, 2, 3, 6, 7]] = 1
            self.check(ark_dask.restore(self.chunked(holed, 19), field, 3, erased), words)

    def test_refusals(self):
        from ark_poly import dask as ark_dask

        f, ones = ark_poly.F65537, numpy.ones(64, dtype=numpy.uint64)
        list_, word = self.chunked(ones, 8), self.chunked(numpy.arange(4, dtype=numpy.uint64), 4)
        for error, call in (
            (ark_poly.NoField, lambda: ark_dask.fft(list_, 7)),
            (TypeError, lambda: ark_dask.fft(list_.astype(int), f)),
            (ark_poly.WrongLength, lambda: ark_dask.fft(list_, ark_poly.BN254_FR)),
            (ark_poly.NoDomain, lambda: ark_dask.fft(list_, ark_poly.F5)),
            (ark_poly.NoDomain, lambda: ark_dask.fft(list_[:63], f)),
            (ark_poly.NoDomain, lambda: ark_dask.ifft(list_, f, 0)),
            (ark_poly.NoDomain, lambda: ark_dask.multiply(list_, list_, ark_poly.F433)),
            (ark_poly.WrongLength, lambda: ark_dask.multiply(list_, list_[:0], f)),
            (ark_poly.WrongLength, lambda: ark_dask.restore(list_, f, 2, [0] * 48)),
            (ark_poly.NotReduced, lambda: ark_dask.fft(list_ * f, f).compute()),
            (ark_poly.NotReduced, lambda: ark_dask.fft(list_, f, f).compute()),
            (ark_poly.NoCodeword, lambda: ark_dask.restore(word, f, 1, [0] * 4).compute()),
        ):
            with self.subTest(error=error), self.assertRaises(error):
                call()


class Sums(unittest.TestCase):
    """Sums over the cube, their proofs, and their values at points."""

    def check_kind(self, kind):
        for call, field, status, given, left in ROWS:
            if status not in (0, 13) or call not in OF_SUMS:
                continue
            shape, said = given[0], [bytes(words) for words in given[1:3] if call != "sum_value"]
            with self.subTest(call=call, field=field, given=given):
                if call == "sum_proof_size":
                    self.assertEqual(ark_poly.sum_check_proof_size(field, *shape), left[0][0])
                elif call == "sum_prove":
                    found = ark_poly.sum_check_prove(field, *said, *shape, kind(field, given[3]), addends_of(field, given[4]))
                    self.assertEqual(found, (numbers(field, left[1])[0], bytes(left[0])))
                elif call == "sum_value":
                    tables, addends, point = kind(field, given[1]), addends_of(field, given[2]), challenges(field, given[3])
                    found = ark_poly.sum_check_value(field, *shape, tables, addends, point)
                    self.assertEqual([found], challenges(field, left[0]))
                else:
                    verify = lambda: ark_poly.sum_check_verify(
                        field, *said, *shape, numbers(field, given[3])[0], bytes(given[4])
                    )
                    if status:
                        self.assertRaises(ark_poly.Refused, verify)
                    else:
                        self.assertEqual(verify(), (challenges(field, left[0]), challenges(field, left[1])[0]))

    def test_lists(self):
        self.check_kind(numbers)

    def test_arrays(self):
        self.check_kind(lambda field, words: array.array("Q", words))
        self.check_kind(lambda field, words: memoryview(array.array("Q", words)).toreadonly())

    @unittest.skipIf(numpy is None, "no numpy")
    def test_numpy(self):
        self.check_kind(lambda field, words: numpy.array(words, dtype=numpy.uint64).reshape(-1, ark_poly.words(field)))
        point = numpy.ones((2, 4), dtype=numpy.uint64)
        self.assertEqual(
            ark_poly.sum_check_value(ark_poly.KOALABEAR, 2, 1, [1, 2, 3, 4], [(numpy.int64(2), numpy.array([0]))], point),
            ark_poly.sum_check_value(ark_poly.KOALABEAR, 2, 1, [1, 2, 3, 4], [(2, [0])], [(1, 1, 1, 1)] * 2),
        )

    def test_sums(self):
        rng = random.Random(8)
        for field in FIELDS[3:]:
            p = ark_poly.modulus(field)
            for m in range(6):
                tables = [[rng.randrange(p) for _ in range(1 << m)] for _ in range(3)]
                c, lists = rng.randrange(p), sum(tables, [])
                addends = [(1, [0, 1, 1]), (c, [2]), (p - 1, [])]
                drawn = ((coefficient, iter(places)) for coefficient, places in addends)
                total, proof = ark_poly.sum_check_prove(field, b"test", bytearray(b"sum"), m, 3, lists, drawn)
                self.assertEqual(total, sum(x * y * y + c * z - 1 for x, y, z in zip(*tables)) % p)
                self.assertEqual(len(proof), ark_poly.sum_check_proof_size(field, m, 3))
                point, value = ark_poly.sum_check_verify(field, b"test", memoryview(b"sum"), m, 3, total, bytearray(proof))
                self.assertEqual((len(point), len(value)), (m, ark_poly.challenge_degree(field)))
                self.assertEqual(ark_poly.sum_check_value(field, m, 3, lists, addends, point), value)
                if ark_poly.challenge_degree(field) == 1:
                    x, y, z = (ark_poly.multilinear_evaluate(field, table, [x for x, in point]) for table in tables)
                    self.assertEqual(value[0], (x * y * y + c * z - 1) % p)
                if m:
                    with self.assertRaises(ark_poly.Refused):
                        ark_poly.sum_check_verify(field, b"test", b"sum", m, 3, (total + 1) % p, proof)

    def test_other_types(self):
        f = ark_poly.BABYBEAR
        for label in ("text", 1, None, [1]):
            with self.assertRaises(TypeError):
                ark_poly.sum_check_prove(f, label, b"", 0, 1, [], [])
            with self.assertRaises(TypeError):
                ark_poly.sum_check_verify(f, b"", label, 0, 1, 0, bytes(8))
            with self.assertRaises(TypeError):
                ark_poly.sum_check_verify(f, b"", b"", 0, 1, 0, label)
        for addends in (1, [1], [(1, 1)], [(1.0, [])], [(1, [0.0])], [(1, "0")]):
            with self.assertRaises(TypeError):
                ark_poly.sum_check_prove(f, b"", b"", 0, 1, [1], addends)


def addends_of(field, words):
    """The addends that words spell."""
    width, addends = ark_poly.words(field), []
    while words:
        end = width + 1 + words[width]
        addends.append((numbers(field, words[:width])[0], words[width + 1 : end]))
        words = words[end:]
    return addends


def challenges(field, words):
    items, degree = numbers(field, words), ark_poly.challenge_degree(field)
    return [tuple(items[i : i + degree]) for i in range(0, len(items), degree)]


def of_sums():
    """What calls over sums refuse, and how."""
    f, tables, addends, point = ark_poly.BABYBEAR, [1, 2, 3, 4], [(1, [0, 1])], [(1, 2, 3, 4)]
    size = ark_poly.sum_check_proof_size(f, 1, 2)
    prove = lambda field=f, m=1, d=2, tables=tables, addends=addends: ark_poly.sum_check_prove(
        field, b"", b"", m, d, tables, addends
    )
    verify = lambda field=f, m=1, d=2, total=1, proof=bytes(size): ark_poly.sum_check_verify(
        field, b"", b"", m, d, total, proof
    )
    value = lambda field=f, m=1, d=2, tables=tables, addends=addends, point=point: ark_poly.sum_check_value(
        field, m, d, tables, addends, point
    )
    for field in (7, 2**64 + f, -1, ark_poly.F5, ark_poly.F433, ark_poly.F65537):
        yield ark_poly.NoField, lambda field=field: ark_poly.challenge_degree(field)
        yield ark_poly.NoField, lambda field=field: ark_poly.sum_check_proof_size(field, 64, 0)
        for call in (prove, verify, value):
            yield ark_poly.NoField, lambda call=call, field=field: call(field)
    for m, d in ((64, 2), (-1, 2), (2**32 + 1, 2), (1, 0), (1, -2), (1, 65536), (1, 2**32 + 2)):
        yield ark_poly.WrongLength, lambda m=m, d=d: ark_poly.sum_check_proof_size(f, m, d)
        for call in (prove, verify, value):
            yield ark_poly.WrongLength, lambda call=call, m=m, d=d: call(m=m, d=d)
    for call in (prove, value):
        yield ark_poly.WrongLength, lambda call=call: call(tables=[1, 2, 3])
        for wrong in ([(1, [0, 2])], [(1, [0, -1])], [(1, [0, 2**64])], [(1, [0])], [(1, [0, 0, 0])], []):
            yield ark_poly.WrongAddends, lambda call=call, wrong=wrong: call(addends=wrong)
        for number in (f, -1, 2**64):
            yield ark_poly.NotReduced, lambda call=call, number=number: call(tables=[1, 2, 3, number])
            yield ark_poly.NotReduced, lambda call=call, number=number: call(addends=[(number, [0, 1])])
    for number in (f, -1, 2**64):
        yield ark_poly.NotReduced, lambda number=number: verify(total=number)
        yield ark_poly.NotReduced, lambda number=number: value(point=[(1, 2, 3, number)])
    for wrong in ([], point * 2, [(1, 2, 3)], [(1,)] * 4, [(1, 2), (3, 4, 5, 6, 7, 8)]):
        yield ark_poly.WrongLength, lambda wrong=wrong: value(point=wrong)
    yield ark_poly.WrongLength, lambda: verify(proof=bytes(size - 1))
    yield ark_poly.WrongLength, lambda: verify(proof=bytes(size + 1))
    yield ark_poly.Refused, verify


class Refusals(unittest.TestCase):
    def test_each(self):
        f = ark_poly.BABYBEAR
        for error, call in (
            (ark_poly.NoField, lambda: ark_poly.fft(7, [1])),
            (ark_poly.NoField, lambda: ark_poly.fft(-5, [1])),
            (ark_poly.NoField, lambda: ark_poly.fft(2**64 + 5, [1])),
            (ark_poly.NoField, lambda: ark_poly.modulus(0)),
            (ark_poly.NoField, lambda: ark_poly.domain_size(2, 2**64)),
            (ark_poly.WrongLength, lambda: ark_poly.interpolate(f, [1, 2], [1])),
            (ark_poly.WrongLength, lambda: ark_poly.multiply_values(f, [1, 2], [1])),
            (ark_poly.WrongLength, lambda: ark_poly.multilinear_evaluate(f, [1, 2, 3], [1])),
            (ark_poly.WrongLength, lambda: ark_poly.multilinear_fix(f, [1, 2], [1, 1])),
            (ark_poly.WrongLength, lambda: ark_poly.multilinear_evaluate_sparse(f, [1], [1, 2], [1])),
            (ark_poly.WrongLength, lambda: ark_poly.multilinear_evaluate_sparse(f, [-1], [1], [1])),
            (ark_poly.WrongLength, lambda: ark_poly.multilinear_evaluate_sparse(f, [2**64], [1], [1])),
            (ark_poly.WrongLength, lambda: ark_poly.code_encode_systematic(f, [1, 2, 3], 2)),
            (ark_poly.WrongLength, lambda: ark_poly.code_restore(f, [1, 2, 3, 4], 5, [0] * 4)),
            (ark_poly.WrongLength, lambda: ark_poly.code_message(f, [1, 2, 3, 4], 2**59, [0] * 4)),
            (ark_poly.WrongLength, lambda: ark_poly.code_restore(f, [1, 2, 3, 4], 2**64 + 2, [0] * 4)),
            (ark_poly.WrongLength, lambda: ark_poly.code_restore(f, [1, 2, 3, 4], -1, [0] * 4)),
            (ark_poly.WrongLength, lambda: ark_poly.code_restore(f, [1, 2, 3], 1, [0] * 4)),
            (ark_poly.WrongLength, lambda: ark_poly.fft(ark_poly.BN254_FR, array.array("Q", [1]))),
            (ark_poly.NotReduced, lambda: ark_poly.fft(f, [f])),
            (ark_poly.NotReduced, lambda: ark_poly.fft(f, [-1])),
            (ark_poly.NotReduced, lambda: ark_poly.fft(f, [2**64])),
            (ark_poly.NotReduced, lambda: ark_poly.fft(ark_poly.BN254_FR, [2**256])),
            (ark_poly.NotReduced, lambda: ark_poly.fft(ark_poly.BN254_FR, [ark_poly.modulus(ark_poly.BN254_FR)])),
            (ark_poly.NotReduced, lambda: ark_poly.fft(f, [1], f)),
            (ark_poly.NotReduced, lambda: ark_poly.evaluate(f, [1], -1)),
            (ark_poly.NotReduced, lambda: ark_poly.multiply_values(f, [1], [f])),
            (ark_poly.NoDomain, lambda: ark_poly.fft(f, [1, 2, 3])),
            (ark_poly.NoDomain, lambda: ark_poly.fft(f, [])),
            (ark_poly.NoDomain, lambda: ark_poly.ifft(f, [1], 0)),
            (ark_poly.NoDomain, lambda: ark_poly.domain_size(f, 2**70)),
            (ark_poly.NoDomain, lambda: ark_poly.lagrange(f, 2**62, 1)),
            (ark_poly.NoDomain, lambda: ark_poly.code_encode(f, [1], 2**62)),
            (ark_poly.NoDomain, lambda: ark_poly.code_encode_systematic(f, [1], 3)),
            (ark_poly.ZeroDivisor, lambda: ark_poly.divide(f, [1, 2], [0])),
            (ark_poly.ZeroDivisor, lambda: ark_poly.divide(f, [1, 2], [])),
            (ark_poly.EqualPoints, lambda: ark_poly.interpolate(f, [1, 1], [1, 2])),
            (ark_poly.TooFew, lambda: ark_poly.code_restore(f, [1, None, None, None], 2)),
            (ark_poly.TooFew, lambda: ark_poly.code_message(f, [1, None, None, None], 2)),
            (ark_poly.NoCodeword, lambda: ark_poly.code_restore(f, [1, 2, 3, None], 1)),
            (ark_poly.NoCodeword, lambda: ark_poly.code_message(f, [1, 2, 3, None], 1)),
            *of_sums(),
            (ark_poly.WrongLength, lambda: ark_poly.split(0, 1, b"")),
            (ark_poly.WrongLength, lambda: ark_poly.split(2, 1, b"")),
            (ark_poly.WrongLength, lambda: ark_poly.split(0, 0, b"")),
            (ark_poly.WrongLength, lambda: ark_poly.split(-1, 1, b"")),
            (ark_poly.WrongLength, lambda: ark_poly.split(1, 65537, b"")),
            (ark_poly.WrongLength, lambda: ark_poly.split(1, 1, b"", bytes(65536))),
            (ark_poly.WrongLength, lambda: ark_poly.join(2, 1, ark_poly.split(1, 1, b""))),
            (ark_poly.WrongLength, lambda: ark_poly.join(1, 65537, b"")),
            (ark_poly.NotPieces, lambda: ark_poly.join(1, 1, b"")),
            (ark_poly.NotPieces, lambda: ark_poly.join(2, 3, ark_poly.split(2, 3, b"hello")[:1])),
            (ark_poly.NotPieces, lambda: ark_poly.join(2, 3, ark_poly.split(2, 3, b"hello")[:1] * 2)),
            (ark_poly.Damaged, lambda: ark_poly.join(2, 3, b"".join(ark_poly.split(2, 3, b"hello")).replace(b"he", b"hE"))),
        ):
            with self.subTest(error=error), self.assertRaises(error) as raised:
                call()
            self.assertIsInstance(raised.exception, ark_poly.ArkError)
            self.assertTrue(str(raised.exception))
        self.assertTrue(issubclass(ark_poly.OutOfMemory, MemoryError))
        self.assertTrue(issubclass(ark_poly.ZeroDivisor, ZeroDivisionError))
        self.assertTrue(issubclass(ark_poly.NoDomain, ValueError))

    def test_unknown_status(self):
        with mock.patch.object(ark_poly, "_calls") as other:
            other.ark_words.return_value = 1
            other.ark_fft.return_value = 99
            with self.assertRaisesRegex(ark_poly.ArkError, "status 99"):
                ark_poly.fft(5, [1])
            other.ark_fft.return_value = 1
            with self.assertRaises(MemoryError):
                ark_poly.fft(5, [1])


class Calls(unittest.TestCase):
    def test_facts(self):
        self.assertEqual(ark_poly.library_version(), (0, 5, 0))
        self.assertEqual([ark_poly.words(field) for field in FIELDS], [1] * 6 + [4] * 2)
        self.assertEqual([ark_poly.challenge_degree(field) for field in FIELDS[3:]], [4, 4, 2, 1, 1])
        self.assertEqual(ark_poly.domain_size(ark_poly.F433, 17), 18)
        self.assertEqual(ark_poly.domain_size(ark_poly.F433, 0), 1)

    def test_polynomials(self):
        rng = random.Random(1)
        for field in FIELDS[2:]:
            p = ark_poly.modulus(field)
            a, b = ([rng.randrange(p) for _ in range(n)] for n in (20, 7))
            product = ark_poly.multiply(field, a, b)
            x = rng.randrange(p)
            at = lambda c: sum(y * pow(x, i, p) for i, y in enumerate(c)) % p
            self.assertEqual(at(product), at(a) * at(b) % p)
            self.assertEqual(ark_poly.evaluate(field, a, x), at(a))
            values = [ark_poly.fft(field, c + [0] * (32 - len(c)), 3) for c in (a, b)]
            self.assertEqual(ark_poly.ifft(field, ark_poly.multiply_values(field, *values), 3), product + [0] * 6)
            quotient, remainder = ark_poly.divide(field, product, b)
            self.assertEqual((quotient, remainder), (a + [0] * 6, [0] * 7))
            weights = ark_poly.lagrange(field, 32, x, 3)
            values = ark_poly.fft(field, a + [0] * 12, 3)
            self.assertEqual(sum(w * v for w, v in zip(weights, values)) % p, at(a))
        self.assertEqual(ark_poly.multiply(5, [], [1, 2]), [])
        self.assertEqual(ark_poly.evaluate(5, [], 3), 0)
        self.assertEqual(ark_poly.interpolate(5, [], []), [])

    def test_codes(self):
        for field in FIELDS[2:]:
            word = ark_poly.code_encode(field, [3, 1, 4], 8)
            holed = [None if i in (0, 2, 3, 5, 7) else item for i, item in enumerate(word)]
            self.assertEqual(ark_poly.code_restore(field, holed, 3), word)
            self.assertEqual(ark_poly.code_message(field, holed, 3), [3, 1, 4])
            word = ark_poly.code_encode_systematic(field, [3, 1, 4], 8)
            self.assertEqual(word[:3], [3, 1, 4])
            self.assertEqual(ark_poly.code_restore(field, [None] * 5 + word[5:], 3), word)

    def test_pieces(self):
        rng = random.Random(3)
        for call, _, status, given, left in ROWS:
            if status or call not in ("split", "join"):
                continue
            (k, n), lists = given[0], [bytes(words) for words in given[1:]]
            if call == "split":
                label, file = lists
                pieces = ark_poly.split(k, n, file, label)
                self.assertEqual((b"".join(pieces), len(pieces)), (bytes(left[0]), n))
                chosen = rng.sample(pieces, rng.randrange(k, n + 1))
                for kind in (list, tuple, iter, b"".join, lambda them: bytearray(b"".join(them))):
                    self.assertEqual(ark_poly.join(k, n, kind(chosen)), file)
                self.assertEqual(ark_poly.split(k, n, bytearray(file), memoryview(label)), pieces)
            else:
                self.assertEqual(ark_poly.join(k, n, lists[0]), bytes(left[0]))
        for other in ("text", 1, None, ["text"], [1]):
            with self.assertRaises(TypeError):
                ark_poly.join(1, 1, other)
        for other in ("text", 1, None, [1]):
            with self.assertRaises(TypeError):
                ark_poly.split(1, 1, other)

    def test_entries(self):
        rng = random.Random(2)
        for field in FIELDS:
            p = ark_poly.modulus(field)
            point = [rng.randrange(p) for _ in range(4)]
            table = [rng.randrange(p) for _ in range(16)]
            at = rng.sample(range(16), 16)
            value = ark_poly.multilinear_evaluate(field, table, point)
            found = ark_poly.multilinear_evaluate_sparse(field, [3, *at], [1, *(table[i] for i in at)], point)
            self.assertEqual(found, value)
            places = array.array("Q", at)
            found = ark_poly.multilinear_evaluate_sparse(field, places, [table[i] for i in at], point)
            self.assertEqual(found, value)
            self.assertEqual(ark_poly.multilinear_evaluate_sparse(field, [], [], point), 0)

    def test_threads(self):
        c = list(range(1 << 8))
        wanted, found = ark_poly.fft(ark_poly.KOALABEAR, c), []
        threads = [threading.Thread(target=lambda: found.append(ark_poly.fft(ark_poly.KOALABEAR, c))) for _ in range(8)]
        for thread in threads:
            thread.start()
        for thread in threads:
            thread.join()
        self.assertEqual(found, [wanted] * 8)

    def test_examples_of_the_texts(self):
        self.assertEqual(doctest.testmod(ark_poly).failed, 0)
        if numpy is not None:
            from ark_poly import parallel

            self.assertEqual(doctest.testmod(parallel).failed, 0)

    def test_typed(self):
        self.assertTrue(os.path.exists(os.path.join(os.path.dirname(ark_poly.__file__), "py.typed")))


class Program(unittest.TestCase):
    def check(self, text, status, *words):
        self.assertEqual(program.run(list(words)), (text, status), words)

    def test_commands(self):
        self.check("0,4,3,2\n", 0, "5", "fft", "4", "1", "1,2,3,4")
        self.check("0,4,3,2\n", 0, "5", "fft", "3", "6", "6,7,8,9,10")
        self.check("0,0,0,0\n", 0, "5", "fft", "4", "1", "")
        self.check("error 2: NoDomain\n", 1, "5", "fft", "4", "5", "1")
        self.check("error 2: NoDomain\n", 1, "5", "fft", "9" * 10000, "1", "1")
        self.check("\n", 0, "5", "mul", "", "1")
        self.check("\n", 0, "5", "mul", "5,5", "1,2,3,4,5,6,7")
        self.check("1,2,1\n", 0, "bls12-381", "mul", "1,1,0", "1,1")
        self.check("error 5: ZeroDivisor\n", 1, "bn254", "div", "1", "0")
        self.check("\n\n", 0, "bn254", "div", "0", "0")
        self.check("0\n", 0, "65537", "eval", "", "5")
        self.check("2\n", 0, "5", "mle", "0", "7", "")
        self.check("1\n", 0, "5", "size", "0")
        self.check(f"{pow(10, 10000, 65537) - 1}\n", 0, "65537", "eval", "9" * 10000, "0")

    def test_cases_of_polyrun(self):
        with open(os.path.join(CASES, "stdin"), encoding="utf-8") as asked, open(
            os.path.join(CASES, "stdout"), encoding="utf-8"
        ) as answered:
            pairs = list(zip(asked.read().split("\n"), answered.read().split("\n")))
        tried = 0
        for text, wanted in pairs:
            words = ["" if word == "-" else word for word in text.split("\t")]
            if not text or text.startswith("#") or words[1:2] == ["check"]:
                continue
            found, status = program.run(words)
            found = found[:-1].replace("\n", ";") + (f" ({status})" if status else "")
            self.assertEqual(found, wanted, text)
            tried += 1
        self.assertGreater(tried, 400)

    def test_usage(self):
        for words in (
            [],
            ["5"],
            ["6", "fft", "4", "1", "1"],
            ["5", "fft", "4", "1"],
            ["5", "fft", "4", "1", "1", "1"],
            ["5", "fft", "+4", "1", "1"],
            ["5", "fft", "", "1", "1"],
            ["5", "fft", "4", "-1", "1"],
            ["5", "fft", "4", "1", "1,"],
            ["5", "fft", "4", "1", "1, 2"],
            ["5", "fft", "4", "1", "\u0661"],
            ["5", "fft", "4", "1", "\udcff"],
            ["5", "mle", "1", "1", "1"],
            ["5", "mle", "64", "1", "1"],
            ["5", "mle", "2", "1,2,3,4", "1"],
            ["5", "vectors", "1"],
            ["6", "vectors"],
            ["5", "none"],
        ):
            self.check("usage\n", 2, *words)

    def test_vectors(self):
        for field in program.FIELDS:
            text, status = program.run([field, "vectors"])
            self.assertEqual(status, 0)
            self.assertTrue(all(line.endswith(" ok") for line in text.splitlines()))
        with mock.patch.dict(program.VECTORS, {"5": [(("size", "4"), "4"), (("size", "4"), "5")]}):
            self.check("1 ok\n2 bad\n", 1, "5", "vectors")

    def test_process(self):
        def run(*words, **how):
            return subprocess.run([sys.executable, "-m", "ark_poly", *words], stderr=subprocess.PIPE, **how)

        done = run("5", "fft", "4", "1", "1,2,3,4", stdout=subprocess.PIPE)
        self.assertEqual((done.returncode, done.stdout, done.stderr), (0, b"0,4,3,2\n", b""))
        self.assertEqual(run("5", "size", "9", stdout=subprocess.PIPE).returncode, 1)
        self.assertEqual(run("usage", stdout=subprocess.PIPE).returncode, 2)
        with open("/dev/full", "w", encoding="ascii") as full:
            done = run("5", "fft", "4", "1", "1,2,3,4", stdout=full)
        self.assertEqual((done.returncode, done.stderr), (3, b""))


if __name__ == "__main__":
    unittest.main()
