"""Times transforms through the package, over numpy's words in place and over lists, on one core and on all, and numpy's own of
complex numbers: a line `name<TAB>size<TAB>nanoseconds` each, the least of many batches."""
import time

import numpy

import ark_poly
from ark_poly import parallel

BATCHES = 30


def least(call, calls):
    found = []
    for _ in range(BATCHES):
        begin = time.perf_counter_ns()
        for _ in range(calls):
            call()
        found.append((time.perf_counter_ns() - begin) // calls)
    return min(found)


def main():
    for size, calls in ((1 << 10, 200), (1 << 12, 50), (1 << 16, 3)):
        numbers = numpy.arange(size, dtype=numpy.uint64)
        rows = numpy.zeros((size, 4), dtype=numpy.uint64)
        rows[:, 0] = numbers
        words = {"babybear": numbers.copy(), "goldilocks": numbers.copy(), "bls12_381": rows}
        fields = {"babybear": ark_poly.BABYBEAR, "goldilocks": ark_poly.GOLDILOCKS, "bls12_381": ark_poly.BLS12_381_FR}
        for name, field in fields.items():
            print(f"{name}_fft\t{size}\t{least(lambda: ark_poly.fft_in_place(field, words[name]), calls)}")
        items = numbers.tolist()
        print(f"babybear_fft_of_a_list\t{size}\t{least(lambda: ark_poly.fft(ark_poly.BABYBEAR, items), calls)}")
        complex_numbers = numbers.astype(numpy.complex128)
        print(f"numpy_fft\t{size}\t{least(lambda: numpy.fft.fft(complex_numbers), calls)}")
    rows = numpy.zeros((1 << 20, 4), dtype=numpy.uint64)
    rows[:, 0] = numpy.arange(1 << 20)
    for name, threads in (("one_core", 1), ("all_cores", 0)):
        nanoseconds = least(lambda: parallel.fft(ark_poly.BLS12_381_FR, rows, threads=threads), 1)
        print(f"bls12_381_fft_on_{name}\t{1 << 20}\t{nanoseconds}")


if __name__ == "__main__":
    main()
