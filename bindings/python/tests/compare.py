"""compare.py POLYRUN: drawn command lines, to which the package writes what the program polyrun writes, with its status."""
import random
import subprocess
import sys

from ark_poly import __main__ as program

COUNT = 300


def drawn(rng):
    field = rng.choice([*program.FIELDS, "6"])
    p = {"bls12-381": 2**255, "bn254": 2**254}.get(field) or program.FIELDS.get(field, 7)
    number = lambda: str(rng.choice((0, 1, 5, p - 1, p, p + 1, rng.randrange(p), rng.randrange(10 * p), rng.randrange(10))))
    items = lambda n: ",".join(number() for _ in range(n))
    some = lambda: items(rng.randrange(9))
    size = lambda: str(rng.choice((0, 1, 2, 3, 4, 5, 8, 9, 16, 17, 18, 433, 2**27 + 1, 2**64)))
    small = lambda: str(rng.choice((0, 1, 2, 3, 4, 5, 8, 9, 16, 17, 18)))
    m = rng.randrange(4)
    words = rng.choice(
        (
            lambda: ["fft", small(), number(), some()],
            lambda: ["ifft", small(), number(), some()],
            lambda: ["mul", some(), some()],
            lambda: ["div", some(), some()],
            lambda: ["eval", some(), number()],
            lambda: ["mle", str(m), items(1 << m), items(m)],
            lambda: ["mle", small(), some(), some()],
            lambda: ["size", size()],
            lambda: ["vectors"],
            lambda: ["eval", some(), rng.choice(("", "+1", "1,2", " 1", "x"))],
        )
    )()
    return [field, *words]


def main():
    rng = random.Random(61)
    for _ in range(COUNT):
        words = drawn(rng)
        done = subprocess.run([sys.argv[1], *words], stdout=subprocess.PIPE, check=False)
        wanted = (done.stdout.decode(), done.returncode)
        found = program.run(words)
        if found != wanted:
            sys.exit(f"{words}: polyrun {wanted}, the package {found}")
    print(f"{COUNT} commands are answered as polyrun does")


if __name__ == "__main__":
    main()
