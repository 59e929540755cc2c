#!/usr/bin/env python3
"""Writes a text of clauses of about the given size to standard output, for measuring the readers.

    make_cnf.py cnf|icnf|cubes MEGABYTES [LITERALS A LINE] [SEED]

One literal in two is negated. An iCNF text is clauses and then as many cubes as a text may have, or half of the size.
"""
import random
import sys

VARIABLES = 100_000
MOST_CUBES = 1_048_575


def line(rng, literals):
    drawn = (rng.choice((-1, 1)) * rng.randint(1, VARIABLES) for _ in range(literals))
    return "".join("%d " % literal for literal in drawn) + "0\n"


def lines(rng, literals, prefix, size, most):
    """Lines of about the given size together, and how many they are."""
    # drawing each line anew is slow: a thousand lines are drawn and repeated in a random order
    drawn = [prefix + line(rng, literals) for _ in range(1000)]
    mean = sum(map(len, drawn)) / len(drawn)
    count = min(most, max(1, int(size / mean)))
    return "".join(rng.choices(drawn, k=count)), count


def main():
    form = sys.argv[1]
    size = int(float(sys.argv[2]) * 1_000_000)
    literals = int(sys.argv[3]) if len(sys.argv) > 3 else 3
    rng = random.Random(sys.argv[4] if len(sys.argv) > 4 else "1")
    if form == "cnf":
        text, count = lines(rng, literals, "", size, 1 << 22)
        sys.stdout.write("p cnf %d %d\n" % (VARIABLES, count))
        sys.stdout.write(text)
    elif form == "icnf":
        sys.stdout.write("p inccnf\n")
        sys.stdout.write(lines(rng, literals, "", size // 2, 1 << 22)[0])
        sys.stdout.write(lines(rng, literals, "a ", size // 2, MOST_CUBES)[0])
    else:
        sys.stdout.write(lines(rng, literals, "a ", size, MOST_CUBES)[0])


if __name__ == "__main__":
    main()
