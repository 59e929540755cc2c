#!/usr/bin/env python3
"""Writes a linear OPB text of about the given size to standard output, for measuring the reader.

    make_opb.py MEGABYTES [TERMS A LINE] [SEED]

Each line is one constraint. One term in four is negated, one coefficient in eight is negative.
"""
import random
import sys


def constraint(rng, terms, variables):
    words = []
    for _ in range(terms):
        coefficient = rng.randint(1, 1000)
        if rng.random() < 0.125:
            coefficient = -coefficient
        negation = "~" if rng.random() < 0.25 else ""
        words.append("%+d %sx%d" % (coefficient, negation, rng.randint(1, variables)))
    words.append("%s %d ;\n" % (rng.choice([">=", ">=", ">=", "<=", "="]), rng.randint(0, 1000 * terms)))
    return " ".join(words)


def main():
    size = int(float(sys.argv[1]) * 1_000_000)
    terms = int(sys.argv[2]) if len(sys.argv) > 2 else 20
    seed = sys.argv[3] if len(sys.argv) > 3 else "1"
    rng = random.Random(seed)
    variables = 100_000
    # drawing each line anew is slow: a thousand lines are drawn and repeated in a random order
    lines = [constraint(rng, terms, variables) for _ in range(1000)]
    written = sys.stdout.write("* #variable= %d #constraint= 0\n" % variables)
    while written < size:
        written += sys.stdout.write("".join(rng.choices(lines, k=100)))


if __name__ == "__main__":
    main()
