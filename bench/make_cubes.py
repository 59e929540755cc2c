#!/usr/bin/env python3
"""Writes a file of cubes to standard output, for measuring divisions of the work.

    make_cubes.py CUBES LITERALS FIRST LAST [SEED]

Each of CUBES cubes has LITERALS literals, of variables drawn from FIRST to LAST, no variable twice, each sign as likely as the other.
"""
import random
import sys


def main():
    cubes, literals, first, last = map(int, sys.argv[1:5])
    random.seed(int(sys.argv[5]) if len(sys.argv) > 5 else 1)
    variables = range(first, last + 1)
    for _ in range(cubes):
        drawn = sorted(random.sample(variables, literals))
        sys.stdout.write("a " + "".join("%d " % (random.choice((1, -1)) * variable) for variable in drawn) + "0\n")


if __name__ == "__main__":
    main()
