#!/usr/bin/env python3
"""Reads a linear OPB text from standard input and writes it with each coefficient and each bound times 2^BITS.

    scale_opb.py BITS < FILE

The answer of the text is the same but for its cost, which is multiplied too. With 70 bits the sums of small numbers are
counted in 128 bits, and so the two texts tell what these take.
"""
import re
import sys

NUMBER = re.compile(r"(?<![x~0-9])[-+]?\d+")  # and no variable's


def main():
    factor = 1 << int(sys.argv[1])
    for line in sys.stdin:
        if not line.startswith("*"):
            line = NUMBER.sub(lambda found: str(int(found[0]) * factor), line)
        sys.stdout.write(line)


if __name__ == "__main__":
    main()
