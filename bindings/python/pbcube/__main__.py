"""Runs the program pbcube with the words of the command line: python -m pbcube FILE."""

import os
import sys

from .programs import find


def main() -> None:
    """Becomes the program, or ends with status 2 where there is none."""
    try:
        program = find()
    except FileNotFoundError as fault:
        print(f"python -m pbcube: {fault}", file=sys.stderr)
        sys.exit(2)
    os.execv(program, [program, *sys.argv[1:]])


if __name__ == "__main__":
    main()
