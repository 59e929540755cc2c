"""The instances of examples/, and words that divide the work on an instance."""
import itertools

from . import FORMATS, TOP
from .formats import read

WORKERS = (1, 2, 3, 64)


def examples():
    """Files, of which each has its format for an ending."""
    return sorted(it for it in (TOP / "examples").iterdir() if it.suffix[1:] in FORMATS)


def variables_of(example):
    """How many variables it has."""
    return read(example.suffix[1:], example.read_bytes()).variables


def divisions(variables, splits, cubes=None):
    """Words that divide an instance of `variables` variables by each split that they allow, and by the cubes of a file."""
    more = ["--cubes", str(cubes)] if cubes else []
    return [[*more, "--split", str(split)] for split in splits if split <= variables]


def divisions_of(example, splits):
    """Such words for an example, without cubes and with those of the file beside it, where there is one."""
    cubes = example.with_suffix(".cubes")
    files = (None, cubes) if cubes.exists() else (None,)
    return [words for file in files for words in divisions(variables_of(example), splits, file)]


def with_workers(divided, workers=WORKERS):
    """The words of each division with each number of workers."""
    return [["--workers", str(crew), *words] for words, crew in itertools.product(divided, workers)]
