"""The must-fail edits: those that `rt ci` tries, and those that stand apart."""
from dataclasses import dataclass
from pathlib import Path

from . import TOP
from .changes import changes_of
from .code import CRATES

APART = TOP / "tests/wrong"


@dataclass(frozen=True)
class Edit:
    """A wrong body: its file, its crate, the function that is to refuse it, and by what."""

    path: Path
    crate: str
    function: str
    by: str

    @property
    def name(self):
        return self.path.stem

    @property
    def changes(self):
        return changes_of(self.path.read_text().splitlines())


def edit_of(path, crate):
    first = path.read_text().split("\n")[0]
    function, _, by = first.removeprefix("# refused by: ").partition(", ")
    return Edit(path, crate, function, by)


def of_the_gate():
    return [edit_of(it, it.parts[-3]) for it in sorted(CRATES.glob("*/must-fail/*.edit"))]


def apart():
    return [edit_of(it, it.parts[-2]) for it in sorted(APART.glob("*/*.edit"))]
