"""What the package raises, and what may help."""

from __future__ import annotations

import os
import re
from typing import Dict

from .library import FORMATS, hint_on, loaded

_HINTS: Dict[str, str] = {
    "BadVariable": "variables are numbered from 1 to 1048576",
    "Ended": "the process of the search ended by itself, as where the system wants its memory back",
    "TooLarge": "the numbers of a statement, without their signs, add up to at most 2**126 - 1: take smaller units",
    "TooMany": "there are at most 1048576 variables, 4194304 constraints, 1048575 cubes and 16777216 terms",
}
FOREIGN = (
    "a literal belongs to another model; a copy has only those literals of its original that were made before the copy: model[x.name] is "
    "the model's variable of the same name as x, and answer[x.name] tells its value"
)
LATER = "it has no value of this variable, which was made after the model was asked or copied: ask the model again"
_LIKE_A_PATH = re.compile(rb"[^\s;]+\.(opb|i?cnf)")


class Error(Exception):
    """A call was refused; `name` says why, as 'TooLarge', and `hint` what may help. What it was called on is unchanged."""

    def __init__(self, name: str, hint: str = "") -> None:
        super().__init__(name, hint)  # by which it is made again in another process
        self.name = name
        self.hint = hint or _HINTS.get(name, "")

    def __str__(self) -> str:
        return f"{self.name}: {self.hint}" if self.hint else self.name


class ForeignLiteral(Error):
    """A literal was handed to a model, or to an answer, of which its variable is none, or none yet."""

    def __init__(self, hint: str = FOREIGN) -> None:
        super().__init__("ForeignLiteral", hint)
        self.args = (hint,)


class Refused(Error):
    """A text was refused; `line` is where its first faulty statement begins, from 1, and `hint` says what may help."""

    def __init__(self, name: str, line: int, hint: str = "") -> None:
        super().__init__(name, hint)
        self.args = (name, line, hint)
        self.line = line

    def __str__(self) -> str:
        return f"{self.name} at line {self.line}" + (f": {self.hint}" if self.hint else "")


def _is_path(text: bytes) -> bool:
    """Whether the text is the name of a file that is there."""
    return len(text) < 4096 and not set(text) & set(b"\n;") and os.path.isfile(text)


def format_of(path: str, format: str) -> str:
    """The format that the name of a file ends with, or else this one."""
    ending = os.path.splitext(path)[1][1:]
    return ending if ending in FORMATS else format


def refused(name: str, line: int, text: bytes, format: str, reads: str = "solve") -> Refused:
    """The refusal of a text in this format by the call of that name. It has the hint that the program gives, which names another format
    by an option, and here by the call."""
    named = text.strip()
    beside = "" if named == text else " with a blank or a line end beside it"
    if _is_path(named):
        path = os.fsdecode(named)
        return Refused(name, line, f"the text is the name of a file{beside}: Model.read({path!r}, {format_of(path, format)!r}) reads that")
    if _LIKE_A_PATH.fullmatch(named):
        return Refused(name, line, f"the text is like the name of a file{beside}, and {os.fsdecode(named)!r} is not there")
    hint = hint_on(loaded, text, FORMATS[format])
    return Refused(name, line, re.sub("give --format ([a-z]+)", rf"call {reads}(text, '\1')", hint))
