"""Texts of models: how one is written, and how one is read by the rules of docs/FORMATS.md."""

from __future__ import annotations

import os
import re
from array import array
from itertools import chain
from typing import Iterable, Iterator, List, Optional, Tuple, Union

from .errors import Error, Refused
from .jobs import Statement
from .sums import GREATEST_SUM, MOST_VARIABLES, compact

MOST_CUBES = 1_048_575
_BLANKS = b" \t\r"
_HEADER = re.compile(rb"[ \t\r]*\*[ \t]*#variable=[ \t]*([0-9]+)(?![^ \t\r])")
_TOKEN = re.compile(rb"[<>]=?|[=;]|[^ \t\r;<>=:]+:?|:")
_KINDS = re.compile(rb"(?P<n>[+-]?[0-9]+)|(?P<l>~?x[0-9]+)|(?P<r>[<>]?=)|(?P<m>min:)")
_SHAPE = re.compile("m(?:nl+)*|(?:nl+)*rn")
_WORD = re.compile(rb"[^ \t\r]+")
_DIGITS = re.compile(rb"[0-9]+")
_NOT_ZERO = re.compile(rb"-?0*[1-9][0-9]*")
_ZERO = re.compile(rb"0+")
_MOST_DIGITS = 40  # of a number that is not refused

Row = Tuple[int, List[bytes]]
"""The number of a line, and its words."""


def bytes_of(path_or_text: Union[str, bytes, os.PathLike[str]]) -> bytes:
    """The text, or what the file has."""
    if isinstance(path_or_text, str) and _is_text(path_or_text):
        return path_or_text.encode("utf-8", "surrogateescape")
    if not isinstance(path_or_text, (str, os.PathLike)):
        return given_bytes(path_or_text, "Model.read(path) reads a file, or Model.read(text) a text")
    try:
        with open(path_or_text, "rb") as file:
            return file.read()
    except FileNotFoundError as fault:
        told = f"{fault.strerror}, and a text has a ';' or a line break"
        raise FileNotFoundError(fault.errno, told, path_or_text) from None


def given_bytes(given: object, advice: str) -> bytes:
    """The text that is given as bytes. What is none is refused with this advice."""
    try:
        return bytes(memoryview(given))  # type: ignore[arg-type]
    except TypeError:
        pass
    if hasattr(given, "solve"):
        raise TypeError("a model is no text: model.solve() solves it, and model.copy() copies it")
    if hasattr(given, "read"):
        raise TypeError("an open file is no text: write file.read() for it, or Model.read(path) with its path")
    raise TypeError(f"{given!r} is no text: {advice}")


def _is_text(given: str) -> bool:
    """Whether it is a text, and not the name of a file."""
    return "\n" in given or ";" in given or given.lstrip(" \t\r")[:2] in ("", "p ", "c ", "* ")


def opb(variables: int, statements: List[Statement]) -> str:
    """The text in OPB, with the objective first where there is one."""
    constraints = sum(kind != "min" for kind, _, _ in statements)
    lines = [f"* #variable= {variables} #constraint= {constraints}", *(line(*it) for it in statements)]
    return "".join(f"{it}\n" for it in lines)


def line(kind: str, bound: int, numbers: Iterable[int]) -> str:
    """The statement in OPB."""
    given = [*numbers]
    pairs = zip([1] * len(given), given) if kind == "or" else zip(given[::2], given[1::2])
    terms = "".join(f"{number} {'~' if literal < 0 else ''}x{abs(literal)} " for number, literal in pairs)
    if kind == "min":
        return f"min: {terms};"
    return f"{terms}{ {'==': '=', 'or': '>='}.get(kind, kind) } {1 if kind == 'or' else bound} ;"


def _number(word: bytes) -> int:
    """The number that the word spells, or where it has too many digits one that is as far out of all ranges."""
    digits = word.lstrip(b"~x+-").lstrip(b"0")
    number = int(digits or b"0") if len(digits) <= _MOST_DIGITS else 10**_MOST_DIGITS
    return -number if word[:1] in (b"-", b"~") else number


def _kind(token: bytes) -> str:
    """The letter of the token's kind; that of a bad one is `b`."""
    match = _KINDS.fullmatch(token)
    return (match.lastgroup or "b") if match else "b"


def _check_variables(literals: List[int], most: int, at: int) -> int:
    """The greatest variable, which is to be in its range."""
    greatest = max(map(abs, literals), default=0)
    if greatest > most or 0 in literals:
        raise Refused("BadVariable", at)
    return greatest


def _literals(words: List[bytes], most: int, at: int) -> List[int]:
    """The literals of a clause or a cube."""
    if not all(map(_NOT_ZERO.fullmatch, words)):
        raise Refused("Syntax", at)
    literals = [*map(_number, words)]
    _check_variables(literals, most, at)
    return literals


class Cubes:
    """The literals of cubes that are read, of which there may be `most_literals` in all."""

    def __init__(self, most_literals: int) -> None:
        self._left = most_literals
        self.read: List[Iterable[int]] = []

    def append(self, cube: array[int]) -> None:
        """Takes one more cube."""
        self._left -= len(cube)
        if self._left < 0 or len(self.read) == MOST_CUBES:
            raise Error("TooMany")
        self.read.append(cube)


class Reader:
    """What a text spells. `variables` is how many there are, once all statements are read."""

    def __init__(self, text: bytes, format: str, most_clauses: int) -> None:
        self._lines = text.split(b"\n")
        self._format = format
        self._most_clauses = most_clauses
        self.variables = 0

    def statements(self) -> Iterator[Tuple[int, Statement]]:
        """Each statement with its line, the objective first; and cubes last, as those of kind 'cube' with their literals. Raises
        Refused, without a hint, where the text is not of the format."""
        return {"opb": self._opb, "cnf": self._cnf, "icnf": self._icnf}[self._format]()

    def _opb(self) -> Iterator[Tuple[int, Statement]]:
        header = _HEADER.match(self._lines[0])
        self.variables = _number(header[1]) if header else 0
        if self.variables > MOST_VARIABLES:
            raise Refused("TooMany", 1)
        words: List[bytes] = []
        is_first, begins = True, 1
        for at, text in enumerate(self._lines, 1):
            for token in () if text.lstrip(_BLANKS).startswith(b"*") else _TOKEN.findall(text):
                begins = begins if words else at
                if token != b";":
                    words.append(token)
                    continue
                yield begins, self._opb_statement(words, begins, is_first)
                words, is_first = [], False
        if words:
            raise Refused("Unfinished", begins)

    def _opb_statement(self, words: List[bytes], at: int, is_first: bool) -> Statement:
        kinds = "".join(map(_kind, words))
        if kinds.startswith("m") and not is_first:
            raise Refused("LateObjective", at)
        if not _SHAPE.fullmatch(kinds):
            raise Refused("Syntax", at)
        if "ll" in kinds:
            raise Refused("NonLinear", at)
        *terms, relation, last = words if kinds[0] != "m" else [*words[1:], b"min", b"0"]
        numbers, bound = [*map(_number, terms)], _number(last)
        self.variables = max(self.variables, _check_variables(numbers[1::2], MOST_VARIABLES, at))
        if sum(map(abs, numbers[::2]), abs(bound)) > GREATEST_SUM:
            raise Refused("TooLarge", at)
        return "==" if relation == b"=" else relation.decode("ascii"), bound, compact(numbers, bound)

    def _rows(self) -> Tuple[List[Row], int]:
        """The lines that are neither blank nor comments, and the number of the last line."""
        rows, last = [], max(1, len(self._lines) - (self._lines[-1] == b""))
        for at, text in enumerate(self._lines, 1):
            words = _WORD.findall(text)
            if words and words[0].startswith(b"%"):
                return rows, max(1, at - 1)
            if words and not words[0].startswith(b"c"):
                rows.append((at, words))
        return rows, last

    def _cnf(self) -> Iterator[Tuple[int, Statement]]:
        rows, last = self._rows()
        at, words = rows[0] if rows else (last, [])
        if words[:2] != [b"p", b"cnf"] or len(words) != 4 or not all(map(_DIGITS.fullmatch, words[2:])):
            raise Refused("BadHeader", at)
        self.variables, count = _number(words[2]), _number(words[3])
        if self.variables > MOST_VARIABLES or count > self._most_clauses:
            raise Refused("TooMany", at)
        made = 0
        for made, clause in enumerate(self._clauses(rows[1:], self.variables, count), 1):
            yield clause
        if made < count:
            raise Refused("TooFewClauses", last)

    def _icnf(self) -> Iterator[Tuple[int, Statement]]:
        rows, last = self._rows()
        at, words = rows.pop(0) if rows else (last, [])
        if words != [b"p", b"inccnf"]:
            raise Refused("BadHeader", at)
        divided = next((place for place, (_, words) in enumerate(rows) if words[0] == b"a"), len(rows))
        for it in chain(self._clauses(rows[:divided], MOST_VARIABLES, None), map(self._cube, rows[divided:])):
            self.variables = max(self.variables, max(map(abs, it[1][2]), default=0))
            yield it

    def _clauses(self, rows: List[Row], most: int, count: Optional[int]) -> Iterator[Tuple[int, Statement]]:
        """The clauses, of which there are `count` where that is told."""
        clause: List[bytes] = []
        is_open, begins, made = False, 1, 0
        for at, word in ((at, word) for at, words in rows for word in words):
            if made == count:
                raise Refused("TooManyClauses", at)
            is_open, begins = True, begins if is_open else at
            if not _ZERO.fullmatch(word):
                clause.append(word)
                continue
            yield begins, ("or", 0, array("i", _literals(clause, most, begins)))
            clause, is_open, made = [], False, made + 1
        if is_open:
            raise Refused("Unfinished", begins)

    def _cube(self, row: Row) -> Tuple[int, Statement]:
        at, words = row
        if words[0] != b"a":
            raise Refused("ClauseAfterCube", at)
        end = next((place for place, word in enumerate(words) if _ZERO.fullmatch(word)), None)
        if end is None:
            raise Refused("Unfinished", at)
        if end + 1 < len(words):
            raise Refused("Syntax", at)
        return at, ("cube", 0, array("i", _literals(words[1:end], MOST_VARIABLES, at)))
