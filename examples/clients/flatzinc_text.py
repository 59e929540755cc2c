"""Reads the statements of FlatZinc texts, which have integers, names of variables and arrays of both as values."""

import re
from collections import deque

from pbcube_program import NoAnswer

OPERATORS = {*"<>+-*/\\|!^", "in", "where", "if", "let", "not", "xor", "div", "mod", "union"}  # of MiniZinc, none of which FlatZinc has
CALLS = {"forall", "exists", "sum"}  # the same, where a parenthesis follows
ITEMS = {"include", "output", "enum", "function", "annotation", "test", "type", "par", "opt", "any"}  # the same, first in a statement
KINDS = {"var", "int", "bool", "float", "set", "of", "array", "[", "]", "{", "}", "..", ","}
WORD = re.compile(r'"[^"\n]*"|%.*|::|\.\.|-?\d+(?:\.\d+)?(?:[eE][-+]?\d+)?|\w+|\S|\n')


def statements(text):
    """Each statement's last line and its words."""
    line, words = 1, []
    for word in WORD.findall(text):
        line += word == "\n"
        if word == ";":
            yield line, words
            words = []
        elif word != "\n" and word[0] != "%":
            words.append(word)
    if words:
        raise NoAnswer(f"line {line}: the last statement does not end with ;")


def minizinc_line(text):
    """The last line of the first statement that MiniZinc has and FlatZinc has not, or None where each may be of FlatZinc."""
    try:
        return next((line for line, words in statements(text) if is_minizinc(words)), None)
    except NoAnswer:
        return None  # all but the last one, which has no end


def is_minizinc(words):
    """Whether the statement has what FlatZinc has in none: an operator, a call within a sum, an item of another kind, a name or many
    ranges in a type, or a parameter or an array without a value."""
    first = words[0] if words else ""
    calls = {name for name, then in zip(words, words[1:]) if then == "("}
    if first in ITEMS or OPERATORS.intersection(words) or CALLS & calls or words[1:2] == ["="]:
        return True
    if first == "constraint":
        return words[2:3] != ["("] or "=" in words
    if first == "solve":
        kind = next((at for at, word in enumerate(words) if word in ("minimize", "maximize")), len(words))
        return "(" in words[kind:]
    return first != "predicate" and ":" in words and is_declared_in_minizinc(words)


def is_declared_in_minizinc(words):
    """The same of a declaration."""
    kind = words[: words.index(":")]
    has_value = "=" in words or kind[:1] == ["var"]
    return not has_value or kind.count("..") > 2 or any(it not in KINDS and not it.lstrip("-")[:1].isdigit() for it in kind)


class Statement:
    """The words of a statement, taken one after the other. `known` has each name's value: a number, a variable, a list of these."""

    def __init__(self, line, words, known):
        self.line, self.words, self.known = line, deque(words), known

    def fault(self, text):
        """What is told where the statement cannot be."""
        return NoAnswer(f"line {self.line}: {text}")

    def until(self, *ends):
        """The words before the first of the ends, which is taken too, or all that are left."""
        words = []
        while self.words and self.words[0] not in ends:
            words.append(self.words.popleft())
        if self.words:
            self.words.popleft()
        return words

    def value(self):
        """The next value: an integer, a variable's name, or a list of these."""
        word = self.words.popleft() if self.words else "the end"
        if word == "[":
            return self.values("]")
        if not re.fullmatch(r"-?\d+", word) and word not in self.known:
            raise self.fault(f"{word} stands where there should be an integer or a variable")
        value = self.known[word] if word in self.known else int(word)
        if self.words and self.words[0] == "[":
            self.until("[")
            return value[self.values("]")[0] - 1]
        return value

    def values(self, end):
        """Values with commas between them, up to the end."""
        values = []
        while self.words and self.words[0] != end:
            values.append(self.value())
            if self.words and self.words[0] == ",":
                self.words.popleft()
        self.until(end)
        return values
