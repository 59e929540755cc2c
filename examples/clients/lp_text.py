"""Reads texts in CPLEX's LP format, every number as the decimal that it is. What is not of the format is a fault with its line."""

import re
from collections import defaultdict, deque, namedtuple
from fractions import Fraction

from pbcube_model import Objective, Row, decimal
from pbcube_program import NoAnswer

INFINITE = 10**20  # a bound from here on is none, as CPLEX takes it
SECTIONS = {
    "minimise": r"min(?:imum|imi[sz]e)?",
    "maximise": r"max(?:imum|imi[sz]e)?",
    "rows": r"subject\s+to|such\s+that|st\.?|s\.t\.",
    "bounds": r"bounds?",
    "binaries": r"bin(?:ary|aries)?",
    "integers": r"gen(?:erals?)?(?!\s+constr)|int(?:egers?)?",
    "end": r"end",
    "other": r"semi(?:s|-continuous)?|sos[12]?|user\s+cuts|lazy\s+constraints|general\s+constraints?|pwlobj|scenario",
}
OTHERS = {  # what the text seems to be instead, by how it begins
    r"(?:c(?:[ \t].*)?\n\s*)*p\s+cnf\b": "DIMACS CNF: solve it by pbcube --format cnf FILE",
    r"(?:c(?:[ \t].*)?\n\s*)*p\s+inccnf\b": "iCNF: solve it by pbcube --format icnf FILE",
    r"(?:\*.*\n\s*)*(?:NAME|ROWS)(?=\s)": "MPS: have the program that wrote it write LP",
    r"\*|(?:(?:min|max)\s*:)?(?:\s*[+-]?\d+(?:\s+~?x\d+\b)+)+\s*(?:;|[<>]?=)": "OPB: solve it by pbcube FILE",
    r"/[*/]|(?:min|max)\w*\s*:|[^;\n]*;": "lp_solve's: write sections, as Minimize, Subject To and Binaries",
}
KEYWORD = re.compile(rf"\s*(?:{'|'.join(f'(?P<{kind}>{words})' for kind, words in SECTIONS.items())})(?=\s|$)(?!\s*:)", re.I)
OPENING = rf"subject|such|{'|'.join(SECTIONS[it] for it in ('bounds', 'binaries', 'integers', 'end'))}|s\.?t\.?"
TOKEN = re.compile(
    r"(?P<relation>[<>]=?|=[<>]?)|(?P<number>(?:\d+\.?\d*|\.\d+)(?:e[+-]?\d+)?)|(?P<sign>[+-](?!>))|(?P<colon>:)"
    r"|(?P<name>[^\s\d.+\-<>=:\[\]^*/][^\s+\-<>=:\[\]^*/]*)|(?P<other>->|\S)",
    re.I | re.A,
)
RELATIONS = {"<": "<=", "<=": "<=", "=<": "<=", ">": ">=", ">=": ">=", "=>": ">=", "=": "="}
NOT_READ = {  # what is told of a word that LP has, where it stands
    "[": ": products are not read",
    "^": ": products are not read",
    "*": ": products are not read, and 2 x has no *",
    "->": ": indicators are not read",
    "/": ": nothing is divided, and half of x is 0.5 x",
    "\u2264": ": write <=",
    "\u2265": ": write >=",
}
ALONE = ": variables stand on the left side alone, and a row is a sum, a relation and a number"
FLIPPED = {"<=": ">=", ">=": "<=", "=": "="}
Token = namedtuple("Token", "line kind text")  # of the kinds that TOKEN names


class Section:
    """The tokens of a section, taken one after the other. `lines` gets the line on which each name is first seen."""

    def __init__(self, lines):
        self.tokens, self.lines, self.line = deque(), lines, 0

    def kind(self, ahead=0):
        """The kind of a token that comes, nothing behind the last one."""
        return self.tokens[ahead].kind if len(self.tokens) > ahead else ""

    def take(self, kind):
        """The next token's text, where it is of this kind."""
        token = self.tokens.popleft() if self.tokens else Token(self.line, "", "the section's end")
        self.line = token.line
        if token.kind != kind:
            opens = ": a section begins on a line of its own" if re.fullmatch(OPENING, token.text, re.I) else ""
            told = NOT_READ.get(token.text, opens)
            raise NoAnswer(f"line {token.line}: {token.text} stands where there should be a {kind}{told}")
        return token.text

    def takes_word(self, *words):
        """Takes the next token where it is one of these words, and tells whether it is."""
        return self.kind() == "name" and self.tokens[0].text.lower() in words and bool(self.take("name"))

    def name(self):
        """The next name, whose line is noted where it is new."""
        name = self.take("name")
        self.lines.setdefault(name, self.line)
        return name

    def names(self):
        """All that is left, which are names."""
        return {self.name() for _ in range(len(self.tokens))}

    def label(self):
        """Takes the label of an objective or a row where one is next, as it must be behind another row of the line."""
        if self.kind(1) == "colon":
            self.take("name")
            self.take("colon")
        elif self.tokens and self.tokens[0].line == self.line:
            self.take("label")  # a kind that no token has

    def relation(self):
        """The next relation as OPB writes it."""
        return RELATIONS[self.take("relation")]

    def sign(self):
        """1, or -1 where an odd number of the signs that are next are minus."""
        sign = 1
        while self.kind() == "sign":
            sign *= -1 if self.take("sign") == "-" else 1
        return sign

    def number(self):
        """The next number, without a sign."""
        return decimal(self.take("number"), f"line {self.line}")

    def bound(self):
        """A signed number, None where it is infinite."""
        value = self.sign() * (INFINITE if self.takes_word("inf", "infinity") else self.number())
        return value if abs(value) < INFINITE else None

    def sum(self):
        """The terms and the constant of a sum."""
        terms, constant, is_open = [], Fraction(), True
        while is_open:
            sign, has_number = self.sign(), self.kind() == "number"
            number = sign * (self.number() if has_number else Fraction(1))
            if has_number and self.kind() != "name":
                constant += number
            else:
                terms.append((number, self.name()))
            is_open = self.kind() == "sign"
        return terms, constant

    def objective(self, is_maximised):
        """The objective, None where there is its label alone."""
        self.label()
        objective = Objective(*self.sum(), is_maximised) if self.tokens else None
        if self.tokens:
            self.take("sign")  # none is next, or the sum would have gone on
        return objective

    def rows(self):
        """The rows, each under the line on which its sum ends."""
        while self.tokens:
            self.label()
            terms, constant = self.sum()
            line, relation, sign = self.line, self.relation(), self.sign()
            if self.kind() == "name":
                raise NoAnswer(f"line {self.tokens[0].line}: {self.tokens[0].text} stands where there should be a number{ALONE}")
            yield Row(f"line {line}", terms, relation, sign * self.number() - constant)

    def bounds(self):
        """Names with a relation and a number, which is None where it is infinite."""
        while self.tokens:
            flipped = None if self.kind() == "name" else (self.bound(), FLIPPED[self.relation()])
            name = self.name()
            if flipped:
                yield name, flipped[1], flipped[0]
            if self.takes_word("free"):
                yield name, "=", None
            elif self.kind() == "relation" or not flipped:
                yield name, self.relation(), self.bound()


def check_format(text):
    """Refuses a text that is empty, or that begins as one of another format does."""
    bare = "\n".join(line.partition("\\")[0] for line in text.split("\n")).strip()
    seems = [f"seems to be {other}" for beginning, other in OTHERS.items() if re.match(beginning, bare, re.I | re.A)]
    if not bare or (seems and not KEYWORD.match(bare)):
        raise NoAnswer(f"pbcube-lp reads CPLEX's LP format, and this text {seems[0] if bare else 'is empty'}")


def sections_of(text):
    """The sections by kind, and the line of each name, which is put there as the sections are taken."""
    check_format(text)
    lines, kind = {}, "other"
    sections = defaultdict(lambda: Section(lines))
    for number, line in enumerate(text.split("\n"), 1):
        line = line.partition("\\")[0]
        keyword = KEYWORD.match(line)
        if keyword:
            kind, line = keyword.lastgroup, line[keyword.end() :]
        if kind == "end":
            break
        tokens = [Token(number, it.lastgroup, it[0]) for it in TOKEN.finditer(line)]
        is_late = keyword and kind in ("minimise", "maximise") and sections
        if is_late or (kind == "other" and (keyword or tokens)):
            raise NoAnswer(f"line {number}: {keyword[0].strip() if keyword else tokens[0].text} cannot be told to pbcube")
        if keyword or tokens:
            sections[kind].tokens.extend(tokens)
    return sections, lines
