"""Reads texts by the rules of docs/FORMATS.md, apart from the program: which instance a text spells, or which fault it has. The
texts are short, so limits on the number of constraints, terms, literals and cubes are left out."""
import re

from .instance import Instance

MOST_VARIABLES = 1 << 20
MOST_CLAUSES = 1 << 22
GREATEST_SUM = (1 << 126) - 1
BLANKS = b" \t\r"
HEADER = re.compile(rb"[ \t\r]*\*[ \t]*#variable=[ \t]*([0-9]+)([ \t\r].*)?", re.DOTALL)
TOKEN = re.compile(rb"[<>]=?|[=;]|[^ \t\r;<>=:]*:|[^ \t\r;<>=:]+")
KINDS = {"m": rb"min:", "n": rb"[+-]?[0-9]+", "l": rb"~?x[0-9]+", "r": rb">=|<=|="}
STATEMENT = re.compile("m(nl+)*|(nl+)*rn")
NEGATIVE = bytes.maketrans(b"~", b"-")  # `~x3` becomes `-3` where `x` is left out


class Refused(Exception):
    """A fault, and the line on which its statement begins."""

    def __init__(self, kind, line):
        super().__init__(f"{kind} at line {line}")


def read(format, text):
    """The instance that the text spells."""
    return {"opb": read_opb, "cnf": read_cnf, "icnf": read_icnf}[format](text)


def read_opb(text):
    lines = text.split(b"\n")
    header = HEADER.fullmatch(lines[0])
    variables = int(header[1]) if header else 0
    if variables > MOST_VARIABLES:
        raise Refused("TooMany", 1)
    rows = [(number, line) for number, line in enumerate(lines, 1) if not line.lstrip(BLANKS).startswith(b"*")]
    tokens = [(number, token) for number, line in rows for token in TOKEN.findall(line)]
    statements = []
    while tokens:
        statements.append(next_statement(tokens, not statements))
    variables = max([variables, *(abs(literal) for terms, _, _ in statements for _, literal in terms)])
    objective = next((terms for terms, relation, _ in statements if relation is None), None)
    return Instance(variables, objective, tuple(it for it in statements if it[1] is not None), False)


def next_statement(tokens, is_first):
    """Takes the next statement off: its terms, relation and bound, of which an objective has terms alone."""
    line = tokens[0][0]
    end = next((place for place, (_, token) in enumerate(tokens) if token == b";"), None)
    if end is None:
        raise Refused("Unfinished", line)
    words = [token for _, token in tokens[:end]]
    del tokens[: end + 1]
    kinds = "".join(map(kind_of, words))
    if kinds.startswith("m") and not is_first:
        raise Refused("LateObjective", line)
    if not STATEMENT.fullmatch(kinds):
        raise Refused("Syntax", line)
    if "ll" in kinds:
        raise Refused("NonLinear", line)
    numbers = [int(word) for word, kind in zip(words, kinds) if kind == "n"]
    literals = [int(word.translate(NEGATIVE, b"x")) for word, kind in zip(words, kinds) if kind == "l"]
    if not all(1 <= abs(literal) <= MOST_VARIABLES for literal in literals):
        raise Refused("BadVariable", line)
    if sum(map(abs, numbers)) > GREATEST_SUM:
        raise Refused("TooLarge", line)
    relation, bound = (None, None) if kinds.startswith("m") else (words[-2].decode(), numbers[-1])
    return tuple(zip(numbers, literals)), relation, bound


def kind_of(token):
    """The letter of the token's kind; that of a bad one is `b`."""
    return next((kind for kind, spelling in KINDS.items() if re.fullmatch(spelling, token)), "b")


def clausal_rows(text):
    """The number and the words of each line that is neither blank nor a comment, and the number of the last line."""
    lines = text.split(b"\n")
    end = next((place for place, line in enumerate(lines) if line.lstrip(BLANKS).startswith(b"%")), None)
    if end is not None:
        lines = [*lines[:end], b""]
    last = max(1, len(lines) - (lines[-1] == b""))
    rows = [(number, re.findall(rb"[^ \t\r]+", line)) for number, line in enumerate(lines, 1)]
    return [(number, words) for number, words in rows if words and not words[0].startswith(b"c")], last


def headed_rows(text, header):
    """The line and the words of the header, the rows after it, and the number of the last line."""
    rows, last = clausal_rows(text)
    line, words = rows[0] if rows else (last, [])
    if not re.fullmatch(header, b" ".join(words)):
        raise Refused("BadHeader", line)
    return line, words, rows[1:], last


def is_end(word):
    return re.fullmatch(rb"0+", word)


def literals_of(words, line, most):
    """The literals that the words spell."""
    if not all(re.fullmatch(rb"-?[0-9]+", word) and int(word) != 0 for word in words):
        raise Refused("Syntax", line)
    literals = [int(word) for word in words]
    if any(abs(literal) > most for literal in literals):
        raise Refused("BadVariable", line)
    return literals


def next_clause(words, most):
    """Takes the next clause off the words, each with its line."""
    line = words[0][0]
    end = next((place for place, (_, word) in enumerate(words) if is_end(word)), None)
    if end is None:
        raise Refused("Unfinished", line)
    clause = literals_of([word for _, word in words[:end]], line, most)
    del words[: end + 1]
    return clause


def read_cnf(text):
    line, header, rows, last = headed_rows(text, rb"p cnf [0-9]+ [0-9]+")
    variables, count = map(int, header[2:])
    if variables > MOST_VARIABLES or count > MOST_CLAUSES:
        raise Refused("TooMany", line)
    words = [(number, word) for number, words in rows for word in words]
    clauses = []
    while words:
        if len(clauses) == count:
            raise Refused("TooManyClauses", words[0][0])
        clauses.append(next_clause(words, variables))
    if len(clauses) < count:
        raise Refused("TooFewClauses", last)
    return clausal(variables, clauses)


def read_icnf(text):
    _, _, rows, _ = headed_rows(text, rb"p inccnf")
    first_cube = next((place for place, (_, words) in enumerate(rows) if words[0] == b"a"), len(rows))
    words = [(number, word) for number, words in rows[:first_cube] for word in words]
    clauses = []
    while words:
        clauses.append(next_clause(words, MOST_VARIABLES))
    cubes = cubes_of(rows[first_cube:], MOST_VARIABLES, "ClauseAfterCube")
    return clausal(max((abs(literal) for it in [*clauses, *cubes] for literal in it), default=0), clauses)


def clausal(variables, clauses):
    return Instance(variables, None, tuple((tuple((1, literal) for literal in it), ">=", 1) for it in clauses), True)


def read_cubes(file, variables):
    """The cubes of a file beside an instance of `variables` variables."""
    return cubes_of(clausal_rows(file)[0], variables, "Syntax")


def cubes_of(rows, most, other):
    """The cubes of rows, of which one that is no cube line has the other fault."""
    cubes = []
    for line, words in rows:
        if words[0] != b"a":
            raise Refused(other, line)
        end = next((place for place, word in enumerate(words) if is_end(word)), None)
        if end is None:
            raise Refused("Unfinished", line)
        if end + 1 < len(words):
            raise Refused("Syntax", line)
        cubes.append(literals_of(words[1:end], line, most))
    return cubes
