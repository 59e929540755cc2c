"""Texts that were worked by hand, with the reports that they are owed: the tables of tests/runs/texts.py. A report's `s` line tells the
exit status."""
from .reports import TIE
from .spelled_texts import CNF, ICNF, OPB

def values(variables, true):
    """The line of the values where these variables alone are true."""
    return "".join(["v", *(f" {'' if it in true else '-'}x{it}" for it in range(1, variables + 1)), "\n"])


def sum_of(coefficient, variables):
    return b"".join(b" %d x%d" % (coefficient, it) for it in range(1, variables + 1))


# A text of two constraints and an objective. Two assignments of three variables cost as little.
COVER = TIE.encode()
COVERED = "o 3\ns OPTIMUM FOUND\nv -x1 x2 -x3\n"
CONTRADICTION = b"1 x1 >= 1 ;\n1 x1 = 0 ;\n"
CLAUSE_AND_CUBE = b"p inccnf\n1 2 0\na 1 0\n"
BAD_SPLIT = "c refused split: BadSplit\ns UNSUPPORTED\n"
NO_HEADER = b"1 2 0\n"
REFUSED_HEADER = "c refused: BadHeader at line 1\ns UNSUPPORTED\n"
# Two variables that nothing constrains. A decision gives each its value, and the bound closes both second values.
FREE_PAIR = b"min: 1 x1 1 x2 ;\n1 x1 1 x2 >= 0 ;\n"
FREE = "o 0\ns OPTIMUM FOUND\nv -x1 -x2\n"
UNKNOWN = "s UNKNOWN\n"

# The format, the text and the report.
WORKED = [
    # the tie goes to the lexicographically first
    ("opb", COVER, COVERED),
    # two constraints that contradict each other
    ("opb", CONTRADICTION, "s UNSATISFIABLE\n"),
    # the empty text
    ("opb", b"", "s SATISFIABLE\nv\n"),
    # an objective without terms
    ("opb", b"min: ;\n", "o 0\ns OPTIMUM FOUND\nv\n"),
    # a negative cost
    ("opb", b"min: -2 x1 -2 x2 ;\n1 x1 1 x2 <= 1 ;\n", "o -2\ns OPTIMUM FOUND\nv -x1 x2\n"),
    # the greatest sum of a constraint that 63 bits hold
    ("opb", b"9223372036854775806 x1 >= 1 ;\n", "s SATISFIABLE\nv x1\n"),
    # one over what 63 bits hold
    ("opb", b"9223372036854775807 x1 >= 1 ;\n", "s SATISFIABLE\nv x1\n"),
    # the greatest sum of a constraint
    ("opb", b"85070591730234615865843651857942052862 x1 >= 1 ;\n", "s SATISFIABLE\nv x1\n"),
    # one over the greatest sum of a constraint
    ("opb", b"85070591730234615865843651857942052863 x1 >= 1 ;\n", "c refused: TooLarge at line 1\ns UNSUPPORTED\n"),
    # a variable beside its negation
    ("opb", b"2 x1 3 ~x1 >= 3 ;\n", "s SATISFIABLE\nv -x1\n"),
    # a variable beside its negation, with one coefficient, that always gives enough
    ("opb", b"4611686018427387903 x1 4611686018427387903 ~x1 >= 1 ;\n", "s SATISFIABLE\nv -x1\n"),
    # a negative coefficient whose negation 63 bits hold, which x1 = 0 alone meets
    ("opb", b"-9223372036854775807 x1 >= 0 ;\n", "s SATISFIABLE\nv -x1\n"),
    # an equality between two sums
    ("opb", b"2 x1 2 x2 = 3 ;\n", "s UNSATISFIABLE\n"),
    # a product
    ("opb", b"1 x1 x2 >= 1 ;\n", "c refused: NonLinear at line 1\ns UNSUPPORTED\n"),
    # a last statement that is not ended
    ("opb", b"1 x1 >= 1", "c refused: Unfinished at line 1\ns UNSUPPORTED\n"),
    # variables of the header alone
    ("opb", b"* #variable= 3 #constraint= 1\n1 x2>=1;\n", "s SATISFIABLE\nv -x1 x2 -x3\n"),
    # an objective that comes late
    ("opb", b"1 x1 >= 1 ;\nmin: 1 x1 ;\n", "c refused: LateObjective at line 2\ns UNSUPPORTED\n"),
    # the variable 0
    ("opb", b"1 x0 >= 1 ;\n", "c refused: BadVariable at line 1\ns UNSUPPORTED\n"),
    # the variable 0 beside a coefficient that 63 bits hold
    ("opb", b"9223372036854775807 x0 >= 1 ;\n", "c refused: BadVariable at line 1\ns UNSUPPORTED\n"),
    # a comment inside a statement
    ("opb", b"1 x1\n* a note\n1 x2 >= 2 ;\n", "s SATISFIABLE\nv x1 x2\n"),
    # the greatest cost that 63 bits hold
    ("opb", b"min: 9223372036854775807 x1 ;\n1 x1 >= 1 ;\n", "o 9223372036854775807\ns OPTIMUM FOUND\nv x1\n"),
    # a cost that 63 bits do not hold
    ("opb", b"min: 9223372036854775808 x1 ;\n", "o 0\ns OPTIMUM FOUND\nv -x1\n"),
    # the greatest cost
    (
        "opb",
        b"min: 85070591730234615865843651857942052863 x1 ;\n1 x1 >= 1 ;\n",
        "o 85070591730234615865843651857942052863\ns OPTIMUM FOUND\nv x1\n",
    ),
    # one over the greatest cost
    ("opb", b"min: 85070591730234615865843651857942052864 x1 ;\n", "c refused: TooLarge at line 1\ns UNSUPPORTED\n"),
    # the least cost that 64 bits hold with its negation
    ("opb", b"min: -9223372036854775807 x1 ;\n", "o -9223372036854775807\ns OPTIMUM FOUND\nv x1\n"),
    # the least cost
    (
        "opb",
        b"min: -85070591730234615865843651857942052863 x1 ;\n",
        "o -85070591730234615865843651857942052863\ns OPTIMUM FOUND\nv x1\n",
    ),
    # costs that 64 bits do not hold, of which only the last digit differs
    (
        "opb",
        b"min: 36893488147419103232 x1 36893488147419103233 ~x1 1 x2 ;\n1 x1 1 x2 >= 1 ;\n",
        "o 36893488147419103232\ns OPTIMUM FOUND\nv x1 -x2\n",
    ),
    # a variable twice in the objective
    ("opb", b"min: 1 x1 1 x1 ;\n1 x1 >= 1 ;\n", "o 2\ns OPTIMUM FOUND\nv x1\n"),
    # the least coefficient, which x1 = 0 alone meets
    ("opb", b"min: -1 x1 ;\n-85070591730234615865843651857942052863 x1 >= 0 ;\n", "o 0\ns OPTIMUM FOUND\nv -x1\n"),
    # a header of too many variables
    ("opb", b"* #variable= 1048577 #constraint= 0\n", "c refused: TooMany at line 1\ns UNSUPPORTED\n"),
    # signs before numbers, and lines that end with CR LF
    ("opb", b"min: +1 x1 +2 x2 ;\r\n+1 x1 +1 x2 >= +1 ;\r\n", "o 1\ns OPTIMUM FOUND\nv x1 -x2\n"),
    # one of two
    ("opb", b"min: 1 x1 1 x2 ;\n1 x1 1 x2 = 1 ;\n", "o 1\ns OPTIMUM FOUND\nv -x1 x2\n"),
    # a header without a space
    ("opb", b"*#variable=2\n-1 x1 >= 0 ;\n", "s SATISFIABLE\nv -x1 -x2\n"),
    # a header that is not on the first line
    ("opb", b"* note\n* #variable= 9 #constraint= 1\n1 x1 >= 1 ;\n", "s SATISFIABLE\nv x1\n"),
    # the first of two faults
    ("opb", b"1 x1 >= 1 ;\n1 x1 x2 >= 1 ; 1 x0\n", "c refused: NonLinear at line 2\ns UNSUPPORTED\n"),
    # a relation that is none
    ("opb", b"1 x1 > 1 ;\n", "c refused: Syntax at line 1\ns UNSUPPORTED\n"),
    # a bound of forty digits
    ("opb", b"1 x1 >= 9999999999999999999999999999999999999999 ;\n", "c refused: TooLarge at line 1\ns UNSUPPORTED\n"),
    # a bound and a coefficient that 63 bits do not hold together
    ("opb", b"1 x1 >= -9223372036854775807 ;\n", "s SATISFIABLE\nv -x1\n"),
    # the least bound
    ("opb", b"1 x1 >= -85070591730234615865843651857942052862 ;\n", "s SATISFIABLE\nv -x1\n"),
    # one below the least bound
    ("opb", b"1 x1 >= -85070591730234615865843651857942052863 ;\n", "c refused: TooLarge at line 1\ns UNSUPPORTED\n"),
    # a bad variable before a sum that is too large
    ("opb", b"85070591730234615865843651857942052863 x0 >= 1 ;\n", "c refused: BadVariable at line 1\ns UNSUPPORTED\n"),
    # a chain of 60 variables, each other than the one before it
    (
        "opb",
        b"1 x1 >= 1 ;\n" + b"".join(b"1 x%d 1 x%d = 1 ;\n" % (it, it + 1) for it in range(1, 60)),
        "s SATISFIABLE\n" + values(60, range(1, 60, 2)),
    ),
    # a clause set
    ("cnf", b"p cnf 2 2\n1 2 0\n-1 2 0\n", "s SATISFIABLE\nv -1 2 0\n"),
    # the empty clause
    ("cnf", b"p cnf 1 1\n0\n", "s UNSATISFIABLE\n"),
    # a cube of its own
    ("icnf", b"p inccnf\n1 2 0\na 1 0\n", "s SATISFIABLE\nv -1 2 0\n"),
    # a cube that contradicts itself, and empty cubes
    ("icnf", b"p inccnf\n1 2 0\na 1 -1 0\na 0\na 0\n", "s SATISFIABLE\nv -1 2 0\n"),
    # a clause after a cube
    ("icnf", b"p inccnf\n1 0\na 1 0\n2 0\n", "c refused: ClauseAfterCube at line 4\ns UNSUPPORTED\n"),
    # too few clauses
    ("cnf", b"p cnf 1 2\n1 0\n", "c refused: TooFewClauses at line 2\ns UNSUPPORTED\n"),
    # a line that ends the text
    ("cnf", b"p cnf 1 1\n1 0\n%\n0\n", "s SATISFIABLE\nv 1 0\n"),
    # too many clauses
    ("cnf", b"p cnf 1 1\n1 0\n1 0\n", "c refused: TooManyClauses at line 3\ns UNSUPPORTED\n"),
    # a clause that is open where a cube begins
    ("icnf", b"p inccnf\n1 2\na 1 0\n", "c refused: Unfinished at line 2\ns UNSUPPORTED\n"),
    # the empty text as CNF
    ("cnf", b"", "c refused: BadHeader at line 1\ns UNSUPPORTED\n"),
    # a clause without a header
    ("cnf", NO_HEADER, REFUSED_HEADER),
    # a variable of a cube alone
    ("icnf", b"p inccnf\n1 0\na -3 0\n", "s SATISFIABLE\nv 1 -2 -3 0\n"),
    # a clause over two lines and the empty cube
    ("icnf", b"p inccnf\n1 2\n3 0\na 0\n", "s SATISFIABLE\nv -1 -2 3 0\n"),
    # a clause that always holds, with a repeat
    ("cnf", b"p cnf 3 1\n1 -1 2 2 0\n", "s SATISFIABLE\nv -1 -2 -3 0\n"),
    # a zero with a sign is no end
    ("cnf", b"p cnf 2 1\n-0\n", "c refused: Unfinished at line 2\ns UNSUPPORTED\n"),
    # a zero with a sign before the end
    ("cnf", b"p cnf 2 1\n-0 0\n", "c refused: Syntax at line 2\ns UNSUPPORTED\n"),
    # more texts that are refused, some with a fault that comes after another one
    ("opb", b";", "c refused: Syntax at line 1\ns UNSUPPORTED\n"),
    ("opb", b"\n\nmax: 1 x1 ;", "c refused: Syntax at line 3\ns UNSUPPORTED\n"),
    ("opb", b"min: 1 x1 ;\nmin: 1 x1 ;", "c refused: LateObjective at line 2\ns UNSUPPORTED\n"),
    ("opb", b"1 x1048577 >= 0 ;", "c refused: BadVariable at line 1\ns UNSUPPORTED\n"),
    ("opb", b"1 x0 x1 >= 1", "c refused: Unfinished at line 1\ns UNSUPPORTED\n"),
    ("opb", b"1 x0 x1 >= 1 ;", "c refused: NonLinear at line 1\ns UNSUPPORTED\n"),
    ("opb", b"x1 >= 1 ;", "c refused: Syntax at line 1\ns UNSUPPORTED\n"),
    ("opb", b"1 x1 >= ;", "c refused: Syntax at line 1\ns UNSUPPORTED\n"),
    ("opb", b">= 1 ;\n\n1x1\n>= 1 ;", "c refused: Syntax at line 3\ns UNSUPPORTED\n"),
    ("opb", b"1~x1 >= 1 ;", "c refused: Syntax at line 1\ns UNSUPPORTED\n"),
    ("opb", b"+ 1 x1 >= 1 ;", "c refused: Syntax at line 1\ns UNSUPPORTED\n"),
    ("opb", b"1 x1-2 >= 1 ;", "c refused: Syntax at line 1\ns UNSUPPORTED\n"),
    ("opb", b"+1*x1 >= 1 ;", "c refused: Syntax at line 1\ns UNSUPPORTED\n"),
    ("cnf", b"p cnf 1 1\n2 0", "c refused: BadVariable at line 2\ns UNSUPPORTED\n"),
    ("cnf", b"p cnf 1 1\n1", "c refused: Unfinished at line 2\ns UNSUPPORTED\n"),
    ("cnf", b"p dnf 1 1", "c refused: BadHeader at line 1\ns UNSUPPORTED\n"),
    ("cnf", b"p inccnf\n1 0\n", "c refused: BadHeader at line 1\ns UNSUPPORTED\n"),
    ("cnf", b"c\n\np cnf 1 1 1\n1 0\n", "c refused: BadHeader at line 3\ns UNSUPPORTED\n"),
    ("cnf", b"c one\n%\np cnf 0 0\n", "c refused: BadHeader at line 1\ns UNSUPPORTED\n"),
    ("cnf", b"p cnf 1048577 1\n1 0\n", "c refused: TooMany at line 1\ns UNSUPPORTED\n"),
    ("cnf", b"p cnf 1 4194305\n1 0\n", "c refused: TooMany at line 1\ns UNSUPPORTED\n"),
    ("cnf", b"p cnf 99999999999999999999 1\n1 0\n", "c refused: TooMany at line 1\ns UNSUPPORTED\n"),
    ("cnf", b"p cnf 1 1\n99999999999999999999\n0\n", "c refused: BadVariable at line 2\ns UNSUPPORTED\n"),
    ("cnf", b"p cnf 1 0\n1 x", "c refused: TooManyClauses at line 2\ns UNSUPPORTED\n"),
    ("cnf", b"p cnf 1 2\n1 0\n+1\n0", "c refused: Syntax at line 3\ns UNSUPPORTED\n"),
    ("cnf", b"p cnf 1 3\n1 0\nc\n1 0 %\n%\n", "c refused: Unfinished at line 4\ns UNSUPPORTED\n"),
    ("cnf", b"p cnf 1 1\na 1 0\n", "c refused: Syntax at line 2\ns UNSUPPORTED\n"),
    ("icnf", b"p inccnf\n1 0\na 1 0\nx\na 0\n", "c refused: ClauseAfterCube at line 4\ns UNSUPPORTED\n"),
    ("icnf", b"p inccnf\na 1\n0", "c refused: Unfinished at line 2\ns UNSUPPORTED\n"),
    ("icnf", b"p inccnf\na 1 0 2 0", "c refused: Syntax at line 2\ns UNSUPPORTED\n"),
    ("icnf", b"p inccnf\n1048577 0\n", "c refused: BadVariable at line 2\ns UNSUPPORTED\n"),
    ("icnf", b"p inccnf\na x 0\na 1\n", "c refused: Syntax at line 2\ns UNSUPPORTED\n"),
    ("icnf", b"p inccnf 1\n1 0\n", "c refused: BadHeader at line 1\ns UNSUPPORTED\n"),
    ("icnf", b"\nc\n", "c refused: BadHeader at line 2\ns UNSUPPORTED\n"),
    # texts of another format
    ("opb", CNF, "c refused: Unfinished at line 1\ns UNSUPPORTED\n"),
    ("opb", ICNF, "c refused: Unfinished at line 1\ns UNSUPPORTED\n"),
    ("cnf", OPB, REFUSED_HEADER),
    ("cnf", ICNF, REFUSED_HEADER),
    ("icnf", OPB, REFUSED_HEADER),
    ("icnf", CNF, REFUSED_HEADER),
]

# The same with a file of cubes and a split, of which the text is refused first and the split last.
DIVIDED = [
    ("opb", COVER, b"a 1 0\na -1 -3 0\n", 0, COVERED),
    ("opb", COVER, b"c a note\n\na 0\n%\na x\n", 2, COVERED),
    ("opb", COVER, b"", 3, COVERED),
    ("opb", CONTRADICTION, b"a 1 0\na -1 0\n", 0, "s UNSATISFIABLE\n"),
    ("opb", COVER, b"a 4 0\n", 0, "c refused cubes: BadVariable at line 1\ns UNSUPPORTED\n"),
    ("opb", COVER, b"a 1 -2 0\n1 0\n", 0, "c refused cubes: Syntax at line 2\ns UNSUPPORTED\n"),
    ("icnf", b"p inccnf\n1 -2 0\n", b"a -2 0\na 3 0\n", 0, "c refused cubes: BadVariable at line 2\ns UNSUPPORTED\n"),
    ("opb", CONTRADICTION, b"", 2, BAD_SPLIT),
    ("opb", b"1 x1 x2 >= 1 ;\n", b"a 9 0\n", 12, "c refused: NonLinear at line 1\ns UNSUPPORTED\n"),
    ("opb", COVER, b"a 1 -2 0\n1 0", 0, "c refused cubes: Syntax at line 2\ns UNSUPPORTED\n"),
    ("opb", COVER, b"p inccnf\na 0\n", 0, "c refused cubes: Syntax at line 1\ns UNSUPPORTED\n"),
    ("opb", COVER, b"aa 0\n", 0, "c refused cubes: Syntax at line 1\ns UNSUPPORTED\n"),
    ("opb", COVER, b"a 1 -0 0\n", 0, "c refused cubes: Syntax at line 1\ns UNSUPPORTED\n"),
    # cubes of seventeen literals, which take memory of their own
    ("opb", COVER, b"a" + 16 * b" 1" + b" 2 0\n", 0, COVERED),
    ("opb", COVER, b"a" + 16 * b" 1" + b" -2 0\na 0\n", 1, COVERED),
]

# Texts, each with a file of cubes or none and a budget of decisions in each piece: the report that is owed, and which pieces are cut.
BUDGETED = [
    # each of two pieces has the budget for itself: a decision in either ends it, and nothing remains
    ("opb", FREE_PAIR, b"a 1 0\na -1 0\n", 1, FREE, []),
    # propagation alone ends these
    ("opb", CONTRADICTION, None, 0, "s UNSATISFIABLE\n", []),
    ("opb", b"9223372036854775806 x1 >= 1 ;\n", None, 0, "s SATISFIABLE\nv x1\n", []),
    ("opb", b"min: ;\n", None, 0, "o 0\ns OPTIMUM FOUND\nv\n", []),
    # what is refused is never cut
    ("opb", b"1 x1 x2 >= 1 ;\n", None, 0, "c refused: NonLinear at line 1\ns UNSUPPORTED\n", []),
    ("cnf", NO_HEADER, None, 0, REFUSED_HEADER, []),
    # nothing is found
    ("opb", COVER, None, 0, UNKNOWN, [0]),
    ("opb", FREE_PAIR, None, 1, UNKNOWN, [0]),
    # the budget is enough
    ("opb", FREE_PAIR, None, 2, FREE, []),
    ("opb", COVER, None, 1000, COVERED, []),
    ("icnf", CLAUSE_AND_CUBE, None, 1000, "s SATISFIABLE\nv -1 2 0\n", []),
    # the piece of the cube is one assignment, which is found, and the remainder is cut: the order of decisions does not matter
    ("opb", COVER, b"a 1 2 3 0\n", 0, "o 6\ns SATISFIABLE\nv x1 x2 x3\n", [1]),
    ("cnf", b"p cnf 3 2\n1 2 0\n2 3 0\n", b"a 1 2 3 0\n", 0, "s SATISFIABLE\nv 1 2 3 0\n", [1]),
    # The piece in which something is found is cut itself. The first decision is that of the second variable, which stands in all
    # constraints: it becomes false where it costs something, true where more clauses ask for that, and that forces the two others.
    # What gives it the other value needs another decision.
    ("opb", COVER, None, 1, "o 3\ns SATISFIABLE\nv x1 -x2 x3\n", [0]),
    ("cnf", b"p cnf 3 5\n1 2 0\n2 3 0\n1 2 3 0\n-2 1 0\n-2 3 0\n", None, 1, "s SATISFIABLE\nv 1 2 3 0\n", [0]),
]

# Two of three things have to be taken, at least cost. The first assignment of cost 3 has no last variable.
TWO_OF_THREE = "min: 1 x1 2 x2 3 x3 ;\n1 x1 1 x2 1 x3 >= 2 ;\n"

# Texts whose report no division changes, and files of cubes to divide them by: none, an empty one, one cube, cubes that overlap,
# a cube that contradicts itself beside an empty one, and one cube again and again.
UNCHANGED = [
    ("opb", COVER, COVERED),
    ("opb", b"min: -2 x1 -2 x2 ;\n1 x1 1 x2 <= 1 ;\n", "o -2\ns OPTIMUM FOUND\nv -x1 x2\n"),
    ("icnf", CLAUSE_AND_CUBE, "s SATISFIABLE\nv -1 2 0\n"),
    ("cnf", b"p cnf 2 4\n1 2 0\n-1 2 0\n1 -2 0\n-1 -2 0\n", "s UNSATISFIABLE\n"),
]
CUBE_FILES = [
    None,
    b"",
    b"a 1 0\n",
    b"a -1 2 0\na 2 0\na 1 -2 0\n",
    b"a 1 -1 0\na 0\n",
    b"a -1 -2 0\na -1 -2 0\na -1 -2 0\n",
]

# Texts with the reports on their beginnings: each is that of the beginnings up to this length which are longer than those before.
BEGINNINGS = [
    (
        "opb",
        CONTRADICTION,
        [
            (0, "s SATISFIABLE\nv\n"),
            (10, "c refused: Unfinished at line 1\ns UNSUPPORTED\n"),
            (12, "s SATISFIABLE\nv x1\n"),
            (21, "c refused: Unfinished at line 2\ns UNSUPPORTED\n"),
            (23, "s UNSATISFIABLE\n"),
        ],
    ),
    (
        "icnf",
        CLAUSE_AND_CUBE,
        [
            (7, "c refused: BadHeader at line 1\ns UNSUPPORTED\n"),
            (9, "s SATISFIABLE\nv 0\n"),
            (13, "c refused: Unfinished at line 2\ns UNSUPPORTED\n"),
            (15, "s SATISFIABLE\nv -1 2 0\n"),
            (19, "c refused: Unfinished at line 3\ns UNSUPPORTED\n"),
            (21, "s SATISFIABLE\nv -1 2 0\n"),
        ],
    ),
]

# Texts that are spoiled, and a file of cubes that is, beside the cover.
SPOILED = [("opb", COVER), ("cnf", b"p cnf 2 2\n1 2 0\n-1 2 0\n"), ("icnf", b"p inccnf\n1 2 0\na 1 -1 0\na 0\na 0\n")]
SPOILED_CUBES = b"c -\na 1 -3 0\n\na 0\n%\na x\n"

# Long texts: the format, the beginning, a part, how often that is repeated, the end, and the report. Some are as large as the limits
# allow, and one is larger.
LONG = [
    # as many constraints as there may be, in one line
    ("opb", b"", b">=0;", 4_194_304, b"", "s SATISFIABLE\nv\n"),
    # one constraint more
    ("opb", b"", b">=0;", 4_194_305, b"", "c refused: TooMany at line 1\ns UNSUPPORTED\n"),
    # a coefficient of a million digits
    ("opb", b"", b"9", 1_000_000, b" x1 >= 1 ;", "c refused: TooLarge at line 1\ns UNSUPPORTED\n"),
    # a million zeros before a coefficient
    ("opb", b"", b"0", 1_000_000, b"1 x1 >= 1 ;", "s SATISFIABLE\nv x1\n"),
    # a million terms, each on its line before a comment
    ("opb", b"", b"1 x1\n* note\n", 1_000_000, b">= 1 ;", "s SATISFIABLE\nv x1\n"),
    # a million terms and no end of their statement, which begins at line 3
    ("opb", b"min: ;\n\n", b"1 x1\n\n", 1_000_000, b"", "c refused: Unfinished at line 3\ns UNSUPPORTED\n"),
    # a million literals of one clause
    ("cnf", b"p cnf 7 1\n", b"-7\n", 1_000_000, b"c note\n\n0\n", "s SATISFIABLE\nv -1 -2 -3 -4 -5 -6 -7 0\n"),
    # a million cubes
    ("icnf", b"p inccnf\n1 0\n", b"a -2 0\n", 1_000_000, b"", "s SATISFIABLE\nv 1 -2 0\n"),
    # twenty thousand variables of the header alone, with a gain from each, and with one clause over all of them
    ("opb", b"", b"* #variable= 20000 #constraint= 0\n", 1, b"", "s SATISFIABLE\n" + values(20_000, ())),
    ("opb", b"min:", sum_of(-1, 20_000), 1, b" ;\n", "o -20000\ns OPTIMUM FOUND\n" + values(20_000, range(1, 20_001))),
    ("opb", b"", sum_of(1, 20_000), 1, b" >= 1 ;\n", "s SATISFIABLE\n" + values(20_000, (20_000,))),
]

# Files of empty cubes beside the cover: what comes before these, their number, what comes after them, and the variables of the split.
# They have as many cubes as there may be, or one more, which is refused before what comes after it.
MANY_CUBES = [
    (b"", 1_048_575, b"", 0, COVERED),
    (b"", 1_048_575, b"", 1, "c refused cubes: TooMany\ns UNSUPPORTED\n"),
    (b"", 1_048_576, b"", 0, "c refused cubes: TooMany at line 1048576\ns UNSUPPORTED\n"),
    (b"\n", 1_048_576, b"a x\n", 0, "c refused cubes: TooMany at line 1048577\ns UNSUPPORTED\n"),
]
