"""Texts that were worked by hand, with the instances and the cubes that they spell, and worked splits: the tables of
tests/runs/pieces.py."""

# A text of each format.
OPB = b"* #variable= 3 #constraint= 1\nmin: 2 x1 3 x2 ;\n1 x1 1 x2 >= 1 ;\n"
CNF = b"p cnf 4 2\n1 2 0\n-1 3 0\n"
ICNF = b"p inccnf\n1 2 0\na 5 0\na -5 1 0\na 0\n"

# Texts of OPB: how many variables there are, the objective, and the constraints. A term is a coefficient and a literal.
SUMS = [
    (
        b"* #variable= 3 #constraint= 2\nmin: 2 x1 3 x2 1 x3 ;\n1 x1 1 x2 >= 1 ;\n1 x2 1 x3 >= 1 ;\n",
        3,
        [(2, 1), (3, 2), (1, 3)],
        [([(1, 1), (1, 2)], ">=", 1), ([(1, 2), (1, 3)], ">=", 1)],
    ),
    (b"1 x1 >= 1 ;\n1 x1 = 0 ;\n", 1, None, [([(1, 1)], ">=", 1), ([(1, 1)], "=", 0)]),
    (b"", 0, None, []),
    (b"min: ;\n", 0, [], []),
    (b"min: -2 x1 -2 x2 ;\n1 x1 1 x2 <= 1 ;\n", 2, [(-2, 1), (-2, 2)], [([(1, 1), (1, 2)], "<=", 1)]),
    # whose pieces have no `<=`, but `>=` with the numbers negated
    (
        b"-2 x1 3 ~x2 0 x1 -1 x1 <= -4 ;\n1 x1 = -1 ;\n1 x1 <= 0 ;\n<= -1 ;\n",
        2,
        None,
        [([(-2, 1), (3, -2), (0, 1), (-1, 1)], "<=", -4), ([(1, 1)], "=", -1), ([(1, 1)], "<=", 0), ([], "<=", -1)],
    ),
    (b"1 x1 <= 85070591730234615865843651857942052862 ;\n", 1, None, [([(1, 1)], "<=", 85070591730234615865843651857942052862)]),
    (b"-85070591730234615865843651857942052863 x1 <= 0 ;\n", 1, None, [([(-85070591730234615865843651857942052863, 1)], "<=", 0)]),
    (b"85070591730234615865843651857942052862 x1 >= 1 ;\n", 1, None, [([(85070591730234615865843651857942052862, 1)], ">=", 1)]),
    (b"9223372036854775807 x1 >= 1 ;\n", 1, None, [([(9223372036854775807, 1)], ">=", 1)]),
    (b"min: 9223372036854775808 x1 ;\n", 1, [(9223372036854775808, 1)], []),
    (b"1 x1 >= -9223372036854775807 ;\n", 1, None, [([(1, 1)], ">=", -9223372036854775807)]),
    (b"2 x1 3 ~x1 >= 3 ;\n", 1, None, [([(2, 1), (3, -1)], ">=", 3)]),
    (b"2 x1 2 x2 = 3 ;\n", 2, None, [([(2, 1), (2, 2)], "=", 3)]),
    (b"* #variable= 3 #constraint= 1\n1 x2>=1;\n", 3, None, [([(1, 2)], ">=", 1)]),
    (b"1 x1\n* a note\n1 x2 >= 2 ;\n", 2, None, [([(1, 1), (1, 2)], ">=", 2)]),
    (
        b"min: 85070591730234615865843651857942052863 x1 ;\n1 x1 >= 1 ;\n",
        1,
        [(85070591730234615865843651857942052863, 1)],
        [([(1, 1)], ">=", 1)],
    ),
    (b"min: -85070591730234615865843651857942052863 x1 ;\n", 1, [(-85070591730234615865843651857942052863, 1)], []),
    (b"min: +1 x1 +2 x2 ;\r\n+1 x1 +1 x2 >= +1 ;\r\n", 2, [(1, 1), (2, 2)], [([(1, 1), (1, 2)], ">=", 1)]),
    (b"*#variable=2\n-1 x1 >= 0 ;\n", 2, None, [([(-1, 1)], ">=", 0)]),
    (b"* note\n* #variable= 9 #constraint= 1\n1 x1 >= 1 ;\n", 1, None, [([(1, 1)], ">=", 1)]),
    (b"1 x1 >= -85070591730234615865843651857942052862 ;\n", 1, None, [([(1, 1)], ">=", -85070591730234615865843651857942052862)]),
    (b"min: 1 x1 1 x1 ;\n1 x1 >= 1 ;", 1, [(1, 1), (1, 1)], [([(1, 1)], ">=", 1)]),
    (b"* #variable= many\n1 x1 >= 0 ;", 1, None, [([(1, 1)], ">=", 0)]),
    (b"-85070591730234615865843651857942052863 x1 >= 0 ;", 1, None, [([(-85070591730234615865843651857942052863, 1)], ">=", 0)]),
    (b">= 0 ; >= 1 ;", 0, None, [([], ">=", 0), ([], ">=", 1)]),
    (b"min:2 x1;-0 x0000000000000000000000000000000007=00000000000000000000000000000000012;", 7, [(2, 1)], [([(0, 7)], "=", 12)]),
    # a text of each format, of which no other one reads it
    (OPB, 3, [(2, 1), (3, 2)], [([(1, 1), (1, 2)], ">=", 1)]),
]

# Texts of clauses, in these formats: how many variables there are, the clauses, and the cubes.
CLAUSES = [
    ("cnf", b"p cnf 2 2\n1 2 0\n-1 2 0\n", 2, [[1, 2], [-1, 2]], []),
    ("cnf", b"p cnf 1 1\n0\n", 1, [[]], []),
    ("cnf", b"p cnf 1 1\n1 0\n%\n0\n", 1, [[1]], []),
    ("cnf", b"p cnf 3 1\n1 -1 2 2 0\n", 3, [[1, -1, 2, 2]], []),
    ("cnf", b"c note\np cnf 2 1\n1\nc note\n-2 0", 2, [[1, -2]], []),
    ("cnf", b"p cnf 0 0", 0, [], []),
    ("cnf", b"\n \t p\tcnf 007 2 \r\n1 0 -7 00\r\n", 7, [[1], [-7]], []),
    ("cnf", b"p cnf 1048576 1\n0001048576 0\n", 1048576, [[1048576]], []),
    ("icnf", b"p inccnf\n1 2 0\na 1 0\n", 2, [[1, 2]], [[1]]),
    ("icnf", b"p inccnf\n1 2 0\na 1 -1 0\na 0\na 0\n", 2, [[1, 2]], [[1, -1], [], []]),
    ("icnf", b"p inccnf\n1 0\na -3 0\n", 3, [[1]], [[-3]]),
    ("icnf", b"p inccnf\n1 2\n3 0\na 0\n", 3, [[1, 2, 3]], [[]]),
    ("icnf", b"p inccnf\na 5 0", 5, [], [[5]]),
    ("icnf", b"p inccnf\n1 -2 0", 2, [[1, -2]], []),
    ("icnf", b"c a\np inccnf\n%\n1\n", 0, [], []),
    # a text of each format, of which no other one reads it
    ("cnf", CNF, 4, [[1, 2], [-1, 3]], []),
    ("icnf", ICNF, 5, [[1, 2]], [[5], [-5, 1], []]),
]

# The number of variables, a file of cubes beside it, and the cubes.
CUBES = [
    (1, b"a 1 0\n%\na x\n", [[1]]),
    (17, b"a 1 2 3 4 5 6 7 8 9 10 11 12 13 14 15 16 17 0", [[1, 2, 3, 4, 5, 6, 7, 8, 9, 10, 11, 12, 13, 14, 15, 16, 17]]),
    (3, b"", []),
    (3, b"c note\n\n a 3 -1 0\r\na 0\n", [[3, -1], []]),
]

TWO_ROWS = b"min: 2 x1 3 x2 1 x3 ; 1 x1 1 x2 >= 1 ; 1 x2 1 x3 >= 1 ;"
# A term counts as often as it is written, and the objective does not.
REPEATED = b"min: 1 x3 ; 1 x1 1 x1 1 x2 >= 1 ;"
# Terms with coefficient 0 and negated literals count, the objective does not, and ties go to the lower index. The first variable and
# the last one are in no term.
UNEVEN = b"* #variable= 5 #constraint= 2\nmin: 1 x4 1 x4 1 x4 ; 0 x2 0 ~x2 1 x3 >= 0 ; 1 ~x3 1 x2 >= 1 ;"

# Texts of OPB, and the variables of their split, the first to be decided first.
SPLITS = [
    (TWO_ROWS, [2]),
    (TWO_ROWS, [2, 1]),
    (TWO_ROWS, [2, 1, 3]),
    (REPEATED, [1]),
    (REPEATED, [1, 2, 3]),
    (UNEVEN, [2, 3, 1, 4, 5]),
    (b"* #variable= 7 #constraint= 0\n", [1, 2, 3, 4, 5, 6, 7]),
]
