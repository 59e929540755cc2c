"""Texts that pbcube refuses, and what it says of each on its standard error: the table of tests/runs/commands.py."""

IS_WCNF = "begins as WCNF, which is not read: write it as OPB, with the weights in min:"
IS_MARKED = "begins with a byte order mark: save it as ASCII, without one"
BY_CR = "ends lines with CR alone: end them with LF"
BY_ZERO = "has a zero byte in its first line, as no text in ASCII has"
BY_ZIP = "is compressed by zip: unzip it first"
OF_TASK = "is the report of a task, and no instance"
OF_RUN = "is the report of a run, and no instance"
NO_PRODUCT = "no product is read: put a new variable in its place, with constraints that make it equal to the product"
NO_SOFT = "no soft constraint is read: give each a variable that satisfies it, with its weight in min:"
TO_MOST = "variables are numbered from 1 to 1048576"
NO_LP = "begins as LP, which is not read: the client pbcube-lp solves it"
NO_MPS = "begins as MPS, which is not read: save it as LP, which the client pbcube-lp solves"
NO_FLATZINC = "begins as FlatZinc, which is not read: the client fzn-pbcube reads what MiniZinc writes for it"
NO_CUDF = "begins as CUDF, which is not read: give it to mccs, with -pblib and the path of pbcube"
WEIGH = "write a number before each literal, as 1 x1"
NEGATE = "write 1 ~x1 for the negation of x1, or -1 x1 for a negative coefficient"
SIGN = "write the sign with a number, without a space, as -1 x1"
PART = "write a space between a number and its literal, and no *, as 2 x1"
MAKE_WHOLE = "numbers are whole: multiply all numbers of the statement by the same one"
RENAME = "variables are named x1, x2 and so on"
AT_LEAST = "write >= and the least number allowed, as >= 2 for > 1"
AT_MOST = "write <= and the greatest number allowed, as <= 1 for < 2"
CHOOSE = "no != is read: write two constraints with a new variable, which chooses a sum below the number or above it"
TURN = "write the sum on the left and one number on the right, and two relations as two constraints"
MOVE_LEFT = "one number alone stands on the right: write all literals on the left"
RELATE = "end a constraint with >=, <= or =, and a number"
END = "end the statement before it with ;"
UNNAME = "no constraint has a name: leave it out, with its colon"
BEGIN = "begin a statement with a number, or with min:, and name variables x1, x2 and so on"
END_ONCE = "one ; ends a statement: leave this one out"
EXPAND = "no parentheses are read: multiply out, as 2 x1 2 x2 for 2 (x1 + x2)"
DIGITS = "write a number with digits alone, as 1000 for 1e3 or 1,000"
MINUS = "write -, the minus sign of ASCII"
STARRED = "begin a comment with *, on a line of its own"
LETTERED = "begin a comment with c, on a line of its own"
NUMBER = "write a literal as the number of its variable, as 2, or -2 for its negation"
GO_ON = "a line that begins with % ends the text: begin a comment with c"
HEAD_ONCE = "one header stands before all clauses: leave this one out"
SEPARATE = "write a comment on a line of its own"
SPACE = "separate words by spaces of ASCII alone"
ATTACH = "write ~ with its variable, without a space, as ~x1"
DROP_CONSTANT = "no constant stands in the objective: leave it out, and add it to each cost"
MOVE_CONSTANT = "no constant stands in a sum: subtract it from the number on the right"
POWER = "write the literal alone, whose powers are the same"
END_STATEMENTS = "end each statement with ;"
ZERO = "write 0 at the end, since variables are numbered from 1"
MINIMISE = "write min: of the negated sum"
END_OBJECTIVE = "the objective has no relation: end it with ; before the first constraint"
SMALL_SUMS = "the numbers of a statement, without their signs, add up to at most 2^126 - 1: take smaller units"
LIMITS = "there are at most 1048576 variables, 4194304 constraints, 1048575 cubes and 16777216 terms"
OBJECTIVE_FIRST = "put the one objective in front of all constraints"
END_CLAUSES = "end each clause and each cube with 0"
UNLESS_OPEN = ", unless a clause lacks its 0"
CUBE_LINE = "a cube is a line of its own: a, its literals and 0"

# What a text begins as or is compressed by: the format that the command line tells, the text, and what is said of its file.
BEGUN = [
    ("opb", b"c a comment\np cnf 2 1\n1 2 0\n", "begins as DIMACS CNF: give --format cnf"),
    ("cnf", b"p inccnf\n1 2 0\na 1 0\n", "begins as iCNF: give --format icnf"),
    ("opb", b"p   cnf\t2 1\n1 2 0\n", "begins as DIMACS CNF: give --format cnf"),
    ("icnf", b"# a comment\np cnf 2 1\n1 2 0\n", "begins as DIMACS CNF: give --format cnf"),
    ("icnf", b"* #variable= 1 #constraint= 1\n1 x1 >= 1 ;\n", "begins as OPB: give --format opb"),
    ("cnf", b"*  #variable=1\n1 x1 >= 1 ;\n", "begins as OPB: give --format opb"),
    ("cnf", b"min: 1 x1 ;\n", "begins as OPB: give --format opb"),
    ("cnf", b"* a comment\n1 x1 >= 1 ;\n", "begins as OPB: give --format opb"),
    ("icnf", b"-x1 +x2<=0;\n", "begins as OPB: give --format opb"),
    ("opb", b"\x1f\x8b\x08\x00", "is compressed by gzip: gunzip it first"),
    ("cnf", b"\xfd7zXZ\x00\x00\x04", "is compressed by xz: unxz it first"),
    ("opb", b"BZh91AY&SY", "is compressed by bzip2: bunzip2 it first"),
    ("cnf", b"\x28\xb5\x2f\xfd\x04\x88", "is compressed by zstd: unzstd it first"),
    ("opb", b"\\ a model\nMinimize\n obj: 2 x + 3 y\nSubject To\n x + y >= 1\nBinaries\n x y\nEnd\n", NO_LP),
    ("cnf", b"max\n 3 x\nst\n x <= 1\nEnd\n", NO_LP),
    ("opb", b"* a model\nNAME          model\nROWS\n N  cost\n", NO_MPS),
    ("opb", b"% a model\narray [1..2] of int: c = [1,1];\nvar 0..1: x1:: output_var;\nsolve satisfy;\n", NO_FLATZINC),
    ("cnf", b"var 0..1: x1:: output_var;\nsolve satisfy;\n", NO_FLATZINC),
    ("opb", b"predicate p(var int: x);\n", NO_FLATZINC),
    ("opb", b"int: n = 1;\n", NO_FLATZINC),
    ("opb", b"constraint int_le(x, 1);\n", NO_FLATZINC),
    ("opb", b"# a question\npreamble: \n\npackage: car\nversion: 1\n", NO_CUDF),
    ("icnf", b"package: car\nversion: 1\n", NO_CUDF),
    ("opb", b"; a question\n(set-logic QF_LIA)\n(check-sat)\n", "begins as SMT-LIB, which is not read"),
    ("cnf", b"(declare-const a Bool)\n", "begins as SMT-LIB, which is not read"),
    ("opb", b"(assert true)\n", "begins as SMT-LIB, which is not read"),
    ("opb", b'{\n  "x1": 1\n}\n', "begins as JSON, which is not read"),
    ("cnf", b"[\n  [1, 2]\n]\n", "begins as JSON, which is not read"),
    ("opb", b'[ {"x1": 1}]\n', "begins as JSON, which is not read"),
    ("opb", b'<?xml version="1.0"?>\n<instance/>\n', "begins as XML, which is not read"),
    ("opb", b"<!DOCTYPE html>\n<p>Not found</p>\n", "begins as HTML, which is not read"),
    ("cnf", b"%PDF-1.4\n", "begins as PDF, which is not read"),
    ("opb", b"\xef\xbb\xbf1 x1 >= 1 ;\n", IS_MARKED),
    ("icnf", b"\xff\xfep\x00", IS_MARKED),
    ("opb", b"1 x1 >= 1 ;\r* a comment\r1 x2 >= 1 ;\r", BY_CR),
    ("cnf", b"p cnf 2 1\r1 2 0\r", BY_CR),
    ("icnf", b"c a comment\rp inccnf\r1 2 0\r", BY_CR),
    # archives, whatever bytes they have beside
    ("opb", b"PK\x03\x04\x14\x00\x00\x08\r\x08tie.opb", BY_ZIP),
    ("cnf", b"PK\x03\x04\x14\r\x0b", BY_ZIP),
    ("icnf", b"PK\x03\x04\x14\n\x0b", BY_ZIP),
    ("opb", b"\x7fELF\x02\x01\x01\x00\r\x03", BY_ZERO),
    ("cnf", b"p\x00 \x00c\x00n\x00f\x00", BY_ZERO),
    ("opb", b"c part 0 of 2 of instance 0a\nc pieces 1 split 0 cubes none\nc done 0\nc cut\ns UNKNOWN\n", OF_TASK),
    ("cnf", b"c part 0 of 2 of instance 0a\nc pieces 1 split 0 cubes none\nc done 0\nc cut\ns UNKNOWN\n", OF_TASK),
    ("opb", b"o 3\ns OPTIMUM FOUND\nv x1\n", OF_RUN),
    ("opb", b"c refused: Syntax at line 1\ns UNSUPPORTED\n", OF_RUN),
    ("icnf", b"s SATISFIABLE\nv 1 0\n", OF_RUN),
    ("cnf", b"o -12\ns SATISFIABLE\nv 1 0\n", OF_RUN),
    ("cnf", b"c a comment\np wcnf 2 2 9\n9 1 2 0\n1 -1 0\n", IS_WCNF),
    ("opb", b"c a comment\nh 1 2 0\n1 -1 0\n", IS_WCNF),
]

# Which word cannot stand there, or which rule is broken: the format, the text, and what is said of it, or nothing.
PLACED = [
    ("opb", b"* a comment\n\n1 x1 2 x2 >= +1*x1 ;\n", f"line 3, column 14: '+1*x1': {PART}"),
    ("opb", b"1 x1 >= 1 ; * note\n", "line 1, column 13: '*': write a comment on a line of its own"),
    ("opb", b"max: 1 x1 ;\n1 x1 >= 1 ;\n", f"line 1, column 1: 'max:': {MINIMISE}"),
    ("opb", b"maximize: 1 x1 ;\n1 x1 >= 1 ;\n", f"line 1, column 1: 'maximize:': {MINIMISE}"),
    ("opb", b"minimize: 1 x1 ;\n1 x1 >= 1 ;\n", "line 1, column 1: 'minimize:': write min:"),
    ("opb", b"MIN: 1 x1 ;\n1 x1 >= 1 ;\n", "line 1, column 1: 'MIN:': write min:"),
    ("opb", b"min: 1 x1\n1 x1 1 x2 >= 1 ;\n", f"line 2, column 11: '>=': {END_OBJECTIVE}"),
    ("opb", b"min: 1 x1 <= 1 ;\n", f"line 1, column 11: '<=': {END_OBJECTIVE}"),
    ("opb", b"min: = 1 ;\n", f"line 1, column 6: '=': {END_OBJECTIVE}"),
    ("opb", b"* a comment\nsoft: 9 ;\n[2] 1 x1 >= 1 ;\n", f"line 2, column 1: 'soft:': {NO_SOFT}"),
    ("opb", b"min: 1 x1 ;\n1 x1\n* between\n 2 x2 > 1 ;\n", f"line 4, column 7: '>': {AT_LEAST}"),
    ("opb", b"1 x1 1 x2 <2 ;\n", f"line 1, column 11: '<': {AT_MOST}"),
    ("opb", b"1 x1 => 1 ;\n", "line 1, column 6: '=>': write >="),
    ("opb", b"1 x1 =< 1 ;\n", "line 1, column 6: '=<': write <="),
    ("opb", b"1 x1 == 1 ;\n", "line 1, column 6: '==': write ="),
    ("opb", b"x1 + x2 >= 1 ;\n", f"line 1, column 1: 'x1': {WEIGH}"),
    ("opb", b"x1 + x2 >= 1\n", f"line 1, column 1: 'x1': {WEIGH}"),
    ("opb", b"1 x1 +x2 >= 1 ;\n", f"line 1, column 6: '+x2': {WEIGH}"),
    ("opb", b"1 +x1 >= 1 ;\n", f"line 1, column 3: '+x1': {SIGN}"),
    ("opb", b"min: -x1 ;\n", f"line 1, column 6: '-x1': {NEGATE}"),
    ("opb", b"-x1 >= 0 ;\n", f"line 1, column 1: '-x1': {NEGATE}"),
    ("opb", b"1 -x1 >= 0 ;\n", f"line 1, column 3: '-x1': {NEGATE}"),
    ("opb", b"1 x1 -x2 >= 0 ;\n", f"line 1, column 6: '-x2': {NEGATE}"),
    ("opb", b"1 !x1 >= 0 ;\n", f"line 1, column 3: '!x1': {NEGATE}"),
    ("opb", b"# a comment\n1 x1 >= 1 ;\n", f"line 1, column 1: '#': {STARRED}"),
    ("opb", b"1 x1 >= 1 ; #2\n", f"line 1, column 13: '#2': {STARRED}"),
    ("opb", b"// a comment\n1 x1 >= 1 ;\n", f"line 1, column 1: '//': {STARRED}"),
    ("opb", b"% a comment\n1 x1 >= 1 ;\n", f"line 1, column 1: '%': {STARRED}"),
    ("opb", b"c a comment\n1 x1 >= 1 ;\n", f"line 1, column 1: 'c': {STARRED}"),
    ("opb", b"\\ a comment\n1 x1 >= 1 ;\n", f"line 1, column 1: '\\\\': {STARRED}"),
    ("opb", b"-- a comment\n1 x1 >= 1 ;\n", f"line 1, column 1: '--': {STARRED}"),
    # comments of other formats within a statement
    ("opb", b"min: 1 x1 // a comment\n 2 x2 ;\n", f"line 1, column 11: '//': {STARRED}"),
    ("opb", b"min: 1 x1 # a comment\n 2 x2 ;\n", f"line 1, column 11: '#': {STARRED}"),
    ("opb", b"1 x1\n% a comment\n>= 1 ;\n", f"line 2, column 1: '%': {STARRED}"),
    ("opb", b"1 x1 >= 1\nc a comment\n;\n", f"line 2, column 1: 'c': {STARRED}"),
    ("opb", b"min: 1 x1\n  c a comment\n;\n", f"line 2, column 3: 'c': {STARRED}"),
    ("opb", b"min: 1 x1 c ;\n", f"line 1, column 11: 'c': {RENAME}"),
    ("opb", b"1\nc >= 1 ;\n", f"line 2, column 1: 'c': {RENAME}"),
    ("opb", b"1 x1 >= 1 * a comment\n;\n", f"line 1, column 11: '*': {SEPARATE}"),
    ("opb", b"min: 1 x1 * a comment\n2 x2 ;\n", f"line 1, column 11: '*': {SEPARATE}"),
    ("opb", b"min: *a comment\n", f"line 1, column 6: '*a': {SEPARATE}"),
    ("opb", b"1 x1 >= 1 c a comment\n;\n", f"line 1, column 11: 'c': {STARRED}"),
    ("opb", b"1 x1 -- 1 x2 >= 1 ;\n", "line 1, column 6: '--'"),
    ("opb", b"1 x1 \\\n 1 x2 >= 1 ;\n", "line 1, column 6: '\\\\'"),
    ("opb", b"1 x1 % 2 = 1 ;\n", "line 1, column 6: '%'"),
    ("opb", b"1 x1 1 x2 != 1 ;\n", f"line 1, column 11: '!=': {CHOOSE}"),
    ("opb", b"1 x1!=1 ;\n", f"line 1, column 5: '!=': {CHOOSE}"),
    ("opb", b"1 x1 <> 1 ;\n", f"line 1, column 6: '<>': {CHOOSE}"),
    ("opb", b"1 <= x1 + x2 <= 2 ;\n", f"line 1, column 3: '<=': {TURN}"),
    ("opb", b"1 x1 >= 0 <= 2 ;\n", f"line 1, column 11: '<=': {TURN}"),
    ("opb", b"1 x1 >= = 2 ;\n", f"line 1, column 9: '=': {TURN}"),
    ("opb", b"1 2 0\n", f"line 1, column 3: '2': {RENAME}"),
    ("opb", b"1 x1 + 1 x2 >= 1 ;\n", f"line 1, column 6: '+': {SIGN}"),
    ("opb", b"1 x1 >= - 1 ;\n", f"line 1, column 9: '-': {SIGN}"),
    ("opb", b"2*x1 >= 1 ;\n", f"line 1, column 1: '2*x1': {PART}"),
    ("opb", b"1 x1 -2~x2 >= 1 ;\n", f"line 1, column 6: '-2~x2': {PART}"),
    ("opb", b"2 * x1 >= 1 ;\n", f"line 1, column 3: '*': {PART}"),
    ("opb", b"1 x1 * x2 >= 1 ;\n", f"line 1, column 6: '*': {NO_PRODUCT}"),
    ("opb", b"1 x1 *x2 >= 1 ;\n", f"line 1, column 6: '*x2': {NO_PRODUCT}"),
    ("opb", b"1 x1*~x2 >= 1 ;\n", f"line 1, column 3: 'x1*~x2': {NO_PRODUCT}"),
    ("opb", b"x1*2 >= 1 ;\n", f"line 1, column 1: 'x1*2': {PART}"),
    ("opb", b"1 x1 * 2 >= 1 ;\n", f"line 1, column 6: '*': {PART}"),
    ("opb", b"3 x1^2 >= 1 ;\n", f"line 1, column 3: 'x1^2': {POWER}"),
    ("opb", b"1 ~ x1 >= 1 ;\n", f"line 1, column 3: '~': {ATTACH}"),
    ("opb", b"! x1 >= 1 ;\n", f"line 1, column 1: '!': {ATTACH}"),
    ("opb", b"1 x1, 1 x2 >= 1 ;\n", f"line 1, column 3: 'x1,': {SPACE}"),
    ("opb", b"1, x1 >= 1 ;\n", f"line 1, column 1: '1,': {SPACE}"),
    ("opb", b"1 x1 >= 1, 1 x2 >= 1 ;\n", f"line 1, column 9: '1,': {END_STATEMENTS}"),
    ("opb", "1\u00a0x1 >= 1 ;\n".encode(), f"line 1, column 1: '1\\xc2\\xa0x1': {SPACE}"),
    ("opb", "1 x1 >=\u202f1 ;\n".encode(), f"line 1, column 8: '\\xe2\\x80\\xaf1': {SPACE}"),
    ("opb", b"obj: 1 x1 ;\n1 x1 >= 1 ;\n", "line 1, column 1: 'obj:': write min:"),
    ("opb", b"Objective: 1 x1 ;\n1 x1 >= 1 ;\n", "line 1, column 1: 'Objective:': write min:"),
    ("opb", b"min: 1 x1 5 ;\n", f"line 1, column 13: ';': {DROP_CONSTANT}"),
    ("opb", b"min: 5 2 x1 ;\n", f"line 1, column 8: '2': {DROP_CONSTANT}"),
    ("opb", b"1 x1 +5 >= 1 ;\n", f"line 1, column 9: '>=': {MOVE_CONSTANT}"),
    ("opb", b"1 x1 5 2 x2 >= 1 ;\n", f"line 1, column 8: '2': {MOVE_CONSTANT}"),
    ("opb", b"1 x1 1 x2 1 ;\n", f"line 1, column 13: ';': {RELATE}"),
    ("opb", b"min: 1 x1\nsubject to\n1 x1 >= 1 ;\n", f"line 2, column 1: 'subject': {END}"),
    ("opb", b"1 x1 > = 1 ;\n", "line 1, column 6: '> =': write >="),
    ("opb", b"1 x1 <\t= 1 ;\n", "line 1, column 6: '<\\t=': write <="),
    ("opb", b"1 x1 <-> 1 x2 ;\n", "line 1, column 6: '<->'"),
    ("opb", b"1 x1 -> 1 x2 ;\n", "line 1, column 6: '->'"),
    ("opb", b"1 x1 or 1 x2 ;\n", "line 1, column 6: 'or'"),
    ("opb", b"1 not x1 >= 1 ;\n", "line 1, column 3: 'not'"),
    ("opb", b"1 x1 = > 1 ;\n", f"line 1, column 8: '>': {TURN}"),
    ("opb", b"1 x1 >= 1 < 2 ;\n", f"line 1, column 11: '<': {TURN}"),
    ("opb", b"! a comment\n1 x1 >= 1 ;\n", "line 1, column 1: '!'"),
    ("opb", b"1 x1 <=> 1 x2 ;\n", "line 1, column 6: '<=>'"),
    ("opb", b"1/2 x1 >= 1 ;\n", f"line 1, column 1: '1/2': {MAKE_WHOLE}"),
    ("opb", b"1 x1 >= 2^3 ;\n", f"line 1, column 9: '2^3': {DIGITS}"),
    ("opb", b"1 x1 >= 10**3 ;\n", f"line 1, column 9: '10**3': {DIGITS}"),
    ("opb", b"1 x1 >= 1.0 ;\n", f"line 1, column 9: '1.0': {DIGITS}"),
    ("opb", b"min: 1.5 x1 ;\n", f"line 1, column 6: '1.5': {MAKE_WHOLE}"),
    ("opb", b"1 x1 >= 0.5 ;\n", f"line 1, column 9: '0.5': {MAKE_WHOLE}"),
    ("opb", b"1 apple >= 1 ;\n", f"line 1, column 3: 'apple': {RENAME}"),
    ("opb", b"1 x1 >= x2 ;\n", f"line 1, column 9: 'x2': {MOVE_LEFT}"),
    ("opb", b"1 x1 >= -x2 ;\n", f"line 1, column 9: '-x2': {MOVE_LEFT}"),
    ("opb", b"1 x1 >= 1 x2 ;\n", f"line 1, column 11: 'x2': {MOVE_LEFT}"),
    ("opb", b"1 x1 1 x2 ;\n", f"line 1, column 11: ';': {RELATE}"),
    ("opb", b"1 x1 >= 1\n1 x2 >= 1 ;\n", f"line 2, column 1: '1': {END}"),
    ("opb", b"1 x1 >= 1\nc2: 1 x2 >= 1 ;\n", f"line 2, column 1: 'c2:': {END}"),
    ("opb", b"min: 1 x1\nc1: 1 x1 >= 1 ;\n", f"line 2, column 1: 'c1:': {END}"),
    ("opb", b"c1: +1 x1 >= 1 ;\n", f"line 1, column 1: 'c1:': {UNNAME}"),
    ("opb", b"min: 1 x1 ;\nat_least:+1 x1 >= 1 ;\n", f"line 2, column 1: 'at_least:': {UNNAME}"),
    ("opb", b"min: 1 x1\n 2 x2 ; foo >= 1 ;\n", f"line 2, column 9: 'foo': {BEGIN}"),
    ("opb", b"foo\n", f"line 1, column 1: 'foo': {BEGIN}"),
    ("opb", b"package: 1 x1 >= 1 ;\n", f"line 1, column 1: 'package:': {UNNAME}"),
    ("opb", b"[2] 1 x1 >= 1 ;\n", "line 1, column 1: '[2]'"),
    ("opb", b"1 x1 >= 1 ;;\n", f"line 1, column 12: ';': {END_ONCE}"),
    ("opb", "1 x1 \u2265 1 ;\n".encode(), "line 1, column 6: '\\xe2\\x89\\xa5': write >="),
    ("opb", "1 x1\u22641 ;\n".encode(), "line 1, column 3: 'x1\\xe2\\x89\\xa41': write <="),
    ("opb", "1 x1 1 x2 \u2260 1 ;\n".encode(), f"line 1, column 11: '\\xe2\\x89\\xa0': {CHOOSE}"),
    ("opb", "min: \u22121 x1 ;\n".encode(), f"line 1, column 6: '\\xe2\\x88\\x921': {MINUS}"),
    ("opb", "1 x1 >= \u20131 ;\n".encode(), f"line 1, column 9: '\\xe2\\x80\\x931': {MINUS}"),
    ("opb", b"1e3 x1 >= 1 ;\n", f"line 1, column 1: '1e3': {DIGITS}"),
    ("opb", b"1 x1 >= -1,000 ;\n", f"line 1, column 9: '-1,000': {DIGITS}"),
    ("opb", b"1 x1 >= 1.5e+3 ;\n", f"line 1, column 9: '1.5e+3': {DIGITS}"),
    ("opb", b"1 x1 >= 1f3 ;\n", "line 1, column 9: '1f3'"),
    ("opb", b"2 (x1 + x2) >= 1 ;\n", f"line 1, column 3: '(x1': {EXPAND}"),
    ("opb", b"1 x1 >= 1 ;\n2(x1 x2) >= 1 ;\n", f"line 2, column 1: '2(x1': {EXPAND}"),
    ("cnf", b"p cnf 2 1\na 1 0\n", "line 2, column 1: 'a': write cubes as iCNF, whose header is p inccnf, or into a file of their own"),
    ("opb", b"1 x1>=1;2 ~x2=;\n", f"line 1, column 15: ';': {RELATE}"),
    ("opb", b"1 x1 >= 1", "line 1: end each statement with ;"),
    ("opb", b"min: 1 x1\n", "line 1: end each statement with ;"),
    ("opb", b"* ;\n\nmin: \n", "line 3: end each statement with ;"),
    ("cnf", b"p cnf 2 1\n1 2\n", f"line 2: {END_CLAUSES}"),
    ("icnf", b"p inccnf\n1 2\na 1 0\n", f"line 2: {END_CLAUSES}"),
    ("icnf", b"p inccnf\n1 2 0\na 1\na -1 0\n", f"line 3: {END_CLAUSES}"),
    ("icnf", b"p inccnf\n1 2 0\na 1 0 2 0\n", f"line 3: {CUBE_LINE}"),
    ("icnf", b"p inccnf\n1 2 0\na1 2 0\n", f"line 3, column 1: 'a1': {CUBE_LINE}"),
    ("opb", b"1 x1 >= 1 ;\nmin: 1 x1 ;\n", f"line 2: {OBJECTIVE_FIRST}"),
    ("opb", b"1 x1 >= 1 ;\nmin: \n", f"line 2: {OBJECTIVE_FIRST}"),
    ("opb", b"1 x1 >= 1 ; min:\n* ;\n 1 x1", f"line 1: {OBJECTIVE_FIRST}"),
    ("opb", b"min: ; 1 x1\n >= 1", "line 1: end each statement with ;"),
    ("opb", b"1 x1 >= 1 ;\n85070591730234615865843651857942052863 x1 >= 1 ;", f"line 2: {SMALL_SUMS}"),
    ("opb", b"* #variable= 1048577 #constraint= 0\n", f"line 1: {LIMITS}"),
    ("cnf", b"1 2 0\n", "line 1: write p cnf VARIABLES CLAUSES before all clauses"),
    ("icnf", b"1 2 0\n", "line 1: write p inccnf before all clauses"),
    ("cnf", b"# a comment\np cnf 2 1\n1 2 0\n", f"line 1, column 1: '#': {LETTERED}"),
    ("cnf", b"p cnf 2 1\n//2\n1 2 0\n", f"line 2, column 1: '//2': {LETTERED}"),
    ("cnf", b"p cnf 2 1\n1 2 0 c a comment\n", f"line 2, column 7: 'c': {LETTERED}"),
    # comments of OPB and others
    ("cnf", b"* 2 clauses\np cnf 2 1\n1 2 0\n", f"line 1, column 1: '*': {LETTERED}"),
    ("cnf", b"p cnf 2 1\n* 2 clauses\n1 2 0\n", f"line 2, column 1: '*': {LETTERED}"),
    ("cnf", b"p cnf 2 1\n1 2 0\n*a comment\n", f"line 3, column 1: '*a': {LETTERED}"),
    ("cnf", b"p cnf 2 1\n1 2 0 * a comment\n", f"line 2, column 7: '*': {LETTERED}"),
    ("icnf", b"* a comment\np inccnf\n1 2 0\n", f"line 1, column 1: '*': {LETTERED}"),
    ("icnf", b"p inccnf\n1 2 0\n* a comment\na 1 0\n", f"line 3, column 1: '*': {LETTERED}"),
    ("icnf", b"p inccnf\n1 2 0\na 1 0\n* a comment\na -1 0\n", f"line 4, column 1: '*': {LETTERED}"),
    ("icnf", b"p inccnf\n1 2 0\na 1 0\n# a comment\na -1 0\n", f"line 4, column 1: '#': {LETTERED}"),
    ("icnf", b"p inccnf\n1 2 0\na 1 0 // a comment\n", f"line 3, column 7: '//': {LETTERED}"),
    ("cnf", b"p cnf 2 1\n1 0\n2 0\n# a comment\n", "line 3: the header says that the number of clauses is 1, but it is 2: write 2 there"),
    ("cnf", b"; a comment\np cnf 2 1\n1 2 0\n", f"line 1, column 1: ';': {LETTERED}"),
    ("cnf", b"p cnf 2 1\n \\ a comment\n1 2 0\n", f"line 2, column 2: '\\\\': {LETTERED}"),
    ("cnf", b"p cnf 2 1\nC a comment\n1 2 0\n", f"line 2, column 1: 'C': {LETTERED}"),
    ("icnf", b"p inccnf\n1 2 0\na 1 0\n-- a comment\n", f"line 4, column 1: '--': {LETTERED}"),
    ("cnf", b"p cnf 2 1\n1 2 0 ; a comment\n", f"line 2, column 7: ';': {END_CLAUSES}"),
    ("cnf", b"p cnf 2 1\n1 2 0\nend\n", "line 3, column 1: 'end'"),
    ("icnf", b"p inccnf\n1 2 0\na 1 0\nA -1 0\n", f"line 4, column 1: 'A': {CUBE_LINE}"),
    ("cnf", b"p cnf 2 1\n1 or 2 0\n", "line 2, column 3: 'or'"),
    ("cnf", b"p cnf 2 1\n1 2 >= 1\n", "line 2, column 5: '>='"),
    ("cnf", b"p cnf 2 1\n[1, 2]\n", f"line 2, column 1: '[1,': {NUMBER}"),
    # headers
    ("cnf", b"p cnf 2\n1 2 0\n", "line 1: write p cnf VARIABLES CLAUSES before all clauses"),
    ("icnf", b"p inccnf 2 1\n1 2 0\n", "line 1: write p inccnf before all clauses"),
    ("icnf", b"p inccnf\n1 2 0\np inccnf\na 1 0\n", f"line 3, column 1: 'p': {HEAD_ONCE}"),
    # where % ends a text
    ("cnf", b"p cnf 2 2\n1 2 0\n%\n0\n\nc end\n", f"line 2: the header says that the number of clauses is 2, but it is 1: write 1 there{UNLESS_OPEN}"),
    ("cnf", b"% a comment\np cnf 2 1\n1 2 0\n", f"line 1, column 1: '%': {GO_ON}"),
    ("icnf", b"c\n%\np inccnf\n1 2 0\n", f"line 2, column 1: '%': {GO_ON}"),
    ("cnf", b"p cnf 2 2\n1 2 0\n % a comment\n-1 0\n", f"line 3, column 2: '%': {GO_ON}"),
    ("cnf", b"p cnf 2 1\n1 2\n%\n0\n", f"line 2: {END_CLAUSES}"),
    ("cnf", b"p cnf 2 1\n1 2\n% a comment\n-1 0\n", f"line 3, column 1: '%': {GO_ON}"),
    ("cnf", b"p cnf 2 2\n1 2 0\np cnf 2 2\n1 0\n", f"line 3, column 1: 'p': {HEAD_ONCE}"),
    ("cnf", b"p cnf 2 1\n1 2 0\np cnf 2 1\n1 0\n", f"line 3, column 1: 'p': {HEAD_ONCE}"),
    ("cnf", b"p cnf 2 1\n1 2 0;\n", f"line 2, column 5: '0;': {END_CLAUSES}"),
    ("cnf", b"p cnf 2 1\n1, 2, 0\n", f"line 2, column 1: '1,': {SPACE}"),
    ("cnf", "p cnf 2 1\n1\u00a02 0\n".encode(), f"line 2, column 1: '1\\xc2\\xa02': {SPACE}"),
    ("cnf", "p cnf 2 1\n\u22121 2 0\n".encode(), f"line 2, column 1: '\\xe2\\x88\\x921': {MINUS}"),
    ("icnf", b"p inccnf\na 1 0\n1 2 0\n", "line 3: put all clauses before the first cube"),
    ("opb", b"1 x1 x2 >= 1 ;", f"line 1, column 6: 'x2': {NO_PRODUCT}"),
    ("opb", b"min: 1 x1; 1 x1>=1;\n2 x1 3 ~x2\n* x3 x3\n  ~x1 >= 1 ;\n", f"line 4, column 3: '~x1': {NO_PRODUCT}"),
    ("opb", b"1 x1 >= 1 ;\n1 x1 1 x2\n* x0\n2 ~x01048577>=1;\n", f"line 4, column 3: '~x01048577': {TO_MOST}"),
    ("opb", b"1 x1048576 1 x00 >= 1 ;", f"line 1, column 14: 'x00': {TO_MOST}"),
    ("opb", b"1 x99999999999999999999999999 >= 1 ;", f"line 1, column 3: 'x99999999999999999999999999': {TO_MOST}"),
    ("cnf", b"c 9\np cnf 2 2\n1 2 0\n-1\nc 9\n-3 0\n", "line 6, column 1: '-3': variables are numbered from 1 to 2, as the header says"),
    ("icnf", b"p inccnf\n9 2 0\na 1 -1048577 0\n", f"line 3, column 5: '-1048577': {TO_MOST}"),
    ("cnf", b"c 0 0\np cnf 2 3\n1 2 0 -1 00\n%\n0\n", f"line 3: the header says that the number of clauses is 3, but it is 2: write 2 there{UNLESS_OPEN}"),
    ("cnf", b"p cnf 2 2\n1 2\n-1 0\n", f"line 3: the header says that the number of clauses is 2, but it is 1: write 1 there{UNLESS_OPEN}"),
    ("cnf", b"p cnf 2 1\n1 0\n2 0\n", "line 3: the header says that the number of clauses is 1, but it is 2: write 2 there"),
    ("cnf", b"p cnf 2 1\n1 2 0\n1 2\n", "line 3: the header says that the number of clauses is 1, but it is 2: write 2 there"),
    ("cnf", b"p cnf 2 0\n1\n", "line 2: the header says that the number of clauses is 0, but it is 1: write 1 there"),
    ("cnf", b"p cnf 2 2\n1 2 0\n-1\n+2 0\n", f"line 4, column 1: '+2': {NUMBER}"),
    ("cnf", b"p cnf 2 1\n1 x2 0\n", f"line 2, column 3: 'x2': {NUMBER}"),
    ("cnf", b"p cnf 2 1\n1 ~2 0\n", f"line 2, column 3: '~2': {NUMBER}"),
    ("icnf", b"p inccnf\n1 2 0\na 1 x 0\n", f"line 3, column 5: 'x': {NUMBER}"),
    ("cnf", b"p cnf 1 1\n-0 0\n", f"line 2, column 1: '-0': {ZERO}"),
    ("opb", b"1 \x1b[2J >= 1 ;", "line 1, column 3: '\\x1b[2J'"),
    (
        "opb",
        b"1 x1 >= aaaaaaaaaabbbbbbbbbbccccccccccddddddddddeeeeeeeeee ;",
        "line 1, column 9: 'aaaaaaaaaabbbbbbbbbbccccccccccdddddddddd'",
    ),
]
