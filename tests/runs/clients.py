#!/usr/bin/env python3
"""Runs the clients of examples/clients/ with the built program, and prints where an answer is not what it should be.

    tests/runs/clients.py [PROGRAM]

Random models in CPLEX's LP format, in PuLP and in MiniZinc are solved by pbcube and by listing all values; some of PuLP's also by its
CBC, and worked models of MiniZinc also by its Gecode. The commands of docs/CLIENTS.md must write what the `.expected` file beside
their model has. PuLP, MiniZinc and mccs are tried where they are installed; a line says what is left out.
"""
import gzip
import io
import os
import random
import re
import runpy
import shutil
import signal
import subprocess
import sys
import tempfile
import time
from contextlib import redirect_stderr, redirect_stdout
from fractions import Fraction
from pathlib import Path

sys.dont_write_bytecode = True
sys.path.insert(0, str(Path(__file__).resolve().parents[1]))
from lib import SECONDS, TOP, Ended, program, python_with_pulp, ran, side_by_side
from lib.client_models import Sum, decimal, drawn, lp_text, minizinc_text, whole

CLIENTS = TOP / "examples/clients"
sys.path.insert(0, str(CLIENTS))
from pbcube_model import GREATEST_SUM, Model, Row
from pbcube_program import NoAnswer, Program, Status

lp_model_of = runpy.run_path(str(CLIENTS / "pbcube-lp"))["model_of"]
MODELS = 150  # that take a few milliseconds each
COMPILED = 4  # that take most of a second each
MODEL = r"examples/clients/\w+\.(?:py|mzn|cudf|lp)\b"  # of a command
ONE_PIECE = "pbcube: one worker searches the one piece: a greater --split divides the work among several\n"
CBC_STEP = 10  # one in this number of PuLP models is given to CBC
ODD_NAMES = ("x", "y1", "#2", "z(1,2)", "it's", "e_", "a;b", "_", 'é|"', "end.", "$&~", "free!")
NAMES = ("a", "b", "c", "d", "e", "f")


# ---- CPLEX's LP format


def differences(found, answer):
    """How the answer of a client differs from what a listing found."""
    status = Status.UNSATISFIABLE if found is None else Status.SATISFIABLE if found[1] is None else Status.OPTIMUM
    values, objective = found or ({}, None)
    if (answer.status, answer.objective, dict(answer.values)) != (status, objective, values):
        return f"{answer} and not {status} {objective} {values}"
    return ""


def random_lp_faults(path):
    for number in range(MODELS):
        problem = drawn(number, decimal, ODD_NAMES, ("<=", "=", ">="), has_repeats=True)
        text = lp_text(problem, random.Random(number))
        order = list(dict.fromkeys(word for word in text.split() if word in problem.bounds))
        yield f"LP text {number}", differences(problem.best(order), lp_model_of(text).solve(Program(path)))


LP_ANSWERS = {  # worked texts, each with its values and its objective
    "Max\n - - 2 x - - + y + 0.5\nst\n x + - - y <= 1\nBinary\n x y": ({"x": 1, "y": 0}, Fraction(5, 2)),
    "Min\n x - y\nBounds\n -3 <= x <= 4\n y <= 9\nBinary\n x y\nEnd\n [ what follows": ({"x": 0, "y": 1}, Fraction(-1)),
    "max\n x\nbounds\n x <= 0.5\nbin\n x": ({"x": 0}, Fraction(0)),
    "Minimize\n obj:\nSubject To\n st: x +\n 2 max = 3\nBounds\n 1 >= max\nGenerals\n x max\nBinary\n x max": ({"x": 1, "max": 1}, None),
    "Min\n obj: 3\nst\n c: 0 x >= 0 d: x <= 1\nBounds\n x = -2": ({"x": -2}, Fraction(3)),
}
READ = "pbcube-lp reads CPLEX's LP format, and this text"
IN_SECTIONS = f"{READ} seems to be lp_solve's: write sections, as Minimize, Subject To and Binaries"
IN_MPS = f"{READ} seems to be MPS: have the program that wrote it write LP"
NO_STAR = "stands where there should be a relation: products are not read, and 2 x has no *"
ONE_SIDE = "stands where there should be a number: variables stand on the left side alone, and a row is a sum, a relation and a number"
LP_ROWS = {  # what is told of texts that are refused
    "Minimize\n x\nEnd": "line 2: x is continuous, and pbcube has integers alone",
    "Min\n x\nGenerals\n x\nEnd": "line 2: x has no finite upper bound",
    "Min\n x\nBounds\n x free\nGeneral\n x": "line 2: x has no finite lower bound",
    "Min\n x\nBounds\n -inf <= x <= 3\nGeneral\n x": "line 2: x has no finite lower bound",
    "Min\n x\nBounds\n x <= 1e20\nGeneral\n x": "line 2: x has no finite upper bound",
    "Min\n x\nBounds\n x = 1.5": "line 2: x is continuous, and pbcube has integers alone",
    "Min\n x\nst\n x + y >= 1\nBinary\n x": "line 4: y is continuous, and pbcube has integers alone",
    "Min\n obj: x + [ x^2 ] / 2\nBinary\n x": "line 2: [ stands where there should be a name: products are not read",
    "Min\n x^2\nBinary\n x": "line 2: ^ stands where there should be a sign: products are not read",
    "Min\n x\nst\n c: x * y >= 1\nBinary\n x y": f"line 4: * {NO_STAR}",
    "Min\n x\nst\n c: b = 1 -> x >= 1\nBinary\n x b": "line 4: -> stands where there should be a label: indicators are not read",
    "Min\n x\nst\n c: b <-> x\nBinary\n x b": "line 4: -> stands where there should be a number: indicators are not read",
    "Min\n x\nst\n 1 <= x\nBinary\n x": f"line 4: x {ONE_SIDE}",
    "Min\n x\nst\n x >= y\nBinary\n x y": f"line 4: y {ONE_SIDE}",
    "Min\n x\nst\n 1 <= x + y <= 2\nBinary\n x y": f"line 4: x {ONE_SIDE}",
    "Min\n x\nst\n x \u2265 1\nBinary\n x": "line 4: \u2265 stands where there should be a relation: write >=",
    "Min\n x / 2\nBinary\n x": "line 2: / stands where there should be a sign: nothing is divided, and half of x is 0.5 x",
    "min x subject to x >= 1 binary x end": "line 1: subject stands where there should be a sign: a section begins on a line of its own",
    "Min\n x\nst\n x >= 1\nBinary\n x, y\n": "line 6: x, is a name with a comma: names stand with blanks between them",
    "Min\n x\nst\n x >= 1 <= 2\nBinary\n x": "line 4: <= stands where there should be a label",
    "Min\n x\nst\n x >= 3 + y <= 5\nBinary\n x y": "line 4: + stands where there should be a label",
    "Min\n x\nst\n x + >= 1\nBinary\n x": "line 4: >= stands where there should be a name",
    "Min\n x\nst\n x + 1\nBinary\n x": "line 4: the section's end stands where there should be a relation",
    "Min\n x y\nBinary\n x y": "line 2: y stands where there should be a sign",
    "Min\n x\nBounds\n x\nBinary\n x": "line 4: the section's end stands where there should be a relation",
    "Min\n x\nBinary\n x\nSOS2\n s: x:1": "line 5: SOS2 cannot be told to pbcube",
    "Min\n x\nBinary\n x\nSemi-Continuous\n y": "line 5: Semi-Continuous cannot be told to pbcube",
    "Min\n x\nGeneral Constraints\n": "line 3: General Constraints cannot be told to pbcube",
    "Min\n x\nMax\n x\nBinary\n x": "line 3: Max cannot be told to pbcube",
    "\n x >= 1\nMin\n x": "line 2: x cannot be told to pbcube",
    "": f"{READ} is empty",
    "\\ a comment\n\n": f"{READ} is empty",
    "NAME          a model\nROWS\n N  cost\n": IN_MPS,
    "* of a model\n* in MPS\nname\nOBJSENSE\n    MAX\nROWS\n": IN_MPS,
    "ROWS\n N  cost\nCOLUMNS\n": IN_MPS,
    "* #variable= 1 #constraint= 1\n1 x1 >= 1 ;\n": f"{READ} seems to be OPB: solve it by pbcube FILE",
    "min: 2 x12 -3 ~x1 x2 ;\n1 x1 >= 1 ;\n": f"{READ} seems to be OPB: solve it by pbcube FILE",
    "c of clauses\nc\np cnf 1 1\n1 0\n": f"{READ} seems to be DIMACS CNF: solve it by pbcube --format cnf FILE",
    "p inccnf\n1 0\n": f"{READ} seems to be iCNF: solve it by pbcube --format icnf FILE",
    "/* of lp_solve */\nmax: 3x+2y;\nc1: x+y<=4;\nint x,y;\n": IN_SECTIONS,
    "\nmin: ;\n": IN_SECTIONS,
    "x + y >= 1;\nint x;\n": IN_SECTIONS,
    "Min\n 1e9999 x\nBinary\n x": "line 2: 1e9999 is no number that can be taken exactly",
    f"Min\n x\nst\n x >= {GREATEST_SUM}\nBinary\n x": "line 4: the numbers add up to more than 2^126 - 1 once they are whole",
    f"Min\n {GREATEST_SUM} x + 0.5 y\nBinary\n x y": "the objective: the numbers add up to more than 2^126 - 1 once they are whole",
}


def lp_faults(path):
    """The worked texts, and what is told of each that is refused."""
    for text, found in LP_ANSWERS.items():
        yield f"LP text {text!r}", differences(found, lp_model_of(text).solve(Program(path)))
    for text, told in LP_ROWS.items():
        said = no_answer(lambda: lp_model_of(text).opb())
        yield f"LP text {text!r}", "" if said == told else f"told {said!r}"


def word_faults(path, room):
    """pbcube-lp with options, and where there is no answer: one line on standard error, and status 1."""
    file = CLIENTS / "mixture.lp"
    refused, bytes_, signed, zeros, small, packed = (
        room / f"{name}.lp" for name in ("refused", "bytes", "signed", "zeros", "small", "packed")
    )
    packed.write_bytes(gzip.compress(file.read_bytes()))
    small.write_text("Max\n x\nBounds\n 0 <= x <= 3\nGenerals\n x\nEnd\n")
    refused.write_text("Min\n x\n")
    bytes_.write_bytes(b"Min\n \xff\n")
    signed.write_bytes(b"\xef\xbb\xbf" + file.read_bytes())
    zeros.write_bytes(b"Min\n x\n\0\0\n")
    expected, here = file.with_suffix(".expected").read_text(), f"pbcube-lp: {file}: "
    rows = {
        ("--workers", "3", "--split", "2", file): Ended(expected, "", 30),
        ("-p", "2", "--nodes", "1000", file): Ended(expected, ONE_PIECE, 30),
        ("--nodes", "0", file): Ended("s UNKNOWN\n", "", 0),
        ("--split", "3", small): Ended("", f"pbcube-lp: {small}: {path}: refused split: BadSplit: the greatest split of this model is 2\n", 1),
        ("--split", "2", small): Ended("s OPTIMUM FOUND\no 3\nv x 3\n", "", 30),
        ("--split", "13", file): Ended("", f"{here}{path}: error: invalid value '13' for '--split <K>': 13 is not in 0..=12\n", 1),
        ("--program", "/no/pbcube", file): Ended("", f"{here}cannot run /no/pbcube: No such file or directory\n", 1),
        (refused,): Ended("", f"pbcube-lp: {refused}: line 2: x is continuous, and pbcube has integers alone\n", 1),
        (bytes_,): Ended("", f"pbcube-lp: {bytes_}: line 2 is no text in UTF-8\n", 1),
        (packed,): Ended("", f"pbcube-lp: {packed}: the file is compressed by gzip: gunzip it first\n", 1),
        ("-",): Ended("", "pbcube-lp: -: /dev/stdin is the name of standard input\n", 1),
        (signed,): Ended(expected, "", 30),
        (zeros,): Ended("", f"pbcube-lp: {zeros}: line 3 is no text: it has a zero byte\n", 1),
        ("/no/file.lp",): Ended("", "pbcube-lp: /no/file.lp: [Errno 2] No such file or directory: '/no/file.lp'\n", 1),
    }
    ends = side_by_side(lambda words: ran([CLIENTS / "pbcube-lp", "--program", path, *words]), rows)
    for (words, expected), end in zip(rows.items(), ends):
        yield f"pbcube-lp {words}", "" if end == expected else f"{end} and not {expected}"
    with open("/dev/full", "w") as full:
        ended = subprocess.run([CLIENTS / "pbcube-lp", "--program", path, file], stdout=full, stderr=subprocess.PIPE, text=True)
    said = ended.returncode, ended.stderr
    told = 1, "pbcube-lp: cannot write: No space left on device\n"
    yield "pbcube-lp on a full device", "" if said == told else f"{said} and not {told}"
    ended = ran(["bash", "-c", '"$@" >&-', "bash", CLIENTS / "pbcube-lp", "--program", path, file])
    closed = Ended("", "pbcube-lp: cannot write: standard output is closed\n", 1)
    yield "pbcube-lp without an output", "" if ended == closed else f"{ended} and not {closed}"


def beside_faults(path, room):
    """The clients below a folder as ./install fills it, where no program is on the path."""
    prefix, bare = room / "prefix", {"PATH": "/usr/bin:/bin"}
    shutil.copytree(CLIENTS, prefix / "share/pbcube/clients")
    text, expected = CLIENTS / "mixture.lp", (CLIENTS / "mixture.expected").read_text()
    called = [str(Path(sys.executable)), "-B"]
    lp, flatzinc = prefix / "bin/pbcube-lp", prefix / "share/pbcube/clients/fzn-pbcube"
    model = room / "beside.fzn"
    model.write_text(FLATZINC_SATISFIED)
    nowhere = "cannot run pbcube: No such file or directory: it is neither beside the clients nor on the PATH, and a path names another\n"
    (prefix / "bin").mkdir()
    lp.symlink_to("../share/pbcube/clients/pbcube-lp")
    end = ran([*called, lp, text], env=bare)
    yield "pbcube-lp without a program", "" if end == Ended("", f"pbcube-lp: {text}: {nowhere}", 1) else str(end)
    (prefix / "bin/pbcube").symlink_to(path)
    for command, written in (([lp, text], Ended(expected, "", 30)), ([flatzinc, model], Ended("x = 1;\n----------\n", "", 0))):
        end = ran([*called, *command], env=bare)
        yield f"{command[0].name} beside the program", "" if end == written else str(end)
    unlike = room / "unlike"
    unlike.mkdir()
    (unlike / "pbcube").symlink_to("/bin/false")
    end = ran([*called, lp, text], env={"PATH": f"{unlike}:/usr/bin:/bin"})
    yield "pbcube-lp beside the program, with another on the path", "" if end == Ended(expected, "", 30) else str(end)


def manual_fault():
    """The manual page of pbcube-lp, where its synopsis or its list has other options than the help."""
    page = (TOP / "docs/pbcube-lp.1").read_text()
    synopsis, listed = re.split(r"^\.Sh (?:DESCRIPTION|OPTIONS)$", page, flags=re.M)[::2]
    helped = {*re.findall(r"--(\w+)", ran([CLIENTS / "pbcube-lp", "--help"]).out)}
    told = [{*re.findall(r"\\-(\w+)", synopsis)}, {*re.findall(r"^\.It Fl (?:\w , Fl )?\\-(\w+)", listed, re.M)}]
    return "" if told == [helped, helped] else f"{told} and not {helped}"


def unread_fault(command):
    """What is wrong where nobody reads the output of a client: it is silent then, and has the status 1."""
    reading, writing = os.pipe()
    os.close(reading)
    ended = subprocess.run(command, stdout=writing, stderr=subprocess.PIPE, text=True, timeout=SECONDS)
    os.close(writing)
    return "" if (ended.returncode, ended.stderr) == (1, "") else f"status {ended.returncode}: {ended.stderr}"


def stopped_fault(room, by, status):
    """Where pbcube goes on when pbcube-lp, which waits for it, is told to end or killed."""
    sleeper, number = room / f"sleeper-{by}", room / f"number-{by}"
    sleeper.write_text(f"#!/bin/sh\ncat > /dev/null\necho $$ > {number}.new\nmv {number}.new {number}\nexec sleep {SECONDS}\n")
    sleeper.chmod(0o755)
    with subprocess.Popen([CLIENTS / "pbcube-lp", "--program", sleeper, CLIENTS / "mixture.lp"]) as process:
        while not number.exists() and process.poll() is None:
            time.sleep(0.01)
        process.send_signal(by)
    goes_on, last = Path(f"/proc/{number.read_text().strip()}"), time.monotonic() + SECONDS / 2
    while goes_on.exists() and time.monotonic() < last:  # the system may take some time
        time.sleep(0.01)
    told = process.returncode, goes_on.exists()
    return "" if told == (status, False) else f"status {told[0]}, and the program goes on: {told[1]}"


# ---- what the clients share


def shared_faults(path, room):
    model = Model()
    model.integer("x", -3, 2)
    model.rows.append(Row("half", [(Fraction(1, 2), "x"), (Fraction(1, 3), "x")], "<=", Fraction(7, 4)))
    text = "* #variable= 3 #constraint= 2\n4 x1 2 x2 1 x3 <= 5 ;\n24 x1 12 x2 6 x3 16 x1 8 x2 4 x3 <= 51 ;\n"
    yield "shared: OPB", "" if model.opb() == text else repr(model.opb())
    greatest = Model()
    greatest.integer("y", 0, 1)
    greatest.rows.append(Row("great", [(Fraction(GREATEST_SUM - 2), "y")], ">=", Fraction(2)))
    yield "shared: the greatest numbers", differences(({"y": 1}, None), greatest.solve(Program(path)))
    lies = {"v -x1 x2 x3": "", "v x1 x2 -x3": "bounds of x: the values that {} wrote break it", "c refused: Memory": "{}: refused: Memory"}
    lies |= dict.fromkeys(("s WRONG", "v xx", "o 1.5"), "{}: no report, status 0")
    for line, told in lies.items():
        liar = room / "liar"
        liar.write_text(f"#!/bin/sh\ncat > /dev/null\necho 's SATISFIABLE'\necho '{line}'\n")
        liar.chmod(0o755)
        said = no_answer(lambda: model.solve(Program(str(liar))))
        yield f"shared: a program that writes {line}", "" if said == told.format(liar) else f"told {said!r}"
    killed = no_answer(lambda: model.solve(Program("/bin/false")))
    yield "shared: a program without a report", "" if killed == "/bin/false: no report, status 1" else f"told {killed!r}"
    twice = no_answer(lambda: model.integer("x", 0, 1))
    yield "shared: a name that is taken", "" if twice == "two variables are named x" else f"told {twice!r}"
    empty = Model()
    empty.integer("x", 2, 1)
    yield "shared: bounds without a number", differences(None, empty.solve(Program(path)))


COSTS = {250: 2, 1000: 3, 4000: 1}  # of what the stand-in below finds with this budget; with a greater one it goes on for ever


def timed_faults(room):
    """Searches with a time limit, by a stand-in: their budgets grow, the best answer counts, and the last one is ended. Without an
    objective, or with a status that leaves nothing open, one search is enough."""
    stand_in, calls = room / "timed", room / "calls"
    cases = "".join(f"*--nodes={budget}\\ *) cost={cost} ;; " for budget, cost in COSTS.items())
    head = f'#!/bin/sh\ncat > /dev/null\necho "$*" >> {calls}\n'
    stand_in.write_text(f'{head}case "$* " in {cases}*) exec sleep {SECONDS} ;; esac\necho "o $cost\ns SATISFIABLE\nv x1"\n')
    stand_in.chmod(0o755)

    def searched(**how):
        """What each search was told to be and found, the last report, and how the stand-in was called."""
        told = []
        calls.write_text("")
        report = Program(str(stand_in), **how).report("", lambda _, found: told.append(found and found.cost))
        return told, report.cost, calls.read_text().split("\n")[:-1]

    begun = time.monotonic()
    budgets = [f"--workers=2 --nodes={it} --cubes c /dev/stdin" for it in (*COSTS, 16000)]
    found = searched(workers=2, words=("--cubes", "c"), seconds=4)  # of which the first three take a small part
    yield "a time limit", "" if found == ([2, 3, 1, None], 1, budgets) and time.monotonic() - begun < SECONDS / 2 else str(found)
    found = searched(nodes=1000, seconds=SECONDS)
    yield "a time limit and a budget", "" if found == ([2, 3], 2, [f"--nodes={it} /dev/stdin" for it in (250, 1000)]) else str(found)
    found = searched(seconds=0)
    yield "no time", "" if found == ([None], None, []) else str(found)
    stand_in.write_text(stand_in.read_text().replace("cat > /dev/null", "cat > /dev/null; echo 'as a program says' >&2", 1))
    with redirect_stderr(io.StringIO()) as said:
        searched(nodes=1000, seconds=SECONDS)
    yield "what each search says is told once", "" if said.getvalue() == "as a program says\n" else repr(said.getvalue())
    for seconds in (-1, float("nan"), float("inf"), "10"):
        said = no_answer(lambda: searched(seconds=seconds))
        told = f"a time limit is a number of seconds, 0 or more, and not {seconds!r}"
        yield f"the time limit {seconds}", "" if said == told else f"told {said!r}"
    for line, is_enough in {"s SATISFIABLE\nv x1": True, "s UNSATISFIABLE": True, "s UNKNOWN": False}.items():
        stand_in.write_text(f"{head}echo '{line}'\n")
        _, _, called = searched(nodes=300, seconds=SECONDS)
        yield f"a time limit, and {line!r}", "" if len(called) == 2 - is_enough else f"{len(called)} searches"


def no_answer(work):
    """What is told where there is no answer."""
    try:
        work()
    except NoAnswer as fault:
        return str(fault)
    return ""


# ---- PuLP, in a Python that has it


def pulp_faults(path):
    import pulp
    from pbcube_pulp import PBCUBE

    solver, cbc = PBCUBE(path), pulp.COIN_CMD(msg=False)
    for number in range(MODELS):
        problem = drawn(number, decimal, NAMES, ("<=", "=", ">="), has_repeats=False)
        lp = pulp_problem(pulp, problem)
        lp.solve(solver)
        named = [it.name for it in lp.variables() if it.name != "__dummy"]  # PuLP drops what only a 0 stands before
        found = problem.best([*named, *(name for name in problem.bounds if name not in named)])
        yield f"PuLP {number}", pulp_difference(lp, found, solver.answer)
        with tempfile.NamedTemporaryFile("r", suffix=".lp") as text:
            lp.writeLP(text.name)
            answer = lp_model_of(text.read()).solve(Program(path))
        objective = found and found[1] and found[1] - Fraction(problem.objective[0].constant)  # PuLP writes no constant
        is_same = (answer.status is Status.UNSATISFIABLE) == (found is None) and (answer.objective or 0) == (objective or 0)
        yield f"PuLP {number} by its LP text", "" if is_same else f"{answer} and not {objective}"
        if number % CBC_STEP == 0 and cbc.available():
            lp.solve(cbc)
            told = lp.status, round((lp.objective and lp.objective.value()) or 0, 6) if found else 0
            expected = (1, float(found[1] or 0)) if found else (-1, 0)
            yield f"PuLP {number} by CBC", "" if told == expected else f"{told} and not {expected}"
    yield from pulp_messages(pulp, PBCUBE, path)


def pulp_problem(pulp, problem):
    lp = pulp.LpProblem("drawn", pulp.LpMaximize if problem.objective and problem.objective[1] == -1 else pulp.LpMinimize)
    kinds = {name: "Binary" if it == (0, 1) else "Integer" for name, it in problem.bounds.items()}
    variables = {name: pulp.LpVariable(name, *it, kinds[name]) for name, it in problem.bounds.items()}

    def expression(total):
        return pulp.lpSum(float(text) * variables[name] for text, name in total.terms) + float(total.constant)

    if problem.objective:
        lp += expression(problem.objective[0])
    for total, relation, bound in problem.rows:
        sense = {"<=": pulp.LpConstraintLE, "=": pulp.LpConstraintEQ, ">=": pulp.LpConstraintGE}[relation]
        lp += pulp.LpConstraint(expression(total), sense, rhs=float(bound))
    return lp


def pulp_difference(lp, found, answer):
    """How PuLP's statuses and values, or the answer with its fraction, differ from what a listing found."""
    values = {it.name: it.value() for it in lp.variables() if it.name != "__dummy"}
    expected = (1, 1, {name: found[0][name] for name in values}) if found else (-1, -1, dict.fromkeys(values))
    if (lp.status, lp.sol_status, values) != expected:
        return f"{lp.status} {lp.sol_status} {values} and not {expected}"
    is_constant = all(it.name == "__dummy" for it in lp.objective or ())  # then PuLP hands over none
    objective = found[1] if found and not is_constant else None
    return "" if answer.objective == objective else f"{answer.objective} and not {objective}"


def pulp_messages(pulp, solver, path):
    """What is refused, and what a budget leaves."""
    continuous, free, whole = pulp.LpVariable("c", 0, 1), pulp.LpVariable("f", 0, cat="Integer"), pulp.LpVariable("w", 0, 3, "Integer")
    rows = (
        (continuous, path, "variable c is continuous, and pbcube has integers alone"),
        (free, path, "variable f has no finite upper bound"),
        (float("nan") * whole, path, "constraint _C1: nan is no number that can be taken exactly"),
        (2.0**200 * whole, path, "constraint _C1: the numbers add up to more than 2^126 - 1 once they are whole"),
        (whole, "/no/pbcube", "cannot run /no/pbcube: No such file or directory"),
    )
    for expression, called, told in rows:
        lp = pulp.LpProblem("refused")
        lp += expression >= 1
        try:
            said = lp.solve(solver(called))
        except pulp.PulpSolverError as fault:
            said = str(fault)
        yield f"PuLP: {told}", "" if said == told else f"told {said!r}"
    lp = pulp.LpProblem("cut", pulp.LpMaximize)
    lp += whole
    lp += 2 * whole <= 5
    told = [(lp.solve(it), lp.sol_status, whole.value()) for it in (solver(path), solver(path, nodes=0))]
    yield "PuLP: a budget", "" if told == [(1, 1, 2), (0, 0, None)] else str(told)
    yield from pulp_words(pulp, solver, path)
    yield "PuLP: available", "" if solver(path).copy().available() and not solver("/no/pbcube").available() else "it is not told"


def pulp_words(pulp, solver, path):
    """PuLP's own arguments: `msg`, `timeLimit` and `options`, also of a copy."""
    whole = pulp.LpVariable("w", 0, 3, "Integer")
    lp = pulp.LpProblem("words", pulp.LpMaximize)
    lp += 0.5 * whole
    lp += 2 * whole <= 5
    rows = (
        ({}, ""),
        ({"msg": True}, f"{path}, T seconds: OPTIMUM FOUND, objective 1\n"),
        ({"msg": True, "timeLimit": SECONDS}, f"{path}, at most 250 decisions, T seconds: OPTIMUM FOUND, objective 1\n"),
        ({"msg": True, "nodes": 0}, f"{path}, at most 0 decisions, T seconds: UNKNOWN\n"),
        ({"msg": True, "timeLimit": 0}, f"{path}, at most 250 decisions: ended by the time limit\n"),
        ({"options": ["--split", 1, "--workers=2"]}, ""),
    )
    for words, told in rows:
        with redirect_stdout(io.StringIO()) as said:
            status = lp.solve(solver(path, **words).copy())
        is_open = words.get("nodes") == 0 or words.get("timeLimit") == 0
        said = re.sub(r"\d+\.\d\d seconds", "T seconds", said.getvalue())
        is_right = (status, whole.value(), said) == (*((0, None) if is_open else (1, 2)), told)
        yield f"PuLP: {words}", "" if is_right else f"{status}, {whole.value()}, {said!r}"
    with redirect_stderr(io.StringIO()) as said:
        lp.solve(solver(path, workers=2))
    yield "PuLP: several workers and one piece", "" if said.getvalue() == ONE_PIECE else repr(said.getvalue())
    refused = {
        "options is a list of words, as ['--cubes', 'FILE'], and not '--split 1'": {"options": "--split 1"},
        f"{path}: error: invalid value '13' for '--split <K>': 13 is not in 0..=12": {"options": ["--split", "13"]},
        "a time limit is a number of seconds, 0 or more, and not -1": {"timeLimit": -1},
        f"{path}: refused split: BadSplit: the greatest split of this model is 2": {"split": 3},
        "PBCUBE takes no threads, path: it takes program, workers (how many threads), split, nodes, msg, timeLimit and options": {
            "threads": 4,
            "path": "pbcube",
        },
    }
    for told, words in refused.items():
        try:
            said = lp.solve(solver(path, **words))
        except pulp.PulpSolverError as fault:
            said = str(fault)
        yield f"PuLP: {words}", "" if said == told else f"told {said!r}"


# ---- MiniZinc


FLATZINC = """% what MiniZinc folds away, or other versions may write
predicate odd(var int: x);
array [1..3] of int: weights = [2, -1, 3]; int: least = 4; set of int: few = 1..3; array [1..2] of float: floats = [1.5, 2.0];
var 0..5: x :: output_var;
var -2..2: y :: output_var :: is_defined_var; var bool: b :: output_var; var 0..1: n; var 0..9: z :: output_var = x;
array [1..4] of var int: cells :: output_array([1..2, 0..1]) = [x, y, 7, n]; array [1..2] of var bool: flags :: output_array([1..2]) = [b, true];
constraint int_lin_le(weights, [x, y, 1], 12) :: domain; constraint int_le(least, cells[1]); constraint int_eq(cells[2], -1);
constraint bool2int(b, n); constraint bool_eq(b, true);
solve :: int_search([x, y], first_fail, indomain_min, complete) maximize x;
"""
FLATZINC_ANSWER = """x = 4;
y = -1;
b = true;
z = 4;
cells = array2d(1..2,0..1,[4,-1,7,1]);
flags = array1d(1..2,[true,true]);
----------
==========
"""
FLATZINC_FAULTS = {
    "var 0..4: x;\nconstraint int_times(x, x, x); solve satisfy;": "line 2: the constraint int_times cannot be told to pbcube",
    "var {1, 3}: x; solve satisfy;": "line 1: x is of type { 1 , 3 }, and pbcube has integers between bounds",
    "var 0..4: x; constraint int_le(y, x); solve satisfy;": "line 1: y stands where there should be an integer or a variable",
    "var int: x;": "line 1: x has no finite lower bound",
    "var 0..3: x; constraint int_le(2, x": "line 1: the last statement does not end with ;",
    "var 0..3: x :: output_var\nsolve maximize x;": "the text has no solve statement",
    "": "the text has no solve statement",
    "var 0..3: x;\ngarbage; solve satisfy;": "line 2: this is no statement of FlatZinc for linear solvers",
    "constraint int_le(1); solve satisfy;": "line 1: this is no statement of FlatZinc for linear solvers",
}


OF_MINIZINC = "this seems to be MiniZinc, and not FlatZinc: have it compiled and solved by minizinc --solver pbcube FILE"
MINIZINC_TEXTS = {  # that are no FlatZinc, and the lines of the statements that show it
    "int: n = 3;\nvar 1..n: x;\nsolve satisfy;": 2,
    "int: n;\nvar 0..3: x;\nsolve satisfy;": 1,
    "var 0..3: x; var 0..3: y;\nconstraint x + y <= 4;\nsolve maximize x;": 2,
    "var 0..3: x; var 0..3: y;\nconstraint x = y;\nsolve maximize x;": 2,
    "var 0..3: x; var 0..3: y;\nsolve maximize x + y;": 2,
    "array[1..2] of var 0..3: x;\nsolve maximize sum(x);": 1,
    "var bool: b; var bool: c;\nconstraint b -> c;\nsolve satisfy": 2,
    "var 0..3: x;\nconstraint int_le(2, x) /\\ int_le(x, 2);\nsolve satisfy;": 2,
    "var 0..3: x;\nconstraint not int_le(2, x);\nsolve satisfy;": 2,
    "var 0..3: x;\nconstraint forall(i in 1..3)(int_le(i, x));\nsolve satisfy;": 2,
    'include "alldifferent.mzn";\nvar 0..3: x;\nsolve satisfy;': 1,
    "enum Colour = {Red, Green};\nvar Colour: c;\nsolve satisfy;": 1,
    "var 0..3: x;\nconstraint alldifferent([x]);\nsolve satisfy;\noutput [show(x)];": 4,
}
STRANGE = "this is no statement of FlatZinc for linear solvers"
FLATZINC_LEFT = {  # statements with something left behind what can be told
    "var 0..3: x;\nconstraint int_le(2, x) x;\nsolve satisfy;": f"line 2: {STRANGE}",
    "var 0..3: x;\nsolve maximize x x;": f"line 2: {STRANGE}",
    "var 0..3: x;\nvar 0..3: y = x 2;\nsolve satisfy;": f"line 2: {STRANGE}",
    "var 0..3: x;\nconstraint odd int_le(2, x);\nsolve satisfy;": f"line 2: {OF_MINIZINC}",
    "var 0..3: sum :: output_var;\nconstraint int_times(sum, sum, sum);\nsolve satisfy;": "line 2: the constraint int_times cannot be told to pbcube",
}
FLATZINC_BYTES = {  # the same of files that are no text
    b"\x7fELF\2\1\1\0\0\0": "line 1 is no text: it has a zero byte",
    b"var 0..3: x;\n\x89PNG\n": "line 2 is no text in UTF-8",
}
FLATZINC_SATISFIED = "var 1..3: x :: output_var; solve satisfy;"
ALL = "fzn-pbcube: -a asks for all solutions, and pbcube writes the first alone\n"
STATISTICS = """%%%mzn-stat: initTime=T
%%%mzn-stat: solveTime=T
%%%mzn-stat: boolVariables=2
%%%mzn-stat: propagators=1
%%%mzn-stat: solutions=1
%%%mzn-stat-end
"""
FLATZINC_FLAGS = {  # a text and a flag, with what is written then
    (FLATZINC, "-a"): Ended(FLATZINC_ANSWER, "", 0),
    (FLATZINC, "-i"): Ended(FLATZINC_ANSWER, "", 0),
    (FLATZINC_SATISFIED, "-a"): Ended("x = 1;\n----------\n", ALL, 0),
    (FLATZINC_SATISFIED, "-p2"): Ended("x = 1;\n----------\n", ONE_PIECE, 0),
    (FLATZINC_SATISFIED, "-s"): Ended(f"x = 1;\n----------\n{STATISTICS}", "", 0),
    ("var 1..3: x; constraint int_le(4, x); solve satisfy;", "-a"): Ended("=====UNSATISFIABLE=====\n", "", 0),
}


def without_times(end):
    """The same end, with a letter in the place of each time of the statistics."""
    return Ended(re.sub(r"Time=\d+\.\d+", "Time=T", end.out), end.err, end.status)


def flatzinc_faults(path, room):
    """Texts in FlatZinc, without MiniZinc."""
    for (text, flag), expected in FLATZINC_FLAGS.items():
        file = room / "flags.fzn"
        file.write_text(text)
        end = without_times(ran([CLIENTS / "fzn-pbcube", "--program", path, flag, file]))
        yield f"FlatZinc {text!r} {flag}", "" if end == expected else f"{end} and not {expected}"
    rows = {FLATZINC.encode(): Ended(FLATZINC_ANSWER, "", 0), b"\xef\xbb\xbf" + FLATZINC.encode(): Ended(FLATZINC_ANSWER, "", 0)}
    minizinc = {text: f"line {line}: {OF_MINIZINC}" for text, line in MINIZINC_TEXTS.items()}
    faults = {**{text.encode(): told for text, told in (FLATZINC_FAULTS | FLATZINC_LEFT | minizinc).items()}, **FLATZINC_BYTES}
    rows |= {text: Ended("=====ERROR=====\n", f"fzn-pbcube: {told}\n", 1) for text, told in faults.items()}
    files = {room / f"{number}.fzn": text for number, text in enumerate(rows)}
    for file, text in files.items():
        file.write_bytes(text)
    ends = side_by_side(lambda file: ran([CLIENTS / "fzn-pbcube", "--program", path, file]), files)
    model = room / "model.mzn"
    model.write_text("var 0..3: x; solve maximize x;\n")
    end = ran([CLIENTS / "fzn-pbcube", "--program", path, model])
    yield "FlatZinc, a name of MiniZinc", "" if end == Ended("=====ERROR=====\n", f"fzn-pbcube: {OF_MINIZINC}\n", 1) else str(end)
    yield "FlatZinc, not read", unread_fault([CLIENTS / "fzn-pbcube", "--program", path, room / "0.fzn"])
    for (text, expected), end in zip(rows.items(), ends):
        yield f"FlatZinc {text!r}", "" if end == expected else f"{end} and not {expected}"


WORKED = (  # models without ties, so that both solvers write the same
    'var 0..9: x; var 0..9: y; constraint 3*x + 2*y <= 17; constraint x != y; solve maximize 5*x + 3*y;\noutput ["\\(5*x+3*y)"];',
    "var 1..3: x; var 1..3: y; constraint x * y = 5; solve satisfy;",
    "array[1..5] of var 1..5: c; constraint forall(i in 1..4)(c[i] != c[i+1]) /\\ c[1] != c[5];\n"
    'solve minimize max(c); output ["\\(max(c))"];',
    "array[1..4] of int: t = [5, -2, 7, 1]; var 1..4: i; var bool: b; var set of 1..3: s; constraint b -> t[i] < 2;\n"
    'constraint card(s) = i; constraint (1 in s) xor b; solve maximize 3*t[i] + 20*bool2int(b) - sum(s); output ["\\(t[i]) \\(b) \\(s)"];',
    "array[0..1, 1..2] of var bool: m; var -4..4: w; constraint sum(m) = 3 /\\ not m[0,1] /\\ abs(w) >= 3 /\\ w mod 2 = 0;\n"
    'solve minimize w; output ["\\(m) \\(w)"];',
    "int: k = 3; var 3..3: x; array[1..2] of var 0..2: a; constraint a[1] = 2; solve minimize k + x - a[2];\n"
    'output ["\\(k) \\(x) \\(a)"];',
)
MINIZINC_FAULTS = {
    "var int: x; constraint x > 3; solve minimize x;": "line 1: x has no finite lower bound",
    "var 0.0..5.0: x; constraint x >= 2.5; solve minimize x;": "line 1: x is of type 2.5 .. 5.0, and pbcube has integers between bounds",
    "var 0..4: x; predicate odd(var int: x); constraint odd(x); solve satisfy;": "line 3: the constraint odd cannot be told to pbcube",
}


def solved_by(solver, text, *words):
    environment = {**os.environ, "MZN_SOLVER_PATH": str(CLIENTS)}
    with tempfile.NamedTemporaryFile("w", suffix=".mzn") as model:
        model.write(text)
        model.flush()
        return ran(["minizinc", "--solver", solver, *words, model.name], env=environment)


def minizinc_difference(problem, end):
    """How what MiniZinc wrote differs from what a listing finds: a problem may have several best values."""
    found = problem.best(list(problem.bounds))
    ending = "=====UNSATISFIABLE=====\n" if found is None else "\n----------\n" + ("==========\n" if problem.objective else "")
    if not end.out.endswith(ending):
        return str(end)
    values = {name: int(value) for name, value in (word.split("=") for word in end.out.removesuffix(ending).split())}
    total, _ = problem.objective or (Sum(()), 1)
    is_right = found is None or (problem.is_met(values) and total.value(values) == total.value(found[0]))
    return "" if is_right else f"{values} and not {found}"


def minizinc_faults(path):
    called = ("--program", path)
    problems = [drawn(number, whole, NAMES, ("<=", "=", ">=", "!="), has_repeats=True) for number in range(COMPILED)]
    ends = side_by_side(lambda it: solved_by("pbcube", minizinc_text(it), *called, "-p", "2", "--split", "1"), problems)
    for number, (problem, end) in enumerate(zip(problems, ends)):
        yield f"MiniZinc {number}", minizinc_difference(problem, end)
    worked = WORKED if shutil.which("fzn-gecode") else ()
    solvers = [("pbcube", text, *called) for text in worked] + [("gecode", text) for text in worked]
    ends = side_by_side(lambda it: solved_by(*it).out, solvers)
    for text, ours, theirs in zip(worked, ends, ends[len(worked) :]):
        yield f"MiniZinc {text}", "" if ours == theirs else f"{ours!r} and by Gecode {theirs!r}"
    ends = side_by_side(lambda it: solved_by("pbcube", it, *called), MINIZINC_FAULTS)
    for (text, told), end in zip(MINIZINC_FAULTS.items(), ends):
        is_told = f"fzn-pbcube: {told}\n" in end.err and end.out == "=====ERROR=====\n"
        yield f"MiniZinc {text}", "" if is_told else str(end)
    cut = solved_by("pbcube", WORKED[0], *called, "--nodes", "0").out
    flags = solved_by("pbcube", FLATZINC_SATISFIED.replace(" :: output_var", ""), *called, "-a", "-s")
    is_told = ALL in flags.err and "----------\n" in flags.out and "==========" not in flags.out and "%%%mzn-stat: solveTime=" in flags.out
    yield "MiniZinc, -a and -s", "" if is_told else str(flags)
    yield "MiniZinc, a budget", "" if cut == "=====UNKNOWN=====\n" else repr(cut)


# ---- the page's commands


def commands():
    """The commands of docs/CLIENTS.md that have a model of examples/clients/."""
    page = (TOP / "docs/CLIENTS.md").read_text()
    return re.findall(rf"^    (.*{MODEL}.*)$", page, re.M)


def command_faults(path, room, python):
    """Each command in the repository, with the program on the path, where its client is installed."""
    for name, target in (("pbcube", path), ("python3", python or sys.executable)):
        (room / name).symlink_to(target)
    environment = {**os.environ, "PATH": f"{room}:{os.environ['PATH']}"}
    for command in commands():
        model = re.search(MODEL, command)[0]
        if is_here(command, python):
            end = ran(["bash", "-c", command], cwd=TOP, env=environment)
            yield command, "" if (end.out, end.err) == ((TOP / model).with_suffix(".expected").read_text(), "") else str(end)


def is_here(command, python):
    """Whether the client that the command calls is installed."""
    needs = {".py": python, ".mzn": shutil.which("minizinc"), ".cudf": shutil.which("mccs"), ".lp": sys.executable}
    return any(ending in command and found for ending, found in needs.items())


def checks(path, room):
    """Each check's name and what is wrong."""
    python = python_with_pulp()
    names = {"PuLP's CBC": "cbc", "MiniZinc": "minizinc", "MiniZinc's Gecode": "fzn-gecode", "mccs": "mccs"}
    for name in [*([] if python else ["PuLP"]), *(name for name, command in names.items() if not shutil.which(command))]:
        print(f"clients: {name} is left out, since it is not here")
    yield from shared_faults(path, room)
    yield from random_lp_faults(path)
    yield from lp_faults(path)
    yield from word_faults(path, room)
    yield from beside_faults(path, room)
    yield "pbcube-lp, its manual page", manual_fault()
    yield "pbcube-lp, stopped", stopped_fault(room, signal.SIGTERM, 143)
    yield "pbcube-lp, killed", stopped_fault(room, signal.SIGKILL, -9)
    yield "pbcube-lp, not read", unread_fault([CLIENTS / "pbcube-lp", "--program", path, CLIENTS / "mixture.lp"])
    yield from timed_faults(room)
    yield from flatzinc_faults(path, room)
    yield from command_faults(path, room, python)
    if python:
        end = ran([python, __file__, "--pulp", path])
        yield "PuLP", "" if end.status == 0 and not end.err else f"{end.out}{end.err}"
    if shutil.which("minizinc"):
        yield from minizinc_faults(path)


def main(words):
    path = str(Path(words[-1]).resolve() if words else program("pbcube"))
    with tempfile.TemporaryDirectory() as room:
        found = list(pulp_faults(path) if "--pulp" in words else checks(path, Path(room)))
    for name, fault in found:
        print(*[f"clients: {name}: {fault}"] if fault else [], sep="", end="\n" if fault else "")
    failed = sum(bool(fault) for _, fault in found)
    print(f"clients: {len(found) - failed} passed, {failed} failed")
    return 1 if failed else 0


if __name__ == "__main__":
    sys.exit(main(sys.argv[1:]))
