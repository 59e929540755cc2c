#!/usr/bin/env python3
"""Builds the library for C, and calls it from C, C++, Rust and Python.

    tests/runs/embedding.py [--as-built]

With --as-built it takes the library that stands in bindings/c/out/. The header must compile without a warning as C11 and as C++17. The
calls of tests/callers/calls.c and the planner of examples/c must run clean under AddressSanitizer and under valgrind, where there
is one, with no memory left. With each request for memory refused (refusing.c) so must both under AddressSanitizer, also with all
that follow, and the planner under valgrind. The examples must print what stands beside them, the blocks of docs/EMBEDDING.md one answer,
and the documentation of the bindings what it shows. What has no compiler here is left out, with a word.
"""
import os
import re
import shutil
import subprocess
import sys
import tempfile
from pathlib import Path

sys.dont_write_bytecode = True
sys.path.insert(0, str(Path(__file__).resolve().parents[1]))
from lib import TOP, differs, program, ran, say, side_by_side
from lib.callers import C, CALLERS, CARGO_WORDS, HEADER, MANIFEST, PYTHON, WARNINGS, linked

SECONDS = 500  # after which a run is taken to hang
SANITIZERS = ["-g", "-fsanitize=address,undefined", "-fno-sanitize-recover=all"]
WATCH = ["valgrind", "--quiet", "--error-exitcode=9", "--leak-check=full", "--errors-for-leak-kinds=all"]
ALONE, AND_ALL_THAT_FOLLOW = {}, {"REFUSE_ON": "1"}
C_AROUND = '#include "pbcube.h"\n#include <inttypes.h>\n#include <stdio.h>\nint main(void)\n{\n%sreturn 0;\n}\n'
RUST_AROUND = "use pbcube::Solver;\nfn main() -> Result<(), pbcube::Error> {\n%sOk(())\n}\n"
DOCUMENTATION = """import doctest, pbcube, sys
runner = doctest.DocTestRunner()
for shown in doctest.DocTestFinder().find(pbcube, "pbcube", module=False, globs=vars(pbcube).copy()):
    runner.run(shown)
sys.exit(runner.failures or runner.tries < 20)
"""
CARGO = '[package]\nname = "shown"\nversion = "0.1.0"\nedition = "2021"\n\n[dependencies]\npbcube = { path = "%s" }\n'


def compile_header(folder):
    """The header alone, in both languages."""
    for suffix, command in ((".c", ["cc", "-std=c11"]), (".cpp", ["c++", "-std=c++17"])):
        if not shutil.which(command[0]):
            say(f"no {command[0]} here")
            continue
        source = folder / f"header{suffix}"
        source.write_text('#include "pbcube.h"\n#include "pbcube.h"\nint main(void) { return pbcube_name(0) == 0; }\n')
        subprocess.run([*command, *WARNINGS, *HEADER, "-c", source, "-o", os.devnull], check=True)


def told(**variables):
    """How a command is run: with the package for Python on its path, and these variables."""
    others = {name: text for name, text in os.environ.items() if not name.startswith("PBCUBE_")}  # which name other libraries
    return {"env": {**others, "PYTHONPATH": str(PYTHON), "PYTHONDONTWRITEBYTECODE": "1", **variables}, "timeout": SECONDS}


def refuse_each(command, ways, may_end):
    """Runs a program as it is and with each request for memory refused, in each way, and answers how many there are and the bad
    ends: another status and output than those that it may end with, or a word on standard error."""
    ordinary = ran(command, **told(TELL_REQUESTS="1"))
    counted = re.fullmatch(r"(\d+) requests\n", ordinary.err)
    if not counted or (ordinary.status, ordinary.out) != may_end[0]:
        sys.exit(f"embedding: {command}: {ordinary}")
    requests = int(counted[1])
    cases = [{"REFUSE_AT": str(at), **more} for more in ways for at in range(1, requests + 1)]
    ends = side_by_side(lambda case: ran(command, **told(**case)), cases)
    is_bad = lambda end: end.err or (end.status, end.out) not in may_end
    return requests, [f"{command}: {case}: {end.out}{end.err[-500:]}" for case, end in zip(cases, ends) if is_bad(end)]


def expected_of(name):
    return (TOP / "examples" / name).with_suffix(".expected").read_text()


CALLS, PLANNER = CALLERS / "calls.c", TOP / "examples/c/planner.c"
SOURCES = {CALLS: [(0, "")], PLANNER: [(0, expected_of("c/planner")), (1, "no plan: Memory\n")]}  # and how they may end


def sanitizers(folder):
    """The words that ask for AddressSanitizer, none where there is none."""
    probe = folder / "probe.c"
    probe.write_text("int main(void) { return 0; }\n")
    if ran(["cc", *SANITIZERS, probe, "-o", folder / "probe"]).status:
        say("no AddressSanitizer here")
        return []
    return SANITIZERS


def under_sanitizer(folder):
    words, bad = sanitizers(folder), []
    for source, may_end in SOURCES.items():
        called = linked(folder / f"{source.stem}_asan", source, words)
        requests, worse = refuse_each([called], [ALONE, AND_ALL_THAT_FOLLOW], may_end)
        under = " under AddressSanitizer" if words else ""
        say(f"{source.name}{under}, and with each of {requests} requests for memory refused")
        bad += worse
    return bad + differs([folder / "calls_asan", "limits"], "", **told())


def under_valgrind(folder):
    if not shutil.which("valgrind"):
        say("no valgrind here")
        return []
    bad = differs([*WATCH, linked(folder / "calls", CALLS, ["-g"])], "", **told())
    bad += refuse_each([*WATCH, linked(folder / "planner", PLANNER, ["-g"])], [ALONE], SOURCES[PLANNER])[1]
    say("the calls, and the planner with each request refused, under valgrind")
    return bad


def from_python(_):
    configurator = TOP / "examples/python/configurator.py"
    bad = differs([sys.executable, configurator], expected_of("python/configurator"), **told())
    bad += differs([sys.executable, "-c", DOCUMENTATION], "", **told())
    say("the configurator and the documentation of the module, from Python")
    return bad


def from_rust(folder):
    if not shutil.which("cargo"):
        say("no cargo here, so nothing is called from Rust")
        return []
    how = told(CARGO_TARGET_DIR=str(folder / "cargo"))
    bad = differs(["cargo", "run", *CARGO_WORDS, "--example", "adder"], expected_of("rust/adder"), **how)
    tested = ran(["cargo", "test", *CARGO_WORDS], **how)
    bad += [f"cargo test: {tested.out[-2000:]}{tested.err[-1000:]}"] if tested.status else []
    say("the verification query, cubes on threads and the documentation of the crate, from Rust")
    return bad


def shown_ways(folder):
    """The blocks of docs/EMBEDDING.md that solve one instance in four ways, each with what it prints; README.md has one of them."""
    section = (TOP / "docs/EMBEDDING.md").read_text().split("\n## One instance, four ways\n")[1].split("\n## ")[0]
    block = dict(re.findall(r"^```(\w+)\n(.*?)^```$", section, re.M | re.S))
    bad = [] if f"```python\n{block['python']}```\n" in (TOP / "README.md").read_text() else ["README.md: another block for Python"]
    for suffix, text in ((".c", C_AROUND % block["c"]), (".rs", RUST_AROUND % block["rust"]), (".py", block["python"])):
        (folder / f"shown{suffix}").write_text(text)
    words = ["bash", "-c", block["sh"].replace("pbcube", str(program("pbcube")), 1)]
    bad += differs(words, "o 3\ns OPTIMUM FOUND\nv -x1 x2 -x3\n", status=30, **told())
    bad += differs([linked(folder / "shown", folder / "shown.c")], "0 1 0\n", **told())
    bad += differs([sys.executable, folder / "shown.py"], "Status.OPTIMUM 3 (False, True, False)\n", **told())
    if shutil.which("cargo"):
        crate = folder / "shown_crate"
        (crate / "src").mkdir(parents=True)
        (crate / "Cargo.toml").write_text(CARGO % MANIFEST.parent)
        shutil.copy(folder / "shown.rs", crate / "src" / "main.rs")
        words = ["cargo", "run", "--offline", "--quiet", "--manifest-path", crate / "Cargo.toml"]
        bad += differs(words, "Optimum Some(3) Some([false, true, false])\n", **told(CARGO_TARGET_DIR=str(folder / "cargo")))
    say("the ways that docs/EMBEDDING.md and README.md show")
    return bad


def main():
    if not shutil.which("cc"):
        say("no C compiler here, so there is no library")
        return
    if sys.argv[1:] != ["--as-built"]:
        subprocess.run([C / "build", "--as-built"], check=True, stdout=subprocess.DEVNULL)
    with tempfile.TemporaryDirectory(prefix="pbcube-embedding-") as name:
        folder = Path(name)
        compile_header(folder)
        parts = (under_valgrind, under_sanitizer, from_rust, shown_ways, from_python)
        bad = [text for texts in side_by_side(lambda part: part(folder), parts) for text in texts]
    if bad:
        sys.exit("\n".join(bad))


if __name__ == "__main__":
    os.chdir(TOP)
    main()
