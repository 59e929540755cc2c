"""What calls the library that is built, from C, Rust and Python."""
import importlib
import os
import shutil
import subprocess
import sys

from . import TOP, say

C = TOP / "bindings/c"
LIBRARY = C / "out/libpbcube.a"
HEADER = ["-I", str(C / "include")]
PYTHON = TOP / "bindings/python"
MANIFEST = TOP / "bindings/rust/Cargo.toml"
CARGO_WORDS = ["--offline", "--quiet", "--manifest-path", str(MANIFEST)]
CALLERS = TOP / "tests/callers"
WARNINGS = ["-Wall", "-Wextra", "-pedantic", "-Werror"]
WRAPS = [f"-Wl,--wrap={call}" for call in ("malloc", "calloc", "realloc")]
SECONDS = 300  # after which a driver is taken to hang
NO_LIMIT = -1
RELATIONS = [">=", "<=", "="]
SAID = {30: "OPTIMUM FOUND", 20: "UNSATISFIABLE", 1: "UNKNOWN"}


def package():
    """The package for Python, which finds the library that is built. Where there is no C compiler, and so no library, the script ends."""
    if not shutil.which("cc"):
        say("no C compiler here, so there is no library")
        sys.exit(0)
    for name in ("PBCUBE_LIBRARY", "PBCUBE_LIB_DIR"):
        os.environ.pop(name, None)
    sys.path.insert(0, str(PYTHON))
    return importlib.import_module("pbcube")


def linked(program, source, words=()):
    """The program of a source in C, with the library, whose requests for memory can be refused and counted (refusing.c)."""
    sources = [source, CALLERS / "refusing.c", LIBRARY]
    subprocess.run(["cc", "-std=c11", *WARNINGS, *HEADER, *words, *WRAPS, *sources, "-o", program], check=True)
    return str(program)


def drivers(folder):
    """The programs that do what they read (told.c, told.rs), by language."""
    yield "C", [linked(folder / "told_c", CALLERS / "told.c", ["-O1"])]
    if shutil.which("cargo"):
        environment = {**os.environ, "CARGO_TARGET_DIR": str(folder / "cargo")}
        subprocess.run(["cargo", "build", *CARGO_WORDS, "--example", "told"], check=True, env=environment)
        yield "Rust", [folder / "cargo/debug/examples/told"]


def terms_of(terms):
    """Terms as a driver reads them."""
    return " ".join([str(len(terms)), *(f"{coefficient} {literal}" for coefficient, literal in terms)])


def by_driver(command, every):
    """What a driver reports and answers, in one run on all that is to be told."""
    ended = subprocess.run(command, input="".join(it.written() for it in every), capture_output=True, text=True, timeout=SECONDS)
    if ended.returncode != 0:
        say(f"{command}: status {ended.returncode} {ended.stderr[-1000:]}")
        sys.exit(1)
    reports, lines = [], []
    for line in ended.stdout.splitlines(keepends=True):
        if line.startswith("= "):
            reports.append(("".join(lines), int(line[2:])))
            lines = []
        else:
            lines.append(line)
    return reports
