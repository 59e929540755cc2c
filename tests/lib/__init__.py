"""What the scripts of tests/ have in common. No script takes a thing from another one: what two of them need stands here."""
import os
import shutil
import subprocess
import sys
from concurrent.futures import ThreadPoolExecutor
from dataclasses import dataclass
from pathlib import Path

TOP = Path(__file__).resolve().parents[2]
PROGRAMS = ("pbcube", "pbcube_pieces", "pbcube_task", "pbcube_join")
UNPROVED = TOP / "out/unproved"  # where ./build leaves a program
FOLDER = os.environ.get("PBCUBE_PROGRAMS")  # where all programs are, in place of those that the merge gate built
FORMATS = ("opb", "cnf", "icnf")
STATUSES = {"s SATISFIABLE": 10, "s UNSATISFIABLE": 20, "s OPTIMUM FOUND": 30}
PROCESSORS = len(os.sched_getaffinity(0))
SECONDS = 60  # after which a run is taken to hang


@dataclass(frozen=True)
class Ended:
    """How a run ended: standard output, standard error, and the exit status or the negative number of a signal."""

    out: str
    err: str
    status: int


def ran(command, **more):
    """How the command ends, with nothing on standard input but what is handed in. What goes to another output is not told."""
    given = {"stdout": subprocess.PIPE, "stderr": subprocess.PIPE, "timeout": SECONDS}
    if "input" not in more:
        given["stdin"] = subprocess.DEVNULL
    ended = subprocess.run(command, **{**given, **more})
    return Ended((ended.stdout or b"").decode(), (ended.stderr or b"").decode(), ended.returncode)


def differs(command, expected, status=0, **more):
    """That a command does not end with the status and print what is expected of it, as a list of one text or none."""
    ended = ran(command, **more)
    if (ended.out, ended.status) == (expected, status):
        return []
    return [f"{' '.join(map(str, command))}: status {ended.status}: {ended.out[-2000:]}{ended.err[-1000:]}"]


def say(text):
    """Prints a line of this script in one piece, since parts of it run side by side."""
    sys.stdout.write(f"{Path(sys.argv[0]).stem}: {text}\n")


def program(name):
    """The program of that crate, as the merge gate built it by LLVM; the one in FOLDER, where a folder is named."""
    return (Path(FOLDER).absolute() if FOLDER else TOP / f"crates/{name}/out") / name


def run(name, *words):
    """How the program of that name ends on these words."""
    return ran([program(name), *map(str, words)])


def built(names=("pbcube",)):
    """The programs of these crates, as the merge gate built them: by LLVM, and by Rattle's own compiler where that compiles them.
    FOLDER has one of each."""
    return [it for name in names for it in (program(name), *program(name).parent.glob(f"{name}.by-rattle"))]


def name_of(path):
    """Which program it is, by what its file's name ends with before a dot; pbcube where that says nothing."""
    return next((name for name in PROGRAMS if path.name.split(".")[0].endswith(name)), "pbcube")


def version():
    """The version of all that the repository makes."""
    return (TOP / "VERSION").read_text().strip()


def kept():
    """The files that git keeps and that are there."""
    listed = ran(["git", "ls-files", "-z"], cwd=TOP).out
    return [path for name in listed.split("\0") if name and (path := TOP / name).is_file()]


def reason(number):
    """How a program tells why the system refused a call, by the number of the error."""
    return f"{os.strerror(number)} (os error {number})"


def side_by_side(work, *lists):
    """What the work gives on the elements of the lists, in order, on as many at a time as there are processors."""
    with ThreadPoolExecutor(PROCESSORS) as pool:
        return list(pool.map(work, *lists))


def python_with_pulp():
    """This Python or the system's, where it has PuLP."""
    for python in (sys.executable, "/usr/bin/python3"):
        if shutil.which(python) and not subprocess.run([python, "-c", "import pulp"], capture_output=True).returncode:
            return python
    return None


def preloaded(folder, name):
    """The library of tests/preload/NAME.c, or nothing where there is no C compiler with the headers of the C library, which is said."""
    compiler = shutil.which(os.environ.get("CC", "cc"))
    if not compiler or ran([compiler, "-E", "-"], input=b"#include <dlfcn.h>\n").status:
        say("left out, since there is no C compiler (cc) here")
        return None
    library = str(folder / f"{name}.so")
    subprocess.run([compiler, "-O1", "-shared", "-fPIC", "-o", library, str(TOP / f"tests/preload/{name}.c"), "-ldl"], check=True)
    return library
