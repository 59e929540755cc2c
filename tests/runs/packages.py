#!/usr/bin/env python3
"""Installs what is built with ./install, packs it with ./package, uses both away from the repository, and prints what is wrong.

    tests/runs/packages.py

Below a prefix each caller has to find the library by itself: a C program by pkg-config and by CMake, Python by its place. The clients
and a recipe for clusters must solve their examples from there, and each link of a page lead to a file. All must be taken away again.
Two packings must give the same bytes. From the archive the commands of README.md have to give their answer in an empty environment.
The package for Debian is installed below a folder, and the wheel in a virtual environment, from no index, where its commands run.
lintian must find no fault. The packages must hold the programs and the library byte for byte, and these need no other library than
the C library. What is not built must be named, or be proved in one call. What is not here, of a C compiler, pkg-config, CMake,
readelf, dpkg, lintian, pip and what the clients serve, is left out with a word.
"""
import base64
import csv
import functools
import hashlib
import importlib.util
import os
import re
import shlex
import shutil
import subprocess
import sys
import tarfile
import tempfile
import zipfile
from importlib import metadata
from pathlib import Path

sys.dont_write_bytecode = True
sys.path.insert(0, str(Path(__file__).resolve().parents[1]))
import lib
from lib import PROGRAMS, TOP, Ended, kept, program, python_with_pulp, ran, say, side_by_side, version
from lib.callers import C, PYTHON

VERSION = version()
SHARED = f"libpbcube.so.{VERSION}"
SONAME = f"libpbcube.so.{VERSION.split('.')[0]}"
LIBRARY = C / "out" / SHARED
PACKING = 300  # seconds, after which it is taken to hang
OLDEST_GLIBC = 5  # 2.5, before which no wheel for x86_64 can name one
PLANNER = TOP / "examples/c/planner.c"
PLANNED = PLANNER.with_suffix(".expected").read_text()
ANSWER = (TOP / "examples/tie.expected").read_text()
ENVIRONMENT = {name: text for name, text in os.environ.items() if not name.startswith(("PBCUBE_", "PYTHON"))}
differs = functools.partial(lib.differs, env=ENVIRONMENT)
CALLER = """import pbcube
model = pbcube.Model()
x, y = model.variables(2)
model.minimise(3 * x + 2 * y)
model.add(x + y >= 1)
here = model.solve()
pbcube.searches._is_small = lambda _: False  # so that a child searches, which has to find the library too
assert model.solve(time_limit=60) == here
assert model.solve(workers=2, split=1) == here
print(pbcube.__version__, model.solve().cost, pbcube._library._name)
"""
CMAKE = """cmake_minimum_required(VERSION 3.13)
project(planner C)
find_package(pbcube {version} REQUIRED)
add_executable(shared "{planner}")
target_link_libraries(shared pbcube::pbcube)
add_executable(static "{planner}")
target_link_libraries(static pbcube::pbcube_static)
"""
PYTHON_FOLDER = "lib/python*/site-packages/pbcube"
DOCUMENTS, CLIENTS = "share/doc/pbcube", "examples/clients"
PAGES = [*(TOP / "docs").glob("*.md"), *(TOP / it for it in ("README.md", "CHANGELOG.md", "tests/EDITS.md"))]
LINK = re.compile(r"\]\((?!\w+:)([^)#\s]+)")


def place_of_example(file):
    """Where a file of examples/ is put: clients and recipes are programs too, so they do not lie among the documents."""
    is_program = file.relative_to(TOP).parts[1] in ("clients", "cluster")
    return f"share/pbcube/{file.relative_to(TOP / 'examples')}" if is_program else f"{DOCUMENTS}/{file.relative_to(TOP)}"


PLACED = [
    *(f"bin/{name}" for name in (*PROGRAMS, "pbcube-lp")),
    *(f"share/man/man1/{name}.1" for name in (*PROGRAMS, "pbcube-lp")),
    *(f"share/bash-completion/completions/{name}" for name in PROGRAMS),
    *("share/zsh/site-functions/_pbcube", "share/fish/vendor_completions.d/pbcube.fish", "share/minizinc/solvers/pbcube.msc"),
    *(f"{DOCUMENTS}/{it.relative_to(TOP)}" for it in PAGES),
    *(place_of_example(it) for it in kept() if it.is_relative_to(TOP / "examples")),
    *(f"{DOCUMENTS}/examples/{name}" for name in ("clients", "cluster")),
    *(f"lib/{name}" for name in ("libpbcube.a", "libpbcube.so", SONAME, SHARED)),
    *("lib/pkgconfig/pbcube.pc", "lib/cmake/pbcube/pbcubeConfig.cmake", "lib/cmake/pbcube/pbcubeConfigVersion.cmake"),
    "include/pbcube.h",
    *(f"{PYTHON_FOLDER}/{it.name}" for it in (PYTHON / "pbcube").glob("*.*")),
]


def is_here(*commands):
    missing = [it for it in commands if not shutil.which(it)]
    if missing:
        say(f"no {' and no '.join(missing)} here")
    return not missing


def by_python(python, library, **more):
    """That a Python without words about it does not solve by this library."""
    return differs([python, "-B", "-c", CALLER], f"{VERSION} 2 {library}\n", **more)


def by_pkg_config(folder, libraries):
    """A program that is linked by what pkg-config says, and finds the library as the loader is told."""
    if not is_here("cc", "pkg-config"):
        return []
    told = {**ENVIRONMENT, "PKG_CONFIG_PATH": str(libraries / "pkgconfig"), "LD_LIBRARY_PATH": str(libraries)}
    flags = ran(["pkg-config", "--cflags", "--libs", "pbcube"], env=told)
    linked = ran(["cc", "-std=c11", PLANNER, *shlex.split(flags.out), "-o", folder / "planner"])
    bad = [f"pkg-config: {flags} and then {linked}"] if linked.status else differs([folder / "planner"], PLANNED, env=told)
    return bad + differs(["pkg-config", "--modversion", "pbcube"], f"{VERSION}\n", env=told)


def by_cmake(folder, prefix):
    """Two programs of a CMake project that finds the library, which one that wants another version does not."""
    if not is_here("cc", "cmake"):
        return []
    projects = {wanted: folder / f"wants {wanted}" for wanted in (VERSION, "99")}
    for wanted, project in projects.items():
        project.mkdir()
        (project / "CMakeLists.txt").write_text(CMAKE.format(version=wanted, planner=PLANNER))
    ends = [ran(["cmake", "-S", it, "-B", it / "built", f"-DCMAKE_PREFIX_PATH={prefix}"], env=ENVIRONMENT) for it in projects.values()]
    built = ran(["cmake", "--build", projects[VERSION] / "built"], env=ENVIRONMENT)
    if built.status or not ends[-1].status:
        return [f"cmake: {ends} and then {built}"]
    return [text for it in ("shared", "static") for text in differs([projects[VERSION] / "built" / it], PLANNED)]


def broken_links(prefix):
    """Links of the pages below a prefix that lead nowhere, and paths of its manual pages."""
    for page in (prefix / DOCUMENTS).rglob("*.md"):
        text = re.sub(r"(?ms)^```.*?^```$|`[^`\n]*`", "", page.read_text())
        yield from (f"{page}: no {it}" for it in LINK.findall(text) if not (page.parent / it).exists())
    for page in (TOP / "docs").glob("*.1"):
        text = page.read_text()
        named = [it if it.startswith("share/") else f"{DOCUMENTS}/{it}" for it in re.findall(r"^\.Pa ((?:share|docs)/\S+)", text, re.M)]
        named += [f"{DOCUMENTS}/{it}" for it in re.findall(r"(?<![\w/])examples/[\w./]*\w", text)]
        yield from (f"{page}: no {it}" for it in named if not (prefix / it).exists())


def by_clients(folder, prefix):
    """What is wrong with the clients below a prefix, a recipe and the pages, where the programs there are on the path."""
    solvers, models = prefix / "share/minizinc/solvers", prefix / DOCUMENTS / CLIENTS
    told = {**ENVIRONMENT, "PATH": f"{prefix / 'bin'}:{os.environ['PATH']}", "MZN_SOLVER_PATH": str(solvers), "HOME": str(folder)}
    expected = {it.stem: it.read_text() for it in (TOP / CLIENTS).glob("*.expected")}
    bad = [*broken_links(prefix)] + differs([prefix / "bin/pbcube-lp", models / "mixture.lp"], expected["mixture"], status=30, env=told)
    if is_here("minizinc"):
        bad += differs(["minizinc", "--solver", "pbcube", models / "jobs.mzn"], expected["jobs"], env=told)
    if python := python_with_pulp():
        bad += differs([python, models / "picnic.py"], expected["picnic"], env=told)
    if is_here("parallel"):
        words = [prefix / DOCUMENTS / "examples/tie.opb", "opb", "1", folder / f"pieces of {prefix.name}"]
        bad += differs([prefix / "share/pbcube/cluster/parallel.sh", *words], ANSWER, status=30, env=told)
    return bad


def callers_in_c(folder, prefix, libraries):
    """The programs in C that find the library below a prefix."""
    room = folder / f"callers of {prefix.name}"
    room.mkdir()
    return by_pkg_config(room, libraries) + by_cmake(room, prefix)


def wrong_words(folder):
    """Words that ./install and ./package refuse."""
    bad = differs([TOP / "install", "--take-away", folder], "", status=2)
    bad += differs([TOP / "install", "--remove", folder / "nothing"], "", status=2)
    return bad + differs([TOP / "package", "--as-built", "one", "two"], "", status=2)


def installed(folder):
    """What ./install puts in place serves its callers, also in place of another version, and ./install --remove leaves nothing."""
    prefix = folder / "a prefix"
    older = prefix / "lib/older"
    first = ran([TOP / "install", "--as-built", prefix])
    older.touch()
    with open(prefix / "share/pbcube/installed", "a") as installed_list:
        installed_list.write("lib/older\n")
    second = ran([TOP / "install", "--as-built", prefix])
    places = [Path(it) for it in first.out.splitlines()]
    expected = [prefix / it for it in PLACED]
    bad = [f"install: {it} is not told" for it in expected if not any(place.match(str(it)) for place in places)]
    if second != Ended(f"{first.out}removed {older}\n", "", 0) or len(places) != len(PLACED) or older.exists():
        bad.append(f"install: {first} and then {second}")
    bad += callers_in_c(folder, prefix, prefix / "lib") + by_clients(folder, prefix)
    package = next(prefix.glob(PYTHON_FOLDER), folder)
    bad += by_python(sys.executable, prefix / "lib" / SONAME, env={**ENVIRONMENT, "PYTHONPATH": str(package.parent)})
    for it in (package, prefix / "share/pbcube/clients"):
        (it / "__pycache__").mkdir(exist_ok=True)
    removed = ran([TOP / "install", "--remove", prefix])
    left = list(prefix.iterdir())
    say("./install, callers of what it put in place, and ./install --remove")
    return bad + [f"install --remove leaves {left}: {removed}"] * bool(left)


def installed_at_home(folder):
    """Below ~/.local the Python on the path finds the package, and the package the library, with no word about it."""
    home, python = folder / "home", shutil.which("python3")
    home.mkdir()
    environment = {**ENVIRONMENT, "HOME": str(home)}
    if not python or ran([python, "-c", "import site; print(site.ENABLE_USER_SITE)"], env=environment).out != "True\n":
        say("no Python here that looks for packages below the home folder")
        return []
    subprocess.run([TOP / "install", "--as-built"], env=environment, check=True, stdout=subprocess.DEVNULL)
    say("./install below the home folder, and Python there")
    return by_python(python, home / ".local/lib" / SONAME, env=environment)


def unbuilt_copy(top):
    """A copy of the repository, as far as it is packed, in which nothing is built."""
    top.mkdir()
    for name in ("install", "package", "VERSION", "README.md", "CHANGELOG.md"):
        shutil.copy(TOP / name, top)
    (top / "tests").mkdir()
    shutil.copy(TOP / "tests/EDITS.md", top / "tests")
    for name in ("packaging", "docs", "bindings", "examples"):
        shutil.copytree(TOP / name, top / name, ignore=shutil.ignore_patterns("target", "out", "dist"))
    return top


def not_built(folder):
    """Where nothing is built each program and library is named, and nothing is put or packed."""
    top, out = unbuilt_copy(folder / "nothing built"), folder / "no packages"
    ended = ran([top / "package", "--as-built", out], env=ENVIRONMENT)
    named = [*(f"crates/{name}/out/{name}" for name in PROGRAMS), "bindings/c/out/libpbcube.a", f"bindings/c/out/{SHARED}"]
    bad = [f"package: {it} is not named: {ended}" for it in named if f" {it}" not in ended.err]
    say("./package where nothing is built")
    return bad + ([] if ended.status == 2 and not list(out.iterdir()) else [f"package where nothing is built: {ended}"])


def built_once(folder):
    """All is proved in one call, and the library is linked after it. Stand-ins tell their words and build nothing."""
    top, told = unbuilt_copy(folder / "stand-ins"), folder / "told"
    for script in (top / "prove", top / "bindings/c/build"):
        script.write_text(f'#!/bin/sh\necho "${{0##*/}} $*" >> "{told}"\n')
        script.chmod(0o755)
    ended = ran([top / "install", folder / "not put"], env=ENVIRONMENT)
    expected = f"prove {' '.join(PROGRAMS)} pb_c\nbuild --proved\n"
    say("./install where all is yet to be built")
    return [] if ended.status == 2 and told.read_text() == expected else [f"install: {ended}, having called {told.read_text()}"]


def needed_libraries(file):
    """What the loader has to find for it, and where it is told to look."""
    said = subprocess.run(["readelf", "-d", file], capture_output=True, text=True, check=True).stdout
    return re.findall(r"\((NEEDED|RPATH|RUNPATH|SONAME)\).*\[(.+)\]", said)


def same_files(prefix, libraries):
    """The programs and the shared object below a prefix are those that are built, and stand on the C library alone."""
    pairs = [*((prefix / "bin" / name, program(name)) for name in PROGRAMS), (libraries / SHARED, LIBRARY)]
    bad = [f"{packed} is not {built}" for packed, built in pairs if packed.read_bytes() != built.read_bytes()]
    allowed = {("NEEDED", "libc.so.6"), ("NEEDED", "ld-linux-x86-64.so.2"), ("SONAME", SONAME)}
    others = {it: {*needed_libraries(it)} - allowed for it, _ in pairs} if is_here("readelf") else {}
    return bad + [f"{file} wants {others}" for file, others in others.items() if others]


def other_glibc(name, told, files):
    """That the text of that name tells another glibc than the oldest that has all that these files ask of it, by readelf."""
    if not is_here("readelf"):
        return []
    said = "".join(ran(["readelf", "-VW", it]).out for it in files)
    needed = max(OLDEST_GLIBC, *map(int, re.findall(r"GLIBC_2\.(\d+)", said)))
    return [] if re.search(rf"2[._]{needed}(?!\d)", told) else [f"{name}: glibc 2.{needed} is needed, and not told"]


def from_archive(folder, out):
    """The commands of README.md, in an empty environment, and what else lies in the archive."""
    shown = re.search(r"^((?: {4}.+\n)*? {4}tar -xzf .+\n(?: {4}.+\n)*)", (TOP / "README.md").read_text(), re.M)[1]
    commands = [it.strip() for it in shown.splitlines()]
    here = folder / "elsewhere"
    here.mkdir()
    shutil.copy(next(out.glob("*.tar.gz")), here)
    bad = [] if len(commands) == 3 else [f"README.md: {len(commands)} commands from the archive"]
    bad += differs(["/bin/sh", "-c", "\n".join(commands)], ANSWER, status=30, cwd=here, env={})
    unpacked = here / commands[1].split()[1]
    bad += differs(["sha256sum", "--quiet", "-c", "SHA256SUMS"], "", cwd=unpacked)
    for name in PROGRAMS:
        bad += differs([unpacked / "bin" / name, "--version"], f"{name} {VERSION}\n", env={})
    for page in (TOP / "README.md", unpacked / "README"):
        bad += other_glibc(page, page.read_text(), map(program, PROGRAMS))
    place = {**ENVIRONMENT, "PYTHONPATH": str(unpacked / "lib/python3/site-packages")}
    bad += by_python(sys.executable, unpacked / "lib" / SONAME, env=place) + same_files(unpacked, unpacked / "lib")
    bad += by_clients(folder, unpacked)
    say("the archive, unpacked elsewhere, in an empty environment")
    return bad


def from_debian_package(folder, out):
    """By dpkg below a folder that stands for the root, and away again; unpacked alone where this user may not do that."""
    if not is_here("dpkg", "dpkg-deb"):
        return []
    root, package = folder / "root", next(out.glob("*.deb"))
    usr, libraries = root / "usr", root / "usr/lib/x86_64-linux-gnu"
    for name in ("info", "updates", "triggers"):
        (root / "var/lib/dpkg" / name).mkdir(parents=True)
    (root / "var/lib/dpkg/status").touch()
    dpkg = ["dpkg", f"--root={root}", "--log=/dev/null", "--force-depends", "--force-bad-path"]
    may_install = os.geteuid() == 0
    ended = ran([*dpkg, "--install", package] if may_install else ["dpkg-deb", "-x", package, root])
    bad = [f"dpkg: {ended}"] if ended.status else []
    bad += differs([usr / "bin/pbcube", usr / "share/doc/pbcube/examples/tie.opb"], ANSWER, status=30, env={})
    bad += other_glibc(package.name, ran(["dpkg-deb", "-f", package, "Depends"]).out, map(program, PROGRAMS))
    bad += same_files(usr, libraries) + callers_in_c(folder, usr, libraries) + by_clients(folder, usr)
    bad += differs(["lintian", "--fail-on", "error,warning", package], "", timeout=PACKING) if is_here("lintian") else []
    place = {"PYTHONPATH": str(usr / "lib/python3/dist-packages"), "LD_LIBRARY_PATH": str(libraries)}
    bad += by_python(sys.executable, SONAME, env={**ENVIRONMENT, **place, "HOME": str(folder)})
    if may_install:
        removed = ran([*dpkg, "--purge", "pbcube"])
        bad += [f"dpkg --purge: {removed}"] if removed.status or usr.exists() else []
    say(f"the package for Debian, {'installed' if may_install else 'unpacked'} below a folder")
    return bad


def wrong_record(wheel):
    """A wheel's tag where it is not that of its name, and its files whose row in its list is missing or wrong."""
    with zipfile.ZipFile(wheel) as packed:
        files = {it: packed.read(it) for it in packed.namelist()}
    tag, record = (files[f"pbcube-{VERSION}.dist-info/{name}"].decode() for name in ("WHEEL", "RECORD"))
    if f"\nTag: {wheel.stem.split('-', 2)[2]}\n" not in tag:
        yield f"{wheel.name}: {tag}"
    rows = {name: tuple(told) for name, *told in csv.reader(record.splitlines())}
    for name, data in files.items():
        digest = base64.urlsafe_b64encode(hashlib.sha256(data).digest()).decode().rstrip("=")
        if rows.get(name) != (("", "") if name.endswith("/RECORD") else (f"sha256={digest}", str(len(data)))):
            yield f"{wheel.name}: RECORD of {name} is {rows.get(name)}"


def wrong_metadata(wheel):
    """What the wheel tells of itself that is not as the Python project has it, which has its own page."""
    with zipfile.ZipFile(wheel) as packed:
        told = packed.read(f"pbcube-{VERSION}.dist-info/METADATA").decode()
    page = (PYTHON / "README.md").read_text()
    lines = [f"Version: {VERSION}\n", "\nSummary: ", "\nRequires-Python: ", "\nDescription-Content-Type: text/markdown\n", f"\n\n{page}"]
    return [f"{wheel.name}: METADATA has no {it!r}" for it in lines if it not in told]


def has_pip():
    """Whether this Python has a pip that installs for another Python, and can make a virtual environment."""
    if not all(importlib.util.find_spec(it) for it in ("venv", "pip")):
        return False
    return tuple(int(it) for it in metadata.version("pip").split(".")[:2]) >= (22, 3)


def from_wheel(folder, out):
    """By pip, in a virtual environment, from no index."""
    wheel = next(out.glob("*.whl"))
    bad = [*wrong_record(wheel), *wrong_metadata(wheel), *other_glibc("wheel", wheel.name, [LIBRARY, *map(program, PROGRAMS)])]
    if not has_pip():
        say("no venv here, or no pip from 22.3 on, so the wheel is not installed")
        return bad
    place = folder / "venv"
    python = place / "bin/python"
    subprocess.run([sys.executable, "-m", "venv", "--without-pip", place], check=True)
    pip = [sys.executable, "-m", "pip", "--disable-pip-version-check", "--python", python]
    ended = ran([*pip, "install", "--quiet", "--no-index", "--no-deps", wheel], env=ENVIRONMENT)
    bad += [f"pip install: {ended}"] if ended.status else []
    package = next(place.glob(PYTHON_FOLDER), folder)
    bad += by_python(python, package / SONAME) + ([] if (package / "py.typed").exists() else ["the wheel has no types"])
    bad += [f"the wheel has another {it}" for it in PROGRAMS if (place / "bin" / it).read_bytes() != program(it).read_bytes()]
    for command in ([place / "bin/pbcube"], [python, "-m", "pbcube"]):
        bad += differs([*command, TOP / "examples/tie.opb"], ANSWER, status=30)
    bad += [text for it in PROGRAMS for text in differs([place / "bin" / it, "--version"], f"{it} {VERSION}\n")]
    say("the wheel, installed by pip, with its commands")
    return bad


def from_npm(folder, out):
    """The package for npm has what bindings/js/build made, and nothing else; where that is there, and proved."""
    dist = TOP / "bindings/js/dist"
    found = list(out.glob("*.tgz"))
    if not found:
        say("no proved bindings/js/dist here, so there is no package for npm")
        return []
    with tarfile.open(found[0]) as archive:
        files = {it.name: archive.extractfile(it).read() for it in archive}
    made = {f"package/{it.name}": it.read_bytes() for it in dist.iterdir()}
    say("the package for npm")
    return [] if files == made else [f"{found[0].name}: {sorted(files)} and not {sorted(made)}, or other bytes"]


def packed(folder):
    """The packages, made twice, and each used."""
    outs = [folder / "out", folder / "again"]
    ends = side_by_side(lambda out: ran([TOP / "package", "--as-built", out], env=ENVIRONMENT, timeout=PACKING), outs)
    if any(it.status for it in ends):
        return [f"package: {it}" for it in ends]
    first, second = ({it.name: hashlib.sha256(it.read_bytes()).hexdigest() for it in out.iterdir()} for out in outs)
    bad = [] if first == second else [f"package: {first} and then {second}"]
    parts = (from_archive, from_debian_package, from_wheel, from_npm)
    return bad + [text for texts in side_by_side(lambda part: part(folder, outs[0]), parts) for text in texts]


def main():
    if not LIBRARY.exists():
        if shutil.which("cc"):
            sys.exit(f"packages: no {LIBRARY}: bindings/c/build makes it")
        say("no C compiler here, so there is no library")
        return
    with tempfile.TemporaryDirectory(prefix="pbcube-packages-") as name:
        folder = Path(name)
        parts = (packed, installed, installed_at_home, not_built, built_once, wrong_words)
        bad = [text for texts in side_by_side(lambda part: part(folder), parts) for text in texts]
    if bad:
        sys.exit("\n".join(bad))


if __name__ == "__main__":
    main()
