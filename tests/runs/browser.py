#!/usr/bin/env python3
"""Calls the WebAssembly module of bindings/js/dist from Node, and prints what is wrong.

    tests/runs/browser.py [--page [SCREENSHOT]]

Node runs with the flag that it wants for 64-bit memories. The C files of the module are driven by random operations against
JavaScript's own numbers (parts.mjs). Each worked text and each example must have its report to the byte, and each refused text of
tests/lib/hinted_texts.py its hint. Random questions on random instances are asked of a `Model` and of a `Solver`, and judged by a
listing of all assignments, as tests/runs/questions.py has them.
Every call is made in the ways that pbcube.d.ts declares and in ways that it does not, with memory refused, with a module that is cut,
and 10,000 times in a row (api.mjs). npm installs the package, from no registry, and the example of docs/WEB.md runs on it. Without the
flag, a Node that wants it is refused by name.

With --page it loads the page of bindings/js/page in headless Chromium instead (page.mjs), from a file, uses each part of it, and may
write a picture of it; then it loads the modules from a server.
"""
import base64
import json
import os
import random
import re
import shutil
import subprocess
import sys
import tempfile
from pathlib import Path

sys.dont_write_bytecode = True
sys.path.insert(0, str(Path(__file__).resolve().parents[1]))
from lib import STATUSES, TOP, differs, ran, say, version
from lib.asked import QUESTIONS, steps_of, worked_steps, wrong_answers
from lib.callers import by_driver
from lib.examples import examples
from lib.hinted_texts import BEGUN, LIMITS, PLACED, SMALL_SUMS, TO_MOST
from lib.worked_texts import WORKED

JS = TOP / "bindings/js"
DIST = JS / "dist"
CALLERS = TOP / "tests/callers/js"
FLAG = "--experimental-wasm-memory64"
INSTANCES = 300  # of a model; of a solver, whose worker starts anew for each, a tenth
SECONDS = 600  # after which a run is taken to hang
PROBE = "process.exit(WebAssembly.validate(new Uint8Array([0,97,115,109,1,0,0,0,5,3,1,4,0])) ? 0 : 1)"
ENDS = {"Satisfiable": 10, "Unsatisfiable": 20, "Optimum": 30}
LINKED = ["-mwasm64", "--no-entry", "--stack-first", "-z", "stack-size=65536", "--export-all"]


def node():
    """The words that run Node with 64-bit memories; none where it has no such memories, or is not there, which is said."""
    found = shutil.which("node")
    if not found:
        say("no node here")
        return []
    for words in ([found], [found, FLAG]):
        if not ran([*words, "-e", PROBE]).status:
            return words
    say(f"this node has no 64-bit memories: {ran([found, '--version']).out.strip()}")
    return []


def parts(words, folder):
    """The heap and the arithmetic, in a module of their own."""
    kit = Path(ran(["rt", "doc"]).out.strip()).parent
    tools = kit / "toolchain/bin"
    linker, module = folder / "wasm-ld", folder / "parts.wasm"
    linker.symlink_to(tools / "ld.lld")
    objects = []
    for name in ("memory", "wide"):
        objects.append(folder / f"{name}.o")
        target = ["--target=wasm64-unknown-unknown", "-mbulk-memory", "-std=c11", "-O2"]
        subprocess.run([tools / "clang", *target, "-c", JS / f"c/{name}.c", "-o", objects[-1]], check=True)
    subprocess.run([linker, *LINKED, *objects, "-o", module], check=True)
    say("the heap and the arithmetic of 128 bits, by random operations")
    return differs([*words, CALLERS / "parts.mjs", module], "\n", timeout=SECONDS)


def texts(words):
    """Worked texts and examples."""
    known = [*WORKED, *((it.suffix[1:], it.read_bytes(), it.with_suffix(".expected").read_text()) for it in examples())]
    told = solved(words, known)
    say(f"{len(WORKED)} worked texts and {len(known) - len(WORKED)} examples, to the byte")
    return [f"{text[:200]}: {said}, and not {owed}" for (_, text, owed), said in zip(known, told) if not is_owed(said, owed)]


def hints(words):
    """Refused texts have the hints of the program, which names another format by an option; and refused calls have its words."""
    known = [*((form, text, f"the text {hint}") for form, text, hint in BEGUN), *PLACED]
    say(f"the hints on {len(known)} refused texts")
    owed = [re.sub(r"give --format (\w+)$", r"give format: '\1'", hint) for _, _, hint in known]
    pairs = zip(known, solved(words, known), owed, strict=True)
    wrong = [f"{text[:200]}: {said}, and not {hint}" for (_, text, _), said, hint in pairs if said.get("hint") != hint]
    source, shared = (JS / "src/errors.mjs").read_text(), (SMALL_SUMS.replace("^", "**"), LIMITS, TO_MOST)
    return wrong + [f"errors.mjs does not say {hint!r}" for hint in shared if f'"{hint}"' not in source]


def solved(words, known):
    """What the module says of each text."""
    given = json.dumps([(form, base64.b64encode(text).decode()) for form, text, _ in known])
    ended = ran([*words, CALLERS / "texts.mjs", DIST], input=given.encode(), timeout=SECONDS)
    if ended.status:
        sys.exit(f"browser: texts.mjs: {ended}")
    return json.loads(ended.out)


def is_owed(said, owed):
    """Whether an answer has this report and what goes with it."""
    if said["report"] != owed:
        return False
    refusal = re.match(r"c refused: (\w+) at line (\d+)\n", owed)
    if refusal:
        return (said["code"], said["line"]) == (refusal[1], int(refusal[2]))
    line = re.search(r"^s .*$", owed, re.M)[0]
    return ENDS[said["status"]] == STATUSES[line]


def questions(words):
    """Random questions, of both kinds of model."""
    wrong = []
    for kind, instances in (([], INSTANCES), (["--solver"], INSTANCES // 10)):
        random.seed(23)
        every = [*worked_steps(), *(step for number in range(instances) for step in steps_of(number))]
        reports = by_driver([*words, CALLERS / "told.mjs", DIST, *kind], every)
        wrong += wrong_answers(f"told.mjs {' '.join(kind)}", every, reports)
        say(f"{instances} instances with {QUESTIONS} questions each, of a {'Solver' if kind else 'Model'}")
    return wrong


def calls(words):
    """Every call."""
    ended = ran([*words, CALLERS / "api.mjs", DIST], timeout=SECONDS)
    say(f"every call: {ended.out.strip()}")
    return [f"api.mjs: {ended}"] if ended.status else []


def without_flag(words):
    """One error that names what is needed."""
    if FLAG not in words:
        return []
    text = f"import('{DIST}/pbcube.mjs').then(({{ Model }}) => Model.create()).catch((fault) => console.log(fault.code, fault.message))"
    ended = ran([words[0], "-e", text])
    return [] if ended.out.startswith("NoMemory64 NoMemory64: ") and FLAG in ended.out else [f"without {FLAG}: {ended}"]


def shown_example():
    """The program of docs/WEB.md, and what it prints."""
    page = (TOP / "docs/WEB.md").read_text()
    return re.search(r"^```js\n(.*?)^```$", page, re.M | re.S)[1], re.search(r"^It prints `(.+)`", page, re.M)[1]


def installed(words, folder):
    """The package as npm installs it."""
    if not shutil.which("npm"):
        say("no npm here")
        return []
    place = folder / "project"
    place.mkdir()
    (place / "package.json").write_text('{ "name": "project", "version": "1.0.0", "private": true }\n')
    quiet = ["--offline", "--no-audit", "--no-fund", "--silent"]
    environment = {**os.environ, "npm_config_cache": str(folder / "cache"), "npm_config_update_notifier": "false"}
    ended = ran(["npm", "install", *quiet, DIST], cwd=place, env=environment, timeout=SECONDS)
    if ended.status:
        return [f"npm install: {ended}"]
    text, printed = shown_example()
    (place / "example.mjs").write_text(text)
    packed = json.loads((place / "node_modules/pbcube/package.json").read_text())
    say("the example of docs/WEB.md, on the package as npm installs it")
    bad = [] if (packed["version"], packed.get("dependencies")) == (version(), None) else [f"package.json: {packed}"]
    return bad + differs([*words, place / "example.mjs"], f"{printed}\n", cwd=place)


def page(words, picture):
    """The page, in a browser."""
    browser = next(filter(None, map(shutil.which, ("chromium", "chromium-browser", "google-chrome"))), None)
    if not browser:
        say("no chromium here, so the page is not loaded: apt-get install chromium")
        return []
    ended = ran([*words, "--experimental-websocket", CALLERS / "page.mjs", browser, JS / "page/index.html", *picture], timeout=SECONDS)
    say(f"the page, in {ran([browser, '--version']).out.strip()}: {ended.out.strip()}")
    return [f"page.mjs: {ended}"] if ended.status else []


def main(options):
    if options and options[0] != "--page" or len(options) > 2:
        sys.exit(__doc__)
    words = node()
    if not words:
        return 0
    if not (DIST / "package.json").exists():
        sys.exit(f"browser: no {DIST}: bindings/js/build makes it")
    say(f"the module is {json.loads((DIST / 'package.json').read_text())['pbcubeModule']}")
    with tempfile.TemporaryDirectory(prefix="pbcube-browser-") as name:
        folder = Path(name)
        if options:
            wrong = page(words, options[1:])
        else:
            wrong = [*parts(words, folder), *texts(words), *hints(words), *calls(words), *questions(words), *without_flag(words)]
            wrong += installed(words, folder)
    print("\n".join(wrong[:20]), end="\n" if wrong else "")
    return 1 if wrong else 0


if __name__ == "__main__":
    sys.exit(main(sys.argv[1:]))
