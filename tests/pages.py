#!/usr/bin/env python3
"""Checks the pages against each other and against what they are made from, and prints what differs.

    tests/pages.py [--write]

docs/COMMANDS.md shows the commands of tests/lib/shown_commands.py, which tests/runs/examples.py runs; it must be what --write writes.
Each link of a page leads to a file, and if it names a heading, that page has it. Each crate file that a page names, such as
`pb_read/opb`, exists, and so does each page of docs/ that a file in git names. README.md links to each page.
"""
import re
import sys
from functools import cache

sys.dont_write_bytecode = True
from lib import TOP, kept
from lib.shown_commands import SHOWN

COMMANDS, README = TOP / "docs/COMMANDS.md", TOP / "README.md"
LINK = re.compile(r"\]\((?!\w+:)([^)#\s]*)(?:#([^)\s]+))?\)")
HEAD = """# Commands and what they print

`tests/pages.py --write` generates this page from `tests/lib/shown_commands.py`. The gate runs the command in each row, here and in the [README](../README.md), with the built program (`tests/runs/examples.py`). It compares the bytes printed and the exit status. In the second column `/` separates lines.

| Command | Prints | Status |
|---|---|---|
"""


def printed(shown):
    """What the command prints, as a cell of the table tells it."""
    lines = f"contents of `{shown.file}`" if shown.file else " / ".join(f"`{line}`" for line in shown.lines)
    complaint = f"on standard error: `{shown.complaint}`" if shown.complaint else ""
    return ", and ".join(filter(None, (lines, complaint)))


def commands_page():
    """What docs/COMMANDS.md has to be."""
    return HEAD + "".join(f"| `{it.command}` | {printed(it)} | {it.status} |\n" for it in SHOWN)


@cache
def headings(page):
    """The names by which a link finds the headings of the page."""
    titles = re.findall(r"^#+ (.+)$", re.sub(r"(?ms)^```.*?^```$", "", page.read_text()), re.M)
    return {re.sub(r"[^\w\- ]", "", it.lower()).replace(" ", "-") for it in titles}


def links(page):
    """Each link of the page to a file or a heading: the file, and the heading or an empty text."""
    for file, heading in LINK.findall(re.sub(r"(?ms)^```.*?^```$|`[^`\n]*`", "", page.read_text())):
        yield (page.parent / file).resolve() if file else page, heading


def broken_links(page):
    name = page.relative_to(TOP)
    for target, heading in links(page):
        if not target.exists():
            yield f"{name}: no file {target.relative_to(TOP)} for its link"
        elif heading and heading not in headings(target):
            yield f"{name}: {target.relative_to(TOP)} has no heading {heading}"


def unknown_code(page):
    """Files and folders of crates that the page names, as `crate/file` for crates/crate/src/file.rt, and that are not there."""
    for crate, file in re.findall(r"`(pb_\w+|pbcube\w*)/([a-z][a-z_/]*)`", page.read_text()):
        places = (f"src/{file}.rt", file)
        if not any((TOP / "crates" / crate / it).exists() for it in places):
            yield f"{page.relative_to(TOP)}: there is no {crate}/{file}"


def unknown_pages(files):
    """Files that name a page of docs/ that is not there."""
    for path in files:
        named = set(re.findall(r"\bdocs/[A-Z_]+\.md\b", path.read_bytes().decode(errors="replace")))
        for page in sorted(it for it in named if not (TOP / it).exists()):
            yield f"{path.relative_to(TOP)}: there is no {page}"


def unlinked_pages():
    """Pages of docs/ to which README.md has no link."""
    linked = {target for target, _ in links(README)}
    for page in sorted((TOP / "docs").glob("*.md")):
        if page not in linked:
            yield f"README.md: no link to {page.relative_to(TOP)}"


def main(words):
    if words not in ([], ["--write"]):
        sys.exit(f"pages: no such words: {' '.join(words)}")
    if words:
        COMMANDS.write_text(commands_page())
    files = kept()
    pages = [it for it in files if it.suffix == ".md"]
    stale = [] if COMMANDS.exists() and COMMANDS.read_text() == commands_page() else ["docs/COMMANDS.md is not as it is written by --write"]
    of_pages = [fault for page in pages for fault in (*broken_links(page), *unknown_code(page))]
    faults = [*stale, *of_pages, *unknown_pages(files), *unlinked_pages()]
    print(*[f"pages: {it}" for it in faults], f"pages: {len(pages)} pages, {len(SHOWN)} commands, {len(faults)} faults", sep="\n")
    return 1 if faults else 0


if __name__ == "__main__":
    sys.exit(main(sys.argv[1:]))
