#!/usr/bin/env python3
"""Holds the works that comments and pages name to docs/REFERENCES.md, and all texts to plain words, and prints what differs.

    tests/references.py

A comment or a page names a work by `Source:` and its key in brackets; commas stand between several. docs/REFERENCES.md has an entry
for each key, `- **[KEY]** ..`, and each entry is cited at least once in code: in crates/, bench/ or tests/, whose files docs/ only
tells of. In what git keeps, but for this script, none of the words WORDS stands, and no doc comment begins by the words BEGINNING:
these leave a reader to look elsewhere for a number, or for what is told.
"""
import re
import sys
from pathlib import Path

sys.dont_write_bytecode = True
from lib import TOP, kept

PAGE = TOP / "docs/REFERENCES.md"
ENTRY = re.compile(r"^- \*\*\[(\w+)\]\*\* ", re.M)
LEADER = r"(?://[/!]?|--|#|\*)?"  # what a line of a comment begins with
CITED = re.compile(rf"\bSource: ((?:\[\w+\](?:,\s+{LEADER}\s*)?)+)")
SOURCES = (".rt", ".antt")  # of crates/
WORDS = re.compile(rf"\bso(?:[ \t]+|[ \t]*\n[ \t]*{LEADER}[ \t]*)(?:many|much)\b", re.I)
BEGINNING = re.compile(r"\s*///\s*the same\b", re.I)


def texts():
    """The files that git keeps, by their paths in the repository, with what is text in them, but for this script."""
    for path in kept():
        if path != Path(__file__).resolve():
            yield path.relative_to(TOP), path.read_bytes().decode(errors="replace")


def may_cite(path):
    """Whether works are looked for in the file."""
    folder = path.parts[0]
    return path.suffix in SOURCES if folder == "crates" else folder in ("bench", "tests", "docs") and TOP / path != PAGE


def citations(files):
    """Each key that is cited, with the file."""
    for path, text in files:
        if may_cite(path):
            for found in CITED.findall(text):
                for key in re.findall(r"\w+", found):
                    yield key, path


def wrong_entries(cited, entries):
    """What a text cites and has no entry, and entries that come twice or that no code cites."""
    for key in dict.fromkeys(cited):
        if key not in entries:
            yield f"{', '.join(map(str, dict.fromkeys(cited[key])))}: [{key}] has no entry in docs/REFERENCES.md"
    for key in dict.fromkeys(entries):
        if entries.count(key) > 1:
            yield f"docs/REFERENCES.md: [{key}] has {entries.count(key)} entries"
        if all(path.parts[0] == "docs" for path in cited.get(key, [])):
            yield f"docs/REFERENCES.md: no code cites [{key}]"


def unplain_lines(text):
    """The lines with words that leave a reader to look elsewhere, by their numbers."""
    lines = text.split("\n")
    found = {text.count("\n", 0, it.start()) + 1 for it in WORDS.finditer(text)}
    for number, (above, line) in enumerate(zip(["", *lines], lines), 1):
        if BEGINNING.match(line) and not above.lstrip().startswith("///"):
            found.add(number)
    return {number: lines[number - 1].strip() for number in sorted(found)}


def main():
    files = list(texts())
    entries = ENTRY.findall(PAGE.read_text())
    cited = {}
    for key, path in citations(files):
        cited.setdefault(key, []).append(path)
    wrong = list(wrong_entries(cited, entries))
    unplain = [f"{path}:{number}: {line}" for path, text in files for number, line in unplain_lines(text).items()]
    print(*[f"references: {it}" for it in [*wrong, *unplain]], sep="\n", end="\n" if wrong or unplain else "")
    citing = sum(map(len, cited.values()))
    print(f"references: {len(entries)} works, cited {citing} times, {len(wrong)} faults; {len(unplain)} places with words that are not plain")
    return 1 if wrong or unplain else 0


if __name__ == "__main__":
    sys.exit(main())
