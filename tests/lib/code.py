"""What a crate's code has: functions with their clauses, types with an invariant, tests."""
import re
from dataclasses import dataclass, field
from functools import cache

from . import TOP

CRATES = TOP / "crates"
FUNCTION = re.compile(r'\s*(?:pub(?:\(\w+\))? )?(?:const )?(?:extern "C" )?fn (\w+)')
CLAUSE = re.compile(r"\s*ensures\s*(\w*)\s*\{")
TEST = re.compile(r"#\[test\]\s+(?:#\[.*\]\s+)*(?:pub )?fn (\w+)")


@dataclass
class Code:
    """The clauses of each function, by its name, and behind that of its type, or else folder; these names by file and line, from the
    first attribute on; types with an invariant; tests by file."""

    clauses: dict = field(default_factory=dict)
    places: dict = field(default_factory=dict)
    invariants: set = field(default_factory=set)
    tests: dict = field(default_factory=dict)

    def read(self, path):
        text, owner, names, begun = path.read_text(), "", [], 0
        for number, line in enumerate(text.splitlines(), 1):
            begun = 0 if not line.strip() else begun or (number if line.lstrip().startswith("#[") else 0)
            if re.match(r"(unsafe )?impl\b|(pub )?trait\b", line):
                owner = owner_of(line)
            elif line.startswith("}"):
                owner = ""
            elif found := FUNCTION.match(line):
                names = [found[1], f"{owner or path.parent.name}::{found[1]}"]
                self.places.setdefault(path, []).append((begun or number, names))
                for name in names:
                    self.clauses.setdefault(name, set())
            elif found := CLAUSE.match(line):
                for name in names:
                    self.clauses[name].add(found[1])
            elif "ghost invariant" in line:
                self.invariants.add(owner)
        if tests := TEST.findall(text):
            self.tests[path.stem] = tests

    def names_at(self, path, line):
        """The names of the function that the line belongs to."""
        return next((names for number, names in reversed(self.places.get(path, [])) if number <= line), [])


def owner_of(line):
    """The type or trait that the line begins to write out, without its parameters."""
    name = re.sub(r"^(pub )?(unsafe )?(impl|trait)", "", line)
    while (shorter := re.sub(r"<[^<>]*>", "", name)) != name:
        name = shorter
    return re.findall(r"\w+", name.split(" for ")[-1])[0]


@cache
def code_of(crate):
    code = Code()
    for path in sorted((CRATES / crate / "src").rglob("*.rt")):
        code.read(path)
    return code


def crates():
    return sorted(it.name for it in CRATES.iterdir() if (it / "src").exists())
