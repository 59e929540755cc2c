"""Instances that the scripts of bench/ make."""
import sys
from dataclasses import dataclass

from . import TOP, ran


@dataclass(frozen=True)
class Made:
    """An instance that a script of bench/ makes by these words. Of its costs every `part`-th one is kept."""

    words: str
    part: int = 1

    def text(self):
        script, *words = self.words.split()
        lines = ran([sys.executable, TOP / "bench" / script, *words]).out.splitlines()
        return "".join(f"{self.with_few_costs(it)}\n" for it in lines)

    def with_few_costs(self, line):
        if self.part == 1 or not line.startswith("min:"):
            return line
        words = line.split()[1:-1]
        kept = [f"{coefficient} {literal}" for coefficient, literal in zip(words[::2], words[1::2])][:: self.part]
        return " ".join(["min:", *kept, ";"])
