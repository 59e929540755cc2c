"""Copies of the repository, whose sources are changed."""
import os
import shutil
import subprocess
import sys

from . import TOP, ran, say


class Copy:
    """A copy of the repository, without what checks left of its crates."""

    def __init__(self, folder):
        self.top = folder / TOP.name
        self.built = folder / "built"
        self.built.mkdir()
        shutil.copytree(TOP, self.top, symlinks=True, ignore=shutil.ignore_patterns(".git", "out"))

    def run(self, words, folder="."):
        """The exit status, and all that was said."""
        ended = ran(words, cwd=self.top / folder, stderr=subprocess.STDOUT, timeout=None)
        return ended.status, ended.out

    def unproved_program(self, name, level=2):
        """The program of this name, compiled without proof at this level of optimization."""
        program = self.built / name
        program.unlink(missing_ok=True)
        status, said = self.run(["./build", name, program, str(level)])
        if status:
            say(f"{name} was not compiled:\n{said}")
            sys.exit(1)
        return program


class ProvedCopy(Copy):
    """A copy with the libraries that were proved of its crates, and what checks kept, so that rt begins with these."""

    def __init__(self, folder):
        super().__init__(folder)
        for part in ("rlib", "incremental"):
            for out in (TOP / "crates").glob(f"*/out/{part}"):
                shutil.copytree(out, self.top / out.relative_to(TOP), symlinks=True, copy_function=second_name)


def second_name(one, other):
    """Gives a file of a library or of a proof a second name, for rt replaces such a file and writes into none; copies any other."""
    if "/rlib/" in one or one.endswith(".oantt"):
        try:
            return os.link(one, other)
        except OSError:  # on another file system
            pass
    return shutil.copy2(one, other)
