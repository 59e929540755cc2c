"""Processes that a `with` statement ends in any case, and that the system ends where this process is killed."""

from __future__ import annotations

import os
import select
import signal
import subprocess
import sys
import threading
import time
import weakref
from pathlib import Path
from typing import IO, Iterator, List, Optional, Set, Union

from .errors import Error

_LONGEST_LINE = 300  # bytes that are told of what a program writes


def python_command(file: str) -> List[str]:
    """The command that runs a file of Python, without the packages of the caller. Raises ChildProcessError where there is no Python."""
    python = sys.executable or ""
    if not Path(python).name.lower().startswith(("python", "pypy")):  # the program has a Python within itself
        raise ChildProcessError(f"no Python to search in a process of its own: sys.executable is {python!r}")
    return [python, "-S", "-s", file]


class Process:
    """A process that is ended with the `with` statement that it is used in. Ctrl-C is held back from its start until it is let through,
    and so is raised within that statement."""

    def __init__(self, command: List[str], errors: Optional[IO[bytes]] = None) -> None:
        self._thread = threading.current_thread()  # with which the system ends it
        held = signal.pthread_sigmask(signal.SIG_BLOCK, {signal.SIGINT})  # the process inherits that: Ctrl-C is for this one
        self._held: Optional[Set[signal.Signals]] = held
        try:
            self._process = _start(command, errors)
        except BaseException:
            self._let_through()
            raise
        self._end = weakref.finalize(self, _end, self._process, os.getpid())

    def __enter__(self) -> Process:
        return self

    def __exit__(self, kind: object = None, *_: object) -> None:
        is_over = kind is not None and not self._end.alive and threading.current_thread() is not threading.main_thread()
        self._leave()
        self._let_through()
        if is_over:  # the process was ended with the interpreter, while this thread went on: it ends in silence
            raise SystemExit

    def _leave(self) -> None:
        """Ends the process."""
        self._end()

    def _let_through(self) -> None:
        """Lets Ctrl-C through again."""
        held, self._held = self._held, None
        if held is not None:
            signal.pthread_sigmask(signal.SIG_SETMASK, held)

    def _send(self, request: bytes, deadline: Optional[float]) -> None:
        """Writes the request, up to the deadline."""
        assert self._process.stdin is not None
        pipe, left = self._process.stdin.fileno(), memoryview(request)
        os.set_blocking(pipe, False)
        while left and _is_ready(pipe, select.POLLOUT, deadline):
            try:
                left = left[os.write(pipe, left) :]
            except BrokenPipeError:  # the process has ended, as reading from it tells
                return

    def _parts(self, deadline: Optional[float]) -> Iterator[bytes]:
        """What it writes, part by part, until the deadline has come; at its end the last part is empty."""
        assert self._process.stdout is not None
        pipe, is_over, part = self._process.stdout.fileno(), False, b"-"
        while part and not is_over:
            is_over = deadline is not None and time.monotonic() >= deadline
            if not _is_ready(pipe, select.POLLIN, deadline):
                return
            part = os.read(pipe, 1 << 20)
            yield part

    def _early_end(self) -> Exception:
        """Why it ended before it had answered: by a signal of another, or since it could not begin."""
        status = self._process.wait()
        return Error("Ended") if status < 0 else ChildProcessError(f"{self._process.args!r} ended with status {status}")


class Child(Process):
    """A process that answers each message on its standard input with messages on its standard output."""

    def _messages(self, request: bytes, deadline: Optional[float]) -> Iterator[bytes]:
        """What it answers, message by message, up to the deadline. Raises, and tells why, where it ends."""
        said = bytearray()
        self._send(request, deadline)
        for part in self._parts(deadline):
            if not part:
                raise self._early_end()
            said += part
            while len(said) >= 8 and len(said) >= (end := 8 + int.from_bytes(said[:8], "little")):
                message = bytes(said[8:end])
                del said[:end]
                yield message


class Program(Process):
    """A process that reads its standard input to the end, and then answers on its standard output."""

    def __init__(self, command: List[str]) -> None:
        self._path = command[0]
        self._errors = _temporary_file()
        self._said = ""  # its last line on standard error, once it has ended
        launched = [*python_command(str(Path(__file__).with_name("launch.py"))), str(os.getpid()), *command]
        super().__init__(launched, self._errors)

    def _leave(self) -> None:
        super()._leave()
        if self._errors is not None:
            self._said = _last_line(self._errors)
            self._errors.close()

    def answer(self, text: bytes, deadline: Optional[float]) -> Optional[bytes]:
        """All that it answers to the text, or None where it has not by the deadline. Raises Error where a signal ends it."""
        self._let_through()
        self._send(text, deadline)
        assert self._process.stdin is not None
        self._process.stdin.close()
        said = bytearray()
        for part in self._parts(deadline):
            if not part:
                if self._process.wait() < 0:
                    raise Error("Ended")
                return bytes(said)
            said += part
        return None

    def no_report(self) -> Error:
        """The error where it has ended, and what it answered is no report."""
        told = f"{self._path} ended with status {self._process.wait()} and wrote no report"
        return Error("NoReport", f"{told}: its last line on standard error is {self._said!r}" if self._said else told)


def _temporary_file() -> Optional[IO[bytes]]:
    """A file without a name, or None where the system has no place for one."""
    from tempfile import TemporaryFile  # here, since few need it and it takes milliseconds to import

    try:
        return TemporaryFile()
    except OSError:
        return None


def _last_line(file: IO[bytes]) -> str:
    """The last line of the file that is not blank, of a long one its end."""
    file.seek(max(0, file.seek(0, os.SEEK_END) - _LONGEST_LINE))
    lines = file.read().decode("utf-8", "replace").split("\n")
    return next((line.strip() for line in reversed(lines) if line.strip()), "")


def _start(command: List[str], errors: Optional[IO[bytes]]) -> subprocess.Popen[bytes]:
    """The process. What it writes to standard error goes to the file, where there is one."""
    told: Union[int, IO[bytes]] = subprocess.DEVNULL if errors is None else errors
    try:
        return subprocess.Popen(command, bufsize=0, stdin=subprocess.PIPE, stdout=subprocess.PIPE, stderr=told)
    except OSError as fault:
        raise ChildProcessError(f"{command[0]} cannot be run: {fault}") from fault


def _end(child: subprocess.Popen[bytes], maker: int) -> None:
    for pipe in (child.stdin, child.stdout):
        assert pipe is not None
        pipe.close()
    if os.getpid() == maker:  # and not one that it was forked into
        child.kill()
        child.wait()


def _is_ready(pipe: int, event: int, deadline: Optional[float]) -> bool:
    """Waits until the pipe can be read or written, and answers whether it can before the deadline."""
    poll = select.poll()
    poll.register(pipe, event)
    return bool(poll.poll(None if deadline is None else max(deadline - time.monotonic(), 0) * 1000))
