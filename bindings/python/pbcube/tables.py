"""Small tables, which notebooks show."""

from __future__ import annotations

from html import escape
from typing import Iterable, List, Tuple

MOST_ROWS = 20


def table(rows: Iterable[Tuple[object, object]]) -> str:
    """A table of two columns in HTML."""
    cells = "".join(f"<tr><th>{escape(str(head))}</th><td>{escape(str(told))}</td></tr>" for head, told in rows)
    return f"<table>{cells}</table>"


def first_rows(rows: List[Tuple[object, object]]) -> List[Tuple[object, object]]:
    """The rows, of which more than are seen at a glance are left out and counted."""
    left_out = len(rows) - MOST_ROWS
    return [*rows[:MOST_ROWS], ("..", f"{left_out} more")] if left_out > 0 else rows
