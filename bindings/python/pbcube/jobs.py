"""What goes to a search, and what comes back, as tuples that another process can be handed."""

from __future__ import annotations

from typing import Any, Optional, Tuple

Statement = Tuple[str, int, Any]
"""A relation or 'min' with the bound, and coefficients and literals in turn; or 'or' with 0, and the literals of a clause."""
Job = Tuple[str, Any, Any]
"""What a search is told and then asked: 'told' with statements, which add to those that it was told before, and a question; or
'text' with the bytes and the number of the format."""
Question = Tuple[str, Any, Any, int]
"""What is asked under literals, in an array of 32 bits: 'solve' with the values to be tried first, as bytes 0 and 1, or None;
'explain' with None; or 'fixed' with the number of what is asked about. Last how many variables there are to be at least."""
Plan = Tuple[int, Optional[float], bool]
"""How long to search: the most decisions of one search; a deadline by the clock of all processes that only goes on, or None; and whether
one search comes after another, with budgets that grow."""
Reply = Tuple[int, Optional[int], Optional[bytes], Optional[Tuple[str, int]]]
"""A status; the cost; the values as bytes 0 and 1, a core as an array of 32 bits, or statuses as bytes; and why nothing was
searched: a name, and a line or 0."""
