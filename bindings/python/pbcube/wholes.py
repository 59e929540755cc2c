"""What is a whole number, and what a truth value, of numpy too."""

from __future__ import annotations


def is_truth_value(value: object) -> bool:
    """Whether it is a truth value of numpy, or an array of them. Some versions of numpy have it as a whole number, with a warning."""
    return getattr(getattr(value, "dtype", None), "kind", None) == "b"


def is_whole(value: object) -> bool:
    """Whether it is a whole number. An array has an index too, which numpy refuses where it has several numbers."""
    return hasattr(value, "__index__") and not hasattr(value, "__len__") and not is_truth_value(value)
