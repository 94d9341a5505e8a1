"""Numbers as they are given: Python's, NumPy's, and arrays of one. None is cut or rounded on the way in.

This module needs nothing but Python.
"""
from __future__ import annotations

import operator
from fractions import Fraction
from typing import Any

from .errors import Refused


def real(value: Any, what: str) -> int | Fraction | float:
    """The number itself: a whole one or a fraction, or a float that is infinite or NaN."""
    held = value.item() if hasattr(value, "item") else value
    try:
        return operator.index(held)
    except TypeError:
        pass
    try:
        return Fraction(*held.as_integer_ratio())
    except AttributeError:
        raise TypeError(f"{what} is a number: {value!r}") from None
    except (OverflowError, ValueError):
        return float(held)


def whole(value: Any, what: str) -> int:
    """A count: a whole number of any type of them. No float is one, as for `range`."""
    try:
        return int(operator.index(value))
    except TypeError:
        raise TypeError(f"{what} is a whole number: {value!r}") from None


def word(number: int, name: str) -> int:
    """A number as an argument of the library, which refuses those outside its limits; what does not fit is refused here."""
    if not 0 <= number < 1 << 32:
        raise Refused(47, f"{name} with {number}")
    return number
