"""What can go wrong, each with the protocol's number and word where it has one.

This module needs nothing but Python.
"""
from __future__ import annotations

from typing import Any

# The word of each number, and what it means to someone who calls a function or sends a request.
REFUSALS: dict[int, tuple[str, str]] = {
    10: ("LINE", "the line is none of the protocol"),
    11: ("LENGTH", "a length does not fit"),
    12: ("CUT", "the input ended inside a line or a payload"),
    20: ("MAGIC", "the file does not begin as a PBM or PGM"),
    21: ("HEADER", "the file has no whole header"),
    22: ("SIZE", "a side is 0 or too long: images have up to 8192 a side and 16777216 samples, footprints 255 a side"),
    23: ("MAXVAL", "the maxval is 0, or more than the samples' type has"),
    24: ("SHORT", "the file ends before its last sample"),
    25: ("SAMPLE", "a sample is over the maxval"),
    26: ("TRAILING", "the file goes on behind its last sample"),
    30: ("NOT_PLAIN", "the footprint is no plain PBM"),
    31: ("ORIGIN", "the footprint's origin lies outside its bitmap"),
    32: ("EMPTY", "the footprint has no pixel"),
    40: ("NAME_TAKEN", "the name is taken"),
    41: ("UNKNOWN", "nothing has the name"),
    42: ("KIND", "an image is wanted and this is none, or a footprint is wanted and this is none"),
    43: ("DEAD", "the input is cancelled, out of memory or failed"),
    44: ("BINARY", "a set is wanted: an array of bool, as image >= 120 makes it"),
    45: ("NO_ORIGIN", "the footprint's origin is none of its pixels"),
    46: ("OVERLAP", "the two footprints have a place in common"),
    47: ("PARAM", "a number is outside its limits"),
    48: ("FULL", "the session has 65536 entries, and takes no more"),
    49: ("SETTLED", "it is no longer pending"),
    50: ("MEMORY", "there is not enough memory"),
    51: ("RELEASED", "it is released"),
    52: ("PENDING", "it is still pending"),
    53: ("FRAME", "the two images have other sides"),
    54: ("LEVELS", "the two images have other maxvals"),
    55: ("ONE_WAY", "an offset of the footprint has no opposite in it"),
}


class Refused(ValueError):
    """What was asked for is refused.

    Attributes
    ----------
    number : int
        The refusal's number, as in docs/PROTOCOL.md; those from 53 on are the library's alone, as in include/morphd.h.
    word : str
        Its word there.
    asked : str
        What was asked for.
    """

    def __init__(self, number: int, asked: str = "") -> None:
        self.number, self.asked = number, asked
        self.word, meaning = REFUSALS.get(number, ("", "a refusal without a name"))
        said = f"{meaning} ({number} {self.word})"
        super().__init__(f"{asked}: {said}" if asked else said)

    def __reduce__(self) -> tuple[Any, ...]:
        return type(self), (self.number, self.asked)


class OutOfMemory(MemoryError):
    """There was not enough memory for what was asked for. A session is as it was before; an operator may have written a part of `out`.

    Attributes
    ----------
    number : int
        50, as in docs/PROTOCOL.md.
    asked : str
        What was asked for.
    """

    number, word = 50, "MEMORY"

    def __init__(self, asked: str = "") -> None:
        self.asked = asked
        super().__init__(f"{asked}: there is not enough memory (50 MEMORY)")

    def __reduce__(self) -> tuple[Any, ...]:
        return type(self), (self.asked,)


class LibraryMissing(ImportError):
    """libmorphd is nowhere to be found, or is not the one that this package speaks to."""


class ProgramMissing(FileNotFoundError):
    """The program `morphd`, which a session runs, is nowhere to be found."""


class SessionEnded(ConnectionError):
    """The session is over, and this is why.

    Attributes
    ----------
    refusal : Refused or None
        The refusal that ended it, where one did.
    status : int or None
        The exit status of the program, negative for the signal that killed it; None over a connection.
    """

    def __init__(self, why: str, refusal: Refused | None = None, status: int | None = None) -> None:
        self.why, self.refusal, self.status = why, refusal, status
        super().__init__(why)

    def __reduce__(self) -> tuple[Any, ...]:
        return type(self), (self.why, self.refusal, self.status)


class Cancelled(RuntimeError):
    """The result was cancelled before it was made."""


class InputFailed(RuntimeError):
    """The result was not made because one of its inputs was cancelled or failed.

    Attributes
    ----------
    ticket : int
        The number of that input in the session.
    """

    def __init__(self, asked: str, ticket: int) -> None:
        self.asked, self.ticket = asked, ticket
        super().__init__(f"{asked}: its input, ticket {ticket}, was cancelled or failed")

    def __reduce__(self) -> tuple[Any, ...]:
        return type(self), (self.asked, self.ticket)
