"""What a call is refused by: a class for each reason."""
from __future__ import annotations

from typing import Dict, Type


class Error(Exception):
    """A call of icescan that was refused.

    `line` is the line that the program `icescan` writes then, without `icescan: ` before it, or "" where there is
    none; `reason` is the number of the refusal, as `F2`, by which docs/REFUSALS.md lists it, or ""; `hint` has lines
    that say what of a filter is refused and what to do, or ""; `status` is the number with which the call of the
    library ended.
    """

    status = 0
    says = "icescan could not answer"

    def __init__(self, line: str = "", reason: str = "", hint: str = "") -> None:
        super().__init__(line or self.says)
        self.line, self.reason, self.hint = line, reason, hint


class TableError(Error):
    """The table is refused, or it has no such snapshot, branch or tag."""

    status, says = 1, "the table is refused"


class FilterError(Error):
    """The filter is refused."""

    status, says = 2, "the filter is refused"


class ChangeError(Error):
    """The change that a commit is to make is refused."""

    status, says = 2, "the change is refused"


class OutOfMemory(Error, MemoryError):
    """Memory ran out."""

    status, says = 5, "memory ran out"


class KindError(Error):
    """A handle holds nothing of the kind that a call is for."""

    status, says = 6, "the handle holds nothing of the kind that the call is for"


class PastEnd(Error, IndexError):
    """There is no such number."""

    status, says = 7, "there is no such number"


class EncodingError(Error, ValueError):
    """A name or a filter is no UTF-8."""

    status, says = 8, "a name or a filter is no UTF-8"


class OtherScan(Error):
    """Two states are of two scans."""

    status, says = 9, "the states are of two scans"


class NullError(Error):
    """There should be bytes at NULL."""

    status, says = 10, "there should be bytes at NULL"


class LibraryNotFound(Error, ImportError):
    """The shared library is not where it was looked for, or it is another version than this package."""


BY_STATUS: Dict[int, Type[Error]] = {
    it.status: it
    for it in (TableError, FilterError, OutOfMemory, KindError, PastEnd, EncodingError, OtherScan, NullError)
}
