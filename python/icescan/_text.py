"""The text of a plan, as the program prints it."""
from __future__ import annotations

from typing import TYPE_CHECKING, Iterator

if TYPE_CHECKING:
    from ._plan import Plan

ESCAPES = {ord(it): f"\\x{ord(it):02x}" for it in (*map(chr, range(33)), "\\", "\x7f")}


def escaped(path: str) -> str:
    """A path with its spaces, controls and backslashes by their digits."""
    return path.translate(ESCAPES)


def lines_of(plan: Plan) -> Iterator[str]:
    """A line for each file, and one that counts them."""
    for file in plan.files:
        yield (
            f"data {escaped(file.path)} seq {file.sequence_number} spec {file.spec_id} rows {file.record_count}"
            f" size {file.file_size}\n"
        )
        for delete in file.position_deletes:
            yield f"  pos {escaped(delete.path)} seq {delete.sequence_number}\n"
        for delete in file.equality_deletes:
            ids = ",".join(map(str, delete.equality_ids)) or "-"
            yield f"  eq {escaped(delete.path)} seq {delete.sequence_number} ids {ids}\n"
    deletes = sum(len(file.position_deletes) + len(file.equality_deletes) for file in plan.files)
    yield f"files {len(plan.files)} deletes {deletes}\n"


def text_of(plan: Plan) -> str:
    """The text of a plan."""
    return "".join(lines_of(plan))
