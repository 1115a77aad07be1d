"""Explanations of plans: why each manifest and each file is in the plan, or what left it out."""
from __future__ import annotations

import os
from dataclasses import dataclass, field
from typing import Any, Dict, Iterator, Optional, Tuple, Union

from ._commit import hand_all
from ._files import Read
from ._library import Held, loaded, objects_of, place
from ._plan import asked_of, reader_of


@dataclass(frozen=True)
class Explanation:
    """What became of each manifest of a snapshot and of each live file of those that are wanted, and behind them three
    lines of counts. The members of each of the `lines` are those that docs/USING.md has of `explain --format json`."""

    lines: Tuple[Dict[str, Any], ...]
    written: str = field(repr=False)

    def __iter__(self) -> Iterator[Dict[str, Any]]:
        return iter(self.lines)

    def text(self) -> str:
        """The lines of JSON, as `icescan explain --format json` prints them."""
        return self.written


def explain(
    metadata: str,
    *,
    filter: str = "",
    ref: Optional[str] = None,
    snapshot: Optional[int] = None,
    folder: Union[str, "os.PathLike[str]", None] = None,
    prefix: str = "",
    read: Optional[Read] = None,
) -> Explanation:
    """Explains the plan of the table whose metadata file is at the path `metadata`, as the table knows it.

    The filter and the snapshot are given as for `plan`, and the table's files are read as for it: the metadata, the
    snapshot's manifest list, and the manifests that the plan needs, one after the other.

    A refusal is raised: `TableError`, `FilterError`, `OutOfMemory`, or what `read` raised.
    """
    read = reader_of(folder, prefix, read)
    asked = asked_of(metadata, read, ref, snapshot, filter)
    with Held(loaded(place())) as held:
        asked.ask(held, "explanation_new")
        hand_all(held, "explanation", read)
        held.call("finish")
        return explanation_of(held.text("text"))


def explanation_of(text: str) -> Explanation:
    """The explanation that lines of JSON tell."""
    return Explanation(tuple(objects_of(text)), text)
