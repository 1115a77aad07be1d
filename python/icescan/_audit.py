"""Audits of a snapshot: whether the manifest list and the metadata are right about the manifests."""
from __future__ import annotations

import collections
import concurrent.futures
import os
from dataclasses import dataclass
from typing import Any, Dict, Iterator, List, Optional, Tuple, Union

from ._files import Read
from ._library import Held, given, loaded, objects_of, place
from ._plan import asked_of, reader_of


@dataclass(frozen=True)
class Finding:
    """What an audit found. `kind` is its name in docs/REFUSALS.md; `is_fault` tells a fault of the table from a note.
    What it is not about is None; of a total of the snapshot's summary `says` is what that says, and `counted` what the
    live files come to."""

    kind: str
    is_fault: bool
    manifest: Optional[str] = None
    file: Optional[str] = None
    field: Optional[str] = None
    column: Optional[int] = None
    says: Optional[int] = None
    counted: Optional[int] = None


@dataclass(frozen=True)
class Audit:
    """What was found, and how many manifests and live entries were read."""

    findings: Tuple[Finding, ...]
    manifests: int
    entries: int

    @property
    def faults(self) -> Tuple[Finding, ...]:
        """The findings that are faults. Without one, plans of the snapshot lack no file that may have a match."""
        return tuple(it for it in self.findings if it.is_fault)

    def __iter__(self) -> Iterator[Finding]:
        return iter(self.findings)


def audit(
    metadata: str,
    *,
    ref: Optional[str] = None,
    snapshot: Optional[int] = None,
    folder: Union[str, "os.PathLike[str]", None] = None,
    prefix: str = "",
    read: Optional[Read] = None,
    workers: int = 4,
) -> Audit:
    """Audits a snapshot, which is named as for `plan`. So many threads read manifests at once."""
    if workers < 1:
        raise ValueError("there is at least one worker")
    read = reader_of(folder, prefix, read)
    asked = asked_of(metadata, read, ref, snapshot)
    with Held(loaded(place())) as held:
        asked.ask(held, "audit_new")
        held.call("scan_start", *given(bytes(read(held.text("scan_list")))))
        hand_all(held, read, workers)
        held.call("finish")
        return audit_of(objects_of(held.text("text")))


def hand_all(held: Held, read: Read, workers: int) -> None:
    """Hands in each manifest, in order. No more than twice as many as there are threads are read ahead."""
    paths = [held.text("scan_wanted", i) for i in range(held.count("scan_count"))]
    with concurrent.futures.ThreadPoolExecutor(workers, "icescan") as pool:
        ahead = collections.deque(pool.submit(read, path) for path in paths[: 2 * workers])
        for i in range(len(paths)):
            held.call("audit_take", *given(bytes(ahead.popleft().result())))
            ahead.extend(pool.submit(read, path) for path in paths[i + 2 * workers: i + 2 * workers + 1])


def audit_of(lines: List[Dict[str, Any]]) -> Audit:
    """The audit that lines of JSON tell: a line for each finding, and behind them the counts."""
    *found, totals = lines
    names = ("manifest", "file", "field", "column", "says", "counted")
    findings = tuple(
        Finding(it["finding"], it["level"] == "fault", **{name: it.get(name) for name in names}) for it in found
    )
    return Audit(findings, totals["manifests"], totals["entries"])
