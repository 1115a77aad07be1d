"""Commits to a table: prepared here, and written by the caller."""
from __future__ import annotations

import os
import uuid as uuids
from ctypes import byref
from dataclasses import dataclass
from typing import Optional, Tuple, Union

from ._errors import ChangeError, FilterError, PastEnd
from ._files import Read
from ._library import Bytes, Held, given, loaded, place
from ._plan import reader_of


@dataclass(frozen=True)
class Commit:
    """A commit that is prepared: the path and the bytes of each file that it adds, and the bytes of the new metadata
    file. The files are written first, each where none stands, and the metadata last, at a path where none stands."""

    files: Tuple[Tuple[str, bytes], ...]
    metadata: bytes


def prepare_commit(
    metadata: str,
    change: Union[str, bytes],
    *,
    snapshot: int,
    uuid: uuids.UUID,
    now_ms: int,
    folder: Union[str, "os.PathLike[str]", None] = None,
    prefix: str = "",
    read: Optional[Read] = None,
) -> Commit:
    """Prepares a commit to the table whose metadata file is at the path `metadata`, as the table knows it.

    `change` says which files it adds, as the JSON that `icescan row-delta` is given. `snapshot` is the id of the new
    snapshot, by `uuid` its files are named, and `now_ms` is its time in milliseconds since 1970-01-01 00:00 UTC. The
    table's files are read as for `plan`: the metadata, the current snapshot's manifest list, and its manifests.

    A refusal is raised: `ChangeError`, `TableError`, `OutOfMemory`, or what `read` raised.
    """
    read = reader_of(folder, prefix, read)
    if not all(-(2**63) <= it < 2**63 for it in (snapshot, now_ms)):
        raise ValueError("the id of a snapshot and a time have 64 bits")
    text = change.encode("utf-8", "surrogatepass") if isinstance(change, str) else bytes(change)
    halves = divmod(uuid.int, 2**64)
    with Held(loaded(place())) as held:
        try:
            held.call("commit_new", *given(bytes(read(metadata))), *given(text), snapshot, *halves, now_ms)
        except FilterError as error:
            raise ChangeError(error.line, error.reason, error.hint) from None
        hand_all(held, "commit", read)
        held.call("finish")
        return Commit(tuple(added(held, i) for i in range(held.count("commit_count"))), metadata_of(held))


def hand_all(held: Held, kind: str, read: Read) -> None:
    """Hands in each file that a commit or an explanation wants."""
    while True:
        try:
            path = held.text(f"{kind}_wanted")
        except PastEnd:
            return
        held.call(f"{kind}_take", *given(bytes(read(path))))


def added(held: Held, i: int) -> Tuple[str, bytes]:
    """A file that the commit adds."""
    path, data = Bytes(), Bytes()
    held.call("commit_file", i, byref(path), byref(data))
    return path.text(), data.read()


def metadata_of(held: Held) -> bytes:
    """The bytes of the new metadata file."""
    data = Bytes()
    held.call("commit_metadata", byref(data))
    return data.read()
