"""Plans: the data files that a scan has to read, each with the delete files to apply to it."""
from __future__ import annotations

import collections
import concurrent.futures
import contextlib
import ctypes
import dataclasses
import os
from ctypes import byref
from dataclasses import dataclass
from typing import Any, Deque, Dict, Iterator, List, Optional, Set, Tuple, Union

from ._files import Folder, Read, read_local
from ._library import FORMATS, NO_NUMBER, File, Held, given, loaded, place, told
from ._library import Value as LentValue

# A partition value, as the table has it: a date is days, and a time or a timestamp microseconds; a uuid is its bytes,
# and a decimal the bytes of its unscaled number, the most significant first.
Value = Union[None, bool, int, str, bytes]


@dataclass(frozen=True)
class DeleteFile:
    """A delete file. `equality_ids` are the columns by which an equality delete file deletes."""

    path: str
    sequence_number: int
    spec_id: int
    record_count: int
    file_size: int
    equality_ids: Tuple[int, ...] = ()
    format: Optional[str] = None
    partition: Tuple[Value, ...] = ()
    file_sequence_number: Optional[int] = None
    partition_types: Tuple[Optional[str], ...] = ()


@dataclass(frozen=True)
class DataFile:
    """A data file that the scan has to read, and the delete files that apply to it, in the order of their paths.

    Its counts are as its manifest says. `format` is avro, orc or parquet, or None where the manifest names no such
    format; `partition` has a value for each field of its partition spec, and `partition_types` its type, as `date` or
    `decimal(9,2)`, or None where it is not known.
    """

    path: str
    sequence_number: int
    spec_id: int
    record_count: int
    file_size: int
    position_deletes: Tuple[DeleteFile, ...] = ()
    equality_deletes: Tuple[DeleteFile, ...] = ()
    format: Optional[str] = None
    partition: Tuple[Value, ...] = ()
    file_sequence_number: Optional[int] = None
    partition_types: Tuple[Optional[str], ...] = ()


@dataclass(frozen=True)
class Plan:
    """The data files of a scan, in the order of their paths.

    A file is left out only where none of its rows can meet the filter: rows that are read must still be filtered.
    `delete_files` has the delete files that apply to one of them, each once, in the order of their paths. `unasked` has
    the predicates that a relaxed filter does not ask.
    """

    files: Tuple[DataFile, ...]
    delete_files: Tuple[DeleteFile, ...] = ()
    unasked: Tuple[str, ...] = ()

    def __iter__(self) -> Iterator[DataFile]:
        return iter(self.files)

    def __len__(self) -> int:
        return len(self.files)

    def text(self) -> str:
        """The text that `icescan plan` prints."""
        from ._text import text_of

        return text_of(self)

    def to_arrow(self) -> Any:
        """The plan as a `pyarrow.Table`, a row for each data file; ImportError where there is no pyarrow."""
        from ._arrow import table_of

        return table_of(self)


def plan(
    metadata: str,
    *,
    filter: str = "",
    ref: Optional[str] = None,
    snapshot: Optional[int] = None,
    folder: Union[str, "os.PathLike[str]", None] = None,
    prefix: str = "",
    read: Optional[Read] = None,
    workers: int = 4,
    relax: bool = False,
) -> Plan:
    """Plans a scan of the table whose metadata file is at the path `metadata`, as the table knows it.

    `filter` says which rows are asked for, as `id = 42 and cat != 'books'`; an empty one asks for all. `ref` names a
    branch or a tag, `snapshot` is the id of a snapshot; without them the current snapshot is planned. With `relax` a
    predicate that can't be asked of its column, as of one of floats, is not asked, and the plan says which those are.

    The table's files are read below `folder`, which stands for the front `prefix` of the table's paths, or by `read`, a
    function that takes a path of the table and gives the file's bytes: as many threads as `workers` call it at once.
    Without either, the paths are of this system, or URLs `file:..`.

    A refusal is raised: `TableError`, `FilterError`, `OutOfMemory`, or what `read` raised.
    """
    how = Asking(filter, ref, snapshot, folder, prefix, read, workers, relax)
    with how.planned(metadata) as (held, unasked):
        return plan_of(held, unasked)


def plan_json(
    metadata: str,
    *,
    filter: str = "",
    ref: Optional[str] = None,
    snapshot: Optional[int] = None,
    folder: Union[str, "os.PathLike[str]", None] = None,
    prefix: str = "",
    read: Optional[Read] = None,
    workers: int = 4,
    relax: bool = False,
) -> str:
    """The same plan as the JSON with which an Iceberg REST catalog answers a scan, in one line."""
    how = Asking(filter, ref, snapshot, folder, prefix, read, workers, relax)
    with how.planned(metadata) as (held, _), Held(held.library) as text:
        held.call("plan_json", byref(text.handle))
        return text.text("text")


@dataclass(frozen=True)
class Asking:
    """What a plan is asked by."""

    filter: str
    ref: Optional[str]
    snapshot: Optional[int]
    folder: Union[str, "os.PathLike[str]", None]
    prefix: str
    read: Optional[Read]
    workers: int
    relax: bool

    @contextlib.contextmanager
    def planned(self, metadata: str) -> Iterator[Tuple[Held, Tuple[str, ...]]]:
        """The plan of the table whose metadata file is at a path, and the predicates that are not asked."""
        if self.workers < 1:
            raise ValueError("there is at least one worker")
        read = reader_of(self.folder, self.prefix, self.read)
        asked, unasked = asked_of(metadata, read, self.ref, self.snapshot, self.filter), ()
        library = loaded(place())
        if self.relax:
            asked, unasked = relaxed(library, asked)
        with started(library, asked, read) as scan, finished(scan, read, self.workers) as held:
            yield held, unasked


def reader_of(folder: Union[str, "os.PathLike[str]", None], prefix: str, read: Optional[Read]) -> Read:
    """What reads the table's files."""
    if read is None:
        return read_local if folder is None else Folder(folder, prefix)
    if folder is not None or prefix:
        raise ValueError("read and folder are not given together")
    return read


def asked_of(
    metadata: str, read: Read, ref: Optional[str], snapshot: Optional[int], filter: Optional[str] = None
) -> Asked:
    """What is asked of the table whose metadata file is at a path."""
    if ref is not None and snapshot is not None:
        raise ValueError("ref and snapshot are not given together")
    return Asked(bytes(read(metadata)), ref, snapshot, filter)


@dataclass(frozen=True)
class Asked:
    """What is asked of a table, whose metadata these are the bytes of; without a filter of a call that takes none."""

    metadata: bytes
    ref: Optional[str]
    snapshot: Optional[int]
    filter: Optional[str] = None

    def ask(self, held: Held, name: str) -> None:
        """Calls the function of this name, or that for the id of a snapshot."""
        text = () if self.filter is None else given(self.filter.encode("utf-8", "surrogatepass"))
        if self.snapshot is None:
            ref = (self.ref or "").encode("utf-8", "surrogatepass")
            held.call(name, *given(self.metadata), *given(ref), *text)
        elif -(2**63) <= self.snapshot < 2**63:
            held.call(f"{name}_at", *given(self.metadata), self.snapshot, *text)
        else:
            raise ValueError("the id of a snapshot has 64 bits")


def relaxed(library: ctypes.CDLL, asked: Asked) -> Tuple[Asked, Tuple[str, ...]]:
    """The same without the predicates that can't be asked, and these."""
    with Held(library) as held:
        asked.ask(held, "relax_new")
        unasked = tuple(held.text("relax_unasked", i) for i in range(held.count("relax_count")))
        return dataclasses.replace(asked, filter=held.text("relax_filter")), unasked


def started(library: ctypes.CDLL, asked: Asked, read: Read) -> Held:
    """The scan that is asked for."""
    scan = Held(library)
    try:
        asked.ask(scan, "scan_new")
        scan.call("scan_start", *given(bytes(read(scan.text("scan_list")))))
    except BaseException:
        scan.free()
        raise
    return scan


def finished(scan: Held, read: Read, workers: int) -> Held:
    """The plan of a scan, whose manifests are read by so many threads."""
    paths = [scan.text("scan_wanted", i) for i in range(scan.count("scan_count"))]
    states = [Held(scan.library) for _ in range(max(1, min(workers, len(paths))))]
    try:
        for state in states:
            scan.call("state_new", byref(state.handle))
        take_all(states, paths, read)
        states[0].call("finish")
        return states.pop(0)
    finally:
        for state in states:
            state.free()


class Work:
    """Manifests that several threads take, each into a state of its own."""

    def __init__(self, paths: List[str], read: Read) -> None:
        self.paths, self.read = paths, read
        self.left: Deque[int] = collections.deque(range(len(paths)))
        self.raised: Dict[int, BaseException] = {}

    def run(self, state: Held) -> None:
        """Takes manifests until none is left. One that can't be read ends the work of all threads."""
        while True:
            try:
                i = self.left.popleft()
            except IndexError:
                return
            try:
                state.call("state_take", i, *given(bytes(self.read(self.paths[i]))))
            except BaseException as error:
                self.raised[i] = error
                self.left.clear()
                return


def take_all(states: List[Held], paths: List[str], read: Read) -> None:
    """Takes each manifest into one of the states, in a thread for each, and brings what they took into the first."""
    work = Work(paths, read)
    if len(states) == 1:
        work.run(states[0])
    else:
        with concurrent.futures.ThreadPoolExecutor(len(states), "icescan") as pool:
            try:
                concurrent.futures.wait([pool.submit(work.run, state) for state in states])
            finally:
                work.left.clear()
    if work.raised:
        raise work.raised[min(work.raised)]
    for other in states[1:]:
        states[0].call("state_absorb", byref(other.handle))


def plan_of(held: Held, unasked: Tuple[str, ...]) -> Plan:
    """The plan that a handle holds. A delete file that applies to several data files is one object."""
    deletes = [delete_file(held, n) for n in range(held.count("plan_deletes"))]
    used: Set[int] = set()
    files = tuple(data_file(held, i, deletes, used) for i in range(held.count("plan_count")))
    return Plan(files, tuple(deletes[n] for n in sorted(used)), unasked)


def data_file(held: Held, i: int, deletes: List[DeleteFile], used: Set[int]) -> DataFile:
    """The data file `i` of a plan."""
    file = File()
    held.call("plan_file", i, *told(file))
    return DataFile(
        **shared_of(file),
        position_deletes=deletes_of(held, "plan_position", i, file.positions, deletes, used),
        equality_deletes=deletes_of(held, "plan_equality", i, file.equalities, deletes, used),
        **values_of(held, "plan_value", i, file.values),
    )


def deletes_of(
    held: Held, name: str, i: int, count: int, deletes: List[DeleteFile], used: Set[int]
) -> Tuple[DeleteFile, ...]:
    """The delete files of one kind that apply to the data file `i`."""
    numbers, file = [], File()
    for j in range(count):
        held.call(name, i, j, *told(file))
        numbers.append(file.number)
    used.update(numbers)
    return tuple(deletes[n] for n in numbers)


def delete_file(held: Held, n: int) -> DeleteFile:
    """The delete file `n` of a plan."""
    file = File()
    held.call("plan_delete", n, *told(file))
    return DeleteFile(
        **shared_of(file),
        equality_ids=file.equality_ids.read(),
        **values_of(held, "plan_delete_value", n, file.values),
    )


def values_of(held: Held, name: str, i: int, count: int) -> Dict[str, Any]:
    """The partition values of a file, and their types."""
    values, types, value = [], [], LentValue()
    for k in range(count):
        held.call(name, i, k, *told(value))
        values.append(value.read())
        types.append(value.type.text())
    return {"partition": tuple(values), "partition_types": tuple(types)}


def shared_of(file: File) -> Dict[str, Any]:
    """What data files and delete files have."""
    added = file.file_sequence_number
    return {
        "path": file.path.text(),
        "sequence_number": file.sequence_number,
        "spec_id": file.spec_id,
        "record_count": file.record_count,
        "file_size": file.file_size,
        "format": FORMATS[file.format],
        "file_sequence_number": None if added == NO_NUMBER else added,
    }
