"""The columns of a table, and the fields of its partition specs."""
from __future__ import annotations

import os
from dataclasses import dataclass
from typing import Any, Dict, Iterable, Iterator, Optional, Tuple, Union

from ._files import Read
from ._library import Held, loaded, objects_of, place
from ._plan import asked_of, reader_of


@dataclass(frozen=True)
class Column:
    """A column. `type` is that of its values, as `long` or `decimal(9,2)`, or `struct`, `list` or `map`; `compared`
    says how a filter may compare it: `yes`, `equality` or `no`; `name` is how a filter writes it, None where it can't.
    """

    id: int
    type: str
    required: bool
    compared: str
    name: Optional[str]


@dataclass(frozen=True)
class PartitionField:
    """A field of a partition spec: what its transform makes of the column `source_id`."""

    id: int
    source_id: int
    transform: str
    name: str


@dataclass(frozen=True)
class Columns:
    """The columns of a schema, and the partition specs of the table by their ids; new files have the default one."""

    schema_id: int
    columns: Tuple[Column, ...]
    default_spec_id: int
    specs: Dict[int, Tuple[PartitionField, ...]]

    def __iter__(self) -> Iterator[Column]:
        return iter(self.columns)

    def __len__(self) -> int:
        return len(self.columns)


def columns(
    metadata: str,
    *,
    ref: Optional[str] = None,
    snapshot: Optional[int] = None,
    folder: Union[str, "os.PathLike[str]", None] = None,
    prefix: str = "",
    read: Optional[Read] = None,
) -> Columns:
    """The columns that a filter of a snapshot names, which is named as for `plan`; a table without snapshots has some
    too. The metadata file alone is read."""
    asked = asked_of(metadata, reader_of(folder, prefix, read), ref, snapshot)
    with Held(loaded(place())) as held:
        asked.ask(held, "columns_new")
        return columns_of(objects_of(held.text("text")))


def columns_of(lines: Iterable[Dict[str, Any]]) -> Columns:
    """The columns that lines of JSON tell."""
    schema, default, columns = 0, 0, []
    specs: Dict[int, Tuple[PartitionField, ...]] = {}
    for it in lines:
        if it["kind"] == "schema":
            schema = it["schema"]
        elif it["kind"] == "column":
            columns.append(Column(it["column"], it["type"], it["required"], it["filter"], it["name"]))
        elif it["kind"] == "default-spec":
            default = it["spec"]
        elif it["kind"] == "spec":
            specs[it["spec"]] = ()
        else:
            specs[it["spec"]] += (PartitionField(it["field"], it["source"], it["transform"], it["name"]),)
    return Columns(schema, tuple(columns), default, specs)
