"""Plans as tables of pyarrow."""
from __future__ import annotations

import dataclasses
from typing import TYPE_CHECKING, Any, Dict, Optional

if TYPE_CHECKING:
    from ._plan import Plan


def table_of(plan: Plan) -> Any:
    """The plan as a table: a row for each data file, with its delete files as lists of structs, and
    partition values as texts."""
    try:
        import pyarrow
    except ImportError as error:
        raise ImportError("to_arrow needs pyarrow, which is not installed: python3 -m pip install pyarrow") from error
    counts = [
        ("path", pyarrow.string()),
        ("sequence_number", pyarrow.uint64()),
        ("spec_id", pyarrow.int32()),
        ("record_count", pyarrow.int64()),
        ("file_size", pyarrow.int64()),
    ]
    more = [
        ("format", pyarrow.string()),
        ("partition", pyarrow.list_(pyarrow.string())),
        ("file_sequence_number", pyarrow.uint64()),
        ("partition_types", pyarrow.list_(pyarrow.string())),
    ]
    deletes = pyarrow.list_(pyarrow.struct([*counts, ("equality_ids", pyarrow.list_(pyarrow.int32())), *more]))
    schema = pyarrow.schema([*counts, ("position_deletes", deletes), ("equality_deletes", deletes), *more])
    return pyarrow.Table.from_pylist([row_of(it) for it in plan.files], schema=schema)


def row_of(file: Any) -> Dict[str, Any]:
    """A file's row, with its partition values as texts."""
    row = dataclasses.asdict(file)
    for it in (row, *row.get("position_deletes", ()), *row.get("equality_deletes", ())):
        it["partition"] = [text_of(value) for value in it["partition"]]
    return row


def text_of(value: Any) -> Optional[str]:
    """A partition value as a text: bytes by their digits."""
    if isinstance(value, bool):
        return "true" if value else "false"
    return value.hex() if isinstance(value, bytes) else None if value is None else str(value)
