"""Which data files a scan of an Apache Iceberg table (format version 2) has to read, and which delete files apply.

    import icescan

    plan = icescan.plan(
        "s3://warehouse/db/events/metadata/00009-ea5012f5-592b-59fd-6564-e953f439e682.metadata.json",
        folder="examples/events-java/table",
        prefix="s3://warehouse/db/events",
        filter="id = 42",
    )
    for file in plan:
        print(file.path, [it.path for it in file.position_deletes + file.equality_deletes])

Manifests and manifest lists have to be without compression. Rows that are read must still be filtered.
"""
from ._audit import Audit, Finding, audit
from ._columns import Column, Columns, PartitionField, columns
from ._commit import Commit, prepare_commit
from ._errors import (
    ChangeError,
    EncodingError,
    Error,
    FilterError,
    KindError,
    LibraryNotFound,
    NullError,
    OtherScan,
    OutOfMemory,
    PastEnd,
    TableError,
)
from ._explain import Explanation, explain
from ._files import Folder
from ._plan import DataFile, DeleteFile, Plan, plan, plan_json

__version__ = "0.1.0"

__all__ = [
    "Audit",
    "ChangeError",
    "Column",
    "Columns",
    "Commit",
    "DataFile",
    "DeleteFile",
    "EncodingError",
    "Error",
    "Explanation",
    "FilterError",
    "Finding",
    "Folder",
    "KindError",
    "LibraryNotFound",
    "NullError",
    "OtherScan",
    "OutOfMemory",
    "PartitionField",
    "PastEnd",
    "Plan",
    "TableError",
    "audit",
    "columns",
    "explain",
    "plan",
    "plan_json",
    "prepare_commit",
]
