#!/usr/bin/python3
"""commits_elsewhere.py PROGRAM..: the files of commits, read by python3-avro and by avrocat.

PROGRAM is the built icescan, or words that run it; `tools/interop/commits_elsewhere.py crates/icescan/out/icescan`. It
wants Debian's python3-avro and avro-bin. Three tables are made in new folders and committed to by `append` and
`row-delta`:

- kinds: a spec without fields, and one with a field of each type that has bounds; two commits;
- specs: a spec with a uuid, one with two names that Avro would have alike, and one with a name with blanks and one that
  begins with a digit; three commits;
- names: specs with names of further characters; one commit.

Of each manifest and manifest list both readers have to give the entries, rows and file metadata that stand below, which
were written by hand from the changes and the Iceberg specification: each field by its name, and by its id. A reader
schema with the names of a spec, as Avro has them, gives the partition values. The program's plans are those below, and
its plan by a filter on a partition's column is, after each commit, the plan without a filter, cut by hand.

Prints a line for each check, and a last one that counts; the status is 1 where a check failed."""
import datetime
import json
import os
import re
import shutil
import struct
import subprocess
import sys
import tempfile
import warnings

import avro.schema
from avro.datafile import DataFileReader
from avro.io import DatumReader

PREFIX = "s3://warehouse/db/t"
UUIDS = ["00000000-0000-0000-0000-00000000000%d" % n for n in (1, 2, 3)]

# ---- what has to be read


def file_of(name, spec, partition, records=10, size=1000, **more):
    return dict({"path": "%s/data/%s.parquet" % (PREFIX, name), "format": "parquet", "spec-id": spec,
                 "partition": partition, "record-count": records, "file-size": size}, **more)


class Values:
    """A partition's values: as a change has them, as python3-avro gives them, and as avrocat prints them."""

    def __init__(self, change, read=None, printed=None):
        self.change = change
        self.read = change if read is None else read
        self.printed = self.read if printed is None else printed


class Manifest:
    """A new manifest: its commit and number, its spec, the entries, and the summaries of its row."""

    def __init__(self, commit, number, spec, files, summaries):
        self.commit, self.spec, self.files = commit, spec, files
        self.name = "%s-m%d.avro" % (UUIDS[commit - 1], number)
        self.content = "deletes" if any("content" in file for file, _ in files) else "data"
        self.summaries = summaries

    def entries(self, names, reader):
        return [self.entry(names, file, getattr(values, reader)) for file, values in self.files]

    def entry(self, names, file, values):
        """An added entry, with its fields by name."""
        content = {"position": 1, "equality": 2}.get(file.get("content"), 0)
        return {"status": 1, "snapshot_id": 100 + self.commit, "sequence_number": None, "file_sequence_number": None,
                "data_file": {
                    "content": content, "file_path": file["path"], "file_format": "parquet",
                    "partition": dict(zip(names, values)),
                    "record_count": file["record-count"], "file_size_in_bytes": file["file-size"],
                    "value_counts": None, "null_value_counts": None, "lower_bounds": None, "upper_bounds": None,
                    "equality_ids": file.get("equality-ids"),
                    "referenced_data_file": file.get("referenced-data-file")}}

    def row(self, folder):
        place = os.path.join("metadata", self.name)
        return {"manifest_path": "%s/%s" % (PREFIX, place),
                "manifest_length": os.path.getsize(os.path.join(folder, place)), "partition_spec_id": self.spec,
                "content": int(self.content == "deletes"), "sequence_number": self.commit,
                "min_sequence_number": self.commit, "added_snapshot_id": 100 + self.commit,
                "added_files_count": len(self.files), "existing_files_count": 0, "deleted_files_count": 0,
                "added_rows_count": sum(file["record-count"] for file, _ in self.files), "existing_rows_count": 0,
                "deleted_rows_count": 0, "partitions": None if self.summaries is None else [
                    {"contains_null": null, "contains_nan": None, "lower_bound": lower, "upper_bound": upper}
                    for null, lower, upper in self.summaries]}


class Table:
    """A table: its schema, its specs and their Avro names, and of each commit the change, the manifests and the plan.

    A filter stands with the data files that it leaves out."""

    def __init__(self, name, columns, specs, names, commits, filters=()):
        self.name, self.specs, self.names, self.commits, self.filters = name, specs, names, commits, filters
        self.schema = {"type": "struct", "schema-id": 4, "fields": columns}

    def metadata(self):
        columns = [dict(column, doc="left out where it is copied") for column in self.schema["fields"]]
        return {
            "format-version": 2, "table-uuid": "f79c3e09-677c-4bbd-a479-3f349cb785e7", "location": PREFIX,
            "last-sequence-number": 0, "last-updated-ms": 0, "last-column-id": 18, "current-schema-id": 4,
            "schemas": [dict(self.schema, fields=columns, **{"identifier-field-ids": [2]})],
            "default-spec-id": max(self.specs), "last-partition-id": 1014,
            "partition-specs": [{"spec-id": number, "fields": fields} for number, fields in self.specs.items()]}


def column(number, name, kind):
    return {"id": number, "name": name, "required": False, "type": kind}


def field(source, number, name, transform="identity"):
    return {"source-id": source, "field-id": number, "name": name, "transform": transform}


def int_bytes(number):
    return struct.pack("<i", number)


def long_bytes(number):
    return struct.pack("<q", number)


# names and field ids, depth first, as the Iceberg specification has them
LIST_IDS = [
    ("manifest_path", 500), ("manifest_length", 501), ("partition_spec_id", 502), ("content", 517),
    ("sequence_number", 515), ("min_sequence_number", 516), ("added_snapshot_id", 503), ("added_files_count", 504),
    ("existing_files_count", 505), ("deleted_files_count", 506), ("added_rows_count", 512),
    ("existing_rows_count", 513), ("deleted_rows_count", 514), ("partitions", 507), ("element", 508),
    ("contains_null", 509), ("contains_nan", 518), ("lower_bound", 510), ("upper_bound", 511)]
ENTRY_IDS = [("status", 0), ("snapshot_id", 1), ("sequence_number", 3), ("file_sequence_number", 4), ("data_file", 2),
             ("content", 134), ("file_path", 100), ("file_format", 101), ("partition", 102)]
COLUMN_IDS = [("record_count", 103), ("file_size_in_bytes", 104), ("value_counts", 109), ("key", 119), ("value", 120),
              ("null_value_counts", 110), ("key", 121), ("value", 122), ("lower_bounds", 125), ("key", 126),
              ("value", 127), ("upper_bounds", 128), ("key", 129), ("value", 130), ("equality_ids", 135),
              ("element", 136), ("referenced_data_file", 143)]

# ---- the table of kinds

KINDS = [column(1, "flag", "boolean"), column(2, "small", "int"), column(3, "large", "long"), column(4, "day", "date"),
         column(5, "clock", "time"), column(6, "at", "timestamp"), column(7, "at_utc", "timestamptz"),
         column(8, "word", "string"), column(9, "key", "uuid"), column(10, "code", "fixed[3]"),
         column(11, "raw", "binary")]
NESTED = [
    {"id": 12, "name": "place", "required": True, "type": {"type": "struct", "fields": [column(13, "x", "double")]}},
    {"id": 14, "name": "sums", "required": False, "type": {
        "type": "list", "element-id": 15, "element": "decimal(9, 2)"}},
    {"id": 16, "name": "tags", "required": False, "type": {
        "type": "map", "key-id": 17, "key": "string", "value-id": 18, "value": "float"}},
]
KINDS_SPEC = [field(one["id"], 999 + one["id"], one["name"]) for one in KINDS if one["type"] != "uuid"] + [
    field(3, 1011, "large_bucket", "bucket[16]"), field(8, 1012, "word_front", "truncate[4]"),
    field(7, 1013, "at_day", "day"), field(2, 1014, "small_void", "void")]
KINDS_NAMES = ["flag", "small", "large", "day", "clock", "at", "at_utc", "word", "code", "raw", "large_bucket",
               "word_front", "at_day", "small_void"]

# avrocat prints of bytes what stands before the first byte 00
UTC = datetime.timezone.utc
B_VALUES = Values(
    [True, -5, 1 << 40, 19790, 3723000001, 1709856000000000, 1709859600123456, "stra\u00dfe", {"hex": "0a0b0c"},
     {"hex": ""}, 7, "stra", 19790, None],
    [True, -5, 1 << 40, datetime.date(2024, 3, 8), datetime.time(1, 2, 3, 1), datetime.datetime(2024, 3, 8, tzinfo=UTC),
     datetime.datetime(2024, 3, 8, 1, 0, 0, 123456, UTC), "stra\u00dfe", b"\n\x0b\x0c", b"", 7, "stra", 19790, None],
    [True, -5, 1 << 40, 19790, 3723000001, 1709856000000000, 1709859600123456, "stra\u00dfe", "\n\x0b\x0c", "", 7,
     "stra", 19790, None])
C_VALUES = Values(
    [False, 2147483647, -1, -1, 0, -1, 0, "", {"hex": "ffffff"}, {"hex": "00ff"}, 0, None, None, None],
    [False, 2147483647, -1, datetime.date(1969, 12, 31), datetime.time(0),
     datetime.datetime(1969, 12, 31, 23, 59, 59, 999999, UTC), datetime.datetime(1970, 1, 1, tzinfo=UTC), "",
     b"\xff\xff\xff", b"\0\xff", 0, None, None, None],
    [False, 2147483647, -1, -1, 0, -1, 0, "", "\xff\xff\xff", "", 0, None, None, None])

# for each field of the spec: whether a value of B and C is null, and the least and the greatest one as single values
B_AND_C = [
    (False, b"\x00", b"\x01"), (False, int_bytes(-5), int_bytes(2147483647)),
    (False, long_bytes(-1), long_bytes(1 << 40)),
    (False, int_bytes(-1), int_bytes(19790)), (False, long_bytes(0), long_bytes(3723000001)),
    (False, long_bytes(-1), long_bytes(1709856000000000)), (False, long_bytes(0), long_bytes(1709859600123456)),
    (False, b"", b"stra\xc3\x9fe"), (False, b"\n\x0b\x0c", b"\xff\xff\xff"), (False, b"", b"\0\xff"),
    (False, int_bytes(0), int_bytes(7)), (True, b"stra", b"stra"), (True, int_bytes(19790), int_bytes(19790)),
    (True, None, None)]
# the same of B alone
B_ALONE = [
    (False, b"\x01", b"\x01"), (False, int_bytes(-5), int_bytes(-5)), (False, long_bytes(1 << 40), long_bytes(1 << 40)),
    (False, int_bytes(19790), int_bytes(19790)), (False, long_bytes(3723000001), long_bytes(3723000001)),
    (False, long_bytes(1709856000000000), long_bytes(1709856000000000)),
    (False, long_bytes(1709859600123456), long_bytes(1709859600123456)),
    (False, b"stra\xc3\x9fe", b"stra\xc3\x9fe"), (False, b"\n\x0b\x0c", b"\n\x0b\x0c"), (False, b"", b""),
    (False, int_bytes(7), int_bytes(7)), (False, b"stra", b"stra"), (False, int_bytes(19790), int_bytes(19790)),
    (True, None, None)]

NONE = Values([])
A = file_of("a", 0, [])
B = file_of("b", 3, B_VALUES.change, 20, 2000)
C = file_of("c", 3, C_VALUES.change, 30, 3000)
E = file_of("e", 0, [], 40, 4000)
P = file_of("p", 3, B_VALUES.change, 3, 300, content="position")
Q = file_of("q", 0, [], 4, 400, **{"content": "equality", "equality-ids": [2, 8]})

KINDS_TABLE = Table("kinds", KINDS + NESTED, {0: [], 3: KINDS_SPEC}, {0: [], 3: KINDS_NAMES}, [
    ("append", {"data": [B, A, C], "deletes": []},
     [Manifest(1, 0, 0, [(A, NONE)], []), Manifest(1, 1, 3, [(B, B_VALUES), (C, C_VALUES)], B_AND_C)], """\
data {0}/data/a.parquet seq 1 spec 0 rows 10 size 1000
data {0}/data/b.parquet seq 1 spec 3 rows 20 size 2000
data {0}/data/c.parquet seq 1 spec 3 rows 30 size 3000
files 3 deletes 0
"""),
    ("row-delta", {"data": [E], "deletes": [P, Q]},
     [Manifest(2, 0, 0, [(E, NONE)], []), Manifest(2, 1, 0, [(Q, NONE)], []),
      Manifest(2, 2, 3, [(P, B_VALUES)], B_ALONE)], """\
data {0}/data/a.parquet seq 1 spec 0 rows 10 size 1000
  eq {0}/data/q.parquet seq 2 ids 2,8
data {0}/data/b.parquet seq 1 spec 3 rows 20 size 2000
  pos {0}/data/p.parquet seq 2
  eq {0}/data/q.parquet seq 2 ids 2,8
data {0}/data/c.parquet seq 1 spec 3 rows 30 size 3000
  eq {0}/data/q.parquet seq 2 ids 2,8
data {0}/data/e.parquet seq 2 spec 0 rows 40 size 4000
files 4 deletes 4
""")])

# ---- the table of specs

SPECS = {1: [field(1, 1000, "key")], 2: [field(2, 1001, "a b"), field(3, 1002, "a_x20b")],
         3: [field(4, 1003, "day of event"), field(5, 1004, "2nd")]}
SPECS_NAMES = {1: ["key"], 2: ["p1001", "p1002"], 3: ["day_x20of_x20event", "_2nd"]}
SPECS_COLUMNS = [column(1, "key", "uuid"), column(2, "a b", "string"), column(3, "a_x20b", "int"),
                 column(4, "day of event", "date"), column(5, "2nd", "int")]
KEY, OTHER = "f79c3e09677c4bbda4793f349cb785e7", "11111111111111111111111111111111"


def key(digits):
    """A partition of the first spec."""
    if digits is None:
        return Values([None])
    return Values([{"hex": digits}], [bytes.fromhex(digits)], [bytes.fromhex(digits).decode("latin-1")])


def day(number, second):
    """A partition of the third spec."""
    return Values([number, second], [datetime.date(1970, 1, 1) + datetime.timedelta(number), second], [number, second])


def partitioned(name, spec, values, **more):
    return file_of(name, spec, values.change, **more), values


A1, A2, A3 = (partitioned(*it) for it in [("a1", 1, key(KEY)), ("a2", 1, key(OTHER)), ("a3", 1, key(None))])
B1, B2, B3 = (partitioned(name, 2, Values(it)) for name, it in [("b1", ["x", 1]), ("b2", ["x", 2]), ("b3", [None, 1])])
C1, C2, C3 = (partitioned(name, 3, day(*it)) for name, it in [
    ("c1", (19790, 7)), ("c2", (19791, 7)), ("c3", (19790, None))])
A4, C4 = partitioned("a4", 1, key(KEY)), partitioned("c4", 3, day(19791, 8))
PA = partitioned("pa", 1, key(KEY), content="position")
QB = partitioned("qb", 2, Values(["x", 1]), **{"content": "equality", "equality-ids": [2]})
PC = partitioned("pc", 3, day(19790, 7), **{"content": "position", "referenced-data-file": C1[0]["path"]})
A5, B4 = partitioned("a5", 1, key(None)), partitioned("b4", 2, Values(["y", 1]))
C5 = partitioned("c5", 3, day(19792, 8))


def change_of(data, deletes=()):
    return {"data": [file for file, _ in data], "deletes": [file for file, _ in deletes]}


def ints(null, least, greatest):
    return null, int_bytes(least), int_bytes(greatest)


SPECS_TABLE = Table("specs", SPECS_COLUMNS, SPECS, SPECS_NAMES, [
    ("append", change_of([C3, A1, B1, A2, C1, B3, B2, A3, C2]),
     [Manifest(1, 0, 1, [A1, A2, A3], None), Manifest(1, 1, 2, [B1, B3, B2], [(True, b"x", b"x"), ints(False, 1, 2)]),
      Manifest(1, 2, 3, [C3, C1, C2], [ints(False, 19790, 19791), ints(True, 7, 7)])], """\
data {0}/data/a1.parquet seq 1 spec 1 rows 10 size 1000
data {0}/data/a2.parquet seq 1 spec 1 rows 10 size 1000
data {0}/data/a3.parquet seq 1 spec 1 rows 10 size 1000
data {0}/data/b1.parquet seq 1 spec 2 rows 10 size 1000
data {0}/data/b2.parquet seq 1 spec 2 rows 10 size 1000
data {0}/data/b3.parquet seq 1 spec 2 rows 10 size 1000
data {0}/data/c1.parquet seq 1 spec 3 rows 10 size 1000
data {0}/data/c2.parquet seq 1 spec 3 rows 10 size 1000
data {0}/data/c3.parquet seq 1 spec 3 rows 10 size 1000
files 9 deletes 0
"""),
    ("row-delta", change_of([A4, C4], [PA, QB, PC]),
     [Manifest(2, 0, 1, [A4], None), Manifest(2, 1, 3, [C4], [ints(False, 19791, 19791), ints(False, 8, 8)]),
      Manifest(2, 2, 1, [PA], None), Manifest(2, 3, 2, [QB], [(False, b"x", b"x"), ints(False, 1, 1)]),
      Manifest(2, 4, 3, [PC], [ints(False, 19790, 19790), ints(False, 7, 7)])], """\
data {0}/data/a1.parquet seq 1 spec 1 rows 10 size 1000
  pos {0}/data/pa.parquet seq 2
data {0}/data/a2.parquet seq 1 spec 1 rows 10 size 1000
data {0}/data/a3.parquet seq 1 spec 1 rows 10 size 1000
data {0}/data/a4.parquet seq 2 spec 1 rows 10 size 1000
  pos {0}/data/pa.parquet seq 2
data {0}/data/b1.parquet seq 1 spec 2 rows 10 size 1000
  eq {0}/data/qb.parquet seq 2 ids 2
data {0}/data/b2.parquet seq 1 spec 2 rows 10 size 1000
data {0}/data/b3.parquet seq 1 spec 2 rows 10 size 1000
data {0}/data/c1.parquet seq 1 spec 3 rows 10 size 1000
  pos {0}/data/pc.parquet seq 2
data {0}/data/c2.parquet seq 1 spec 3 rows 10 size 1000
data {0}/data/c3.parquet seq 1 spec 3 rows 10 size 1000
data {0}/data/c4.parquet seq 2 spec 3 rows 10 size 1000
files 11 deletes 4
"""),
    ("append", change_of([A5, B4, C5]),
     [Manifest(3, 0, 1, [A5], [(True, None, None)]), Manifest(3, 1, 2, [B4], [(False, b"y", b"y"), ints(False, 1, 1)]),
      Manifest(3, 2, 3, [C5], [ints(False, 19792, 19792), ints(False, 8, 8)])], """\
data {0}/data/a1.parquet seq 1 spec 1 rows 10 size 1000
  pos {0}/data/pa.parquet seq 2
data {0}/data/a2.parquet seq 1 spec 1 rows 10 size 1000
data {0}/data/a3.parquet seq 1 spec 1 rows 10 size 1000
data {0}/data/a4.parquet seq 2 spec 1 rows 10 size 1000
  pos {0}/data/pa.parquet seq 2
data {0}/data/a5.parquet seq 3 spec 1 rows 10 size 1000
data {0}/data/b1.parquet seq 1 spec 2 rows 10 size 1000
  eq {0}/data/qb.parquet seq 2 ids 2
data {0}/data/b2.parquet seq 1 spec 2 rows 10 size 1000
data {0}/data/b3.parquet seq 1 spec 2 rows 10 size 1000
data {0}/data/b4.parquet seq 3 spec 2 rows 10 size 1000
data {0}/data/c1.parquet seq 1 spec 3 rows 10 size 1000
  pos {0}/data/pc.parquet seq 2
data {0}/data/c2.parquet seq 1 spec 3 rows 10 size 1000
data {0}/data/c3.parquet seq 1 spec 3 rows 10 size 1000
data {0}/data/c4.parquet seq 2 spec 3 rows 10 size 1000
data {0}/data/c5.parquet seq 3 spec 3 rows 10 size 1000
files 14 deletes 4
""")],
    [("key = 'f79c3e09-677c-4bbd-a479-3f349cb785e7'", "a2 a3 a5"),
     ("key != 'f79c3e09-677c-4bbd-a479-3f349cb785e7'", "a1 a3 a4 a5"),
     ("key is null", "a1 a2 a4"), ("key is not null", "a3 a5"),
     ("\"a b\" = 'x'", "b3 b4"), ("\"a b\" starts with 'y'", "b1 b2 b3"), ("\"a b\" is null", "b1 b2 b4"),
     ("a_x20b = 2", "b1 b3 b4"), ("a_x20b < 2", "b2"), ("a_x20b is null", "b1 b2 b3 b4"),
     ("\"day of event\" = 19790", "c2 c4 c5"), ("\"day of event\" > 19790", "c1 c3"),
     ("\"2nd\" = 7", "c3 c4 c5"), ("\"2nd\" is null", "c1 c2 c4 c5"), ("\"2nd\" in (8, 9)", "c1 c2 c3"),
     ("\"a b\" = 'x' and \"2nd\" = 8", "b3 b4 c1 c2 c3")])

# ---- the table of names

MANY = {1: [field(1, 1000, "_under"), field(2, 1001, "CamelCase9")],
        2: [field(1, 1002, "\u00e4hnlich"), field(2, 1003, "\U0001f600-\u65e5")],
        3: [field(1, 1004, ""), field(2, 1005, "other")],
        4: [field(1, 1006, "9"), field(2, 1007, "1 2")],
        5: [field(1, 1008, "_9"), field(2, 1009, "9")],
        6: [field(1, 1010, "x.y"), field(2, 1011, "x_x2Ey2")],
        7: [field(3, 1012, "the key"), field(1, 1013, "plain")]}
MANY_NAMES = {1: ["_under", "CamelCase9"], 2: ["_xE4hnlich", "_x1F600_x2D_x65E5"], 3: ["p1004", "p1005"],
              4: ["_9", "_1_x202"], 5: ["p1008", "p1009"], 6: ["x_x2Ey", "x_x2Ey2"], 7: ["the_x20key", "plain"]}
PAIR = Values([1, 2])
KEYED = Values([{"hex": KEY}, 1], [bytes.fromhex(KEY), 1], [bytes.fromhex(KEY).decode("latin-1"), 1])
NAMED = {spec: partitioned("n%d" % spec, spec, KEYED if spec == 7 else PAIR) for spec in MANY}
ONE_AND_TWO = [ints(False, 1, 1), ints(False, 2, 2)]
MANY_COLUMNS = [column(1, "one", "int"), column(2, "two", "int"), column(3, "id", "uuid")]
NAMES_TABLE = Table("names", MANY_COLUMNS, MANY, MANY_NAMES, [
    ("append", change_of(NAMED.values()),
     [Manifest(1, spec - 1, spec, [NAMED[spec]], None if spec == 7 else ONE_AND_TWO) for spec in MANY], """\
data {0}/data/n1.parquet seq 1 spec 1 rows 10 size 1000
data {0}/data/n2.parquet seq 1 spec 2 rows 10 size 1000
data {0}/data/n3.parquet seq 1 spec 3 rows 10 size 1000
data {0}/data/n4.parquet seq 1 spec 4 rows 10 size 1000
data {0}/data/n5.parquet seq 1 spec 5 rows 10 size 1000
data {0}/data/n6.parquet seq 1 spec 6 rows 10 size 1000
data {0}/data/n7.parquet seq 1 spec 7 rows 10 size 1000
files 7 deletes 0
""")])

# ---- reading and comparing

COUNTS = {True: 0, False: 0}


def difference(found, expected, at=""):
    """The place where two values differ first, and both there."""
    if isinstance(found, dict) and isinstance(expected, dict) and list(found) == list(expected):
        pairs = [(found[name], expected[name], "%s.%s" % (at, name)) for name in found]
    elif isinstance(found, list) and isinstance(expected, list) and len(found) == len(expected):
        pairs = [(one, other, "%s[%d]" % (at, n)) for n, (one, other) in enumerate(zip(found, expected))]
    else:
        return "%s is %r, and %r is expected" % (at or "it", found, expected)
    return next((difference(*pair) for pair in pairs if pair[0] != pair[1]), "%s: the order" % (at or "it"))


def compare(what, found, expected):
    COUNTS[found == expected] += 1
    print("ok   " + what if found == expected else "FAIL %s\n       %s" % (what, difference(found, expected)))


def read_by_python(path, schema=None):
    with open(path, "rb") as file, DataFileReader(file, DatumReader(readers_schema=schema)) as reader:
        return reader.meta, list(reader)


def without_branches(value):
    """avrocat names the branch of a union, as in {"long": 1}."""
    if isinstance(value, list):
        return [without_branches(item) for item in value]
    if not isinstance(value, dict):
        return value
    if len(value) == 1:
        (name, inner), = value.items()
        if name in ("boolean", "int", "long", "string", "bytes", "array") or re.fullmatch(r"f\d+", name):
            return without_branches(inner)
    return {name: without_branches(inner) for name, inner in value.items()}


def read_by_avrocat(path):
    printed = subprocess.run(["avrocat", path], capture_output=True, check=True).stdout
    return [without_branches(json.loads(line)) for line in printed.decode().splitlines()]


def ids_in(schema):
    """The names and ids of a schema's fields, depth first."""
    if isinstance(schema, list):
        return [pair for branch in schema for pair in ids_in(branch)]
    if not isinstance(schema, dict):
        return []
    if schema["type"] == "array":
        own = [("element", schema["element-id"])] if "element-id" in schema else []
        return own + ids_in(schema["items"])
    found = []
    for one in schema.get("fields", []):
        found += [(one["name"], one["field-id"])] + ids_in(one["type"])
    return found


def by_id(schema, value):
    """A value with its records' fields by their ids."""
    if isinstance(schema, list):
        schema = next((branch for branch in schema if branch != "null"), "null")
    if isinstance(schema, dict) and schema["type"] == "array" and value is not None:
        return [by_id(schema["items"], item) for item in value]
    if isinstance(schema, dict) and schema["type"] == "record" and value is not None:
        return {one["field-id"]: by_id(one["type"], value[one["name"]]) for one in schema["fields"]}
    return value


def expected_by_id(value, ids):
    """A value with its records' fields by the ids that these names have."""
    if isinstance(value, list):
        return [expected_by_id(item, ids) for item in value]
    if isinstance(value, dict):
        return {ids[name]: expected_by_id(inner, ids) for name, inner in value.items()}
    return value


def text_of(printed):
    """Bytes as avrocat prints them: a character for each, up to the first byte 00."""
    return None if printed is None else printed.decode("latin-1").split("\0")[0]


def printed_row(row):
    summaries = row["partitions"] and [
        dict(one, lower_bound=text_of(one["lower_bound"]), upper_bound=text_of(one["upper_bound"]))
        for one in row["partitions"]]
    return dict(row, partitions=summaries)


def resolved(path, schema, names):
    """The partition values that python3-avro gives a reader who knows a spec's names, each null where it is absent."""
    file = next(one for one in schema["fields"] if one["name"] == "data_file")["type"]
    partition = next(one for one in file["fields"] if one["name"] == "partition")["type"]
    kinds = [one["type"] for one in partition["fields"]]
    partition = {"type": "record", "name": partition["name"], "fields": [
        {"name": name, "type": kind, "default": None} for name, kind in zip(names, kinds)]}
    file = {"type": "record", "name": file["name"], "fields": [{"name": "partition", "type": partition}]}
    asked = {"type": "record", "name": schema["name"], "fields": [{"name": "data_file", "type": file}]}
    entries = read_by_python(path, avro.schema.parse(json.dumps(asked)))[1]
    return [list(entry["data_file"]["partition"].values()) for entry in entries]


# ---- the checks


def check_manifest(table, folder, expected):
    path = os.path.join(folder, "metadata", expected.name)
    names, fields = table.names[expected.spec], table.specs[expected.spec]
    what = "%s: manifest %s: " % (table.name, expected.name[-9:])
    meta, entries = read_by_python(path)
    schema = json.loads(meta.pop("avro.schema"))
    read = expected.entries(names, "read")
    compare(what + "python3-avro, by name", entries, read)
    compare(what + "avrocat, by name", read_by_avrocat(path), expected.entries(names, "printed"))
    own = [one["field-id"] for one in fields]
    # no counts or bounds are written, so their pairs' names, which stand for several ids, are not met
    ids = dict(ENTRY_IDS + COLUMN_IDS + [(number, number) for number in own])
    for entry in read:
        entry["data_file"]["partition"] = dict(zip(own, entry["data_file"]["partition"].values()))
    compare(what + "python3-avro, by id", [by_id(schema, entry) for entry in entries], expected_by_id(read, ids))
    compare(what + "a reader with the spec's names", resolved(path, schema, names),
            [values.read for _, values in expected.files])
    compare(what + "names and field ids", ids_in(schema), ENTRY_IDS + list(zip(names, own)) + COLUMN_IDS)
    compare(what + "the table's schema", json.loads(meta.pop("schema")), table.schema)
    compare(what + "the spec", json.loads(meta.pop("partition-spec")), fields)
    compare(what + "file metadata", meta, {
        "avro.codec": b"null", "schema-id": b"4", "partition-spec-id": b"%d" % expected.spec, "format-version": b"2",
        "content": expected.content.encode()})


def check_list(table, folder, commit, manifests):
    name = "snap-%d-%s.avro" % (100 + commit, UUIDS[commit - 1])
    path, what = os.path.join(folder, "metadata", name), "%s: manifest list %d: " % (table.name, commit)
    meta, rows = read_by_python(path)
    schema, expected = json.loads(meta.pop("avro.schema")), [one.row(folder) for one in manifests]
    compare(what + "python3-avro, by name", rows, expected)
    compare(what + "avrocat, by name", read_by_avrocat(path), [printed_row(row) for row in expected])
    compare(what + "python3-avro, by id", [by_id(schema, row) for row in rows],
            expected_by_id(expected, dict(LIST_IDS)))
    compare(what + "names and field ids", ids_in(schema), LIST_IDS)
    compare(what + "file metadata", meta, {"avro.codec": b"null", "format-version": b"2"})


def cut(plan, left_out):
    """A plan without these data files, and what stands below them."""
    blocks = re.findall(r"data .*\n(?:  .*\n)*", plan)
    left_out = ["%s/data/%s.parquet" % (PREFIX, name) for name in left_out.split()]
    kept = [block for block in blocks if block.split()[1] not in left_out]
    return "".join(kept) + "files %d deletes %d\n" % (len(kept), sum(block.count("\n  ") for block in kept))


def run(program, folder, command, *words):
    words = program + [command, "--dir", folder, "--prefix", PREFIX, *words]
    done = subprocess.run(words, capture_output=True, text=True)
    return done.stdout + done.stderr


def write(folder, name, value):
    with open(os.path.join(folder, name), "w", encoding="utf-8") as file:
        json.dump(value, file)


def check_commit(table, program, folder, commit):
    """Makes a commit; whether it was made as it has to be."""
    command, change, _, plan = table.commits[commit - 1]
    write(folder, "change.json", change)
    places = ["%s/metadata/v%d.json" % (PREFIX, n) for n in (commit, commit - 1)]
    told = run(program, folder, command, "--snapshot-id", str(100 + commit), "--uuid", UUIDS[commit - 1], "--now-ms",
               str(commit), "--out", *places, PREFIX + "/change.json")
    compare("%s: commit %d" % (table.name, commit), told, "committed snapshot %d seq %d\n" % (100 + commit, commit))
    if not os.path.exists(os.path.join(folder, "metadata", "v%d.json" % commit)):
        return False
    plan = plan.format(PREFIX)
    compare("%s: plan %d" % (table.name, commit), run(program, folder, "plan", places[0]), plan)
    for text, left_out in table.filters:
        compare("%s: plan %d where %s" % (table.name, commit, text),
                run(program, folder, "plan", "--filter", text, places[0]), cut(plan, left_out))
    return True


def check_table(table, program):
    folder, manifests = tempfile.mkdtemp(), []
    try:
        os.mkdir(os.path.join(folder, "metadata"))
        write(folder, "metadata/v0.json", table.metadata())
        for commit, (_, _, new, _) in enumerate(table.commits, 1):
            if not check_commit(table, program, folder, commit):
                break
            manifests += new
            for one in new:
                check_manifest(table, folder, one)
            check_list(table, folder, commit, manifests)
    finally:
        shutil.rmtree(folder)


def main():
    if len(sys.argv) < 2:
        sys.exit(__doc__)
    # python3-avro knows no logical type of arrays, nor of the bytes of a uuid
    warnings.simplefilter("ignore")
    for table in (KINDS_TABLE, SPECS_TABLE, NAMES_TABLE):
        check_table(table, sys.argv[1:])
    print("commits_elsewhere: %d checks passed, %d failed" % (COUNTS[True], COUNTS[False]))
    return 1 if COUNTS[False] else 0


if __name__ == "__main__":
    sys.exit(main())
