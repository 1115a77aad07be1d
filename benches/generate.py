#!/usr/bin/env python3
"""generate.py TABLE FOLDER [SHARE [SEED]]: writes the metadata of one table of the benchmark into FOLDER, which has to
be new. Without arguments it lists the tables.

Manifest lists and manifests are uncompressed and laid out as Avro's Java library does it: the schemas with their
sentences, blocks of 64,000 bytes, statistics of each column in six maps, split offsets, a sort order. SHARE is the part
of the table's size (1), SEED any text. The same arguments give the same bytes.
"""
import concurrent.futures
import dataclasses
import datetime
import functools
import json
import os
import random
import struct
import sys
from typing import NamedTuple

LOCATION = "s3://warehouse/db/events"
METADATA = LOCATION + "/metadata/v1.metadata.json"
LIST = LOCATION + "/metadata/snap-1.avro"
SNAPSHOT = 4086661043878124345
FIRST_DAY = 19700
MICROSECONDS_A_DAY = 86_400_000_000
BLOCK = 64_000
VARIANTS = 64
ADDED, EXISTING, DELETED = 1, 0, 2
DATA, POSITION, EQUALITY = 0, 1, 2
SOURCES = (0, 2)  # the places of the columns that partition fields come from, which have no nulls


class File(NamedTuple):
    """One entry of a manifest. `own` is its sequence number, None where it is the manifest's; `named` is the one data
    file that a position delete file is about. Column c1 lies from `c1` to `c1` + 7."""
    status: int
    own: int | None
    content: int
    path: str
    day: int
    bucket: int
    rows: int
    size: int
    ids: tuple
    named: str | None
    c1: int


class Drawn:
    """Numbers from a seed, the same with every version of Python."""

    def __init__(self, *seed):
        self.bits = random.Random(" ".join(map(str, seed))).getrandbits

    def below(self, limit):
        return self.bits(48) % limit

    def uuid(self):
        text = f"{self.bits(128):032x}"
        return f"{text[:8]}-{text[8:12]}-{text[12:16]}-{text[16:20]}-{text[20:]}"

    def task(self):
        """What engines begin a file's name with: the task's number, its attempt and a uuid."""
        return f"{self.below(100_000):05}-{self.below(10)}-{self.uuid()}"


def plain_name(drawn, index, first):
    return f"{drawn.task()}.parquet"


def rising_name(drawn, index, first):
    return f"part-{index:010}-0e7c2b1a.parquet"


def shared_name(drawn, index, first):
    """All but each manifest's first begin with the same sixteen bytes, so that these are not part of what all share."""
    return ("0-" if first else "nightly-load-of-") + plain_name(drawn, index, first)


def foreign_name(drawn, index, first):
    city = ("Zürich/", "東京/", "Αθήνα/", "Łódź/")[drawn.below(4)]
    return city + plain_name(drawn, index, first)


def escaped_name(drawn, index, first):
    odd = ("load of 7 May/", "back\\slash/", "tab\there/", "del\x7fete/")[drawn.below(4)]
    return odd + plain_name(drawn, index, first)


@dataclasses.dataclass(frozen=True)
class Table:
    about: str
    data: tuple = (200, 5000)     # manifests of data files, and how many files each has
    deletes: tuple = (0, 0)       # the same of delete files
    growing: bool = True          # a larger table has more delete files too
    kinds: tuple = (POSITION, EQUALITY)  # what the manifests of delete files hold, by turns
    days: int = 0                 # partitions by day and, where there are buckets, by bucket; 0: no partition fields
    buckets: int = 0
    mixed: bool = False           # each manifest of data files has files of all days, and not of one
    numbers: tuple = (0, 0)       # data files, delete files: own numbers from 1 to this; 0: the manifest's
    deleted: int = 0              # one entry in so many has status deleted
    named: bool = False           # each delete file names a data file
    columns: int = 10
    texts: bool = True            # bounds of the columns from the fourth on are texts
    full: bool = True             # all six maps, and what else the specification knows; else four maps alone
    long_text: bool = False       # the schema's text is twice as long as Iceberg's
    name: object = plain_name

    def of(self, share):
        def part(pair):
            files = round(pair[0] * pair[1] * share)
            manifests = max(1, round(pair[0] * share)) if pair[0] else 0
            return (manifests, files // manifests) if manifests else (0, 0)
        return dataclasses.replace(
            self, data=part(self.data), deletes=part(self.deletes) if self.growing else self.deletes,
            days=max(1, round(self.days * share)) if self.days else 0)

    @property
    def fields(self):
        return [field for field, there in (("c3_day", self.days), ("c1_bucket", self.buckets)) if there]


BY_DAY = Table("by day and bucket, a tenth of the entries delete files", data=(180, 5000),
               deletes=(20, 5000), days=180, buckets=256)
TABLES = {
    "random": Table("paths in no order"),
    "random-deletes": Table("paths in no order, two manifests of delete files", deletes=(2, 3), growing=False,
                            numbers=(0, 200)),
    "days": BY_DAY,
    "numbers": dataclasses.replace(BY_DAY, about="by day and bucket, sequence numbers in no order, a twentieth of the "
                                   "entries deleted", numbers=(200, 200), deleted=20),
    "manifests-8000": Table("8,000 manifests of 10 files, a long schema in each", data=(8000, 10), long_text=True),
    "manifests-65536": Table("65,536 manifests of 10 files, a long schema in each", data=(65536, 10), long_text=True),
    "deletes-10000x10": Table("10,000 manifests of 10 delete files beside 10,000 data files", data=(2, 5000),
                              deletes=(10000, 10), days=1000, buckets=128, mixed=True, numbers=(200, 200)),
    "deletes-100x10000": Table("100 manifests of 10,000 delete files beside 10,000 data files", data=(2, 5000),
                               deletes=(100, 10000), days=1000, buckets=128, mixed=True, numbers=(200, 200)),
    "equality": Table("1,000 equality deletes, each applies to all of 20,000 data files", data=(4, 5000),
                      deletes=(1, 1000), growing=False, kinds=(EQUALITY,)),
    "equality-numbers": Table("1,000 equality deletes of 100 sequence numbers beside 20,000 data files", data=(4, 5000),
                              deletes=(1, 1000), growing=False, kinds=(EQUALITY,), numbers=(100, 100)),
    "wide": Table("100,000 data files with statistics of 200 columns", data=(20, 5000), columns=200, texts=False),
    "named": Table("100,000 position deletes that name one data file each", deletes=(20, 5000), kinds=(POSITION,),
                   named=True),
    "shared": Table("paths in no order that share sixteen bytes after what all share", name=shared_name),
    "foreign": Table("paths in no order that are not ASCII", name=foreign_name),
    "escaped": Table("paths in no order that need escapes", name=escaped_name),
    "rising": Table("rising paths, a day a manifest, eight columns in four maps", data=(100, 10000), days=100,
                    columns=8, texts=False, full=False, name=rising_name),
}


# ---- what the files are ----

@functools.cache
def folder(day, bucket):
    return f"c3_day={datetime.date(1970, 1, 1) + datetime.timedelta(day)}/c1_bucket={bucket}/"


def files(table, seed, content, at):
    """The files of the manifest of this number, of data files or of delete files."""
    drawn = Drawn(seed, content, at)
    of_data = content == DATA
    content = content if of_data else table.kinds[at % len(table.kinds)]
    numbers = table.numbers[not of_data]
    targets = named(table, seed, at) if table.named and not of_data else None
    each = table.data[1] if of_data else table.deletes[1]
    for place in range(each):
        status = DELETED if table.deleted and not drawn.below(table.deleted) else EXISTING if numbers else ADDED
        day = FIRST_DAY + (at if of_data and not table.mixed else drawn.below(table.days)) if table.days else 0
        bucket = drawn.below(table.buckets) if table.buckets else 0
        index = at * each + place
        name = table.name(drawn, index, place == 0) if of_data else f"{drawn.task()}-deletes.parquet"
        path = f"{LOCATION}/data/{folder(day, bucket) if table.buckets else ''}{name}"
        c1 = 8 * index if table.name is rising_name else drawn.below(1 << 40)
        yield File(status, 1 + drawn.below(numbers) if numbers else None, content, path, day, bucket,
                   1000 + drawn.below(1 << 20), 4096 + drawn.below(1 << 28), (1, 4) if content == EQUALITY else (),
                   targets[place] if targets else None, c1)


def named(table, seed, at):
    """Data files that the delete files of the manifest of this number name, in no order."""
    manifests, each = table.deletes
    paths = [file.path for data in range(at, table.data[0], manifests) for file in files(table, seed, DATA, data)]
    return paths[::max(1, len(paths) // each)][:each][::-1]


def number_of(table, content, at):
    """The sequence number of a manifest: those of delete files are younger than those of data files."""
    return at + 1 if content == DATA else table.data[0] + at + 1


def manifests(table):
    return [(DATA, at) for at in range(table.data[0])] + [(POSITION, at) for at in range(table.deletes[0])]


# ---- how they are written ----

def spelled(value):
    value = (value << 1) ^ (value >> 63)
    out = bytearray()
    while value > 127:
        out.append(value & 127 | 128)
        value >>= 7
    out.append(value)
    return bytes(out)


SMALL = [spelled(value) for value in range(1 << 13)]
LOW = [bytes((low & 127 | 128, low >> 7 | 128)) for low in range(1 << 14)]
HIGH = [bytes((high,)) if high < 128 else bytes((high & 127 | 128, high >> 7)) for high in range(1 << 14)]


def number(value):
    """A number as Avro spells it; those that entries have most come from tables."""
    if 0 <= value < 1 << 13:
        return SMALL[value]
    if 0 <= value < 1 << 27:
        return LOW[value << 1 & 16383] + HIGH[value >> 13]
    return spelled(value)


def run(data):
    return number(len(data)) + data


def some(data):
    """The second branch of a union with null."""
    return number(1) + data


NULL = number(0)
ONE_BLOCK = number(1)


# ---- schemas ----

def field(identifier, name, kind, doc=None):
    made = {"name": name, "type": kind}
    if doc:
        made["doc"] = doc
    if isinstance(kind, list):
        made["default"] = None
    return {**made, "field-id": identifier}


def record(name, *fields):
    return {"type": "record", "name": name, "fields": fields}


def pairs(key, value, kind):
    item = record(f"k{key}_v{value}", field(key, "key", "int"), field(value, "value", kind))
    return ["null", {"type": "array", "items": item, "logicalType": "map"}]


def array(element_id, kind):
    return ["null", {"type": "array", "items": kind, "element-id": element_id}]


CELLS = {"c3_day": field(1000, "c3_day", ["null", {"type": "int", "logicalType": "date"}]),
         "c1_bucket": field(1001, "c1_bucket", ["null", "int"])}
# the fields of data_file; those of LATER are in full tables alone
DATA_FILE = [
    (134, "content", "int", "Contents of the file: 0=data, 1=position deletes, 2=equality deletes"),
    (100, "file_path", "string", "Location URI with FS scheme"),
    (101, "file_format", "string", "File format name: avro, orc, or parquet"),
    (102, "partition", None, "Partition data tuple, schema based on the partition spec"),
    (103, "record_count", "long", "Number of records in the file"),
    (104, "file_size_in_bytes", "long", "Total file size in bytes"),
    (108, "column_sizes", pairs(117, 118, "long"), "Map of column id to total size on disk"),
    (109, "value_counts", pairs(119, 120, "long"), "Map of column id to total count, including null and NaN"),
    (110, "null_value_counts", pairs(121, 122, "long"), "Map of column id to null value count"),
    (137, "nan_value_counts", pairs(138, 139, "long"), "Map of column id to number of NaN values in the column"),
    (125, "lower_bounds", pairs(126, 127, "bytes"), "Map of column id to lower bound"),
    (128, "upper_bounds", pairs(129, 130, "bytes"), "Map of column id to upper bound"),
    (131, "key_metadata", ["null", "bytes"], "Encryption key metadata blob"),
    (132, "split_offsets", array(133, "long"), "Splittable offsets"),
    (135, "equality_ids", array(136, "int"), "Equality comparison field IDs"),
    (140, "sort_order_id", ["null", "int"], "Sort order ID"),
    (143, "referenced_data_file", ["null", "string"],
     "Fully qualified location (URI with FS scheme) of a data file that all deletes reference")]
LATER = (108, 137, 131, 132, 140, 143)


def entry_type(table):
    partition = record("r102", *[CELLS[name] for name in table.fields])
    fields = [field(identifier, name, kind or partition, doc * (8 if table.long_text else 1))
              for identifier, name, kind, doc in DATA_FILE if table.full or identifier not in LATER]
    return record(
        "manifest_entry", field(0, "status", "int"), field(1, "snapshot_id", ["null", "long"]),
        field(3, "sequence_number", ["null", "long"]), field(4, "file_sequence_number", ["null", "long"]),
        field(2, "data_file", record("r2", *fields)))


SUMMARY = record(
    "r508", field(509, "contains_null", "boolean", "True if any file has a null partition value"),
    field(518, "contains_nan", ["null", "boolean"], "True if any file has a nan partition value"),
    field(510, "lower_bound", ["null", "bytes"], "Partition lower bound for all files"),
    field(511, "upper_bound", ["null", "bytes"], "Partition upper bound for all files"))
ROW = record(
    "manifest_file", field(500, "manifest_path", "string", "Location URI with FS scheme"),
    field(501, "manifest_length", "long", "Total file size in bytes"),
    field(502, "partition_spec_id", "int", "Spec ID used to write"),
    field(517, "content", "int", "Contents of the manifest: 0=data, 1=deletes"),
    field(515, "sequence_number", "long", "Sequence number when the manifest was added"),
    field(516, "min_sequence_number", "long", "Lowest sequence number in the manifest"),
    field(503, "added_snapshot_id", "long", "Snapshot ID that added the manifest"),
    field(504, "added_files_count", "int", "Added entry count"),
    field(505, "existing_files_count", "int", "Existing entry count"),
    field(506, "deleted_files_count", "int", "Deleted entry count"),
    field(512, "added_rows_count", "long", "Added rows count"),
    field(513, "existing_rows_count", "long", "Existing rows count"),
    field(514, "deleted_rows_count", "long", "Deleted rows count"),
    field(507, "partitions", ["null", {"type": "array", "items": SUMMARY, "element-id": 508}],
          "Summary for each partition"),
    field(519, "key_metadata", ["null", "bytes"], "Encryption key metadata blob"))


def text(value):
    return json.dumps(value, separators=(",", ":"), ensure_ascii=False).encode()


def schema(table):
    types = ["long", "long", "timestamptz"] + ["string" if table.texts else "long"] * table.columns
    columns = [*types[:table.columns], "long"]  # the last one has no statistics
    return {"type": "struct", "schema-id": 0, "fields": [
        {"id": at + 1, "name": f"c{at + 1}", "required": False, "type": kind} for at, kind in enumerate(columns)]}


def spec(table):
    known = {"c3_day": (3, 1000, "day"), "c1_bucket": (1, 1001, f"bucket[{table.buckets}]")}
    return [{"source-id": source, "field-id": own, "name": name, "transform": transform}
            for name in table.fields for source, own, transform in [known[name]]]


@functools.cache
def head(table, content):
    """A manifest's bytes up to the marker."""
    return head_of({
        "schema": text(schema(table)), "avro.schema": text(entry_type(table)), "avro.codec": b"null", "schema-id": b"0",
        "format-version": b"2", "partition-spec-id": b"0", "partition-spec": text(spec(table)),
        "content": b"data" if content == DATA else b"deletes"})


def head_of(written):
    pairs = [run(key.encode()) + run(value) for key, value in written.items()]
    return b"".join([b"Obj\x01", number(len(pairs)), *pairs, NULL])


def container(start, marker, objects):
    out, block, size = [start, marker], [], 0
    for made in objects:
        block.append(made)
        size += len(made)
        if size >= BLOCK:
            out += [number(len(block)), number(size), *block, marker]
            block, size = [], 0
    if block:
        out += [number(len(block)), number(size), *block, marker]
    return b"".join(out)


# ---- entries ----

class Statistics:
    """The maps of one file, made of parts that were drawn once a table: counts by columns, and the bounds from the
    fourth column on."""

    def __init__(self, table, seed):
        drawn, self.full = Drawn(seed, "statistics"), table.full
        self.keys = [number(column + 1) for column in range(table.columns)]
        self.front = some(number(table.columns))
        self.sizes = [self.of_numbers(drawn, 1 << 24) if table.full else b"" for _ in range(VARIANTS)]
        self.nulls = [self.of_numbers(drawn, 1000 if table.full else 64, SOURCES) for _ in range(VARIANTS)]
        self.nans = self.of_numbers(drawn, 1) if table.full else b""
        self.between = [self.front + self.keys[0], *self.keys[1:], NULL]
        first = [self.front + self.keys[0] + number(8), self.keys[1] + number(8), self.keys[2] + number(8)]
        self.first, self.pack = first, struct.Struct("<" + "".join(f"{len(part)}sq" for part in first)).pack
        self.lower, self.upper = zip(*[self.of_bounds(drawn, table.texts) for _ in range(VARIANTS)])
        self.splits = [some(ONE_BLOCK + number(4) + NULL), some(number(2) + number(4) + number(1 << 27) + NULL)]

    def of_numbers(self, drawn, limit, none=()):
        """A number below the limit for each column, and 0 for those at these places."""
        drawn_numbers = [drawn.below(limit) for _ in self.keys]
        numbers = [0 if at in none else one for at, one in enumerate(drawn_numbers)]
        return b"".join([self.front, *[key + number(one) for key, one in zip(self.keys, numbers)], NULL])

    def of_bounds(self, drawn, texts):
        """Those of the columns after the third, the lower and the upper ones."""
        def one(upper):
            drawn_text = (b"t" if upper else b"g") + drawn.uuid()[:15].encode()
            return drawn_text if texts else (drawn.below(1 << 32) + (upper << 32)).to_bytes(8, "little")
        return [b"".join([*[key + run(one(upper)) for key in self.keys[3:]], NULL]) for upper in (0, 1)]

    def maps(self, file, variant):
        one, two, three = self.first
        start = file.day * MICROSECONDS_A_DAY
        end = start + MICROSECONDS_A_DAY - 1
        return (self.sizes[variant], number(file.rows).join(self.between), self.nulls[variant], self.nans,
                self.pack(one, file.c1, two, file.rows, three, start), self.lower[variant],
                self.pack(one, file.c1 + 7, two, file.rows + file.size, three, end), self.upper[variant])


@functools.cache
def statistics(table, seed):
    return Statistics(table, seed)


def entries(table, seed, found):
    """The bytes of each entry."""
    made = statistics(table, seed)
    parquet = run(b"PARQUET" if table.full else b"parquet")
    cells, snapshot, order = len(table.fields), some(number(SNAPSHOT)), some(number(1))
    for at, file in enumerate(found):
        own = NULL + NULL if file.own is None else some(number(file.own)) * 2
        variant = at % VARIANTS
        ids = some(number(len(file.ids)) + b"".join(map(number, file.ids)) + NULL) if file.ids else NULL
        whole = (NULL, made.splits[file.size >> 27 & 1], ids, order,
                 some(run(file.named.encode())) if file.named else NULL) if table.full else (ids,)
        yield b"".join((number(file.status), snapshot, own, number(file.content), run(file.path.encode()), parquet,
                        some(number(file.day)) if cells else b"", some(number(file.bucket)) if cells > 1 else b"",
                        number(file.rows), number(file.size), *made.maps(file, variant), *whole))


def summary(values):
    return b"\0" + NULL + b"".join(some(run(value.to_bytes(4, "little"))) for value in (min(values), max(values)))


def row(table, seed, place, content, at):
    """Writes the manifest of this number. Gives its row in the manifest list."""
    found = list(files(table, seed, content, at))
    path = f"{LOCATION}/metadata/{'d' if content else 'm'}{at:06}.avro"
    marker = Drawn(seed, "marker", content, at).bits(128).to_bytes(16, "little")
    data = container(head(table, content), marker, entries(table, seed, found))
    with open(place + path.removeprefix(LOCATION), "wb") as out:
        out.write(data)
    own = number_of(table, content, at)
    live = [own if file.own is None else file.own for file in found if file.status != DELETED]
    counts = [[file.rows for file in found if file.status == status] for status in (ADDED, EXISTING, DELETED)]
    values = [[file.day for file in found], [file.bucket for file in found]][:len(table.fields)]
    summaries = number(len(values)) + b"".join(map(summary, values)) + NULL if values else NULL
    sequence_number = max(own, table.numbers[content != DATA])
    return b"".join([run(path.encode()), number(len(data)), number(0), number(content), number(sequence_number),
                     number(min(live, default=own)), number(SNAPSHOT), *[number(len(rows)) for rows in counts],
                     *[number(sum(rows)) for rows in counts], some(summaries), NULL])


def metadata(table):
    last = max(number_of(table, POSITION, table.deletes[0]), *table.numbers)
    return text({
        "format-version": 2, "table-uuid": "f79c3e09-677c-4bbd-a479-3f349cb785e7", "location": LOCATION,
        "last-sequence-number": last, "last-updated-ms": 0, "last-column-id": table.columns + 1, "current-schema-id": 0,
        "schemas": [schema(table)], "default-spec-id": 0, "partition-specs": [{"spec-id": 0, "fields": spec(table)}],
        "last-partition-id": 1001, "current-snapshot-id": SNAPSHOT, "snapshots": [
            {"snapshot-id": SNAPSHOT, "sequence-number": last, "timestamp-ms": 0, "manifest-list": LIST}]})


def write_list(place, path, seed, rows):
    written = {"avro.schema": text(ROW), "avro.codec": b"null", "format-version": b"2"}
    with open(place + path.removeprefix(LOCATION), "wb") as out:
        out.write(container(head_of(written), Drawn(seed, "list").bits(128).to_bytes(16, "little"), rows))


def write(name, place, share=1.0, seed="icescan"):
    """Writes a table, and returns the rows of its manifest list."""
    table = TABLES[name].of(share)
    seed = f"{seed} {name}"
    os.makedirs(place + "/metadata")
    with concurrent.futures.ProcessPoolExecutor() as workers:
        made = manifests(table)
        words = zip(*[(table, seed, place, *one) for one in made])
        rows = list(workers.map(row, *words, chunksize=max(1, len(made) // 400)))
    write_list(place, LIST, seed, rows)
    with open(place + METADATA.removeprefix(LOCATION), "wb") as out:
        out.write(metadata(table))
    return rows


def main():
    if len(sys.argv) < 3 or sys.argv[1] not in TABLES:
        sys.exit(__doc__ + "\n" + "\n".join(f"{name:20} {table.about}" for name, table in TABLES.items()))
    write(sys.argv[1], sys.argv[2], float((sys.argv[3:4] or [1])[0]), *sys.argv[4:5])


if __name__ == "__main__":
    main()
