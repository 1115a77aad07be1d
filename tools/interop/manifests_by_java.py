#!/usr/bin/python3
"""manifests_by_java.py: the files of a row delta with partition values of each type, by other programs.

Avro's Java library writes the manifests and the manifest list (Manifests.java; wants Debian's libavro-java and a JDK),
and this script the metadata. They are printed as `icescan row-delta --bundle` prints them, for
crates/icescan_runs/stdout. What a writer is free to choose is made as ours has it: JSON is compact, with the members of
each object by name, and the keys of an Avro header stand by name. With `bundle` the table and the change are printed,
for crates/icescan_runs/data/tables/each_type; with `plan` the plan of the new table as the answer of an Iceberg REST
catalog, for the same transcript. With `--check` only what is not in those two files is printed, and then the status is
1."""
import glob
import json
import os
import subprocess
import sys

HERE = os.path.dirname(os.path.abspath(__file__))
RUNS = os.path.join(HERE, "../../crates/icescan_runs")
JARS = ("avro", "jackson-core-asl", "jackson-mapper-asl", "slf4j-api", "slf4j-nop", "commons-compress", "snappy-java")
UUID = "f79c3e09-677c-4bbd-a479-3f349cb785e7"
LIST = "mem://t/metadata/snap-7-%s.avro" % UUID

COLUMNS = [("truth", "boolean"), ("small", "int"), ("big", "long"), ("day", "date"), ("hour", "time"),
           ("moment", "timestamp"), ("instant", "timestamptz"), ("word", "string"), ("four", "fixed[4]"),
           ("some", "binary"), ("key", "uuid"), ("price", "decimal(9,2)")]
FIELDS = [(i + 1, 1001 + i, COLUMNS[i][0], "identity") for i in range(10)]
OTHERS = [(11, 1101, "key", "identity"), (6, 1102, "moment_day", "day"), (3, 1103, "none", "void")]
PRICES = [(12, 1201, "price", "identity")]

# the values of Manifests.java, as a change file has them: days, and microseconds of a day and since 1970
DAY, MICROS = 86_400, 1_000_000
MORNING = 17_486 * DAY * MICROS
TIME = ((22 * 60 + 31) * 60 + 8) * MICROS
A = [True, -34, 2 ** 40, 17_486, TIME + 123_456, MORNING + TIME + 123_456, MORNING + TIME + 1, "iceberg",
     {"hex": "000102ff"}, {"hex": "ff"}]
B = [False, 34, -7, -1, 1, -1, MORNING + TIME + 2, "ice", {"hex": "80000000"}, {"hex": "00ff"}]
NONE = [None] * 10
KEY = {"hex": "00112233445566778899aabbccddeeff"}


def spec(number, fields):
    names = ("source-id", "field-id", "name", "transform")
    return {"spec-id": number, "fields": [dict(zip(names, field)) for field in fields]}


TABLE = {
    "format-version": 2, "table-uuid": UUID, "location": "mem://t", "last-sequence-number": 0, "last-updated-ms": 0,
    "last-column-id": 12, "last-partition-id": 1201, "current-schema-id": 0, "default-spec-id": 0,
    "schemas": [{"type": "struct", "schema-id": 0, "fields": [
        {"id": i + 1, "name": name, "required": False, "type": kind} for i, (name, kind) in enumerate(COLUMNS)]}],
    "partition-specs": [spec(0, FIELDS), spec(1, OTHERS), spec(2, PRICES)]}


def file(name, number, partition, rows, size, **more):
    return {"path": "mem://t/" + name, "format": name.split(".")[1], "spec-id": number, "partition": partition,
            "record-count": rows, "file-size": size, **{key.replace("_", "-"): value for key, value in more.items()}}


CHANGE = {
    "data": [file("a.parquet", 0, A, 10, 100), file("d.parquet", 1, [KEY, 17_486, None], 40, 400),
             file("b.orc", 0, B, 20, 200), file("c.avro", 0, NONE, 30, 300)],
    "deletes": [file("p.parquet", 0, A, 5, 50, content="position", referenced_data_file="mem://t/a.parquet"),
                file("e.parquet", 0, NONE, 6, 60, content="equality", equality_ids=[2, 8])]}
# no partition value that is a decimal is written
DECIMAL = {"data": [file("x.parquet", 2, [{"hex": "0000058c"}], 1, 10)], "deletes": []}


def compact(value):
    return json.dumps(value, sort_keys=True, separators=(",", ":"))


def next_metadata():
    """The table with the snapshot."""
    snapshot = {"snapshot-id": 7, "sequence-number": 1, "timestamp-ms": 99, "manifest-list": LIST,
                "summary": {"operation": "overwrite"}, "schema-id": 0}
    return {**TABLE, "last-sequence-number": 1, "last-updated-ms": 99, "current-snapshot-id": 7,
            "snapshots": [snapshot], "snapshot-log": [{"snapshot-id": 7, "timestamp-ms": 99}],
            "refs": {"main": {"snapshot-id": 7, "type": "branch"}}}


# ---- Avro's container files

def number(n):
    n, out = n << 1 ^ n >> 63, b""
    while n > 127:
        n, out = n >> 7, out + bytes([n & 127 | 128])
    return out + bytes([n])


def run(data):
    return number(len(data)) + data


class Bytes:
    def __init__(self, data):
        self.data, self.at = data, 0

    def take(self, count):
        self.at += count
        return self.data[self.at - count:self.at]

    def number(self):
        n = shift = 0
        while True:
            byte = self.take(1)[0]
            n |= (byte & 127) << shift
            shift += 7
            if byte < 128:
                return (n >> 1) ^ -(n & 1)

    def run(self):
        return self.take(self.number())


def with_our_choices(data):
    """The same file with its header's keys by name, and their JSON compact and by name."""
    source, keys = Bytes(data), {}
    assert source.take(4) == b"Obj\x01"
    while count := source.number():
        for _ in range(count):
            key = source.run()
            value = source.run()
            keys[key] = compact(json.loads(value)).encode() if value[:1] in (b"[", b"{") else value
    header = b"".join(run(key) + run(keys[key]) for key in sorted(keys))
    return b"Obj\x01" + number(len(keys)) + header + b"\0" + data[source.at:]


def by_java(lengths):
    jars = ":".join(path for jar in JARS for path in glob.glob("/usr/share/java/%s.jar" % jar))
    command = ["java", "-cp", jars, os.path.join(HERE, "Manifests.java"), *map(str, lengths)]
    written = subprocess.run(command, check=True, capture_output=True, text=True).stdout
    return [with_our_choices(bytes.fromhex(line.split()[1])) for line in written.splitlines()]


def answer():
    lengths = [len(data) for data in by_java([0, 0, 0])[:3]]
    files = by_java(lengths)
    paths = ["mem://t/metadata/%s-m%d.avro" % (UUID, i) for i in range(3)] + [LIST]
    pairs = [*zip(paths, files), ("mem://t/v1.json", compact(next_metadata()).encode())]
    return ["%s %s" % (path, data.hex()) for path, data in pairs]


def bundle():
    texts = [("mem://t/v0.json", TABLE), ("mem://t/c.json", CHANGE), ("mem://t/decimal.json", DECIMAL)]
    return ["%s %s" % (path, compact(value).encode().hex()) for path, value in texts]


# the values of A, B and D as the table format has them in JSON
AS_JSON = {
    "a.parquet": [True, -34, 2 ** 40, "2017-11-16", "22:31:08.123456", "2017-11-16T22:31:08.123456",
                  "2017-11-16T22:31:08.000001+00:00", "iceberg", "000102ff", "ff"],
    "b.orc": [False, 34, -7, "1969-12-31", "00:00:00.000001", "1969-12-31T23:59:59.999999",
              "2017-11-16T22:31:08.000002+00:00", "ice", "80000000", "00ff"],
    "c.avro": NONE, "d.parquet": ["00112233-4455-6677-8899-aabbccddeeff", "2017-11-16", None], "e.parquet": NONE}


def told(content, name, number, rows, size, **more):
    return {"content": content, "file-path": "mem://t/" + name, "file-format": name.split(".")[1], "spec-id": number,
            "partition": AS_JSON["a.parquet" if name == "p.parquet" else name], "file-size-in-bytes": size,
            "record-count": rows, "sequence-number": 1, **{key.replace("_", "-"): value for key, value in more.items()}}


def plan():
    """The position deletes are of the same commit and about one file; the equality deletes apply to earlier files, of
    which there are none, so no task names them."""
    deletes = [told("position-deletes", "p.parquet", 0, 5, 50, referenced_data_file="mem://t/a.parquet")]
    files = [told("data", *file) for file in (
        ("a.parquet", 0, 10, 100), ("b.orc", 0, 20, 200), ("c.avro", 0, 30, 300), ("d.parquet", 1, 40, 400))]
    tasks = [{"data-file": file} for file in files]
    tasks[0]["delete-file-references"] = [0]
    for task in tasks:
        task["residual-filter"] = True
    answer = {"status": "completed", "delete-files": deletes, "file-scan-tasks": tasks}
    return [json.dumps(answer, separators=(",", ":"))]


def main():
    if sys.argv[1:] != ["--check"]:
        print("\n".join({"bundle": bundle, "plan": plan}.get("".join(sys.argv[1:]), answer)()))
        return 0
    lacking = []
    for name, lines in (("stdout", answer() + plan()), ("data/tables/each_type", bundle())):
        with open(os.path.join(RUNS, name), encoding="utf-8") as there:
            found = set(there.read().splitlines())
        lacking += [line for line in lines if line not in found]
    for line in lacking:
        print(line)
    return 1 if lacking else 0


sys.exit(main())
