#!/usr/bin/env python3
"""small_inputs.py PROGRAM [--long] [NAME..]: commands on inputs below 1 MB whose parts multiply, within limits of
memory and time.

Each case makes a table in a folder, in which two parts are as large as the size lets them be: literals and partition
fields, a long name and many files, columns and entries; or in which a file is none: a pipe, one manifest under many
names. Then it runs a command on it by one worker and by four. No run may take more than 100 MB (where JSON has nothing
but small objects, 180 times its bytes) or 5 seconds of processor time, end out of memory, wait for ever, or have
another status than the case wants.

With --long it also plans tables of 6,553 and of 65,535 manifests of 10 delete files each, the most that a manifest list
may have beside one of data files: ten times as many may take no more than ten times the time, and an entry no more than
1.3 times what one of as many manifests of data files takes. That is no small input: it takes 300 MB of disk at a time,
and some minutes.

Prints each run, those that are over marked, and a last line that counts and names the cases of which a run is over.
NAME..: these cases alone. MEGABYTES and SECONDS in the environment are other limits.
"""
import json
import os
import resource
import signal
import statistics
import subprocess
import sys
import tempfile

MOST_INPUT = 1 << 20
MEGABYTES = int(os.environ.get("MEGABYTES", "100"))
SECONDS = float(os.environ.get("SECONDS", "5"))
SYNC = bytes(range(16))
UUID = "f79c3e09-677c-4bbd-a479-3f349cb785e7"


# ---- Avro


def number(n):
    n = n * 2 if n >= 0 else -n * 2 - 1
    out = bytearray()
    while n > 127:
        out.append(n & 127 | 128)
        n >>= 7
    out.append(n)
    return bytes(out)


def text(t):
    t = t if isinstance(t, bytes) else t.encode()
    return number(len(t)) + t


def container(schema, objects):
    schema = json.dumps(schema, separators=(",", ":"))
    body = b"".join(objects)
    return b"".join([b"Obj\x01", number(1), text("avro.schema"), text(schema), number(0), SYNC,
                     number(len(objects)), number(len(body)), body, SYNC])


def field(name, kind, ident):
    return {"name": name, "type": kind, "field-id": ident}


def record(name, fields):
    return {"type": "record", "name": name, "fields": fields}


ROW = [field("p", "string", 500), field("l", "long", 501), field("s", "int", 502), field("c", "int", 517),
       field("q", "long", 515), field("m", "long", 516), field("a", "long", 503)]
FILE = [field("c", "int", 134), field("p", "string", 100), field("f", "string", 101), field("r", "long", 103),
        field("b", "long", 104)]
MAPS = {"value_counts": (109, 119, 120, "long"), "null_value_counts": (110, 121, 122, "long"),
        "lower_bounds": (125, 126, 127, "bytes"), "upper_bounds": (128, 129, 130, "bytes")}


def row(path, spec=0, content=0):
    return text(path) + number(1) + number(spec) + number(content) + number(1) * 2 + number(5)


def entry(path, more=b"", content=0):
    """A live entry; `more` is what stands behind the fields that all have."""
    return number(1) + number(0) * 2 + number(content) + text(path) + b"\x00" + number(1) * 2 + more


def entry_schema(more=()):
    return record("e", [field("t", "int", 0), field("i", ["null", "long"], 1), field("n", ["null", "long"], 3),
                        field("d", record("f", FILE + list(more)), 2)])


def partition(kinds):
    return field("partition", record("p", [field(f"n{i}", ["null", kind], 1000 + i) for i, kind in enumerate(kinds)]), 102)


def map_of(name):
    ident, key, value, kind = MAPS[name]
    pair = record(f"k{key}", [field("key", "int", key), field("value", kind, value)])
    return field(name, {"type": "array", "items": pair, "logicalType": "map"}, ident)


def pairs(values):
    """A map of columns, in the order in which the pairs are given."""
    if not values:
        return number(0)
    both = [number(key) + (text(value) if isinstance(value, bytes) else number(value)) for key, value in values]
    return number(len(both)) + b"".join(both) + number(0)


# ---- metadata


def table(columns, specs, **changes):
    whole = {
        "format-version": 2, "table-uuid": UUID, "location": "mem://t", "last-sequence-number": 4, "last-updated-ms": 50,
        "last-column-id": 100000, "current-schema-id": 0, "default-spec-id": 0, "last-partition-id": 9999,
        "schemas": [{"type": "struct", "schema-id": 0, "fields": [
            {"id": i, "name": n, "required": False, "type": t} for i, n, t in columns]}],
        "partition-specs": [{"spec-id": at, "fields": fields} for at, fields in enumerate(specs)],
        "current-snapshot-id": 5,
        "snapshots": [{"snapshot-id": 5, "sequence-number": 4, "timestamp-ms": 50, "schema-id": 0, "manifest-list": "mem://t/l"}]}
    whole.update(changes)
    return json.dumps(whole, separators=(",", ":")).encode()


def partition_field(at, source, transform, name=None):
    return {"source-id": source, "field-id": 1000 + at, "name": name or f"n{at}", "transform": transform}


def in_lists(column, literals):
    """`in` lists with so many literals, no more than a thousand in each."""
    return " or ".join(f"{column} in ({','.join(literals[at:at + 1000])})" for at in range(0, len(literals), 1000))


PIPE = object()


class Case:
    """Files by their names, of which some may be pipes, and the words of the commands. The status is that of all
    commands; an audit finds at least that a length of the list is another than the file's, and ends with 1 for 0."""

    def __init__(self, files, words, status=0, commands=("plan", "explain"), megabytes=None):
        self.files, self.words, self.status, self.commands = files, words, status, commands
        self.megabytes = megabytes or {}

    def status_of(self, command):
        return 1 if command == "audit" and self.status == 0 else self.status

    def megabytes_of(self, command):
        return self.megabytes.get(command, MEGABYTES)


def of_table(metadata, rows, manifests):
    return {"t": metadata, "l": container(record("m", ROW), rows), **manifests}


# ---- the cases


def through_specs(specs, fields, literals, transform, kind="long", rows=None):
    """Each of these specs is that of a manifest, or of more by turns, and each of its fields one of the filter's column."""
    values = [str(n) for n in range(10000, 10000 + literals)]
    if kind == "string":
        values = ["'" + f"{n:06}" + "x" * 94 + "'" for n in range(literals)]
    metadata = table([(1, "c", kind)], [[partition_field(at, 1, transform(spec * fields + at)) for at in range(fields)]
                                        for spec in range(specs)])
    result = {"long": "int", "string": "string"}[kind] if "bucket" not in transform(1) else "int"
    one = container(entry_schema([partition([result] * fields)]), [entry("mem://t/f", number(0) * fields)])
    many = [row("mem://t/" + "/" * at + "m", at % specs) for at in range(rows or min(specs, 100))]
    return Case(of_table(metadata, many, {"m": one}), ["--filter", in_lists("c", values)], commands=("plan",))


def identities():
    return through_specs(100, 64, 12000, lambda at: "identity")


def identities_of_50_specs():
    return through_specs(50, 64, 6000, lambda at: "identity")


def buckets():
    return through_specs(100, 64, 12000, lambda at: f"bucket[{at + 1}]")


def rows_of_large_specs():
    """Projections of which not all are held, each for many rows."""
    return through_specs(3, 64, 12000, lambda at: f"bucket[{at + 1}]", rows=300)


def cut_texts():
    return through_specs(50, 64, 1000, lambda at: f"truncate[{90 + at % 10}]", "string")


def specs_of_one_field():
    return through_specs(5000, 1, 12000, lambda at: f"bucket[{at + 1}]")


def long_field_name():
    name = "n" * 400000
    metadata = table([(1, "c", "int")], [[partition_field(0, 1, "identity", name)]])
    files = [entry(f"mem://t/{at}", number(1) + number(1)) for at in range(2000)]
    return Case(of_table(metadata, [row("mem://t/m")], {"m": container(entry_schema([partition(["int"])]), files)}),
                ["--filter", "c = 2"])


def long_names_of_leaves():
    name = "n" * 400000
    metadata = table([(1, "c", "int")], [[partition_field(0, 1, "identity", name)]])
    files = [entry(f"mem://t/{at}", number(1) + number(1)) for at in range(100)]
    words = " and ".join(f"c < {at}" for at in range(2, 1002))
    return Case(of_table(metadata, [row("mem://t/m")], {"m": container(entry_schema([partition(["int"])]), files)}),
                ["--filter", words])


def long_manifest_path():
    path = "m" + "/" * 3800 + "m"
    files = [entry(str(at)) for at in range(20000)]
    rows = [text("mem://t/" + path) + number(1) + number(0) * 2 + number(9) * 2 + number(5)]
    return Case(of_table(table([(1, "c", "int")], [[]]), rows, {"m/m": container(entry_schema(), files)}), [], 1, ("audit",))


def long_file_path():
    fields = 60
    metadata = table([(1, "c", "int")], [[partition_field(at, 1, "identity") for at in range(fields)]])
    summary = record("s", [field("n", "boolean", 509), field("lo", ["null", "bytes"], 510), field("hi", ["null", "bytes"], 511)])
    rows = container(record("m", ROW + [field("ps", {"type": "array", "items": summary}, 507)]),
                     [row("mem://t/m") + number(fields) + b"\x00\x00\x00" * fields + number(0)])
    files = [entry("f" * 40000 + str(at), number(0) * fields) for at in range(20)]
    manifest = container(entry_schema([partition(["int"] * fields)]), files)
    return Case({"t": metadata, "l": rows, "m": manifest}, [], 1, ("audit",))


def columns_and_entries(entries, maps=(), more=b""):
    columns = [(at, "c", "int") for at in range(1, 10001)]
    files = [entry(f"{at:x}", more) for at in range(entries)]
    manifest = container(entry_schema([map_of(name) for name in maps]), files)
    return Case(of_table(table(columns, [[]]), [row("mem://t/m")], {"m": manifest}), [], 0, ("audit",))


def entries_without_maps():
    return columns_and_entries(35000)


def entries_with_one_bound():
    low, high = (5).to_bytes(4, "little"), (7).to_bytes(4, "little")
    return columns_and_entries(15500, ("lower_bounds", "upper_bounds"), pairs([(9000, low)]) + pairs([(9000, high)]))


def entries_with_turned_bounds():
    both = pairs([(9000, b""), (5, b"")])
    return columns_and_entries(16000, ("upper_bounds",), both)


def entries_with_an_excess():
    case = columns_and_entries(16000, ("value_counts", "null_value_counts"), pairs([(9000, 1)]) + pairs([(9000, 2)]))
    case.status = 1
    return case


def missing_columns():
    ids = field("equality_ids", {"type": "array", "items": "int"}, 135)
    columns = [(at, "c", "int") for at in range(1, 10001)]
    lacking = number(100) + b"".join(number(20000 + at) for at in range(100)) + number(0)
    files = [entry(f"{at:x}", lacking, 2) for at in range(1200)]
    manifest = container(entry_schema([ids]), files)
    rows = [row("mem://t/m", 0, 1)]
    return Case(of_table(table(columns, [[]]), rows, {"m": manifest}), [], 1, ("audit",))


def many_predicates():
    maps = ("lower_bounds", "upper_bounds")
    bound = pairs([(1, (5).to_bytes(4, "little"))])
    files = [entry(f"{at:x}", bound * 2) for at in range(25000)]
    manifest = container(entry_schema([map_of(name) for name in maps]), files)
    words = " or ".join(f"c = {at}" for at in range(1000, 1999)) + " or c < 10"
    return Case(of_table(table([(1, "c", "int")], [[]]), [row("mem://t/m")], {"m": manifest}), ["--filter", words])


def small_objects():
    metadata = table([(1, "c", "int")], [[]], **{"properties": {}})
    metadata = metadata[:-1] + b',"x":[' + b",".join([b"{}"] * 300000) + b"]}"
    manifest = container(entry_schema(), [entry("mem://t/f")])
    return Case(of_table(metadata, [row("mem://t/m")], {"m": manifest}), [], 0, ("plan", "append", "show", "audit"))


def of_unread_json(items, megabytes, of_append):
    """Metadata with a member that nobody reads. An object with members takes some 880 bytes, whatever it holds."""
    metadata = table([(1, "c", "int")], [[]])
    metadata = metadata[:-1] + b',"x":[' + b",".join(items) + b"]}"
    manifest = container(entry_schema(), [entry("mem://t/f")])
    files = of_table(metadata, [row("mem://t/m")], {"m": manifest})
    limits = {"plan": megabytes, "append": of_append, "show": megabytes, "audit": megabytes}
    return Case(files, [], 0, tuple(limits), limits)


def small_members():
    return of_unread_json([b'{"a":0}'] * 110000, 110, 130)


def members_in_members():
    """The most that JSON may take: 180 times its bytes."""
    depth = 110
    return of_unread_json([b'{"":' * depth + b"0" + b"}" * depth] * 1800, 180, 180)


def pipe_for_a_manifest():
    """Whoever opened it would wait for its writer."""
    manifest = container(entry_schema(), [entry("mem://t/f")])
    rows = [row("mem://t/m"), row("mem://t/pipe")]
    return Case(of_table(table([(1, "c", "int")], [[]]), rows, {"m": manifest, "pipe": PIPE}), [], 3,
                ("plan", "explain", "audit", "append"))


def pipe_for_a_list():
    return Case({"t": table([(1, "c", "int")], [[]]), "l": PIPE}, [], 3, ("plan", "explain", "audit", "append"))


def manifest_under_a_thousand_names():
    """All are paths of one file to a system that passes over segments that are a dot."""
    manifest = container(entry_schema(), [entry(f"{at:x}") for at in range(20000)])
    dots = ["".join(("./" if at >> bit & 1 else "") + f"{bit}/" for bit in range(10)) for at in range(1000)]
    rows = [row("mem://t/" + path + "m") for path in dots]
    deep = "0/1/2/3/4/5/6/7/8/9/m"
    return Case(of_table(table([(1, "c", "int")], [[]]), rows, {deep: manifest}), [], 3, ("plan", "explain"))


CASES = [pipe_for_a_manifest, pipe_for_a_list, manifest_under_a_thousand_names, identities_of_50_specs, identities,
         buckets, rows_of_large_specs, cut_texts, specs_of_one_field, long_field_name, long_names_of_leaves,
         long_manifest_path, long_file_path, entries_without_maps, entries_with_one_bound, entries_with_turned_bounds,
         entries_with_an_excess, missing_columns, many_predicates, small_objects, small_members, members_in_members]

# ---- growth

FEWER, MORE, MOST_TIMES, MOST_OF_DATA, ROUNDS = 6553, 65535, 10, 1.3, 9


def with_ids(content, part):
    """What stands behind the fields that all entries have: a partition value, and the columns of an equality delete."""
    return number(1) + number(part) + (number(1) + number(1) * 2 + number(0) if content == 2 else b"\x00")


def growing(folder, manifests, content):
    """A table of so many manifests of 10 files each. Beside those of equality deletes, one manifest has a data file in
    each partition."""
    ids = field("equality_ids", ["null", {"type": "array", "items": "int"}], 135)
    schema, rows = entry_schema([partition(["int"]), ids]), []

    def put(name, files, holds, number_of):
        with open(os.path.join(folder, name), "wb") as out:
            out.write(container(schema, files))
        rows.append(text("mem://t/" + name) + number(1) + number(0) + number(holds) + number(number_of) * 2 + number(5))

    for at in range(manifests):
        part = with_ids(content, at % 1000)
        put(f"m{at}", [entry(f"mem://t/data/{at}-{file}", part, content) for file in range(10)], content and 1, at + 2)
    if content:
        put("d", [entry(f"mem://t/data/{at}", with_ids(0, at)) for at in range(1000)], 0, 1)
    newest = {"snapshot-id": 5, "sequence-number": manifests + 5, "timestamp-ms": 50, "schema-id": 0,
              "manifest-list": "mem://t/l"}
    whole = {"last-sequence-number": manifests + 5, "snapshots": [newest]}
    for name, data in (("l", container(record("m", ROW), rows)),
                       ("t", table([(1, "c", "int")], [[partition_field(0, 1, "identity")]], **whole))):
        with open(os.path.join(folder, name), "wb") as out:
            out.write(data)


def growth(program):
    """How many of its runs grow faster than their tables. Runs of all tables take turns, those of the smallest so many
    times, and medians are compared, since a machine is busy now and then."""
    tables, over = [(FEWER, 2, MORE // FEWER), (MORE, 2, 1), (MORE, 0, 1)], 0
    with tempfile.TemporaryDirectory() as place:
        folders = [os.path.join(place, str(at)) for at in range(len(tables))]
        for folder, (manifests, content, _) in zip(folders, tables):
            os.mkdir(folder)
            growing(folder, manifests, content)
        for workers in (1, 4):
            took = [[] for _ in tables]
            for _ in range(ROUNDS):
                for folder, (_, _, times), seconds in zip(folders, tables, took):
                    words = ["plan", "--dir", folder, "--prefix", "mem://t", "--workers", str(workers), "mem://t/t"]
                    runs = [run(program, words) for _ in range(times)]
                    assert all(status == 0 for status, _, _ in runs), runs
                    seconds.append(sum(spent for _, _, spent in runs) / times)
            fewer, more, data = map(statistics.median, took)
            of_data = more / (10 * MORE + 1000) / (data / (10 * MORE))
            bad = more > MOST_TIMES * fewer * MORE / (10 * FEWER) or of_data > MOST_OF_DATA
            over += bad
            print(f"{'OVER ' if bad else '     '}growth plan by {workers}: {FEWER} manifests of delete files {fewer:.2f} s, "
                  f"{MORE} of them {more:.2f} s, {more / fewer:.1f} times; an entry takes {of_data:.2f} times what one of "
                  "data files does", flush=True)
    return over


CHANGE = {"data": [{"path": "mem://t/new", "format": "parquet", "spec-id": 0, "partition": [], "record-count": 1,
                    "file-size": 1}], "deletes": []}


def made(folder, case):
    """Writes the case's files, and gives their size and that of the words."""
    for name, data in case.files.items():
        os.makedirs(os.path.dirname(os.path.join(folder, name)), exist_ok=True)
        if data is PIPE:
            os.mkfifo(os.path.join(folder, name))
            continue
        with open(os.path.join(folder, name), "wb") as out:
            out.write(data)
    os.makedirs(os.path.join(folder, "metadata"))
    with open(os.path.join(folder, "change"), "w") as out:
        json.dump(CHANGE, out)
    return sum(len(data) for data in case.files.values() if data is not PIPE) + sum(map(len, case.words))


def words_of(command, folder, case, workers):
    place = ["--dir", folder, "--prefix", "mem://t"]
    if command == "append":
        out = f"mem://t/out{workers}.json"
        return [command, *place, "--snapshot-id", "7", "--uuid", UUID, "--now-ms", "99", "--out", out, "mem://t/t", "mem://t/change"]
    by = [] if command == "show" else ["--workers", str(workers)]
    return [command, *place, *by, *case.words, "mem://t/t"]


def limited():
    resource.setrlimit(resource.RLIMIT_AS, (4 << 30, 4 << 30))
    resource.setrlimit(resource.RLIMIT_CPU, (60, 60))
    signal.alarm(300)


def run(program, words):
    """Status, megabytes at the peak and seconds of processor time."""
    child = subprocess.Popen([program, *words], stdout=subprocess.DEVNULL, stderr=subprocess.DEVNULL, preexec_fn=limited)
    _, status, used = os.wait4(child.pid, 0)
    child.returncode = os.waitstatus_to_exitcode(status)
    return child.returncode, used.ru_maxrss / 1024, used.ru_utime + used.ru_stime


def run_case(program, make):
    """How many runs of the case there are, and how many of them are over."""
    case, runs, over = make(), 0, 0
    with tempfile.TemporaryDirectory() as folder:
        size = made(folder, case)
        assert size < MOST_INPUT, (make.__name__, size)
        for command in case.commands:
            for workers in (1,) if command in ("append", "show") else (1, 4):
                status, megabytes, seconds = run(program, words_of(command, folder, case, workers))
                bad = status != case.status_of(command) or megabytes > case.megabytes_of(command) or seconds > SECONDS
                runs, over = runs + 1, over + bad
                print(f"{'OVER ' if bad else '     '}{make.__name__} {command} by {workers}: {size / 1e6:.2f} MB of input, "
                      f"{megabytes:.0f} MB, {seconds:.2f} s, status {status}", flush=True)
    return runs, over


def main():
    program, long = sys.argv[1], "--long" in sys.argv
    names = [name for name in sys.argv[2:] if name != "--long"]
    runs, over, bad = 0, 0, []
    for make in CASES:
        if not names or make.__name__ in names:
            ran, beyond = run_case(program, make)
            runs, over, bad = runs + ran, over + beyond, bad + [make.__name__] * (beyond > 0)
    if long:
        beyond = growth(program)
        runs, over, bad = runs + 2, over + beyond, bad + ["growth"] * (beyond > 0)
    print(f"{runs} runs, {over} over" + (": " + ", ".join(bad) if bad else ""))
    sys.exit(1 if over else 0)


main()
