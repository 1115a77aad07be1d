#!/usr/bin/env python3
"""refusals.py words | make FOLDER | lines FOLDER | play PROGRAM: the refusals of icescan, and what is said of them.

words: compares the sentences of crates/icescan_hints with the tables of docs/REFUSALS.md, row by row, and says what
differs; status 1 then. A row `as above` or `the same` is that of the row above it, and `see ..` has no sentence of its own.
make: writes a table with what each refusal needs into a new folder.
lines: prints the words of a command for each refusal, with a tab between two, as crates/icescan_runs/stdin has them.
play: runs PROGRAM once for each refusal with a pseudo-terminal as standard error, over such a folder, and prints what it wrote;
status 1 where a line is not the one that is wanted, no hint stands after it, or a control character is in it. Then without words
and with a terminal as standard input, where it has to show its help.

Not here: K11 and N11, which take a million files and 65,537 rows; the drill's two and want of memory, which no files lead to.
"""
import glob
import hashlib
import json
import os
import pty
import re
import subprocess
import sys
import tempfile
import zlib

TOP = os.path.dirname(os.path.dirname(os.path.dirname(os.path.abspath(__file__))))
SYNC = bytes(range(16))
UUID = "f79c3e09-677c-4bbd-a479-3f349cb785e7"


def number(n):
    """A number as Avro writes it."""
    return groups(n * 2 if n >= 0 else -n * 2 - 1)


def groups(n):
    """A number that is not negative, as a state has it: groups of seven bits, the lowest first."""
    out = bytearray()
    while n > 127:
        out.append(n & 127 | 128)
        n >>= 7
    return bytes([*out, n])


def text(t):
    t = t if isinstance(t, bytes) else t.encode()
    return number(len(t)) + t


def container(schema, objects, codec="null", sync=SYNC, size=None):
    """An Avro container with one block."""
    schema = schema if isinstance(schema, (str, bytes)) else json.dumps(schema)
    body = b"".join(objects)
    if codec == "deflate":
        body = zlib.compress(body)[2:-4]
    head = b"Obj\x01" + number(2) + text("avro.schema") + text(schema) + text("avro.codec") + text(codec) + number(0) + SYNC
    return head + number(len(objects)) + number(len(body) if size is None else size) + body + sync


def field(name, kind, ident):
    return {"name": name, "type": kind, "field-id": ident}


ROW = [field("manifest_path", "string", 500), field("manifest_length", "long", 501), field("partition_spec_id", "int", 502),
       field("content", "int", 517), field("sequence_number", "long", 515), field("min_sequence_number", "long", 516),
       field("added_snapshot_id", "long", 503)]
FILE = [field("content", "int", 134), field("file_path", "string", 100), field("record_count", "long", 103),
        field("file_size_in_bytes", "long", 104)]


def record(name, fields):
    return {"type": "record", "name": name, "fields": fields}


def entry_schema(file=FILE, more=()):
    return record("manifest_entry", [field("status", "int", 0), field("snapshot_id", ["null", "long"], 1),
                                     field("sequence_number", ["null", "long"], 3),
                                     field("data_file", record("r2", list(file)), 2), *more])


def row(path, spec=0, content=0, sequence=4, least=4):
    return text(path) + number(200) + number(spec) + number(content) + number(sequence) + number(least) + number(5)


def entry(path, status=1, sequence=None, content=0, more=b""):
    numbers = number(0) if sequence is None else number(1) + number(sequence)
    return number(status) + number(0) + numbers + number(content) + text(path) + number(10) + number(100) + more


COLUMNS = [("c", "int"), ("category", "string"), ("price", "decimal(9, 2)"), ("ratio", "float"), ("key", "uuid")]


def table(list_path="mem://t/list", **changes):
    """The text of metadata."""
    fields = [{"id": i + 1, "name": n, "required": False, "type": t} for i, (n, t) in enumerate(COLUMNS)]
    place = {"type": "struct", "fields": [{"id": 8, "name": "city", "required": False, "type": "string"}]}
    fields.append({"id": 7, "name": "place", "required": False, "type": place})
    whole = {
        "format-version": 2, "table-uuid": UUID, "location": "mem://t", "last-sequence-number": 4, "last-updated-ms": 50,
        "last-column-id": 9, "schemas": [{"type": "struct", "schema-id": 0, "fields": fields}], "current-schema-id": 0,
        "partition-specs": [{"spec-id": 0, "fields": []}], "default-spec-id": 0, "last-partition-id": 1000,
        "current-snapshot-id": 5,
        "snapshots": [{"snapshot-id": 5, "sequence-number": 4, "timestamp-ms": 50, "schema-id": 0, "manifest-list": list_path}],
        "snapshot-log": [{"snapshot-id": 5, "timestamp-ms": 50}],
        "refs": {"release": {"snapshot-id": 5, "type": "tag"}, "daily": {"snapshot-id": 5, "type": "branch"}},
    }
    whole.update(changes)
    return json.dumps({k: v for k, v in whole.items() if v is not None}).encode()


def data_file(path, **changes):
    return {"path": path, "format": "parquet", "spec-id": 0, "partition": [], "record-count": 10, "file-size": 100, **changes}


def change(*files, **changes):
    return json.dumps({"data": list(files), "deletes": [], **changes}).encode()


class Cases:
    """Files by name, and commands with the line that each is to write."""

    def __init__(self):
        self.files = {}
        self.commands = []

    def add(self, line, words, stdin=None):
        self.commands.append((line, words, stdin))

    def plan(self, line, name, metadata, *words, sets=(), **files):
        """A plan of a table of its own."""
        self.files[name] = metadata
        self.files.update(files)
        self.files.update(dict(sets))
        self.add(line, ["plan", *words, f"mem://t/{name}"])

    def manifest(self, line, name, bytes_, spec=0, content=0, **changes):
        """A plan of a table whose list has one manifest."""
        self.files[f"{name}.m"] = bytes_
        self.files[f"{name}.list"] = container(record("manifest_file", ROW), [row(f"mem://t/{name}.m", spec, content)])
        self.plan(f"Z2 Bad mem://t/{name}.m {line}", f"{name}.json", table(f"mem://t/{name}.list", **changes))

    def listed(self, line, name, bytes_):
        """A plan of a table with this manifest list."""
        self.files[f"{name}.list"] = bytes_
        self.plan(line, f"{name}.json", table(f"mem://t/{name}.list"))

    def commit(self, line, name, change_, *, metadata="table.json", snapshot=7, now=99, out=None, command="append"):
        self.files[f"{name}.change"] = change_
        self.add(line, [command, f"--snapshot-id={snapshot}", "--uuid", UUID, "--now-ms", str(now), "--out",
                        out or f"mem://t/{name}.out.json", f"mem://t/{metadata}", f"mem://t/{name}.change"])


def filters(cases):
    for line, word in [("F1 Syntax 17", "c = 42 and price or"), ("F1 Syntax 4", "c = "), ("F1 Syntax 11", "c\t= '\u00e4' or"),
                       ("F2 NoSuchColumn", "categry = 'books'"), ("F2 NoSuchColumn", "place.town = 'x'"),
                       ("F2 NoSuchColumn", "unheard_of\x1b[31m is null".replace("unheard_of\x1b[31m", "\"un\x1b[31m\"")),
                       ("F3 WrongLiteral", "c = 99999999999"), ("F4 NotComparable", "price > 1 and c = 1"),
                       ("F5 TooBig", "(" * 33 + "true" + ")" * 33)]:
        cases.plan(line, "table.json", table(), "--filter", word)


# What other languages of filters have, with the byte at which this one has not.
SQL = [(3, "c == 42"), (3, "c <> 42"), (6, "c = 1 AND c = 2"), (2, "c IN (1)"), (4, "NOT c = 1"), (0, "not (c = 1)"),
       (2, "c between 1 and 2"), (9, "category like 'a%'"), (11, "category = null"), (0, "`c` = 1"),
       (11, "category = \u201cbooks\u201d"), (11, 'category = "books"'), (11, "category = books"), (1, "c")]


def habits(cases):
    for at, word in SQL:
        cases.plan(f"F1 Syntax {at}", "table.json", table(), "--filter", word)


def metadata(cases):
    spec = {"spec-id": 0, "fields": [{"source-id": 1, "field-id": 1000 + i, "name": f"n{i}", "transform": "identity"}
                                     for i in range(65)]}
    schema = json.loads(table())["schemas"][0]
    odd = {**schema, "fields": [{"id": 1, "name": "c", "required": False, "type": "int8"}]}
    cases.plan("M1 NotJson", "cut_text.json", table()[:50])
    cases.plan("M1 NotJson", "gzip.json", b"\x1f\x8b\x08\x00")
    cases.plan("M2 Version 3", "three.json", table(**{"format-version": 3}))
    cases.plan("M3 Missing location", "no_location.json", table(location=None))
    cases.plan("M4 WrongKind last-sequence-number", "no_number.json", table(**{"last-sequence-number": "x"}))
    cases.plan("M5 UnknownType int8", "int8.json", table(schemas=[odd]))
    cases.plan("M6 NoSuchRef", "table.json", table(), "--ref", "relase")
    cases.plan("M7 NoSuchSnapshot", "table.json", table(), "--snapshot", "6")
    cases.add("M6 NoSuchRef", ["audit", "--ref", "dayly", "mem://t/table.json"])
    cases.add("M7 NoSuchSnapshot", ["audit", "--snapshot", "6", "mem://t/table.json"])
    cases.plan("M8 NoSnapshot", "empty.json", table(**{"current-snapshot-id": -1, "snapshots": [], "refs": {}, "snapshot-log": []}))
    cases.plan("M9 IdTwice 0", "id_twice.json", table(schemas=[schema, schema]))
    cases.plan("M11 Dangling default-spec-id", "dangling.json", table(**{"default-spec-id": 9}))
    cases.plan("M12 TooBig", "big.json", table(**{"partition-specs": [spec]}))


def lists(cases):
    rows = record("manifest_file", ROW)
    one = row("mem://t/m")
    cases.listed("N1 Avro V1 NotAvro", "no_list", b"no list")
    cases.listed("N1 Avro V2 Codec zstandard", "codec", container(rows, [one], "zstandard"))
    cases.listed("N2 MissingField 503", "lacking", container(record("manifest_file", ROW[:-1]), [one[:-1]]))
    wrong = [field("manifest_path", "long", 500)] + ROW[1:]
    cases.listed("N3 WrongFieldType 500", "wrong", container(record("manifest_file", wrong), []))
    cases.listed("N4 OutOfRange 515", "negative", container(rows, [row("mem://t/m", sequence=-3)]))
    cases.listed("N6 BadContent", "content", container(rows, [row("mem://t/m", content=3)]))
    cases.listed("N9 ManifestTwice mem://t/m", "twice", container(rows, [one, row("mem://t/m", least=3)]))
    cases.listed("X1 NoSuchSpec 9", "spec", container(rows, [row("mem://t/m", spec=9)]))
    cases.files["m"] = container(entry_schema(), [entry("mem://t/a.parquet"), entry("mem://t/a.parquet")])
    cases.listed("Z3 PathTwice mem://t/a.parquet", "path_twice", container(rows, [one]))


def manifests(cases):
    schema, good = entry_schema(), entry("mem://t/good")
    cases.manifest("N2 MissingField 100", "no_path", container(entry_schema([f for f in FILE if f["field-id"] != 100]), []))
    cases.manifest("N3 WrongFieldType 103", "rows_text", container(entry_schema(FILE[:2] + [field("record_count", "string", 103)]
                                                                              + FILE[3:]), []))
    cases.manifest("N4 OutOfRange 3", "sequence", container(schema, [good, good, entry("mem://t/b", 0, -1)]))
    cases.manifest("N5 BadStatus", "status", container(schema, [good, entry("mem://t/b", 7)]))
    cases.manifest("N6 BadContent", "deletes", container(schema, [good, entry("mem://t/b", content=1)]))
    cases.manifest("N7 NoSequence", "inherits", container(schema, [good, entry("mem://t/b", 0)]))
    ratio = {"spec-id": 0, "fields": [{"source-id": 4, "field-id": 1000, "name": "ratio", "transform": "identity"}]}
    partition = field("partition", record("r102", [field("ratio", ["null", "float"], 1000)]), 102)
    cases.manifest("N8 FloatPartition 1000", "float", container(entry_schema(FILE + [partition]), []),
                   **{"partition-specs": [ratio]})


def containers(cases):
    schema, good = entry_schema(), entry("mem://t/good")
    cases.manifest("N1 Avro V1 NotAvro", "no_avro", b"Obj\x02")
    cases.manifest("N1 Avro V2 Codec deflate", "deflate", container(schema, [good], "deflate"))
    cases.manifest("N1 Avro V2 Codec x\\x1b[31m", "colour", container(schema, [good], "x\x1b[31m"))
    whole = container(schema, [good])
    cases.manifest(f"N1 Avro V3 Truncated {len(whole) - 16}", "cut", whole[:-8])
    cases.manifest("N1 Avro V4 BadNumber", "long", container(schema, [good, b"\x80" * 11 + b"\x00"]))
    cases.manifest("N1 Avro V5 BadUnion", "union", container(schema, [good, number(1) + number(7)]))
    cases.manifest("N1 Avro V6 BadUtf8", "utf8", container(schema, [good, entry(b"\xff")]))
    cases.manifest("N1 Avro V7 BadSync", "sync", container(schema, [good], sync=b"x" * 16))
    cases.manifest("N1 Avro V8 BlockSize", "block", container(schema, [good + b"\x00"]))
    flag = entry_schema(more=[field("flag", "boolean", 900)])
    cases.manifest("N1 Avro V11 BadBoolean", "flag", container(flag, [entry("mem://t/a", more=b"\x02")]))
    many = entry_schema(more=[field("many", {"type": "array", "items": "null"}, 900)])
    cases.manifest("N1 Avro V12 TooManyItems", "many", container(many, [entry("mem://t/a", more=number(16777217) + number(0))]))


def schemas(cases):
    def of(line, name, schema):
        cases.manifest(f"N1 Avro V9 Schema {line}", name, container(schema, []))
    two = record("a", [field("x", "int", 500), field("y", "int", 500)])
    of("S1 NotJson", "no_json", "{")
    of("S2 UnknownType", "no_type", '{"type":"enum"}')
    of("S3 UnknownName", "no_name", '"unheard"')
    of("S4 Recursive", "recursive", record("a", [field("x", "a", 1)]))
    deep = "int"
    for _ in range(40):
        deep = {"type": "array", "items": deep}
    of("S5 TooBig", "deep", deep)
    of("S6 FieldTwice 500", "fields", two)
    of("S8 NameTwice", "names", record("a", [field("x", record("a", []), 1)]))


def files(cases):
    cases.plan("P2 Absent mem://t/none", "no_list.json2", table("mem://t/none"))
    cases.add("P2 Absent mem://t/none.json", ["plan", "mem://t/none.json"])
    cases.add("P2 Absent FOLDER/table.json", ["plan", "FOLDER/table.json"])
    cases.add("P2 Absent mem://t/x/../table.json", ["show", "mem://t/x/../table.json"])
    cases.add("P2 Absent mem://t/metadata/table.json", ["plan", "--prefix", "mem://other", "mem://t/metadata/table.json"])
    cases.plan("P2 Absent s3://there/list", "moved.json", table("s3://there/list", location="s3://there"))
    cases.files["metadata/table.json"] = table()
    cases.files["folder/file"] = b""
    cases.add("P3 Device mem://t/folder", ["plan", "mem://t/folder"])
    for name in ("00002-a", "00003-c", "00010-b", "last"):
        cases.files[f"table/metadata/{name}.metadata.json"] = table()
    cases.add("P3 Device mem://t/table", ["show", "mem://t/table"])
    cases.add("P3 Device mem://t/table/metadata", ["plan", "mem://t/table/metadata"])
    cases.plan("P5 Workers", "table.json", table(), "--workers", "65")
    snapshots = [{"snapshot-id": n, "parent-snapshot-id": n - 1, "sequence-number": n, "timestamp-ms": 50, "manifest-list": "mem://t/list",
                  "summary": {"operation": "delete" if n == 3 else "append"}} for n in (2, 3, 4, 5)]
    cases.files["snapshots.json"] = table(snapshots=snapshots)
    cases.add("L1 NotAppended 3", ["changes", "--appends", "--from", "2", "mem://t/snapshots.json"])
    cases.add("L2 NotAncestor", ["changes", "--appends", "--from", "5", "--to", "4", "mem://t/snapshots.json"])
    cases.files["empty/metadata/notes.txt"] = b""
    cases.files["twice/metadata/00002-a.metadata.json"] = b""
    cases.files["twice/metadata/v2.metadata.json"] = b""
    cases.files["packed/metadata/v1.metadata.json"] = b""
    cases.files["packed/metadata/v2.gz.metadata.json"] = b""
    cases.add("P6 NoFolder", ["locate", "FOLDER/none"])
    cases.add("P7 NoMetadata", ["locate", "FOLDER/empty"])
    cases.add("P8 TwoOfOneNumber 00002-a.metadata.json v2.metadata.json", ["locate", "FOLDER/twice"])
    cases.add("P9 Compressed v2.gz.metadata.json", ["locate", "FOLDER/packed"])
    cases.add("B1 Bundle 2", ["list-plan", "--bundle"], b"a 00\nb\n")


def commits(cases):
    new = data_file("mem://t/new.parquet")
    cases.files["base.m"] = container(entry_schema(), [entry("mem://t/live.parquet")])
    cases.files["list"] = container(record("manifest_file", ROW), [row("mem://t/base.m")])
    cases.files["partitioned.list"] = container(record("manifest_file", ROW), [row("mem://t/base.m", 1)])
    cases.files["taken.json"] = table()
    cases.commit("C1 BadChange -", "no_object", b"x")
    cases.commit("C1 BadChange spec-id", "no_spec_id", change(data_file("mem://t/x", **{"spec-id": "x"})))
    cases.commit("K1 SnapshotTaken", "taken_id", change(new), snapshot=5)
    cases.commit("K2 PathTaken mem://t/live.parquet", "live", change(data_file("mem://t/live.parquet")))
    cases.commit("K3 PathTwice mem://t/new.parquet", "two", change(new, new))
    cases.commit("K4 Empty", "nothing", change())
    cases.commit("K5 NoSuchSpec 3", "spec", change(data_file("mem://t/x", **{"spec-id": 3})))
    cases.commit("K6 WrongTuple mem://t/x", "tuple", change(data_file("mem://t/x", partition=[1])))
    cases.files["at_end.json"] = table(**{"last-sequence-number": 2 ** 63 - 1})
    cases.commit("K7 SequenceEnd", "last", change(new), metadata="at_end.json")
    cases.files["no_base.json"] = table("mem://t/none")
    cases.commit("K8 BaseBad mem://t/none", "base", change(new), metadata="no_base.json")
    cases.commit("K10 BadFile mem://t/x", "rows", change(data_file("mem://t/x", **{"record-count": 2 ** 41})))
    cases.commit("K12 OutOfOrder", "early", change(new), now=49)
    cases.commit("Conflict mem://t/taken.json", "conflict", change(new), out="mem://t/taken.json")
    cases.commit("W1 Write", "again", change(new))


def counted(data):
    return len(data).to_bytes(8, "big") + data


def state(name, rows=1, *sections):
    """A state, whose sections have a row and a body."""
    parts = b"".join(groups(i) + groups(len(body)) + body for i, body in sections)
    front = b"icescan state 1\n" + name + groups(rows) + groups(len(sections)) + parts
    return front + hashlib.sha256(front).digest()


def states(cases):
    """States of the plan of `table.json` without a filter, whose list is made for commits."""
    name = hashlib.sha256(counted(cases.files["table.json"]) + counted(cases.files["list"]) + b"\0\0").digest()
    cases.files["no.state"] = b"a state\n"
    cases.files["newer.state"] = b"icescan state 2\n" + state(name)[16:]
    cases.files["cut.state"] = state(name)[:-1]
    cases.files["other.state"] = state(bytes(32))
    cases.files["false.state"] = state(name, 1, (0, b"\x05"))
    cases.files["none.state"] = state(name)
    cases.add("Y1 NotAState FOLDER/no.state", ["join", "FOLDER/no.state"])
    cases.add("Y2 OtherVersion FOLDER/newer.state", ["join", "FOLDER/none.state", "FOLDER/newer.state"])
    cases.add("Y3 Damaged FOLDER/cut.state", ["join", "FOLDER/cut.state", "FOLDER/none.state"])
    cases.add("Y4 OtherScan FOLDER/other.state", ["join", "FOLDER/none.state", "FOLDER/other.state"])
    cases.add("Y4 OtherScan FOLDER/other.state", ["finish", "mem://t/table.json", "FOLDER/other.state"])
    cases.add("Y5 NotOfScan FOLDER/false.state", ["finish", "mem://t/table.json", "FOLDER/none.state", "FOLDER/false.state"])
    cases.add("Z1 Missing mem://t/base.m", ["finish", "mem://t/table.json", "FOLDER/none.state"])


def all_cases():
    cases = Cases()
    for part in (filters, metadata, lists, manifests, containers, schemas, files, commits, states, habits):
        part(cases)
    return cases


def make(folder):
    cases = all_cases()
    os.makedirs(folder)
    for name, data in cases.files.items():
        os.makedirs(os.path.dirname(os.path.join(folder, name)), exist_ok=True)
        with open(os.path.join(folder, name), "wb") as out:
            out.write(data)
    return cases


def whole_words(words, folder):
    """The words with the folder and the prefix, where they have no bundle."""
    words = [w.replace("FOLDER", folder) for w in words]
    if "--bundle" in words or words[0] in ("join", "locate"):
        return words
    prefix = [] if "--prefix" in words else ["--prefix", "mem://t"]
    return [words[0], "--dir", folder, *prefix, *words[1:]]


def lines(folder):
    for line, words, stdin in all_cases().commands:
        if stdin is None and not any("\t" in w or "\x1b" in w for w in words):
            print("\t".join([*whole_words(words, folder), "--explain"]))


def played(program, words, stdin, folder):
    """What a command writes to a terminal that is its standard error."""
    ours, theirs = pty.openpty()
    run = subprocess.Popen([program, *words], stdin=subprocess.PIPE, stdout=subprocess.DEVNULL, stderr=theirs, cwd=folder)
    os.close(theirs)
    run.stdin.write(stdin or b"")
    run.stdin.close()
    shown = b""
    while True:
        try:
            piece = os.read(ours, 65536)
        except OSError:
            break
        if not piece:
            break
        shown += piece
    os.close(ours)
    run.wait()
    return shown.replace(b"\r\n", b"\n")


def shows_help(program):
    """Whether no words show the help where standard input is a terminal, and are read as a bundle's plan where it is none."""
    ours, theirs = pty.openpty()
    typed = subprocess.run([program], stdin=theirs, capture_output=True)
    os.close(theirs)
    os.close(ours)
    helped = subprocess.run([program, "--help"], stdin=subprocess.DEVNULL, capture_output=True)
    piped = subprocess.run([program], stdin=subprocess.DEVNULL, capture_output=True)
    return (typed.stdout, typed.returncode) == (helped.stdout, 0) and piped.stderr == b"icescan: B1 Bundle 1\n"


def play(program):
    program = os.path.abspath(program)
    bad = 0
    with tempfile.TemporaryDirectory() as top:
        cases = make(os.path.join(top, "t"))
        for line, words, stdin in cases.commands:
            shown = played(program, whole_words(words, "t"), stdin, top)
            first, _, hint = shown.partition(b"\n")
            wanted = ("icescan: " + line.replace("FOLDER", "t")).encode()
            faults = [why for why, is_so in [
                (f"wanted {wanted}", first != wanted), ("no hint", not hint),
                ("a control character", re.search(rb"[\x00-\x09\x0b-\x1f\x7f]|\xc2[\x80-\x9f]", shown))] if is_so]
            print(shown.decode(errors="backslashreplace") + "".join(f"FAULT: {why}\n" for why in faults))
            bad += bool(faults)
    if not shows_help(program):
        print("FAULT: no words don't show the help on a terminal, or do in a pipe")
        bad += 1
    print(f"{len(cases.commands)} refusals, {bad} not as they should be")
    return bad


def documented():
    """What docs/REFUSALS.md says of refusals: number and name, what is wrong, what to do."""
    found, above, is_audit = [], None, False
    with open(os.path.join(TOP, "docs/REFUSALS.md")) as doc:
        for line in doc:
            is_audit = line.startswith("## Findings") or is_audit and not line.startswith("## ")
            if is_audit:
                continue
            cells = [cell.strip() for cell in re.split(r"(?<!\\)\|", line)[1:-1]]
            if len(cells) != 4 or not cells[0].startswith("`"):
                continue
            advice = above if cells[3] in ("as above", "the same") else cells[3]
            advice = None if advice.startswith("see ") else advice
            above = advice or above
            found.append((cells[0].strip("`"), cells[1], advice))
    return found


def written():
    """The same of the sentences of icescan_hints."""
    found = []
    string = r'"((?:[^"\\]|\\.)*)"'
    advice = rf'Some\(\s*{string},?\s*\)'
    named = re.compile(rf'const (\w+): Option<&str> =\s*{advice};', re.S)
    shape = re.compile(rf'name:\s*{string},\s*wrong:\s*{string},\s*advice:\s*(?:None|{advice}|(\w+)),', re.S)

    def plain(literal):
        return None if literal is None else " ".join(re.sub(r"\\(.)", r"\1", literal).split())
    for name in sorted(glob.glob(os.path.join(TOP, "crates/icescan_hint*/src/*.rt"))):
        with open(name) as source:
            text = source.read()
        advices = dict(named.findall(text))
        for number, wrong, advice, constant in (match.groups() for match in shape.finditer(text)):
            found.append((plain(number), plain(wrong), plain(advices[constant] if constant else advice)))
    return found


def words():
    doc, own = documented(), written()
    wrong = [("only in docs/REFUSALS.md", row) for row in doc if row not in own]
    wrong += [("only in icescan_hints", row) for row in own if row not in doc]
    for where, row in wrong:
        print(f"{where}: {row}")
    print(f"{len(doc)} rows, {len(own)} sentences, {len(wrong)} not in both")
    return len(wrong)


def main():
    match sys.argv[1:]:
        case ["words"]:
            return bool(words())
        case ["make", folder]:
            make(folder)
        case ["lines", folder]:
            lines(folder)
        case ["play", program]:
            return bool(play(program))
        case _:
            print(__doc__, file=sys.stderr)
            return 2
    return 0


if __name__ == "__main__":
    sys.exit(main())
