#!/usr/bin/env python3
"""reachable.py PROGRAM..: random tables, the files that `reachable` says they need, and those that `orphans` names.

PROGRAM is the built icescan, or words that run it. Each of 300 tables is made in a new folder by random appends and row
deltas; between them manifests are rewritten, by a snapshot whose manifests have some files deleted (entries of status
2) and whose list may say other lengths of the manifests that it shares, and snapshots expire. What `reachable` prints,
also as JSON, has to be what this script finds by reading the metadata and every manifest list and manifest by itself;
so what `--only` and `--without` some of the snapshots print, which together have each file once. Below the folder stand
files that the table needs, and others, old and young, some of which are named as one of these may be spelled; what
`orphans` prints of them has to be what this script finds. Each file that a plan of some snapshot names, under no filter
or under one, has to be among those that `reachable` prints. Of each table a manifest is then taken away, cut or named
as compressed, and nothing may be printed. Then commits are made beside `orphans`, 20 times, which may name none of
their files. `reachable.py --tell FOLDER PREFIX METADATA [IDS]` prints what the script finds, without the snapshots of
these ids; `--tell-only` with them what is left; `reachable.py --tell-orphans FOLDER PREFIX METADATA N` the files that
are not needed. The last line counts; the status is 1 where something differs."""
import json
import os
import random
import re
import shutil
import struct
import subprocess
import stat
import sys
import tempfile
import threading
import time
import urllib.parse
import uuid

PREFIX = "s3://warehouse/db/t"
TABLES = 300
RACES = 20
OLDER_THAN_MS = 100000
MAGIC = b"Obj\x01"
METADATA = {
    "format-version": 2, "table-uuid": "f79c3e09-677c-4bbd-a479-3f349cb785e7", "location": PREFIX,
    "last-sequence-number": 0, "last-updated-ms": 0, "last-column-id": 1, "current-schema-id": 0,
    "schemas": [{"type": "struct", "schema-id": 0, "fields": [
        {"id": 1, "name": "c", "required": False, "type": "int"}]}],
    "default-spec-id": 1, "partition-specs": [
        {"spec-id": 0, "fields": []},
        {"spec-id": 1, "fields": [{"source-id": 1, "field-id": 1000, "name": "c", "transform": "identity"}]}],
    "last-partition-id": 1000, "current-snapshot-id": -1, "snapshots": [],
}


# ---- Avro, as far as manifest lists and manifests need it

class Reader:
    def __init__(self, data, at=0):
        self.data, self.at = data, at

    def take(self, count):
        self.at += count
        return self.data[self.at - count:self.at]

    def number(self):
        value, shift = 0, 0
        while True:
            byte = self.take(1)[0]
            value |= (byte & 127) << shift
            shift += 7
            if byte < 128:
                return (value >> 1) ^ -(value & 1)

    def run(self):
        return self.take(self.number())

    def blocks(self, item):
        found = []
        while True:
            count = self.number()
            if count == 0:
                return found
            if count < 0:
                count = -count
                self.number()
            found += [item() for _ in range(count)]

    def value(self, kind, names):
        if isinstance(kind, list):
            return self.value(kind[self.number()], names)
        name = kind if isinstance(kind, str) else kind["type"]
        if name in ("record", "fixed", "enum"):
            names[kind["name"]] = kind
        if name == "record":
            return {f["name"]: self.value(f["type"], names) for f in kind["fields"]}
        if name == "array":
            return self.blocks(lambda: self.value(kind["items"], names))
        if name == "map":
            return dict(self.blocks(lambda: (self.run().decode(), self.value(kind["values"], names))))
        if name == "fixed":
            return self.take(kind["size"])
        simple = {"null": lambda: None, "boolean": lambda: self.take(1) == b"\x01", "int": self.number,
                  "long": self.number, "float": lambda: struct.unpack("<f", self.take(4))[0],
                  "double": lambda: struct.unpack("<d", self.take(8))[0], "bytes": self.run,
                  "string": lambda: self.run().decode()}
        if isinstance(name, str) and name in simple:
            return simple[name]()
        return self.value(names[name] if isinstance(name, str) else name, names)


def objects(data):
    reader = Reader(data, 4)
    assert data[:4] == MAGIC
    head = dict(reader.blocks(lambda: (reader.run().decode(), reader.run())))
    schema, marker, found = json.loads(head["avro.schema"]), reader.take(16), []
    while reader.at < len(data):
        count = reader.number()
        reader.number()
        names = {}
        found += [reader.value(schema, names) for _ in range(count)]
        assert reader.take(16) == marker
    return head, schema, found


def number(value):
    value, out = (value << 1) ^ (value >> 63), b""
    while value > 127:
        out, value = out + bytes([value & 127 | 128]), value >> 7
    return out + bytes([value])


def run(data):
    return number(len(data)) + data


def spelled(kind, value):
    if isinstance(kind, list):
        branch = [i for i, k in enumerate(kind) if (k == "null") == (value is None)][0]
        return number(branch) + spelled(kind[branch], value)
    name = kind if isinstance(kind, str) else kind["type"]
    if name == "record":
        return b"".join(spelled(f["type"], value[f["name"]]) for f in kind["fields"])
    if name == "array":
        return (number(len(value)) + b"".join(spelled(kind["items"], v) for v in value) if value else b"") + b"\x00"
    simple = {"null": lambda: b"", "boolean": lambda: b"\x01" if value else b"\x00", "int": lambda: number(value),
              "long": lambda: number(value), "bytes": lambda: run(value), "string": lambda: run(value.encode())}
    return simple[name]() if isinstance(name, str) else spelled(name, value)


def container(head, schema, values):
    marker = bytes(range(16))
    pairs = b"".join(run(key.encode()) + run(value) for key, value in head.items())
    body = b"".join(spelled(schema, value) for value in values)
    block = number(len(values)) + run(body) + marker if values else b""
    return MAGIC + number(len(head)) + pairs + b"\x00" + marker + block


# ---- what a table reaches

def escaped(path):
    return "".join("\\x%02x" % b if b <= 32 or b in (92, 127) else chr(b) for b in path.encode()).encode("latin-1")


def needed(read, path, gone=()):
    """What the files are, with their paths, that the metadata at a path reaches without the snapshots of some ids."""
    metadata, files = json.loads(read(path)), {(b"metadata", path)}
    files |= {(b"metadata", old["metadata-file"]) for old in metadata.get("metadata-log") or []}
    for array in ("statistics", "partition-statistics"):
        files |= {(b"statistics", file["statistics-path"]) for file in metadata.get(array) or []
                  if file.get("snapshot-id") not in gone}
    for snapshot in metadata.get("snapshots") or []:
        if snapshot["snapshot-id"] in gone:
            continue
        files.add((b"list", snapshot["manifest-list"]))
        for row in objects(read(snapshot["manifest-list"]))[2]:
            files.add((b"manifest", row["manifest_path"]))
            for entry in objects(read(row["manifest_path"]))[2]:
                if entry["status"] != 2:
                    kind = b"delete" if entry["data_file"].get("content") else b"data"
                    files.add((kind, entry["data_file"]["file_path"]))
    return files


def alone(read, path, gone):
    """The files that the snapshots of these ids alone reach."""
    kept = {file for _, file in needed(read, path, gone)}
    return {(kind, file) for kind, file in needed(read, path) if file not in kept}


def text_of(files):
    return b"".join(sorted(kind + b" " + escaped(file) + b"\n" for kind, file in files))


def objects_of(text):
    """Lines of text as lines of JSON."""
    lines = []
    for line in text.splitlines():
        word, path = line.split(b" ")
        path = re.sub(rb"\\x([0-9a-f]{2})", lambda m: bytes([int(m.group(1), 16)]), path).decode()
        lines.append(json.dumps({"kind": word.decode(), "path": path}, separators=(",", ":"), ensure_ascii=False))
    return "".join(line + "\n" for line in lines).encode()


def plain(path):
    """The one spelling of all that may name the same file."""
    path = urllib.parse.unquote_to_bytes(path.encode())
    while b"//" in path:
        path = path.replace(b"//", b"/")
    return b"s3:" + path[4:] if path[:4] in (b"s3a:", b"s3n:") else path


def strays(read, path, folder, prefix, older_than_ms):
    """The lines of the files below the folder that are not needed."""
    files = {file for _, file in needed(read, path)}
    spelled, lines = {plain(file) for file in files}, []
    for at, _, names in os.walk(folder):
        for name in names:
            found = os.lstat(os.path.join(at, name))
            file = "%s/%s" % (prefix, os.path.relpath(os.path.join(at, name), folder))
            if stat.S_ISREG(found.st_mode) and file not in files:
                young = (time.time() - found.st_mtime) * 1000 <= older_than_ms
                word = b"doubtful " if young or plain(file) in spelled else b"orphan "
                lines.append((file.encode(), word + escaped(file) + b"\n"))
    return b"".join(line for _, line in sorted(lines))


def reader_of(folder, prefix):
    def read(path):
        assert path.startswith(prefix)
        with open(os.path.join(folder, path[len(prefix):].lstrip("/")), "rb") as f:
            return f.read()
    return read


# ---- tables

class Table:
    def __init__(self, program, folder, rng):
        self.program, self.folder, self.rng, self.version, self.snapshot = program, folder, rng, 0, 0
        os.mkdir(os.path.join(folder, "metadata"))
        self.read = reader_of(folder, PREFIX)
        self.write("metadata/v0.json", json.dumps(METADATA).encode())

    def write(self, name, data):
        with open(os.path.join(self.folder, name), "wb") as f:
            f.write(data)

    def path(self, version=None):
        return "%s/metadata/v%d.json" % (PREFIX, self.version if version is None else version)

    def run(self, command, *words):
        return subprocess.run(self.program + [command, "--dir", self.folder, "--prefix", PREFIX] + list(words),
                              capture_output=True)

    def metadata(self):
        return json.loads(self.read(self.path()))

    def put(self, metadata):
        log = metadata.get("metadata-log") or []
        metadata["metadata-log"] = log + [{"timestamp-ms": self.version, "metadata-file": self.path()}]
        self.version += 1
        self.write("metadata/v%d.json" % self.version, json.dumps(metadata).encode())

    def file(self, at, deletes):
        spec = self.rng.randrange(2)
        prefix = self.rng.choice(3 * [PREFIX] + ["s3a" + PREFIX[2:], "s3n" + PREFIX[2:], PREFIX + "/"])
        file = {"path": "%s/data/%s file %d.parquet" % (prefix, "deletes" if deletes else "a", at), "format": "parquet",
                "spec-id": spec, "partition": [self.rng.choice([None, 1, 2])] if spec else [],
                "record-count": 1, "file-size": 1}
        if deletes:
            file["content"] = self.rng.choice(["position", "equality"])
            if file["content"] == "equality":
                file["equality-ids"] = [1]
        return file

    def commit(self):
        self.snapshot += 1
        command, at = self.rng.choice(["append", "row-delta"]), 10 * self.snapshot
        change = {"data": [self.file(at + i, False) for i in range(self.rng.randrange(1, 4))], "deletes": []}
        if command == "row-delta":
            change["deletes"] = [self.file(at + i, True) for i in range(self.rng.randrange(1, 3))]
        self.write("change.json", json.dumps(change).encode())
        got = self.run(command, "--snapshot-id", str(self.snapshot), "--uuid", str(uuid.UUID(int=self.snapshot)),
                       "--now-ms", str(self.snapshot), "--out", self.path(self.version + 1), self.path(),
                       PREFIX + "/change.json")
        assert got.returncode == 0, got
        self.version += 1

    def rewrite(self):
        """A snapshot in which some files of a manifest are deleted."""
        metadata = self.metadata()
        current = [s for s in metadata["snapshots"] if s["snapshot-id"] == metadata["current-snapshot-id"]]
        if not current:
            return
        head, schema, rows = objects(self.read(current[0]["manifest-list"]))
        for shared in rows:
            shared["manifest_length"] += self.rng.randrange(2)
        row = self.rng.choice(rows)
        entry_head, entry_schema, entries = objects(self.read(row["manifest_path"]))
        self.snapshot += 1
        number = metadata["last-sequence-number"] + 1
        for entry in entries:
            if entry["sequence_number"] is None:
                entry["sequence_number"] = entry["file_sequence_number"] = row["sequence_number"]
            entry["status"] = self.rng.choice([0, 2])
        name = "%s/metadata/rewritten-%d.avro" % (PREFIX, self.snapshot)
        self.write(name[len(PREFIX) + 1:], container(entry_head, entry_schema, entries))
        row.update(manifest_path=name, sequence_number=number, added_snapshot_id=self.snapshot)
        lists = "%s/metadata/list-%d.avro" % (PREFIX, self.snapshot)
        self.write(lists[len(PREFIX) + 1:], container(head, schema, rows))
        metadata["snapshots"].append({"snapshot-id": self.snapshot, "sequence-number": number, "timestamp-ms": 1,
                                      "manifest-list": lists, "summary": {"operation": "overwrite"}})
        metadata.update({"last-sequence-number": number, "current-snapshot-id": self.snapshot})
        self.put(metadata)

    def expire(self):
        metadata = self.metadata()
        keep = [s for s in metadata["snapshots"] if s["snapshot-id"] == metadata["current-snapshot-id"]
                or self.rng.randrange(2)]
        metadata["snapshots"] = keep
        if self.rng.randrange(2):
            files = [{"snapshot-id": self.rng.randrange(1, 8),
                      "statistics-path": "%s/s%d.puffin" % (PREFIX, self.version)}]
            metadata[self.rng.choice(["statistics", "partition-statistics"])] = files
        self.put(metadata)

    def ids(self):
        return [snapshot["snapshot-id"] for snapshot in self.metadata()["snapshots"]]

    def orphans(self, path=None, *words):
        return self.run("orphans", *words, "--older-than-ms", str(OLDER_THAN_MS), path or self.path())

    def lay_files(self):
        """Files that are needed and files that are not, of which some are old."""
        os.makedirs(os.path.join(self.folder, "data", "more"))
        names = ["data/stray %d" % i for i in range(3)] + ["data/more/stray\n", "data/more/\u00e4"]
        for _, file in sorted(needed(self.read, self.path())):
            name = file.split("warehouse/db/t/", 1)[1].lstrip("/")
            if name.startswith("data/") and self.rng.randrange(3):
                names.append(self.rng.choice([name, name, name.replace(" ", "%20", 1), name.replace("f", "%66")]))
        for name in names:
            self.write(name, b"")
        os.symlink(self.folder, os.path.join(self.folder, "data", "around"))
        os.symlink("stray 0", os.path.join(self.folder, "data", "link"))
        for at, _, found in os.walk(self.folder):
            for name in found:
                if self.rng.randrange(2):
                    old = time.time() - 10 * OLDER_THAN_MS / 1000
                    os.utime(os.path.join(at, name), (old, old), follow_symlinks=False)


def answers(table):
    """What is asked of a table, with what has to be printed."""
    read, path = table.read, table.path()
    yield table.run("reachable", path), text_of(needed(read, path))
    yield table.run("reachable", "--format", "json", path), objects_of(text_of(needed(read, path)))
    ids = table.ids()
    gone = table.rng.sample(ids, table.rng.randrange(1, len(ids) + 1)) if ids else []
    if gone:
        listed = ",".join(map(str, gone))
        yield table.run("reachable", "--without", listed, path), text_of(needed(read, path, gone))
        left = text_of(alone(read, path, gone))
        yield table.run("reachable", "--only", listed, path), left
        yield table.run("reachable", "--format=json", "--only", listed, path), objects_of(left)
    table.lay_files()
    yield table.orphans(), strays(read, path, table.folder, PREFIX, OLDER_THAN_MS)
    objects = table.orphans(path, "--format", "json")
    yield objects, objects_of(strays(read, path, table.folder, PREFIX, OLDER_THAN_MS))


def named_by_plans(table):
    """The lines of the files that plans of the snapshots name."""
    for number in table.ids():
        for words in ([], ["--filter", "c = 1"]):
            got = table.run("plan", "--snapshot", str(number), *words, table.path())
            assert got.returncode == 0, got
            for line in got.stdout.split(b"\n"):
                kind, _, rest = line.strip().partition(b" ")
                if kind in (b"data", b"pos", b"eq"):
                    yield (b"data " if kind == b"data" else b"delete ") + rest.split(b" ")[0]


def refusals(table):
    """What is asked of a table with a manifest at fault, with the status that it ends with."""
    ids = ",".join(map(str, table.ids()))
    yield lambda: table.run("reachable", table.path())
    yield lambda: table.run("reachable", "--only", ids, table.path())
    yield table.orphans


def wrong_with(table):
    for got, expected in answers(table):
        if (got.returncode, got.stdout, got.stderr) != (0, expected, b""):
            return "%r\nnot\n%s" % (got, expected.decode())
    lines = table.run("reachable", table.path()).stdout.split(b"\n")
    for line in named_by_plans(table):
        if line not in lines:
            return "a plan names %r" % line
    for option, status in (("--only=999", 1), ("--without=1,999", 1), ("--only=1,,2", 2), ("--without=01", 2)):
        got = table.run("reachable", option, table.path())
        if got.returncode != status or got.stdout or not got.stderr:
            return "%s: %r" % (option, got)
    manifests = [file for kind, file in sorted(needed(table.read, table.path())) if kind == b"manifest"]
    if not manifests:
        return None
    name = table.rng.choice(manifests)[len(PREFIX) + 1:]
    with open(os.path.join(table.folder, name), "rb") as f:
        data = f.read()
    for change in (None, data[:-20], data.replace(b"\x08null", b"\x08lzma", 1), data[:40]):
        os.unlink(os.path.join(table.folder, name))
        if change is not None:
            table.write(name, change)
        status = 3 if change is None else 1
        for ask in refusals(table):
            got = ask()
            if change != data and (got.returncode != status or got.stdout or not got.stderr):
                return "a manifest is not as it was, and yet %r" % got
        table.write(name, data)
    return None


def wrong_beside_commits(table):
    """Commits go on beside `orphans`: it names the one old file, and none of theirs."""
    table.commit()
    path = table.path()
    table.write("data.old", b"")
    old = time.time() - 10 * OLDER_THAN_MS / 1000
    os.utime(os.path.join(table.folder, "data.old"), (old, old))
    commits = threading.Thread(target=lambda: [table.commit() for _ in range(5)])
    commits.start()
    wrong, goes_on = None, True
    while goes_on:
        goes_on = commits.is_alive()
        got = table.orphans(path)
        named = [line for line in got.stdout.split(b"\n") if line.startswith(b"orphan ")]
        if got.returncode or got.stderr or named != [b"orphan %s/data.old" % PREFIX.encode()]:
            wrong = "beside commits %r" % got
    commits.join()
    return wrong


def tell(words):
    how, folder, prefix, path = words[:4]
    read, gone = reader_of(folder, prefix), [int(word) for word in ",".join(words[4:]).split(",") if word]
    if how == "--tell-orphans":
        return strays(read, path, folder, prefix, gone[0])
    return text_of(alone(read, path, gone) if how == "--tell-only" else needed(read, path, gone))


def main():
    if sys.argv[1:2] and sys.argv[1].startswith("--tell") and len(sys.argv) in (5, 6):
        sys.stdout.buffer.write(tell(sys.argv[1:]))
        return
    if len(sys.argv) < 2 or sys.argv[1].startswith("--"):
        sys.exit(__doc__)
    different = 0
    for seed in range(TABLES + RACES):
        folder = tempfile.mkdtemp()
        try:
            table = Table(sys.argv[1:], folder, random.Random(seed))
            if seed < TABLES:
                for _ in range(table.rng.randrange(1, 8)):
                    table.rng.choice([table.commit, table.commit, table.rewrite, table.expire])()
            wrong = wrong_with(table) if seed < TABLES else wrong_beside_commits(table)
            if wrong:
                different += 1
                print("reachable: table %d: %s" % (seed, wrong))
        finally:
            shutil.rmtree(folder)
    print("reachable: %d tables and %d races, %d different" % (TABLES, RACES, different))
    sys.exit(1 if different else 0)


main()
