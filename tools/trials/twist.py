#!/usr/bin/env python3
"""twist.py PROGRAM TABLES [--runs N] [--seed N] [--only N] [--jobs N]: plans tables of which one file was twisted.

TABLES has a folder for each table: its files below data/metadata, and the words of commands in expected/*.args. A run
twists one file by its structure, a count, a length, a branch, a type of the schema, an entry of the header, a block, a
member of the metadata, or its bytes alone, and runs one of the commands. It has to end by itself, within 2 seconds of
processor time a megabyte, in at most 30 MB and 20 times the table's bytes of memory, with a plan or with one refusal
that docs/REFUSALS.md lists, and never for want of memory.

Prints the runs that did anything else, and a last line. The same seed gives the same runs; --only N does the run of
that number alone, and leaves its folder. Wants a C compiler.
"""
import argparse
import copy
import functools
import glob
import json
import os
import random
import re
import resource
import shutil
import subprocess
import sys
import time
import traceback

HERE = os.path.dirname(os.path.abspath(__file__))
TOP = os.path.join(HERE, "..", "..")
MEGABYTE = 1 << 20
MOST_VALUES = 100000
SHARED = "/dev/shm" if os.path.isdir("/dev/shm") else None


# ---- Avro


def number(data, at):
    shift = value = 0
    while True:
        byte = data[at]
        at += 1
        value |= (byte & 127) << shift
        shift += 7
        if byte < 128:
            return (value >> 1) ^ -(value & 1), at


def spelled(value, groups=0):
    """The bytes of a number, in at least so many groups."""
    value = (value << 1) ^ (-1 if value < 0 else 0)
    out = bytearray()
    while value > 127 or len(out) + 1 < groups:
        out.append(value & 127 | 128)
        value >>= 7
    out.append(value & 127)
    return bytes(out)


def run_of(data, at):
    """A length and so many bytes, and where they end."""
    size, at = number(data, at)
    if size < 0 or at + size > len(data):
        raise ValueError("a run of bytes passes the end")
    return data[at : at + size], at + size


class Walk:
    """Goes over an object, and keeps where its numbers stand, and what they are."""

    def __init__(self, schema):
        self.named, self.numbers, self.schema, self.values = {}, [], schema, 0

    def number(self, data, at, what):
        value, end = number(data, at)
        self.numbers.append((what, at, end, value))
        return value, end

    def blocks(self, data, at, one):
        while True:
            count, at = self.number(data, at, "count")
            if count == 0:
                return at
            if count < 0:
                _, at = self.number(data, at, "size")
            for _ in range(abs(count)):
                at = one(data, at)

    def text(self, data, at):
        size, at = self.number(data, at, "length")
        if size < 0:
            raise ValueError("a run of bytes has a negative length")
        return at + size

    def value(self, schema, data, at):
        self.values += 1
        if self.values > MOST_VALUES:
            raise ValueError("the object has too many values")
        if isinstance(schema, list):
            branch, at = self.number(data, at, "branch")
            return self.value(schema[branch], data, at)
        kind = schema["type"] if isinstance(schema, dict) else schema
        if isinstance(schema, dict) and "name" in schema:
            self.named[schema["name"]] = schema
        if isinstance(kind, (dict, list)):
            return self.value(kind, data, at)
        if kind == "record":
            for field in schema["fields"]:
                at = self.value(field["type"], data, at)
            return at
        if kind == "array":
            return self.blocks(data, at, lambda data, at: self.value(schema["items"], data, at))
        if kind == "map":
            return self.blocks(data, at, lambda data, at: self.value(schema["values"], data, self.text(data, at)))
        if kind in ("int", "long", "enum"):
            return self.number(data, at, "number")[1]
        if kind in ("bytes", "string"):
            return self.text(data, at)
        sizes = {"null": 0, "boolean": 1, "float": 4, "double": 8}
        if kind in sizes:
            return at + sizes[kind]
        if kind == "fixed":
            return at + schema["size"]
        return self.value(self.named[kind], data, at)


class Container:
    """The parts of a container file: header entries, the marker, and blocks of a count and a content."""

    def __init__(self, data):
        count, at = number(data, 4)
        self.data, self.entries, self.blocks = data, [], []
        while count:
            if count < 0:
                count, (_, at) = -count, number(data, at)
            for _ in range(min(count, len(data))):
                key, at = run_of(data, at)
                value, at = run_of(data, at)
                self.entries.append((key, value))
            count, at = number(data, at)
        self.marker = data[at : at + 16]
        at += 16
        while at < len(data):
            count, at = number(data, at)
            content, at = run_of(data, at)
            self.blocks.append((count, content))
            at += 16

    def schema(self):
        return json.loads(dict(self.entries)[b"avro.schema"])

    def set_schema(self, schema):
        text = json.dumps(schema).encode() if not isinstance(schema, bytes) else schema
        self.entries = [(key, text if key == b"avro.schema" else value) for key, value in self.entries]

    def bytes(self):
        out = [b"Obj\x01", spelled(len(self.entries))]
        for key, value in self.entries:
            out += [spelled(len(key)), key, spelled(len(value)), value]
        out += [b"\0", self.marker]
        for count, content in self.blocks:
            out += [spelled(count), spelled(len(content)), content, self.marker]
        return b"".join(out)


@functools.lru_cache(256)
def walked(data):
    """For each block of a file the ends of its objects and the places of its numbers."""
    file, found = Container(data), []
    for count, content in file.blocks:
        walk, at, ends = Walk(file.schema()), 0, []
        for _ in range(min(count, MOST_VALUES)):
            at = walk.value(walk.schema, content, at)
            ends.append(at)
        found.append((ends, walk.numbers))
    return found


# ---- twists

EDGES = [0, 1, 2, 3, 63, 64, 127, 128, 8191, 65535, 65536, 2**24, 2**24 + 1]
EDGES += [2**31 - 1, 2**31, 2**32, 2**40, 2**62, 2**63 - 1]


def odd_number(chance, value):
    """The spelling of another number, or no spelling."""
    way = chance.randrange(8)
    if way < 3:
        return spelled(value + chance.choice([-2, -1, 1, 2]))
    if way < 6:
        return spelled(chance.choice(EDGES) * chance.choice([1, -1]) - chance.choice([0, 1]) * chance.choice([0, 1]))
    if way == 6:
        return spelled(value, chance.randrange(2, 12))
    return bytes([255] * chance.randrange(1, 12)) + bytes(chance.randrange(2))


def field(name, kind, number):
    return {"name": name, "type": kind, "field-id": number}


def name_of(chance):
    return "n%d" % chance.randrange(4)


def odd_type(chance, depth=0):
    """A type, which need not be one."""
    atoms = ["null", "boolean", "int", "long", "float", "double", "bytes", "string", "int32", "", "r2", "a.b"]
    if depth > 3 or chance.random() < 0.4:
        return chance.choice(atoms)
    inner = lambda: odd_type(chance, depth + 1)
    return chance.choice(
        [
            lambda: {"type": "array", "items": inner()},
            lambda: {"type": "array", "items": inner(), "logicalType": "map"},
            lambda: {"type": "map", "values": inner()},
            lambda: [inner() for _ in range(chance.randrange(4))],
            lambda: ["null", inner()],
            lambda: {"type": "fixed", "name": name_of(chance), "size": chance.choice([0, 1, 4, 16, -1, 2**31, 1.5])},
            lambda: {"type": "enum", "name": name_of(chance), "symbols": ["A", "B"][: chance.randrange(3)]},
            lambda: {
                "type": "record",
                "name": name_of(chance),
                "fields": [field("f", inner(), chance.randrange(600)) for _ in range(chance.randrange(3))],
            },
            lambda: {"type": inner()},
            lambda: {"type": "bytes", "logicalType": "decimal", "precision": 9, "scale": 2},
        ]
    )()


def nothings(chance):
    """A type of items that take no bytes."""
    return chance.choice(
        [
            "null",
            {"type": "record", "name": "nothing", "fields": []},
            {"type": "fixed", "name": "nothing", "size": 0},
            {"type": "record", "name": "nothings", "fields": [{"name": x, "type": "null"} for x in "abc"]},
        ]
    )


def more_data(chance):
    """A type, and bytes that spell a value of it."""
    count = chance.choice([1, 100, 2**20, 2**24 - 1, 2**24, 2**24 + 1, 2**40])
    way = chance.randrange(7)
    if way == 0:
        return {"type": "array", "items": nothings(chance)}, spelled(count) + b"\0"
    if way == 6:
        count, nulls = chance.choice([1, 100, 30000]), chance.choice([1, 300, 3000])
        fields = [field("x", "int", 700)] + [field("x%d" % i, "null", 701 + i) for i in range(nulls)]
        items = {"type": "record", "name": "sparse", "fields": fields}
        return {"type": "array", "items": items}, spelled(count) + b"\0" * count + b"\0"
    if way == 1:
        return {"type": "array", "items": nothings(chance)}, spelled(-count) + spelled(chance.choice([0, 7])) + b"\0"
    if way == 2:
        items = {"type": "array", "items": nothings(chance)}
        return {"type": "array", "items": items}, spelled(3) + (spelled(count // 4) + b"\0") * 3 + b"\0"
    if way == 3:
        pair = {"type": "record", "name": "p", "fields": [{"name": "k", "type": "int"}, {"name": "v", "type": "long"}]}
        return {"type": "array", "items": pair}, spelled(count) + b"\0" * chance.randrange(9)
    if way == 4:
        return {"type": "map", "values": "null"}, spelled(3) + b"\x02a\x02b\x02c\0"
    deep = "long"
    for _ in range(chance.choice([5, 30, 40, 150])):
        deep = {"type": "array", "items": deep}
    return deep, b"\0"


# The maps of columns by their field ids: the ids of their keys and values, and the type of these.
MAPS = {109: (119, 120, "long"), 110: (121, 122, "long"), 125: (126, 127, "bytes"), 128: (129, 130, "bytes")}
SUMMARIES = 507


def wide(chance, number):
    """A map of columns or a list of summaries, whose items have many fields that take no bytes: type and bytes."""
    count, nulls = chance.choice([1, 100, 30000]), chance.choice([0, 1, 10, 300])
    if number == SUMMARIES:
        fields, item = [field("contains_null", "boolean", 509)], b"\0"
    else:
        key, value, kind = MAPS[number]
        fields, item = [field("key", "int", key), field("value", kind, value)], b"\2\0"
    fields += [field("x%d" % i, "null", 700 + i) for i in range(nulls)]
    items = {"type": "record", "name": "wide", "fields": fields}
    return {"type": "array", "logicalType": "map", "items": items}, spelled(count) + item * count + b"\0"


def odd_value(chance):
    """A JSON value of any kind."""
    return chance.choice(
        [None, True, False, 0, -1, 1, 2, 7, 2**31, -(2**31), 2**53, 2**63, -(2**63), 2**64, 10**30, 0.5, 1e300]
        + ["", "x", "-1", "null", "é\x00\U0001f600", "long", "s3://warehouse/db/x"]
        + [[], {}, [[]], [{}], {"type": "struct", "fields": []}]
    )


def places_in(json_value):
    """Each place of a JSON value: what holds it, and its key there."""
    found, left = [], [json_value]
    while left:
        holder = left.pop()
        keys = holder if isinstance(holder, dict) else range(len(holder)) if isinstance(holder, list) else []
        for key in keys:
            found.append((holder, key))
            left.append(holder[key])
    return found


def twist_json(chance, value, odd):
    """The value with a place changed, dropped, doubled or swapped with another."""
    value = copy.deepcopy(value)
    places = places_in(value)
    if not places:
        return odd(chance)
    holder, key = chance.choice(places)
    way = chance.randrange(6)
    if way == 0:
        del holder[key]
    elif way == 1 and isinstance(holder, list):
        holder.insert(key, copy.deepcopy(holder[key]))
    elif way == 2:
        other, at = chance.choice(places)
        holder[key] = copy.deepcopy(other[at])
    elif way == 3 and isinstance(holder[key], int):
        holder[key] += chance.choice([-1, 1, 2**31, 2**32])
    elif way == 4 and isinstance(holder[key], str):
        holder[key] = chance.choice([holder[key] * 3, holder[key][:-1], holder[key] + ".x", "." + holder[key]])
    else:
        holder[key] = odd(chance)
    return value


def twist_bytes(chance, data):
    """The bytes cut, changed, doubled or with others between."""
    at = chance.randrange(len(data) + 1)
    end = min(len(data), at + chance.choice([1, 1, 2, 8, 64, 1000]))
    way = chance.randrange(6)
    if way == 0:
        return data[:at]
    if way == 1:
        return data[:at] + bytes(chance.randrange(256) for _ in range(end - at)) + data[end:]
    if way == 2:
        return data[:at] + data[end:]
    if way == 3:
        return data[:end] + data[at:]
    if way == 4:
        odd = [b"\0", b"\x80", b"\xff" * 9 + b"\1", b"{", b"[" * 200, b'"', b"\\u0000"]
        return data[:at] + chance.choice(odd) + data[at:]
    return data[:at] + bytes(byte ^ 1 << chance.randrange(8) for byte in data[at:end]) + data[end:]


def twist_numbers(chance, file):
    """A count, a length, a branch or a number of an object."""
    walk = walked(file.data)
    full = [i for i, (_, numbers) in enumerate(walk) if numbers]
    if not full:
        return file.bytes()
    which = chance.choice(full)
    kind = chance.choice(sorted({found[0] for found in walk[which][1]}))
    _, at, end, value = chance.choice([found for found in walk[which][1] if found[0] == kind])
    count, content = file.blocks[which]
    file.blocks[which] = (count, content[:at] + odd_number(chance, value) + content[end:])
    return file.bytes()


def twist_schema(chance, file):
    file.set_schema(twist_json(chance, file.schema(), chance.choice([odd_type, odd_value])))
    return file.bytes()


def twist_schema_text(chance, file):
    file.set_schema(twist_bytes(chance, dict(file.entries)[b"avro.schema"]))
    return file.bytes()


def twist_field(chance, file):
    """A field more at the end of each object, which no reader wants, or in the place of one that is read."""
    schema, walk = file.schema(), walked(file.data)
    fields, last = schema["fields"], schema["fields"][-1]["type"]
    is_entry = isinstance(last, dict) and last.get("type") == "record"
    if chance.random() < 0.5:
        number = chance.choice(sorted(MAPS)) if is_entry else SUMMARIES
        kind, data = wide(chance, number)
        fields = last["fields"] if is_entry else fields
        for other in fields:
            if other.get("field-id") == number:
                other["field-id"] = 9000
        fields.append(field("more", kind, number))
    else:
        kind, data = more_data(chance)
        fields.append(field("more", kind, chance.choice([9000, 500, 517, 2])))
    for i, (count, content) in enumerate(file.blocks):
        starts = [0] + walk[i][0][:-1]
        objects = [content[at:end] for at, end in zip(starts, walk[i][0])]
        file.blocks[i] = (count, b"".join(one + data for one in objects))
    file.set_schema(schema)
    return file.bytes()


def twist_header(chance, file):
    key = chance.choice([b"avro.codec", b"avro.schema", b"x", b"\xff", b"partition-spec-id", b"schema"])
    value = chance.choice([b"null", b"deflate", b"", b"\xff", b"1", b"-1", b'"long"', b"x" * 5000])
    way = chance.randrange(3)
    if way == 0:
        file.entries.insert(chance.randrange(len(file.entries) + 1), (key, value))
    elif way == 1:
        file.entries.pop(chance.randrange(len(file.entries)))
    else:
        which = chance.randrange(len(file.entries))
        file.entries[which] = chance.choice([(file.entries[which][0], value), (key, file.entries[which][1])])
    if chance.random() < 0.3:
        file.entries *= chance.choice([2, 3])
    return file.bytes()


def twist_blocks(chance, file):
    if not file.blocks:
        file.blocks = [(0, b"")]
    which = chance.randrange(len(file.blocks))
    count, content = file.blocks[which]
    way = chance.randrange(6)
    if way == 0:
        file.blocks[which] = (chance.choice([count - 1, count + 1, -count, 0, *EDGES]), content)
    elif way == 1:
        file.blocks.insert(which, (0, b""))
    elif way == 2:
        file.blocks *= chance.choice([2, 50])
    elif way == 3:
        file.blocks.pop(which)
    elif way == 4:
        file.blocks[which] = (count, twist_bytes(chance, content))
    else:
        data = file.bytes()
        at = data.index(file.marker) + chance.randrange(16 + 24)
        return data[:at] + odd_number(chance, 5) + data[at + chance.randrange(3) :]
    return file.bytes()


TWISTS = [twist_numbers] * 4 + [twist_schema] * 4 + [twist_field] * 2 + [twist_schema_text, twist_header, twist_blocks]


def twisted_avro(chance, data):
    if chance.random() < 0.1:
        return twist_bytes(chance, data)
    twisted = data
    for _ in range(chance.choice([1, 1, 1, 2])):
        try:
            twisted = chance.choice(TWISTS)(chance, Container(twisted))
        except (IndexError, KeyError, ValueError, TypeError, AttributeError, RecursionError, MemoryError):
            # The file before was too odd for another twist by its structure.
            twisted = twist_bytes(chance, twisted)
    return twisted


def twisted_json(chance, data):
    if chance.random() < 0.3:
        return twist_bytes(chance, data)
    value = json.loads(data)
    for _ in range(chance.choice([1, 1, 2])):
        value = twist_json(chance, value, odd_value)
    return json.dumps(value).encode()


# ---- runs


class Table:
    def __init__(self, folder):
        self.folder = folder
        self.files = {}
        for path in sorted(glob.glob(os.path.join(folder, "data", "metadata", "*"))):
            with open(path, "rb") as file:
                self.files[os.path.basename(path)] = file.read()
        self.size = sum(map(len, self.files.values()))
        self.commands = []
        for path in sorted(glob.glob(os.path.join(folder, "expected", "*.args"))):
            with open(path) as file:
                self.commands.append(file.read().splitlines())
        plans = [words for words in self.commands if words[0] == "plan"]
        self.commands += [["show", *words[1:5], words[-1]] for words in plans[:1]]

    def copy_to(self, folder):
        os.makedirs(os.path.join(folder, "metadata"), exist_ok=True)
        for name, data in self.files.items():
            write(os.path.join(folder, "metadata", name), data)


def write(path, data):
    with open(path, "wb") as file:
        file.write(data)


def listed_refusals():
    """The refusals of docs/REFUSALS.md."""
    with open(os.path.join(TOP, "docs", "REFUSALS.md")) as file:
        return set(re.findall(r"^\| `([A-Z]\d+ \w+)`", file.read(), re.M))


class Launcher:
    """Runs a program, in a small process of its own."""

    def __init__(self, helper, program, folder):
        self.program, self.out, self.err = program, os.path.join(folder, "out"), os.path.join(folder, "err")
        self.process = subprocess.Popen([helper], stdin=subprocess.PIPE, stdout=subprocess.PIPE)

    def ran(self, words):
        """The status, or the negated signal; what was written; memory in bytes; seconds of the processor."""
        line = "\1".join([self.out, self.err, self.program, *words]) + "\n"
        self.process.stdin.write(line.encode())
        self.process.stdin.flush()
        status, memory, micros = map(int, self.process.stdout.readline().split())
        with open(self.out, "rb") as file:
            said = file.read(1 << 16)
        with open(self.err, "rb") as file:
            why = file.read(1 << 16)
        return status, said, why, memory, micros / 1e6


def wrong_with(got, size, listed):
    """What a run did that it may not do, or None."""
    status, said, why, memory, seconds = got
    if status < 0:
        return "ended by signal %d after %.1f s" % (-status, seconds)
    if seconds > 2 * max(1, size / MEGABYTE):
        return "%.1f s for %d bytes" % (seconds, size)
    if memory > 30 * MEGABYTE + 20 * size:
        return "%.0f MB for %d bytes" % (memory / MEGABYTE, size)
    if status == 0:
        return None if why == b"" else "status 0 and %r" % why[:100]
    first = re.match(rb"icescan: ([A-Z]\d+ \w+)[^\n]*\n\Z", why)
    if status not in (1, 2, 3) or said or not first or first[1].decode() not in listed:
        return "status %d, %d bytes of output, %r" % (status, len(said), why[:200])
    inner = re.findall(rb" ([NVS]\d+ \w+)", why[why.rfind(b" N") :]) if first[1] == b"Z2 Bad" else []
    unlisted = [name for name in inner if name.decode() not in listed]
    return "refused by %r" % why[:200] if unlisted else None


def run(given, tables, number, folder, launcher, listed):
    """One run: its table and file, its words, and what is wrong with it."""
    chance = random.Random("%d.%d" % (given.seed, number))
    table = chance.choice(tables)
    name = chance.choice(sorted(table.files))
    data = table.files[name]
    twisted = (twisted_json if name.endswith(".json") else twisted_avro)(chance, data)
    words = chance.choice([words for words in table.commands if not name.endswith(".json") or words[0] != "list-plan"])
    below = os.path.join(folder, os.path.basename(table.folder))
    if not os.path.isdir(below):
        table.copy_to(below)
    path = os.path.join(below, "metadata", name)
    write(path, twisted)
    got = launcher.ran([word.replace("{DIR}", below) for word in words])
    wrong = wrong_with(got, table.size - len(data) + len(twisted), listed)
    if given.only is None:
        write(path, data)
    line = "run %d, %s of %s, %s: %s" % (number, name, os.path.basename(table.folder), " ".join(words), wrong)
    return line, wrong, got


def work(given, tables, numbers, folder, helper, pipe):
    """The runs of these numbers. What is wrong goes down the pipe, and at the end how the runs ended."""
    os.makedirs(folder, exist_ok=True)
    resource.setrlimit(resource.RLIMIT_AS, (1024 * MEGABYTE, 1024 * MEGABYTE))
    launcher = Launcher(helper, given.program, folder)
    listed, endings, most, slowest = listed_refusals(), {}, 0, 0
    for number in numbers:
        line, wrong, got = run(given, tables, number, folder, launcher, listed)
        endings[got[0]] = endings.get(got[0], 0) + 1
        most, slowest = max(most, got[3]), max(slowest, got[4])
        if wrong:
            os.write(pipe, (line + "\n").encode())
        elif given.only is not None:
            print(line, got[2])
    os.write(pipe, ("= %s\n" % json.dumps([endings, most, slowest])).encode())


def gathered(pipe):
    """How many runs are wrong, which are printed, how the runs ended, and the most that one took."""
    wrong, endings, most, slowest = 0, {}, 0, 0
    with os.fdopen(pipe) as lines:
        for line in lines:
            if not line.startswith("= "):
                wrong += 1
                print(line, end="", flush=True)
                continue
            ended, memory, seconds = json.loads(line[2:])
            most, slowest = max(most, memory), max(slowest, seconds)
            for status, count in ended.items():
                endings[int(status)] = endings.get(int(status), 0) + count
    return wrong, endings, most, slowest


def main():
    arguments = argparse.ArgumentParser(description=__doc__, formatter_class=argparse.RawDescriptionHelpFormatter)
    arguments.add_argument("program", type=os.path.abspath)
    arguments.add_argument("tables")
    arguments.add_argument("--runs", type=int, default=10000)
    arguments.add_argument("--seed", type=int, default=1)
    arguments.add_argument("--only", type=int)
    arguments.add_argument("--jobs", type=int, default=os.cpu_count())
    given = arguments.parse_args()
    tables = [Table(folder) for folder in sorted(glob.glob(os.path.join(given.tables, "*")))]
    tables = [table for table in tables if table.files and table.commands]
    folder = os.path.join(SHARED or "/tmp", "twist.%d" % os.getpid())
    os.makedirs(folder)
    helper = os.path.join(folder, "launch")
    subprocess.run(["cc", "-O1", "-o", helper, os.path.join(HERE, "launch.c")], check=True)
    started, (read, pipe) = time.time(), os.pipe()
    numbers = range(given.runs) if given.only is None else [given.only]
    jobs = given.jobs if given.only is None else 1
    for job in range(jobs):
        if os.fork() == 0:
            try:
                work(given, tables, numbers[job::jobs], os.path.join(folder, str(job)), helper, pipe)
            except BaseException:
                traceback.print_exc()
            finally:
                sys.stdout.flush()
                os._exit(0)
    os.close(pipe)
    wrong, endings, most, slowest = gathered(read)
    for _ in range(jobs):
        os.wait()
    if given.only is None:
        shutil.rmtree(folder)
    else:
        print("the table is in", folder)
    ended = ", ".join("%d with status %d" % (count, status) for status, count in sorted(endings.items()))
    print("%d runs in %.0f s: %s" % (len(numbers), time.time() - started, ended))
    print("at most %.0f MB and %.2f s; %d runs are wrong" % (most / MEGABYTE, slowest, wrong))
    sys.exit(1 if wrong or sum(endings.values()) < len(numbers) else 0)


main()
