#!/usr/bin/env python3
"""relax.py PROGRAM [RUNS [SEED]]: plans under random filters that ask what a column can't be asked, with `--relax`.

A table is written whose rows are known: longs, doubles and floats with NaN and infinities, decimals, uuids, texts, dates, a
list and a map, with nulls; partitioned by an int, with bounds of what has an order here. Each filter, of which some
comparisons can't be asked, is evaluated row by row, as three engines have it: by IEEE's order of floats, in which NaN is
less than nothing and equals nothing; with NaN above all others and equal to itself, as Spark and Trino sort; and with every
comparison true that icescan doesn't ask. Then

- each file with a row that meets the filter, by any of the three, is in the plan;
- plan, explanation and both as JSON are those of the filter that has `true` in the place of these comparisons;
- standard error has a line for each of them, in their order, and nothing else;
- without `--relax` the filter is refused as F4, and where all can be asked `--relax` changes nothing;
- a column that is not there, and a literal that its column does not take, are refused as without `--relax`, but for F4.

Prints what is not so, and a last line that counts; the status is 1 where anything is not so.
"""
import decimal
import math
import os
import random
import subprocess
import sys
import tempfile
import uuid

from refusals import ROW, container, field, number, record, row, table, text

LIST = {"type": "list", "element-id": 20, "element": "int", "element-required": False}
MAP = {"type": "map", "key-id": 21, "key": "string", "value-id": 22, "value": "int", "value-required": False}
COLUMNS = [(1, "k", "int"), (2, "id", "long"), (3, "d", "double"), (4, "f", "float"), (5, "m", "decimal(9, 2)"), (6, "u", "uuid"),
           (7, "s", "string"), (8, "day", "date"), (9, "l", LIST), (10, "a", MAP)]
KIND = {name: kind if isinstance(kind, str) else "nested" for _, name, kind in COLUMNS}
UNASKED = ("double", "float", "decimal(9, 2)", "nested")
ORDERS = ("<", "<=", ">", ">=")
UUIDS = [str(uuid.UUID(int=n << 64 | 7)) for n in (1, 2**63 - 1, 2**63, 2**64 - 1)]


# ---- manifests

MAPS = (("value_counts", 109, 119, 120, "long"), ("null_value_counts", 110, 121, 122, "long"),
        ("lower_bounds", 125, 126, 127, "bytes"), ("upper_bounds", 128, 129, 130, "bytes"))


def map_of(name, ident, key, value, kind):
    pair = record(f"k{key}", [field("key", "int", key), field("value", kind, value)])
    return field(name, {"type": "array", "items": pair, "logicalType": "map"}, ident)


FILE = [field("content", "int", 134), field("file_path", "string", 100), field("file_format", "string", 101),
        field("record_count", "long", 103), field("file_size_in_bytes", "long", 104),
        field("partition", record("r102", [field("k", ["null", "int"], 1000)]), 102), *(map_of(*it) for it in MAPS)]
ENTRY = record("manifest_entry", [field("status", "int", 0), field("snapshot_id", ["null", "long"], 1),
                                  field("sequence_number", ["null", "long"], 3), field("data_file", record("r2", FILE), 2)])
SPEC = {"spec-id": 0, "fields": [{"source-id": 1, "field-id": 1000, "name": "k", "transform": "identity"}]}


def pairs(held):
    """A map of columns."""
    if not held:
        return number(0)
    both = [number(key) + (text(it) if isinstance(it, bytes) else number(it)) for key, it in held]
    return number(len(both)) + b"".join(both) + number(0)


# ---- rows


def value(draw, kind):
    if draw.random() < 0.15:
        return None
    if kind in ("double", "float"):
        return draw.choice([math.nan, math.inf, -math.inf, -0.0, 0.0, 0.5, 1.0, 2.0, -3.0, 7.25])
    if kind.startswith("decimal"):
        return decimal.Decimal(draw.randint(-500, 500)).scaleb(-2)
    if kind == "uuid":
        return draw.choice(UUIDS)
    if kind == "string":
        return draw.choice(["a", "ab", "abc", "b", "c'd", "e"])
    if kind == "nested":
        return [1]
    return draw.randint(0, 30) if kind == "long" else draw.randint(0, 4)


class DataFile:
    """A file with its rows, all of one partition."""

    def __init__(self, draw, at):
        self.path, self.k = f"mem://t/f{at}", draw.choice([None, 0, 1, 2, 3])
        self.rows = []
        for _ in range(draw.randint(1, 4)):
            row = {name: value(draw, KIND[name]) for _, name, _ in COLUMNS}
            row["k"] = self.k
            self.rows.append(row)

    def values(self, name):
        return [row[name] for row in self.rows if row[name] is not None]

    def bounds(self, pick):
        made = []
        for ident, name, kind in COLUMNS:
            held = self.values(name)
            if not held or KIND[name] not in ("long", "string", "date"):
                continue
            end = pick(held)
            size = 8 if kind == "long" else 4
            made.append((ident, end.encode() if kind == "string" else end.to_bytes(size, "little", signed=True)))
        return made

    def entry(self):
        place = number(0) if self.k is None else number(1) + number(self.k)
        counts = [(ident, len(self.rows)) for ident, _, _ in COLUMNS[:8]]
        nulls = [(ident, len(self.rows) - len(self.values(name))) for ident, name, _ in COLUMNS[:8]]
        of_file = number(0) + text(self.path) + text("parquet") + number(len(self.rows)) + number(1) + place
        maps = pairs(counts) + pairs(nulls) + pairs(self.bounds(min)) + pairs(self.bounds(max))
        return number(1) + number(0) * 2 + of_file + maps


def write(folder, draw):
    """The files of a table with six manifests, by their paths."""
    files = [DataFile(draw, at) for at in range(48)]
    for at in range(6):
        with open(os.path.join(folder, f"m{at}"), "wb") as out:
            out.write(container(ENTRY, [file.entry() for file in files[at * 8:at * 8 + 8]]))
    with open(os.path.join(folder, "l"), "wb") as out:
        out.write(container(record("m", ROW), [row(f"mem://t/m{at}") for at in range(6)]))
    fields = [{"id": ident, "name": name, "required": False, "type": kind} for ident, name, kind in COLUMNS]
    schema = {"type": "struct", "schema-id": 0, "fields": fields}
    with open(os.path.join(folder, "t"), "wb") as out:
        out.write(table("mem://t/l", schemas=[schema], **{"partition-specs": [SPEC], "last-column-id": 30}))
    return files


# ---- filters


def literal(draw, kind):
    """A literal that a column of this kind takes, and its value; of what is not asked any."""
    if kind == "uuid":
        chosen = draw.choice(UUIDS)
        return f"'{chosen}'", chosen
    if kind == "string":
        chosen = draw.choice(["a", "ab", "abd", "c'd", "z"])
        return "'" + chosen.replace("'", "''") + "'", chosen
    if kind in UNASKED and draw.random() < 0.2:
        return draw.choice([("'x'", "x"), ("true", True), ("x'0f'", b"\x0f")])
    chosen = draw.randint(-3, 8) if kind != "long" else draw.randint(0, 30)
    return str(chosen), chosen


class Leaf:
    """A comparison: its text, and whether icescan asks it."""

    def __init__(self, draw, name):
        self.name, kind = name, KIND[name]
        self.sign = draw.choice([*ORDERS, "=", "!=", "in", "not in", "is null", "is not null", "starts with"])
        if self.sign == "starts with" and kind != "string" and draw.random() < 0.7:
            self.sign = "="
        many = draw.randint(1, 3) if self.sign.endswith("in") else 0 if self.sign.startswith("is") else 1
        drawn = [literal(draw, "string" if self.sign == "starts with" else kind) for _ in range(many)]
        self.values = [it for _, it in drawn]
        told = ", ".join(it for it, _ in drawn)
        self.text = f"{name} {self.sign} ({told})" if self.sign.endswith("in") else f"{name} {self.sign} {told}".rstrip()
        self.asked = not (kind in UNASKED or kind == "uuid" and self.sign in ORDERS
                          or self.sign == "starts with" and kind != "string")

    def met(self, row, engine):
        if not self.asked and engine == "any":
            return True
        held = row[self.name]
        if self.sign.startswith("is"):
            return (held is None) == (self.sign == "is null")
        return held is not None and compares(self.sign, held, self.values, engine)

    def show(self, relaxed):
        return "true" if relaxed and not self.asked else self.text

    def leaves(self):
        return [self]


class Both:
    """Two filters, and the word between them; each stands in parentheses but a leaf."""

    def __init__(self, word, first, second):
        self.word, self.sides = word, (first, second)

    def met(self, row, engine):
        join = all if self.word == "and" else any
        return join(side.met(row, engine) for side in self.sides)

    def show(self, relaxed):
        first, second = (side.show(relaxed) if isinstance(side, Leaf) else f"({side.show(relaxed)})" for side in self.sides)
        return f"{first} {self.word} {second}"

    def leaves(self):
        return [leaf for side in self.sides for leaf in side.leaves()]


def order(held, wanted, engine):
    """Below 0, 0 or above 0; None where the two have no order."""
    if isinstance(held, str) != isinstance(wanted, str) or isinstance(wanted, (bytes, bool)) or isinstance(held, list):
        return None
    if isinstance(held, float) and math.isnan(held):
        return 1 if engine == "above" else None
    return (held > wanted) - (held < wanted)


def compares(sign, held, values, engine):
    if sign == "starts with":
        return isinstance(held, str) and held.startswith(values[0])
    found = [order(held, it, engine) for it in values]
    if sign in ("=", "in"):
        return 0 in found
    if sign in ("!=", "not in"):
        return 0 not in found
    return found[0] is not None and {"<": found[0] < 0, "<=": found[0] <= 0, ">": found[0] > 0, ">=": found[0] >= 0}[sign]


def drawn(draw, depth):
    if depth == 0 or draw.random() < 0.25:
        names = [name for _, name, _ in COLUMNS]
        return Leaf(draw, draw.choice(names + 3 * ["k", "id", "s"]))
    return Both("and" if draw.random() < 0.7 else "or", drawn(draw, depth - 1), drawn(draw, depth - 1))


# ---- runs


class Table:
    def __init__(self, program, folder, files):
        self.program, self.folder, self.files = program, folder, files

    def run(self, command, *words):
        asked = [self.program, command, "--dir", self.folder, "--prefix", "mem://t", *words, "mem://t/t"]
        ran = subprocess.run(asked, capture_output=True, timeout=60)
        return ran.returncode, ran.stdout.decode(), ran.stderr.decode()


def planned(told):
    return {line.split(" ")[1] for line in told.splitlines() if line.startswith("data ")}


def faults(on, tree):
    """What is not so of a filter, in words."""
    asked, relaxed = tree.show(False), tree.show(True)
    unasked = [leaf.text for leaf in tree.leaves() if not leaf.asked]
    lines = "".join(f"icescan: not asked: {it}\n" for it in unasked)
    status, plan, errors = on.run("plan", "--relax", "--filter", asked)
    if (status, errors) != (0, lines):
        yield f"status {status}, {errors!r} in place of {lines!r}"
    for engine in ("ieee", "above", "any"):
        wanted = {file.path for file in on.files if any(tree.met(row, engine) for row in file.rows)}
        if wanted - planned(plan):
            yield f"lost by {engine}: {sorted(wanted - planned(plan))}"
    for command in ("plan", "explain"):
        for form in ("text", "json"):
            words = ["--format", form]
            if on.run(command, *words, "--relax", "--filter", asked) != (0, on.run(command, *words, "--filter", relaxed)[1], lines):
                yield f"{command} as {form} is not that of {relaxed}"
    plain = on.run("plan", "--filter", asked)
    if unasked and plain != (2, "", "icescan: F4 NotComparable\n"):
        yield f"without --relax: {plain}"
    if not unasked and plain != (0, plan, ""):
        yield "--relax changes what can be asked"


REFUSED = [("d > 1 and none = 1", "F2 NoSuchColumn"), ("none = 1 and d > 1", "F2 NoSuchColumn"),
           ("d > 1 or id = 'x'", "F3 WrongLiteral"), ("d > 1 or u = 'x'", "F3 WrongLiteral"), ("d > 1 and", "F1 Syntax 9"),
           ("d > 1 and ref.x = 1", "F2 NoSuchColumn")]


def refusals(on):
    for asked, fault in REFUSED:
        got = on.run("plan", "--relax", "--filter", asked)
        if got != (2, "", f"icescan: {fault}\n"):
            yield f"{asked}: {got}"
    if on.run("plan", "--relax")[0] != 2:
        yield "--relax without a filter is taken"


def main():
    if len(sys.argv) < 2 or sys.argv[1].startswith("--"):
        sys.exit(__doc__)
    program, runs, seed = os.path.abspath(sys.argv[1]), int((sys.argv[2:] or ["500"])[0]), int((sys.argv[3:] or ["1"])[0])
    draw = random.Random(seed)
    wrong = relaxed = pruned = 0
    with tempfile.TemporaryDirectory() as folder:
        on = Table(program, folder, write(folder, draw))
        for told in refusals(on):
            print(told)
            wrong += 1
        for at in range(runs):
            tree = drawn(draw, 4)
            for told in faults(on, tree):
                print(f"{at}: {tree.show(False)}: {told}")
                wrong += 1
            if any(not leaf.asked for leaf in tree.leaves()):
                relaxed += 1
                pruned += len(planned(on.run("plan", "--relax", "--filter", tree.show(False))[1])) < len(on.files)
    print(f"{runs} filters, {relaxed} relaxed, of which {pruned} left files out; {wrong} wrong")
    sys.exit(1 if wrong else 0)


if __name__ == "__main__":
    main()
