#!/usr/bin/env python3
"""json_plans.py PROGRAM [FOLDER PREFIX ..]: compares plans as JSON with plans as text.

Each FOLDER holds a table whose paths begin with PREFIX; without any, the tables of examples/ and one with partition
values of each type are planned. Of each metadata file `plan` is asked for: of main, of each ref and each snapshot, under
filters, by 1 and by 4 workers; of each manifest list `list-plan`. All are asked of the folder, and of a bundle of its
files on standard input.

What the JSON says, read by Python's own reader, is written as the text, and has to be that text; each delete file has to
stand once, and a task has to name it. Each task has to have one and the same filter, `true` where none is asked. Else it
is tried on random rows beside the filter's text, which is read here anew: a row has to meet both or neither. A refusal
has to be the same refusal, with nothing written before it. Prints what is not so, and a last line that counts; the
status is 1 where anything is not so.
"""
import datetime
import json
import os
import random
import re
import subprocess
import sys
import uuid

HERE = os.path.dirname(os.path.abspath(__file__))
sys.path.insert(0, os.path.dirname(HERE))
from bundle import escaped  # noqa: E402

EXAMPLES = [(os.path.join(HERE, "..", "..", "examples", name, "table"), "s3://warehouse/db/" + table)
            for name, table in (("events-java", "events"), ("plain-java", "plain"))]
EXAMPLES.append((os.path.join(HERE, "..", "..", "crates", "icescan_runs", "data", "values"), "mem://v"))
FILTERS = ["false", "id = 42", "id < 0", "ts < 0", "code is null", "(cat = 'books' or code in (7, 9))", "id in (5, 219, 100000)",
           "(ts >= 1709856000000000 and ts < 1709942400000000)", "none = 1", "id =", "true", "id > 7 or id <= 7 and id != 9",
           "cat not in ('it''s', 'a\"b\\') and (ts != 5 or day is not null) or false", "cat starts with 'b' or \"code\" >= 3",
           "day = 19790 or day < -719529 or day > 2932896", "data is null or data > 'm'", "amount > 1",
           "c0 = true or c1 >= 34 and c2 < 35", "c4 in (17486, -1) or c5 != 0 or c5 = 86399999999 or c5 = -1",
           "c6 > -1 or c7 not in (1, -1, 1709856000000000)", "c9 = 'F79C3E09677C4BBDA4793F349CB785E7' or c9 is null",
           "c10 <= x'000102Ff' or c11 in (x'', x'80', x'000102ff')", "c3 is null"]


def lines_of(task, deletes):
    """A task as lines of text."""
    file = task["data-file"]
    assert file["content"] == "data", "a task of no data file"
    yield b"data %s seq %d spec %d rows %d size %d" % (
        escaped(file["file-path"]), file["sequence-number"], file["spec-id"], file["record-count"], file["file-size-in-bytes"])
    named = [deletes[place] for place in task.get("delete-file-references", [])]
    for delete in named:
        if delete["content"] == "position-deletes":
            yield b"  pos %s seq %d" % (escaped(delete["file-path"]), delete["sequence-number"])
        else:
            assert delete["content"] == "equality-deletes", "a reference to no delete file"
            ids = ",".join(map(str, delete["equality-ids"])) or "-"
            yield b"  eq %s seq %d ids %s" % (escaped(delete["file-path"]), delete["sequence-number"], ids.encode())


def as_lines(plan):
    """What the JSON says, as lines of text."""
    assert plan["status"] == "completed", "not completed"
    deletes, tasks = plan["delete-files"], plan["file-scan-tasks"]
    paths = [delete["file-path"] for delete in deletes]
    assert len(set(paths)) == len(paths), "a delete file stands twice"
    named = [place for task in tasks for place in task.get("delete-file-references", [])]
    assert all(0 <= place < len(deletes) for place in named), "a reference to no place"
    assert len(set(named)) == len(deletes), "a delete file that no task names"
    for task in tasks:
        yield from lines_of(task, deletes)
    yield b"files %d deletes %d" % (len(tasks), len(named))


# ---- filters

TOKEN = re.compile(r"""\s*(?:(?P<name>[A-Za-z_]\w*)(?!')|"(?P<quoted>(?:[^"]|"")*)"|'(?P<text>(?:[^']|'')*)'|[xX]'(?P<bytes>[0-9A-Fa-f]*)'"""
                   r"""|(?P<number>-?\d+)|(?P<sign><=|>=|!=|[<>=(),.]))""")
WORDS = ("and", "or", "not", "in", "is", "null", "starts", "with", "true", "false")


def tokens_of(text):
    """The tokens of a filter: kind and value."""
    at, text = 0, text.strip()
    while at < len(text):
        found = TOKEN.match(text, at)
        kind, value = next((kind, value) for kind, value in found.groupdict().items() if value is not None)
        at = found.end()
        if kind == "name" and value in WORDS:
            yield value, None
        elif kind in ("name", "quoted"):
            yield "name", value.replace('""', '"')
        elif kind == "sign":
            yield value, None
        else:
            yield kind, {"text": lambda: value.replace("''", "'"), "bytes": lambda: bytes.fromhex(value), "number": lambda: int(value)}[kind]()


class Reader:
    """Reads a filter: a tree of ("and" | "or", left, right), ("true",), ("false",) and (operator, name, values)."""

    def __init__(self, text):
        self.tokens = list(tokens_of(text))

    def take(self, *kinds):
        if self.tokens and self.tokens[0][0] in kinds:
            return self.tokens.pop(0)
        return None

    def whole(self):
        return self.chain("or", lambda: self.chain("and", self.one))

    def chain(self, word, operand):
        tree = operand()
        while self.take(word):
            tree = (word, tree, operand())
        return tree

    def one(self):
        if self.take("("):
            tree = self.whole()
            assert self.take(")")
            return tree
        word = self.take("true", "false")
        return (word[0],) if word else self.leaf()

    def literal(self):
        kind, value = self.take("text", "bytes", "number", "true", "false")
        return value if kind in ("text", "bytes", "number") else kind == "true"

    def leaf(self):
        names = [self.take("name")[1]]
        while self.take("."):
            names.append(self.take("name")[1])
        name = ".".join(names)
        if self.take("is"):
            negated = self.take("not")
            assert self.take("null")
            return ("not-null" if negated else "is-null", name, [])
        if self.take("starts"):
            assert self.take("with")
            return ("starts-with", name, [self.literal()])
        negated = self.take("not")
        if self.take("in"):
            assert self.take("(")
            values = [self.literal()]
            while self.take(","):
                values.append(self.literal())
            assert self.take(")")
            return ("not-in" if negated else "in", name, values)
        sign, _ = self.take("<", "<=", ">", ">=", "=", "!=")
        return ({"<": "lt", "<=": "lt-eq", ">": "gt", ">=": "gt-eq", "=": "eq", "!=": "not-eq"}[sign], name, [self.literal()])


EPOCH = datetime.datetime(1970, 1, 1)


def ticks(text):
    """The microseconds of a moment, whose year may have a sign."""
    sign, year, month, day, rest = re.fullmatch(r"([-+]?)(\d{4,})-(\d\d)-(\d\d)(?:T(.*))?", text).groups()
    assert bool(sign) == (sign == "-" or len(year) > 4), "a year with a sign that it should not have"
    year = -int(year) if sign == "-" else int(year)
    shifted = datetime.datetime(year % 400 + 2000, int(month), int(day)) - EPOCH
    hours = datetime.time.fromisoformat(rest or "00:00:00.000000")
    days = shifted.days + (year // 400 - 5) * 146_097
    return ((days * 24 + hours.hour) * 60 + hours.minute) * 60_000_000 + hours.second * 1_000_000 + hours.microsecond


def value_of(kind, told):
    """A value of a residual, as rows have it here."""
    if kind == "date":
        assert "T" not in told
        return ticks(told) // 86_400_000_000
    if kind == "time" and isinstance(told, str):
        return ticks("1970-01-01T" + told)
    if kind == "timestamp":
        return ticks(told)
    if kind == "timestamptz":
        assert told.endswith("+00:00")
        return ticks(told[:-6])
    if kind == "binary" or kind.startswith("fixed"):
        assert told == told.lower()
        return bytes.fromhex(told)
    if kind == "uuid":
        assert str(uuid.UUID(told)) == told
    return told


def tree_of(residual, kinds):
    """The tree of a residual."""
    if isinstance(residual, bool):
        return ("true" if residual else "false",)
    kind = residual["type"]
    if kind in ("and", "or"):
        assert list(residual) == ["type", "left", "right"]
        return (kind, tree_of(residual["left"], kinds), tree_of(residual["right"], kinds))
    name = residual["term"]
    values = residual["values"] if kind in ("in", "not-in") else [residual["value"]] if "value" in residual else []
    assert (kind in ("is-null", "not-null")) == (not values), "values that are too many or too few"
    return (kind, name, [value_of(kinds[name], it) for it in values])


def asked_value(kind, value):
    """A literal of a filter's text, as rows have it here."""
    return str(uuid.UUID(value)) if kind == "uuid" else value


def met(tree, row):
    """Whether a row meets a tree. All but the tests for null are false on null."""
    if tree[0] in ("and", "or"):
        return (all if tree[0] == "and" else any)(met(side, row) for side in tree[1:])
    if len(tree) == 1:
        return tree[0] == "true"
    kind, name, values = tree
    held = row[name]
    if kind in ("is-null", "not-null") or held is None:
        return (held is None) == (kind == "is-null") and kind in ("is-null", "not-null")
    value = values[0]
    return {"lt": lambda: held < value, "lt-eq": lambda: held <= value, "gt": lambda: held > value, "gt-eq": lambda: held >= value,
            "eq": lambda: held == value, "not-eq": lambda: held != value, "in": lambda: held in values,
            "not-in": lambda: held not in values, "starts-with": lambda: held.startswith(value)}[kind]()


def leaves(tree):
    if tree[0] in ("and", "or"):
        return leaves(tree[1]) + leaves(tree[2])
    return [tree] if len(tree) > 1 else []


def near(value):
    """Values about one."""
    if isinstance(value, bool):
        return [True, False]
    if isinstance(value, int):
        return [value - 1, value, value + 1]
    return [value[:1], value, value + value[:1], value[:0]]


def residual_fault(residual, text, kinds):
    """What is wrong with a residual beside the text of the filter that was asked; None where nothing is."""
    if text is None:
        return None if residual is True else "a filter that was not asked"
    asked, told = Reader(text).whole(), tree_of(residual, kinds)
    asked = bound(asked, kinds)
    held = {name: [None] for _, name, _ in leaves(asked) + leaves(told)}
    for _, name, values in leaves(asked) + leaves(told):
        held[name] += [it for value in values for it in near(value)]
    draw = random.Random(text)
    for _ in range(200):
        row = {name: draw.choice(values) for name, values in held.items()}
        if met(asked, row) != met(told, row):
            return f"another filter on {row}"
    return None


def bound(tree, kinds):
    """A tree whose literals are values of their columns."""
    if tree[0] in ("and", "or"):
        return (tree[0], bound(tree[1], kinds), bound(tree[2], kinds))
    return tree if len(tree) == 1 else (tree[0], tree[1], [asked_value(kinds[tree[1]], it) for it in tree[2]])


def kinds_of(metadata, request):
    """The types of the columns of the schema by which a request is bound."""
    table = json.loads(metadata)
    schemas = {schema["schema-id"]: schema for schema in table["schemas"]}
    chosen = table["current-schema-id"]
    pinned = None
    if "--snapshot" in request:
        pinned = int(request[request.index("--snapshot") + 1])
    elif "--ref" in request:
        ref = (table.get("refs") or {}).get(request[request.index("--ref") + 1], {"type": "branch"})
        pinned = ref["snapshot-id"] if ref["type"] == "tag" else None
    for snapshot in table.get("snapshots") or []:
        if snapshot["snapshot-id"] == pinned:
            chosen = snapshot.get("schema-id", chosen)
    return {field["name"]: field["type"] for field in schemas[chosen]["fields"] if isinstance(field["type"], str)}


# ---- plans


def fault_of(program, words, given, metadata):
    """What is wrong with the JSON that these words ask for, beside the text; None where nothing is."""
    text = subprocess.run([program, *words], input=given, capture_output=True)
    told = subprocess.run([program, words[0], "--format", "json", *words[1:]], input=given, capture_output=True)
    if (text.returncode, text.stderr) != (told.returncode, told.stderr):
        return f"refused otherwise: {told.stderr} in place of {text.stderr}"
    if text.returncode:
        return "something was written before a refusal" if told.stdout else None
    if not told.stdout.endswith(b"}\n") or told.stdout.count(b"\n") > 1:
        return "not one line"
    try:
        plan = json.loads(told.stdout)
        if list(as_lines(plan)) != text.stdout.splitlines():
            return "another plan"
        residuals = [task["residual-filter"] for task in plan["file-scan-tasks"]]
        if any(residual != residuals[0] for residual in residuals):
            return "tasks with other filters"
        asked = words[words.index("--filter") + 1] if "--filter" in words else None
        kinds = kinds_of(metadata, words) if asked else {}
        return residual_fault(residuals[0], asked, kinds) if residuals else None
    except (AssertionError, KeyError, IndexError, TypeError, ValueError) as fault:
        return f"not a plan: {fault!r}"


def files_of(folder, prefix):
    """The files of a table, by path."""
    files = {}
    for place, _, names in os.walk(folder):
        for name in names:
            if name.endswith((".avro", ".json")):
                place_of = os.path.join(place, name)
                with open(place_of, "rb") as file:
                    files[prefix + "/" + os.path.relpath(place_of, folder)] = file.read()
    return files


def bundle_of(files):
    return b"".join(escaped(path) + b" " + files[path].hex().encode() + b"\n" for path in sorted(files))


def requests_of(metadata):
    """The words of the requests on a table."""
    try:
        table = json.loads(metadata)
    except ValueError:
        return [[]]
    snapshots = [str(snapshot["snapshot-id"]) for snapshot in table.get("snapshots") or []]
    targets = [[], *(["--ref", name] for name in table.get("refs") or {}), *(["--snapshot", name] for name in snapshots)]
    requests = targets + [["--filter", text] for text in FILTERS]
    requests += [[*target, "--filter", "id = 42"] for target in targets[1:4]]
    return requests + [[*request, "--workers", "4"] for request in requests[:3] + requests[-3:]] + [["--workers", "0"]]


def asked(files):
    """The words of each plan of a table, but for where its files are."""
    for path in sorted(files):
        if path.endswith(".metadata.json"):
            yield from (["plan", *request, path] for request in requests_of(files[path]))
        elif os.path.basename(path).startswith("snap-"):
            yield ["list-plan", path]


def main():
    if len(sys.argv) < 2 or len(sys.argv) % 2:
        sys.exit(__doc__.split("\n", 1)[0])
    program, *words = sys.argv[1:]
    tables = list(zip(words[::2], words[1::2])) or EXAMPLES
    plans = wrong = 0
    for folder, prefix in tables:
        files = files_of(folder, prefix.rstrip("/"))
        given = bundle_of(files)
        for command, *rest in asked(files):
            for place, stdin in ((["--dir", folder, "--prefix", prefix], b""), (["--bundle"], given)):
                fault = fault_of(program, [command, *place, *rest], stdin, files[rest[-1]])
                plans += 1
                if fault:
                    wrong += 1
                    print(command, *place, *rest, fault, sep=" ")
    print(f"{plans} plans, {wrong} not as they should be")
    sys.exit(1 if wrong else 0)


if __name__ == "__main__":
    main()
