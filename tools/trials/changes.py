#!/usr/bin/env python3
"""changes.py [--pairs N] PROGRAM..: `changes` against the difference of two plans, made here from their texts.
changes.py objects: the lines of JSON for a text of `changes` on standard input.

PROGRAM is the built icescan, or words that run it. A table is made in a new folder by forty commits of data files and
delete files; of N random pairs of its snapshots (500 where N is not given), in either order, with and without a filter,
`changes` has to print what this script makes of the two texts that `plan` prints; at some pairs as lines of JSON, at some
with `--appends`, which has to be refused where the snapshots of the metadata say so. The same of all pairs of snapshots
of the tables in examples/. Of some pairs each manifest is hidden in turn: `changes` must not miss those of data files
that both snapshots have, where there is no filter and both have the same manifests of delete files, and has to miss all
others. Prints one line; the status is 1 where something differs."""
import json
import os
import random
import re
import subprocess
import sys
import tempfile

sys.path.insert(0, os.path.dirname(os.path.abspath(__file__)))
import fifty_commits  # noqa: E402

COMMITS = 40
FORMS = [(), (), ("--format", "json"), ("--appends",), ("--appends", "--format=json")]
TOP = os.path.join(os.path.dirname(os.path.abspath(__file__)), "..", "..")
EXAMPLES = [
    ("examples/events-java", "s3://warehouse/db/events", ["id = 42", "ts < 1709769600000000"]),
    ("examples/plain-java", "s3://warehouse/db/plain", ["id in (5, 219, 100000)"]),
]


def fail(words):
    print("changes: " + words)
    sys.exit(1)


def path_of(text):
    """The bytes of a path as it is printed: plans stand in the order of these."""
    return re.sub(rb"\\x([0-9a-f]{2})", lambda found: bytes([int(found[1], 16)]), text.encode())


def lines_of(plan):
    """By path: the line of a data file, and the lines of its delete files."""
    found = {}
    for line in plan.split("\n")[:-2]:
        if line.startswith("data "):
            path = line.split(" ")[1]
            found[path] = (line, [])
        else:
            found[path][1].append(line)
    return found


def signed(earlier, later):
    """Of delete files: those that went and those that came, by kind and then by path."""
    changed = [("-", line) for line in earlier if line not in later]
    changed += [("+", line) for line in later if line not in earlier]
    changed.sort(key=lambda c: (c[1].startswith("  eq "), path_of(c[1].split(" ")[3]), c[0] == "+"))
    return ["  %s %s" % (sign, line[2:]) for sign, line in changed]


def difference(earlier, later):
    a, b = lines_of(earlier), lines_of(later)
    told, count = [], {"+": 0, "-": 0, "~": 0}
    for path in sorted(set(a) | set(b), key=path_of):
        old, new = a.get(path), b.get(path)
        if old and new and old[0] == new[0]:
            changed = signed(old[1], new[1])
            if changed:
                told += ["~ " + new[0]] + changed
                count["~"] += 1
            continue
        if old:
            told.append("- " + old[0])
            count["-"] += 1
        if new:
            told += ["+ " + new[0]] + new[1]
            count["+"] += 1
    return "\n".join(told + ["added %d removed %d altered %d" % (count["+"], count["-"], count["~"]), ""])


def objects(text):
    """The lines of JSON for a text of changes."""
    signs = {"+": "added", "-": "removed", "~": "altered"}
    made, became, owner = [], None, None
    for line in text.split("\n")[:-1]:
        words = line.split()
        if words[0] == "added":
            made.append({"kind": "totals", "added": int(words[1]), "removed": int(words[3]), "altered": int(words[5])})
        elif words[1] == "data":
            became, owner = signs[words[0]], path_of(words[2]).decode()
            made.append({"kind": "data", "change": became, "path": owner, "seq": int(words[4]), "spec": int(words[6]),
                         "rows": int(words[8]), "size": int(words[10])})
        else:
            change = signs[words.pop(0)] if words[0] in signs else became
            made.append({"kind": words[0], "change": change, "path": path_of(words[1]).decode(), "seq": int(words[3]),
                         "ids": words[5] if words[0] == "eq" else None, "data": owner})
    return "".join(json.dumps(m, separators=(",", ":"), ensure_ascii=False) + "\n" for m in made)


class Table:
    def __init__(self, program, folder, prefix, metadata):
        self.words = ["--dir", folder, "--prefix", prefix]
        self.program, self.metadata, self.plans = program, metadata, {}
        with open(os.path.join(folder, metadata[len(prefix) + 1:]), encoding="utf-8") as f:
            self.snapshots = {s["snapshot-id"]: s for s in json.load(f)["snapshots"]}

    def lineage(self, earlier, later):
        """The refusal of `--appends`, or nothing."""
        other, at = "", later
        for _ in range(len(self.snapshots) + 1):
            if at == earlier:
                return other
            if at not in self.snapshots:
                break
            if self.snapshots[at].get("summary", {}).get("operation") != "append":
                other = "icescan: L1 NotAppended %d\n" % at
            at = self.snapshots[at].get("parent-snapshot-id")
        return "icescan: L2 NotAncestor\n"

    def run(self, command, *words):
        return subprocess.run(self.program + [command] + self.words + list(words) + [self.metadata],
                              capture_output=True, text=True)

    def plan(self, snapshot, more):
        """What `plan` prints, or its refusal."""
        if (snapshot, more) not in self.plans:
            got = self.run("plan", "--snapshot", str(snapshot), *more)
            self.plans[snapshot, more] = (got.stdout, got.stderr, got.returncode)
        return self.plans[snapshot, more]

    def wanted(self, earlier, later, more, form):
        refused = self.lineage(earlier, later) if "--appends" in form else ""
        if refused:
            return "", refused, 1
        a, b = self.plan(earlier, more), self.plan(later, more)
        if a[2] or b[2]:
            return a if a[2] else b
        text = difference(a[0], b[0])
        return objects(text) if form[-1:] and form[-1].endswith("json") else text, "", 0

    def compare(self, earlier, later, more, form=()):
        got = self.run("changes", "--from", str(earlier), "--to", str(later), *more, *form)
        want = self.wanted(earlier, later, more, form)
        if (got.stdout, got.stderr, got.returncode) != want:
            lines = zip((got.stdout + got.stderr).split("\n") + [""], (want[0] + want[1]).split("\n") + [""])
            first = next((pair for pair in lines if pair[0] != pair[1]), None)
            fail("from %s to %s %s: status %d, not %d, and %r"
                 % (earlier, later, more + tuple(form), got.returncode, want[2], first))
        return want[0].count("\n")

    def manifests(self, snapshot):
        """The paths of a snapshot's manifests of data files, and those of its manifests of delete files."""
        kinds, last = {}, None
        for line in self.run("explain", "--snapshot", str(snapshot)).stdout.split("\n"):
            word, _, rest = line.partition(" ")
            if word == "manifest":
                last = rest.split(" ")[0]
                kinds[last] = "data"
            elif word == "delete":
                kinds[last] = "delete"
        return [{path for path, kind in kinds.items() if kind == wanted} for wanted in ("data", "delete")]

    def compare_unread(self, folder, earlier, later, more):
        """How many manifests are not read: each is hidden in turn."""
        (data, deletes), (its_data, its_deletes) = self.manifests(earlier), self.manifests(later)
        unread = data & its_data if deletes == its_deletes and not more else set()
        words = ("changes", "--from", str(earlier), "--to", str(later), *more)
        want = self.run(*words).stdout
        for path in data | its_data | deletes | its_deletes:
            place = os.path.join(folder, path[len(fifty_commits.PREFIX) + 1:])
            os.rename(place, place + ".hidden")
            got = self.run(*words)
            os.rename(place + ".hidden", place)
            if (got.returncode == 0 and got.stdout == want) != (path in unread):
                fail("from %s to %s %s without %s: status %d" % (earlier, later, more, path, got.returncode))
        return len(unread)


def made_by_commits(program, folder):
    rng = random.Random(72)
    table = fifty_commits.Table(program, folder)
    base = "v0.json"
    for number in range(1, COMMITS + 1):
        change = fifty_commits.new_change(rng, number, number % 2 == 0)
        table.write("change.json", change)
        got = table.commit("row-delta" if change["deletes"] else "append", number, base, "v%d.json" % number)
        if got.returncode:
            fail("commit %d: %s" % (number, got.stderr))
        base = "v%d.json" % number
    return Table(program, folder, fifty_commits.PREFIX, "%s/metadata/%s" % (fifty_commits.PREFIX, base))


def compare_examples(program, rng):
    pairs = lines = 0
    for folder, prefix, filters in EXAMPLES:
        place = os.path.join(TOP, folder, "table")
        newest = max(n for n in os.listdir(os.path.join(place, "metadata")) if n.endswith(".metadata.json"))
        with open(os.path.join(place, "metadata", newest), encoding="utf-8") as f:
            snapshots = [s["snapshot-id"] for s in json.load(f)["snapshots"]]
        table = Table(program, place, prefix, "%s/metadata/%s" % (prefix, newest))
        for earlier in snapshots:
            for later in snapshots:
                text = rng.choice(filters + [None])
                lines += table.compare(earlier, later, ("--filter", text) if text else (), rng.choice(FORMS))
                pairs += 1
    return pairs, lines


def main():
    words = sys.argv[1:]
    if words == ["objects"]:
        sys.stdout.write(objects(sys.stdin.read()))
        return
    count = 500
    if words[:1] == ["--pairs"]:
        count, words = int(words[1]), words[2:]
    if not words or words[0].startswith("--"):
        sys.exit(__doc__)
    rng = random.Random(27)
    with tempfile.TemporaryDirectory() as folder:
        table = made_by_commits(words, folder)
        lines = 0
        for _ in range(count):
            more = rng.choice([(), ("--filter", "c = 7"), ("--filter", "c is null"), ("--workers", "3")])
            lines += table.compare(rng.randrange(1, COMMITS + 1), rng.randrange(1, COMMITS + 1), more, rng.choice(FORMS))
        unread = 0
        for earlier in range(1, COMMITS, 3):
            for more in [(), ("--filter", "c = 7 or c != 7 or c is null")]:
                unread += table.compare_unread(folder, earlier, earlier + 1, more)
    pairs, more = compare_examples(words, rng)
    print("changes: %d pairs of snapshots, %d lines, as the difference of two plans; %d manifests unread"
          % (count + pairs, lines + more, unread))


if __name__ == "__main__":
    main()
