#!/usr/bin/env python3
"""fifty_commits.py PROGRAM..: fifty commits to a table in a folder, each checked against a plan made here.

PROGRAM is the built icescan, or words that run it. A table with an unpartitioned spec and one by the int column `c`
is made in a new folder; fifty times a change with data files, or with data and delete files, is committed by `append` or
`row-delta`, and after each the program's plan has to be just the files of the changes so far, with the delete files that
the format's rules apply to each. At the end a commit is tried again and again in ways that have to leave all as it was.
Prints one line; the status is 1 where something differs."""
import json
import os
import random
import shutil
import subprocess
import sys
import tempfile
import uuid

PREFIX = "s3://warehouse/db/t"
COMMITS = 50
METADATA = {
    "format-version": 2, "table-uuid": "f79c3e09-677c-4bbd-a479-3f349cb785e7", "location": PREFIX,
    "last-sequence-number": 0, "last-updated-ms": 0, "last-column-id": 2, "current-schema-id": 0,
    "schemas": [{"type": "struct", "schema-id": 0, "fields": [
        {"id": 1, "name": "c", "required": False, "type": "int"},
        {"id": 2, "name": "note", "required": False, "type": "string"}]}],
    "default-spec-id": 1, "partition-specs": [
        {"spec-id": 0, "fields": []},
        {"spec-id": 1, "fields": [{"source-id": 1, "field-id": 1000, "name": "c", "transform": "identity"}]}],
    "last-partition-id": 1000, "properties": {"owner": "nobody"}, "current-snapshot-id": -1, "snapshots": [],
    "kept as it is": [None, {"a": "b"}],
}


def fail(words):
    print("fifty_commits: " + words)
    sys.exit(1)


def new_file(rng, name):
    spec = rng.randrange(2)
    value = rng.choice([None, -1, 0, 7])
    return {"path": "%s/data/%s.parquet" % (PREFIX, name), "format": "parquet", "spec-id": spec,
            "partition": [value] if spec == 1 else [],
            "record-count": rng.randrange(1000), "file-size": rng.randrange(10 ** 6)}


def new_change(rng, number, deletes):
    change = {"data": [new_file(rng, "%03d-%d" % (number, i)) for i in range(rng.randrange(1, 4))], "deletes": []}
    for i in range(rng.randrange(1, 4) if deletes else 0):
        file = new_file(rng, "%03d-%d-deletes" % (number, i))
        file["content"] = rng.choice(["position", "equality"])
        if file["content"] == "equality":
            file["equality-ids"] = rng.choice([[1], [2], [2, 1]])
        change["deletes"].append(file)
    return change


def applies(data, delete):
    same = (data["spec-id"], data["partition"]) == (delete["spec-id"], delete["partition"])
    if delete["content"] == "position":
        return data["seq"] <= delete["seq"] and same
    return data["seq"] < delete["seq"] and (same or delete["spec-id"] == 0)


def plan_of(data, deletes):
    lines, count = [], 0
    for x in sorted(data, key=lambda f: f["path"]):
        lines.append("data %s seq %d spec %d rows %d size %d" % (
            x["path"], x["seq"], x["spec-id"], x["record-count"], x["file-size"]))
        found = [d for d in sorted(deletes, key=lambda f: f["path"]) if applies(x, d)]
        count += len(found)
        lines += ["  pos %s seq %d" % (d["path"], d["seq"]) for d in found if d["content"] == "position"]
        lines += ["  eq %s seq %d ids %s" % (d["path"], d["seq"], ",".join(map(str, d["equality-ids"])))
                  for d in found if d["content"] == "equality"]
    return "\n".join(lines + ["files %d deletes %d" % (len(data), count), ""])


class Table:
    def __init__(self, program, folder):
        self.program, self.folder = program, folder
        os.mkdir(os.path.join(folder, "metadata"))
        self.write("metadata/v0.json", METADATA)

    def write(self, name, value):
        with open(os.path.join(self.folder, name), "w", encoding="utf-8") as f:
            json.dump(value, f)

    def run(self, command, *words):
        return subprocess.run(self.program + [command, "--dir", self.folder, "--prefix", PREFIX] + list(words),
                              capture_output=True, text=True)

    def commit(self, command, number, base, out):
        return self.run(command, "--snapshot-id", str(number), "--uuid", str(uuid.UUID(int=number)),
                        "--now-ms", str(1000 * number), "--out", "%s/metadata/%s" % (PREFIX, out),
                        "%s/metadata/%s" % (PREFIX, base), PREFIX + "/change.json")

    def files(self):
        found = {}
        for root, _, names in os.walk(self.folder):
            for name in names:
                with open(os.path.join(root, name), "rb") as f:
                    found[os.path.relpath(os.path.join(root, name), self.folder)] = f.read()
        return found


def check_refusal(table, run, status, line, added):
    before = table.files()
    got = run()
    after = table.files()
    if got.returncode != status or got.stderr != line or got.stdout:
        fail("status %d and %r, not %d and %r" % (got.returncode, got.stderr, status, line))
    if any(after.get(name) != data for name, data in before.items()):
        fail("a file that was there is not as it was after " + line)
    if sorted(name.rsplit("-", 1)[-1].split(".")[-1] for name in set(after) - set(before)) != added:
        fail("new files after %s: %s" % (line, sorted(set(after) - set(before))))


def main():
    if len(sys.argv) < 2 or sys.argv[1].startswith("--"):
        sys.exit(__doc__)
    program = sys.argv[1:]
    folder = tempfile.mkdtemp()
    try:
        table, rng, data, deletes = Table(program, folder), random.Random(50), [], []
        for number in range(1, COMMITS + 1):
            command = "row-delta" if number % 3 == 0 else "append"
            change = new_change(rng, number, command == "row-delta")
            table.write("change.json", change)
            base, out = "v%d.json" % (number - 1), "v%d.json" % number
            before = table.files()
            got = table.commit(command, number, base, out)
            if (got.returncode, got.stdout, got.stderr) != (0, "committed snapshot %d seq %d\n" % (number, number), ""):
                fail("commit %d: %r" % (number, got))
            after = table.files()
            if any(after.get(name) != bytes for name, bytes in before.items()):
                fail("commit %d changed a file that was there" % number)
            if any(name.endswith(".tmp") for name in after):
                fail("commit %d left a file under another name" % number)
            data += [dict(f, seq=number) for f in change["data"]]
            deletes += [dict(f, seq=number) for f in change["deletes"]]
            plan = table.run("plan", "%s/metadata/%s" % (PREFIX, out))
            if plan.returncode != 0 or plan.stdout != plan_of(data, deletes):
                fail("plan after commit %d:\n%s%s\nnot\n%s" % (number, plan.stdout, plan.stderr, plan_of(data, deletes)))
        last = "v%d.json" % COMMITS
        with open(os.path.join(folder, "metadata", last), encoding="utf-8") as f:
            written = json.load(f)
        if written["kept as it is"] != METADATA["kept as it is"] or written["properties"] != METADATA["properties"]:
            fail("a member that is not read was not kept")
        late = new_change(rng, 900, False)
        table.write("change.json", late)
        manifests_and_list = ["avro"] * (len({f["spec-id"] for f in late["data"]}) + 1)
        refusals = [
            (COMMITS, "v.json", 1, "K1 SnapshotTaken", []),
            (901, last, 4, "Conflict %s/metadata/%s" % (PREFIX, last), manifests_and_list),
            (901, "v.json", 3, "W1 Write", []),
            (902, "none/v.json", 3, "W1 Write", manifests_and_list),
        ]
        for number, out, status, line, added in refusals:
            check_refusal(table, lambda: table.commit("append", number, last, out), status, "icescan: %s\n" % line, added)
        print("fifty_commits: %d commits, %d data files, %d delete files" % (COMMITS, len(data), len(deletes)))
    finally:
        shutil.rmtree(folder)


if __name__ == "__main__":
    main()
