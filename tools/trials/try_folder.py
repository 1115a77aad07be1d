#!/usr/bin/env python3
"""try_folder.py PROGRAM: runs `PROGRAM list-plan` over real folders, and over words, and says what was not as it should
be.

The folders have segments `.` and `..`, links in a circle, links to files and out of the folder, a folder, a pipe and a
socket in a file's place, a device at the end of a link, a file that may not be read, and one below a folder that may
not be entered; some are read with `--no-links` too, and an append is made through a link, and refused. The table of
`examples/plain-java` is planned as well, and compared with its expected plan. A run that waits for a pipe has failed.
"""
import json
import os
import socket
import subprocess
import sys
import tempfile

TOP = os.path.join(os.path.dirname(os.path.abspath(__file__)), "..", "..", "examples", "plain-java")
LIST = "s3://warehouse/db/plain/metadata/snap-5787346651261761729-1-2833c2eb-01d6-02bb-4299-f66acae4221d.avro"


def as_nobody():
    if os.geteuid() == 0:
        os.setgroups([])
        os.setgid(65534)
        os.setuid(65534)


def run(program, words):
    try:
        done = subprocess.run([program, *words], stdin=subprocess.DEVNULL, capture_output=True, preexec_fn=as_nobody, timeout=10)
    except subprocess.TimeoutExpired:
        return "no end within 10 seconds"
    return done.returncode, done.stdout.decode(), done.stderr.decode()


def make(folder):
    os.chmod(folder, 0o755)
    os.mkdir(os.path.join(folder, "t"))
    os.mkdir(os.path.join(folder, "t", "s"))
    os.symlink("b", os.path.join(folder, "t", "a"))
    os.symlink("a", os.path.join(folder, "t", "b"))
    for place in ["list", "t/list", "t/secret"]:
        with open(os.path.join(folder, place), "wb") as file:
            file.write(b"no container")
    os.chmod(os.path.join(folder, "t", "secret"), 0)
    os.mkfifo(os.path.join(folder, "t", "pipe"), 0o666)
    os.chmod(os.path.join(folder, "t", "pipe"), 0o666)
    socket.socket(socket.AF_UNIX).bind(os.path.join(folder, "t", "socket"))
    for name, to in [("out", ".."), ("device", "/dev/zero"), ("to-pipe", "pipe"), ("to-list", "list"), ("to-none", "none")]:
        os.symlink(to, os.path.join(folder, "t", name))
    os.symlink("t", os.path.join(folder, "to-t"))
    os.mkdir(os.path.join(folder, "t", "shut"))
    with open(os.path.join(folder, "t", "shut", "list"), "wb") as file:
        file.write(b"no container")
    os.chmod(os.path.join(folder, "t", "shut"), 0)


# a path, the status and the line
PATHS = [
    ("mem://t/list", 1, "N1 Avro V1 NotAvro"),
    ("mem://t//list", 1, "N1 Avro V1 NotAvro"),
    ("mem://t/to-list", 1, "N1 Avro V1 NotAvro"),
    ("mem://t/out/list", 1, "N1 Avro V1 NotAvro"),
    ("mem://t/./list", 3, "P2 Absent mem://t/./list"),
    ("mem://t/s/./list", 3, "P2 Absent mem://t/s/./list"),
    ("mem://t/.", 3, "P2 Absent mem://t/."),
    ("mem://t/.list", 3, "P2 Absent mem://t/.list"),
    ("mem://t/s/../list", 3, "P2 Absent mem://t/s/../list"),
    ("mem://t/../list", 3, "P2 Absent mem://t/../list"),
    ("mem://t/..", 3, "P2 Absent mem://t/.."),
    ("mem://u/list", 3, "P2 Absent mem://u/list"),
    ("x/mem://t/list", 3, "P2 Absent x/mem://t/list"),
    ("mem://t/none", 3, "P2 Absent mem://t/none"),
    ("mem://t/none/list", 3, "P2 Absent mem://t/none/list"),
    ("mem://t/s", 3, "P3 Device mem://t/s"),
    ("mem://t", 3, "P3 Device mem://t"),
    ("mem://t/a", 3, "P3 Device mem://t/a"),
    ("mem://t/list/x", 3, "P3 Device mem://t/list/x"),
    ("mem://t/secret", 3, "P3 Device mem://t/secret"),
    ("mem://t/shut/list", 3, "P3 Device mem://t/shut/list"),
    ("mem://t/shut/none", 3, "P3 Device mem://t/shut/none"),
    ("mem://t/to-none", 3, "P2 Absent mem://t/to-none"),
    ("mem://t/pipe", 3, "P3 Device mem://t/pipe"),
    ("mem://t/to-pipe", 3, "P3 Device mem://t/to-pipe"),
    ("mem://t/socket", 3, "P3 Device mem://t/socket"),
    ("mem://t/device", 3, "P3 Device mem://t/device"),
]

# the same with `--no-links`, for a folder that is a link itself
WITHOUT_LINKS = [
    ("mem://t/list", 1, "N1 Avro V1 NotAvro"),
    ("mem://t//list", 1, "N1 Avro V1 NotAvro"),
    ("mem://t/to-list", 3, "P3 Device mem://t/to-list"),
    ("mem://t/a", 3, "P3 Device mem://t/a"),
    ("mem://t/to-none", 3, "P3 Device mem://t/to-none"),
    ("mem://t/out/list", 3, "P3 Device mem://t/out/list"),
    ("mem://t/out//list", 3, "P3 Device mem://t/out//list"),
    ("mem://t/out", 3, "P3 Device mem://t/out"),
    ("mem://t/none", 3, "P2 Absent mem://t/none"),
]

# words that are refused with status 2 and a text on standard error
REFUSED = [
    ["frobnicate"],
    ["list-plan"],
    ["list-plan", "mem://t/list"],
    ["list-plan", "--bundle", "--bundle"],
    ["list-plan", "--bundle", "--dir", "x", "--prefix", "y"],
    ["list-plan", "--dir", "x", "mem://t/list"],
    ["list-plan", "--prefix", "y", "mem://t/list"],
    ["list-plan", "--dir", "x", "--prefix", "y"],
    ["list-plan", "--dir", "x", "--dir", "x", "--prefix", "y", "mem://t/list"],
]


def commits_through_links(program, folder):
    """An append whose folder `metadata` is a link, with `--no-links` and without it; what was wrong."""
    table = {"format-version": 2, "table-uuid": "f79c3e09-677c-4bbd-a479-3f349cb785e7", "location": "mem://c",
             "last-sequence-number": 0, "last-updated-ms": 1, "last-column-id": 1, "current-schema-id": 0,
             "schemas": [{"type": "struct", "schema-id": 0, "fields": [
                 {"id": 1, "name": "c", "required": False, "type": "int"}]}],
             "default-spec-id": 0, "partition-specs": [{"spec-id": 0, "fields": []}], "last-partition-id": 999}
    change = {"data": [{"path": "mem://c/d", "format": "parquet", "spec-id": 0, "partition": [], "record-count": 1,
                        "file-size": 1}], "deletes": []}
    place = os.path.join(folder, "c")
    for name in (place, os.path.join(folder, "elsewhere")):
        os.mkdir(name)
        os.chmod(name, 0o777)
    os.symlink("../elsewhere", os.path.join(place, "metadata"))
    for name, whole in (("table", table), ("change", change)):
        with open(os.path.join(place, name), "w") as file:
            json.dump(whole, file)
    words = ["--dir", place, "--prefix", "mem://c", "--snapshot-id", "7", "--uuid", table["table-uuid"], "--now-ms", "99",
             "--out", "mem://c/metadata/1.metadata.json", "mem://c/table", "mem://c/change"]
    refused = run(program, ["append", "--no-links", *words])
    left = os.listdir(os.path.join(folder, "elsewhere"))
    made = run(program, ["append", *words])
    wrong = []
    if refused != (3, "", "icescan: W1 Write\n") or left:
        wrong.append(("--no-links", "append", refused, left))
    if made != (0, "committed snapshot 7 seq 1\n", ""):
        wrong.append(("append", made))
    return wrong


def main():
    if len(sys.argv) != 2:
        sys.exit(__doc__.split("\n", 1)[0])
    program, wrong = os.path.abspath(sys.argv[1]), []
    with tempfile.TemporaryDirectory() as folder:
        make(folder)
        way = ["--dir", os.path.join(folder, "t"), "--prefix", "mem://t"]
        for path, status, line in PATHS:
            got = run(program, ["list-plan", *way, path])
            if got != (status, "", f"icescan: {line}\n"):
                wrong.append((path, got))
        way[1] = os.path.join(folder, "to-t")
        for path, status, line in WITHOUT_LINKS:
            got = run(program, ["list-plan", "--no-links", *way, path])
            if got != (status, "", f"icescan: {line}\n"):
                wrong.append(("--no-links", path, got))
        wrong += commits_through_links(program, folder)
    for words in REFUSED:
        status, out, errors = run(program, words)
        if status != 2 or out or not errors.startswith("error: ") or "Usage: icescan" not in errors:
            wrong.append((words, (status, out, errors)))
    for words, start in [(["--version"], "icescan "), (["--help"], "Plans scans"), (["list-plan", "--help"], "Plan a manifest list, of a table without partitions alone")]:
        status, out, errors = run(program, words)
        if status or errors or not out.startswith(start):
            wrong.append((words, (status, out, errors)))
    way = ["--dir", os.path.join(TOP, "table"), "--prefix", "s3://warehouse/db/plain"]
    with open(os.path.join(TOP, "expected", "list-plan.txt")) as file:
        if run(program, ["list-plan", *way, LIST]) != (0, file.read(), ""):
            wrong.append("examples/plain-java")
    for case in wrong:
        print("WRONG", *case)
    print(f"{len(PATHS) + len(WITHOUT_LINKS) + 2 + len(REFUSED) + 4 - len(wrong)} passed, {len(wrong)} failed")
    sys.exit(1 if wrong else 0)


if __name__ == "__main__":
    main()
