#!/usr/bin/env python3
"""progress.py PROGRAM: what icescan shows of a long command while it reads, tried with pseudo-terminals.

A small table is planned and audited by one worker; one of its manifests is a pipe, which gives its bytes after two
seconds. For each case is printed what came to the terminal; status 1 where that is not what is wanted: a line that is
gone before the text, or before the line of a refusal, and nothing with --quiet, in a pipe, or where all is read within
a second.
"""
import os
import pty
import re
import subprocess
import sys
import tempfile
import threading
import time

sys.path.insert(0, os.path.dirname(os.path.abspath(__file__)))
from refusals import ROW, container, entry, entry_schema, record, row, table  # noqa: E402

LINE = rb"\rread so far: \d+ files, 0 MB\x1b\[K"
GONE = rb"\r\x1b\[K"


def manifest(*paths):
    return container(entry_schema(), [entry(path, status=1) for path in paths])


def make(folder, absent):
    """A table of four manifests, one of which is a pipe; the third may be absent."""
    rows = [row(f"mem://t/m{i}") for i in range(1, 5)]
    files = {"table.json": table(), "list": container(record("manifest_file", ROW), rows)}
    files.update({f"m{i}": manifest(f"mem://t/d{i}") for i in range(1, 5) if i != 2})
    for name, data in files.items():
        if name != absent:
            with open(os.path.join(folder, name), "wb") as out:
                out.write(data)
    os.mkfifo(os.path.join(folder, "m2"))


def feed(folder, pause):
    def run():
        with open(os.path.join(folder, "m2"), "wb") as out:
            time.sleep(pause)
            out.write(manifest("mem://t/d2"))
    threading.Thread(target=run, daemon=True).start()


def all_of(end):
    got = b""
    while True:
        try:
            piece = os.read(end, 65536)
        except OSError:
            return got
        if not piece:
            return got
        got += piece


def run(program, words, folder, pause, ends):
    """What came to the terminal and to a pipe: `ends` says which of output and errors are the terminal."""
    ours, theirs = pty.openpty()
    feed(folder, pause)
    pipe = subprocess.PIPE
    child = subprocess.Popen([program, *words], stdin=subprocess.DEVNULL, stdout=theirs if "output" in ends else pipe,
                             stderr=theirs if "errors" in ends else pipe)
    os.close(theirs)
    shown = all_of(ours).replace(b"\r\n", b"\n")
    os.close(ours)
    piped = b"".join(end.read() for end in (child.stdout, child.stderr) if end)
    child.wait()
    return shown, piped


def main():
    if len(sys.argv) < 2 or sys.argv[1].startswith("--"):
        sys.exit(__doc__)
    program = os.path.abspath(sys.argv[1])
    bad = 0
    plan, audit = ["plan"], ["audit"]
    text = {"plan": rb"data mem://t/d1 .*files 4 deletes 0\n", "audit": rb"manifests 4 entries 4 findings 0\n"}
    absent = rb"icescan: P2 Absent mem://t/m3\n.*"
    cases = [
        ("errors are shown", plan, None, 2, ("errors",), LINE + b".*" + GONE, text["plan"]),
        ("both are shown", plan, None, 2, ("output", "errors"), LINE + b".*" + GONE + text["plan"], b""),
        ("an audit", audit, None, 2, ("output", "errors"), LINE + b".*" + GONE + text["audit"], b""),
        ("a refusal", plan, "m3", 2, ("output", "errors"), LINE + b".*" + GONE + absent, b""),
        ("--quiet", plan + ["--quiet"], None, 2, ("output", "errors"), text["plan"], b""),
        ("a pipe", plan, None, 2, ("output",), text["plan"], b""),
        ("a short plan", plan, None, 0, ("output", "errors"), text["plan"], b""),
    ]
    for name, words, lacks, pause, ends, shown, piped in cases:
        with tempfile.TemporaryDirectory() as folder:
            make(folder, lacks)
            whole = [words[0], "--dir", folder, "--prefix", "mem://t", *words[1:], "mem://t/table.json"]
            got = run(program, whole, folder, pause, ends)
        is_so = all(re.fullmatch(wanted, found, re.S) for wanted, found in zip((shown, piped), got))
        print(f"{'' if is_so else 'FAULT: '}{name}: {got[0]!r}")
        bad += not is_so
    print(f"{len(cases)} cases, {bad} not as they should be")
    return bool(bad)


if __name__ == "__main__":
    sys.exit(main())
