#!/usr/bin/env python3
"""notes.py PROGRAM: what stands beside an answer and after a refusal in a terminal, and that nothing does elsewhere.

Each command runs three times: with a pseudo-terminal as standard error, in a pipe with `--explain`, and in a pipe without it.
The first two have to write the same, with the texts that are wanted here and within 80 columns; the last only what is the
line of a refusal. Tried are the notes of a filter and of `list-plan`; a filter that a shell split; METADATA that is a folder,
a pipe, a device, or may not be read; and an answer whose reader has closed the pipe. The one that may not be read is run as
another user where this is run by root.
"""
import os
import pty
import subprocess
import sys
import tempfile

from refusals import TOP, make

EVENTS = ["--dir", os.path.join(TOP, "examples/events-java/table"), "--prefix", "s3://warehouse/db/events"]
NEWEST = "s3://warehouse/db/events/metadata/00009-ea5012f5-592b-59fd-6564-e953f439e682.metadata.json"
NOBODY = 65534


class Case:
    """A command, what a person is told, and what stands on standard error anyway."""

    def __init__(self, words, told, line="", closed=False, user=None):
        self.words, self.told, self.line, self.closed, self.user = words, told, line, closed, user


def filtered(text, command="plan"):
    return [command, *EVENTS, "--filter", text, NEWEST]


def in_table(*words, command="plan"):
    return [command, "--dir", "t", "--prefix", "mem://t", *words]


def device(name, told, user=None):
    return Case(in_table(f"mem://t/{name}"), [told], f"icescan: P3 Device mem://t/{name}\n", user=user)


def unquoted(*words):
    usage = "\n\nUsage: icescan plan [OPTIONS] <--bundle|--dir <DIR>> <METADATA>\n\nFor more information, try '--help'.\n"
    return Case(["plan", *EVENTS, *words, NEWEST], ["here: a filter is one word: put all of it in quotes, as"],
                f"error: unexpected argument '{words[3]}' found{usage}")


def cases():
    return [
        Case(filtered("id = 42"), []),
        Case(filtered("ts >= 1709870400000000"), []),
        Case(filtered("ts >= 1709870400000"), ["note: 1709870400000 is read as 1970-01-20T18:57:50.4Z,",
                                               "for 1709870400000 milliseconds write 1709870400000000"]),
        Case(filtered("ts >= 1709870400"), ["for 1709870400 seconds write 1709870400000000"]),
        Case(filtered("ts >= 1709870400000000000"), ["for 1709870400000000000 nanoseconds write 1709870400000000"]),
        Case(filtered("ts >= 19790"), ["for 19790 days write 1709856000000000"]),
        Case(filtered("day = 1709856000"), ["for 1709856000 seconds write 19790"]),
        Case(filtered("ts >= 1709870400000000", "explain"), ["note: the filter is read as ts >= 2024-03-08T04:00:00Z"]),
        Case(["list-plan", "--dir", "t", "--prefix", "mem://t", "mem://t/partitioned.list"],
             ["note: the table has partitions, as in its spec 1,"]),
        Case(["list-plan", "--dir", "t", "--prefix", "mem://t", "mem://t/list"], []),
        unquoted("--filter", "id", "=", "42"),
        unquoted("--filter", "id", "in", "(1)"),
        device("table", "here: that is a folder; the newest metadata in it is `mem://t/table/metadata/00010-b.metadata.json`"),
        device("folder", "here: that is a folder, and no newest metadata is found in it"),
        device("pipe", "here: that is a pipe or a socket"),
        device("device", "here: that is a device"),
        device("secret", "here: there is no right to read it", user=NOBODY if os.getuid() == 0 else None),
        Case(filtered("id > 0", "explain"), ["note: the filter is read as id > 0"], "icescan: W1 Write\n", closed=True),
    ]


def output(closed):
    """Where the answer goes."""
    if not closed:
        return os.open(os.devnull, os.O_WRONLY)
    ours, theirs = os.pipe()
    os.close(ours)
    return theirs


def run(program, case, folder, words, errors):
    answer = output(case.closed)
    done = subprocess.run([program, *words], stdin=subprocess.DEVNULL, stdout=answer, stderr=errors, cwd=folder, user=case.user)
    os.close(answer)
    return done.stderr


def in_terminal(program, case, folder):
    ours, theirs = pty.openpty()
    run(program, case, folder, [*case.words, "--quiet"] if case.words[0] != "show" else case.words, theirs)
    os.close(theirs)
    shown = b""
    while True:
        try:
            piece = os.read(ours, 65536)
        except OSError:
            break
        if not piece:
            break
        shown += piece
    return shown.replace(b"\r\n", b"\n").decode()


def in_pipe(program, case, folder, *more):
    return run(program, case, folder, [*case.words, *more], subprocess.PIPE).decode()


def faults(program, case, folder):
    shown = in_terminal(program, case, folder)
    found = []
    flat = " ".join(shown.split())
    for text in case.told:
        if text not in flat:
            found.append(f"there is no {text!r}")
    if not case.told and shown != case.line:
        found.append("more than is wanted")
    if any(len(line) > 80 and " " in line.strip() for line in shown.split("\n")):
        found.append("a line is too long")
    if in_pipe(program, case, folder, "--explain") != shown:
        found.append("`--explain` in a pipe writes another text")
    if in_pipe(program, case, folder) != case.line:
        found.append("in a pipe there is another text than the line")
    print(f"{' '.join(case.words)}\n{shown}" + "".join(f"FAULT: {why}\n" for why in found))
    return bool(found)


def main():
    if len(sys.argv) != 2:
        sys.exit(__doc__)
    program, bad = os.path.abspath(sys.argv[1]), 0
    with tempfile.TemporaryDirectory() as top:
        os.chmod(top, 0o755)
        folder = os.path.join(top, "t")
        make(folder)
        os.mkfifo(os.path.join(folder, "pipe"))
        os.symlink("/dev/null", os.path.join(folder, "device"))
        os.close(os.open(os.path.join(folder, "secret"), os.O_CREAT, 0))
        for case in cases():
            bad += faults(program, case, top)
    print(f"{len(cases())} commands, {bad} not as they should be")
    return bool(bad)


if __name__ == "__main__":
    sys.exit(main())
