#!/usr/bin/env python3
"""cuts.py PROGRAM BUNDLE [STEP] [--text] [--words FILE]: cuts a bundle at every STEP-th byte (default 1), one cut at a
time, and plans.

With --words the program is given the lines of FILE as its words, as `plan`, `--bundle` and the path of a table's
metadata; else `list-plan --bundle`.

Without --text the files of the bundle are cut: one file at a time, and its line holds what is left. Each run has to end in
one named refusal, status 1; a plan may come only where the cut lies between two blocks of the file, or behind its header.
Files that the plan does not read are left out.

With --text the text of the bundle itself is cut, so that the lines behind the cut are gone. Where the cut line is left
without its space, or with half a byte, the run has to end in B1 with that line's number, status 2. Elsewhere it has to end
in the first of: a refusal of the list (V or N), an absent manifest (P2, status 3), a refusal of the cut manifest (Z2). A
plan may come only where no file that is read is gone and the cut file ends whole or between two blocks.

A refusal is one line on standard error, with nothing on standard output. Prints the cuts that gave anything else, and a
last line.
"""
import argparse
import concurrent.futures
import itertools
import re
import subprocess
import sys

REFUSED = re.compile(rb"icescan: (V|N|M1 NotJson|Z2 Bad )[^\n]*\n")
ABSENT = re.compile(rb"icescan: P2 Absent [^\n]*\n")


def number(data, at):
    shift = value = 0
    while True:
        byte = data[at]
        at += 1
        value |= (byte & 127) << shift
        shift += 7
        if byte < 128:
            return (value >> 1) ^ -(value & 1), at


def between_blocks(data):
    """The offsets at which the header and each block end."""
    at = 4
    while True:
        count, at = number(data, at)
        if count == 0:
            break
        if count < 0:
            count = -count
            _, at = number(data, at)
        for _ in range(2 * count):
            size, at = number(data, at)
            at += size
    at += 16
    ends = {at}
    while at < len(data):
        _, at = number(data, at)
        size, at = number(data, at)
        at += size + 16
        ends.add(at)
    return ends


class File:
    """A line of a bundle, without its line feed."""

    def __init__(self, line):
        self.line = line
        self.path, self.digits = line.split(b" ")
        self.data = bytes.fromhex(self.digits.decode())
        self.whole = between_blocks(self.data) if self.data.startswith(b"Obj\1") else set()


def plan(program, text):
    """What the program, given with its words, makes of a bundle."""
    return subprocess.run(program, input=text, capture_output=True, timeout=60)


def text_of(lines):
    return b"".join(line + b"\n" for line in lines)


def with_data(files, which, data):
    """The bundle with other bytes in one of its files."""
    return text_of(file.path + b" " + data.hex().encode() if i == which else file.line for i, file in enumerate(files))


def is_plan(got):
    return got.returncode == 0 and got.stderr == b"" and got.stdout.endswith(b"\n")


def is_refusal(got, status, line):
    return got.returncode == status and got.stdout == b"" and line.fullmatch(got.stderr) is not None


def is_bad_line(got, number):
    return is_refusal(got, 2, re.compile(rb"icescan: B1 Bundle %d\n" % number))


def is_read(program, files, which):
    """Whether the plan reads the file: no file is Avro without a byte."""
    return plan(program, with_data(files, which, b"")).returncode != 0


def cuts_of_files(program, files, step):
    """Each cut of a file: what it is, the text that is left, and the test of what comes of it."""
    for which, file in enumerate(files):
        if not is_read(program, files, which):
            continue
        for cut in range(0, len(file.data), step):
            whole = cut in file.whole
            yield (
                f"{file.path.decode()} cut at {cut}",
                with_data(files, which, file.data[:cut]),
                lambda got, whole=whole: is_refusal(got, 1, REFUSED) or (whole and is_plan(got)),
            )


def test_of_line(which, file, kept, last):
    """The test of what comes of a text that ends in `kept` bytes of a file's line. `last` is the last file that is read."""
    digits = kept - len(file.path) - 1
    if digits < 0 or digits % 2 == 1:
        return lambda got: is_bad_line(got, which + 1)
    whole = which > last or digits // 2 in file.whole
    if which == 0 and last > 0:
        # The list alone: where it ends whole its manifests are absent, and a plan is that of no manifest.
        return lambda got: is_refusal(got, 3, ABSENT) or is_plan(got) if whole else is_refusal(got, 1, REFUSED)
    if which < last:
        return lambda got: is_refusal(got, 3, ABSENT)
    return lambda got: is_plan(got) if whole else is_refusal(got, 1, REFUSED)


def cuts_of_text(program, files, step):
    """Each cut of the text, as cuts_of_files gives them."""
    text = text_of(file.line for file in files)
    last = max((which for which in range(len(files)) if is_read(program, files, which)), default=0)
    which = start = 0
    for cut in range(0, len(text), step):
        # The line before a line feed is whole, whether the cut is before the line feed or behind it.
        while cut > start + len(files[which].line) + 1:
            start += len(files[which].line) + 1
            which += 1
        kept = min(cut - start, len(files[which].line))
        yield (
            f"line {which + 1} cut at {kept}, byte {cut} of the text",
            text[:cut],
            test_of_line(which, files[which], kept, last),
        )


def judged(program, name, text, test):
    got = plan(program, text)
    if test(got):
        return None
    return f"{name}: status {got.returncode}, {got.stderr[:80]!r}, {len(got.stdout)} bytes of output"


def answers(program, cuts):
    """What is wrong with each cut, or None; a batch at a time, so that few of the texts are in memory."""
    with concurrent.futures.ThreadPoolExecutor(4) as pool:
        while batch := list(itertools.islice(cuts, 256)):
            yield from pool.map(lambda cut: judged(program, *cut), batch)


def main():
    arguments = argparse.ArgumentParser(description=__doc__, formatter_class=argparse.RawDescriptionHelpFormatter)
    arguments.add_argument("program")
    arguments.add_argument("bundle")
    arguments.add_argument("step", nargs="?", type=int, default=1)
    arguments.add_argument("--text", action="store_true")
    arguments.add_argument("--words", type=argparse.FileType("r"))
    given = arguments.parse_args()
    words = given.words.read().splitlines() if given.words else ["list-plan", "--bundle"]
    program = [given.program, *words]
    files = [File(line) for line in open(given.bundle, "rb").read().splitlines()]
    cuts = cuts_of_text if given.text else cuts_of_files
    if not is_plan(plan(program, text_of(file.line for file in files))):
        sys.exit("the whole bundle has no plan")
    tried = failed = 0
    for why in answers(program, cuts(program, files, given.step)):
        tried += 1
        if why:
            failed += 1
            if failed <= 20:
                print(why)
    print(f"{tried} cuts, {failed} of them wrong")
    sys.exit(1 if failed else 0)


main()
