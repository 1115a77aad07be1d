#!/usr/bin/env python3
"""transcript.py PROGRAM: plays the transcript of crates/icescan_runs with a built program: the commands of its file
stdin, in a copy of its folder data/, and compares what they write with its file stdout. So a program that is not proved
yet can be tried (crates/icescan_runs/src/main.rt says how a line is read)."""
import difflib
import os
import shutil
import subprocess
import sys
import tempfile

HERE = os.path.join(os.path.dirname(os.path.realpath(__file__)), "../../crates/icescan_runs")


def marked(words, mark):
    """The file that the first word names behind a mark, and the other words."""
    if words and words[0].startswith(mark):
        return words[0][1:], words[1:]
    return None, words


def play(program, folder, line):
    """What the transcript has of a line."""
    if line.startswith(b"#"):
        return line + b"\n"
    given, words = marked(line.split(b"\t") if line else [], b"<")
    to, words = marked(words, b">")
    # by number, since a line may name a folder, which open() refuses
    input = os.open(os.path.join(folder, given or b"nothing"), os.O_RDONLY)
    try:
        ran = subprocess.run([program, *words], cwd=folder, stdin=input, capture_output=True)
    finally:
        os.close(input)
    shown = ran.stdout
    if to:
        with open(os.path.join(folder, to), "wb") as it:
            it.write(ran.stdout)
        shown = b""
    errors = b"! " + ran.stderr if ran.stderr else b""
    return b"> " + line + b"\n" + shown + errors + b"status %d\n" % ran.returncode


def main():
    if len(sys.argv) != 2:
        sys.exit(__doc__)
    program = os.path.realpath(sys.argv[1])
    with open(f"{HERE}/stdin", "rb") as it:
        lines = it.read().splitlines()
    with open(f"{HERE}/stdout", "rb") as it:
        wanted = it.read()
    with tempfile.TemporaryDirectory() as room:
        folder = os.path.join(room, "data").encode()
        shutil.copytree(f"{HERE}/data".encode(), folder)
        written = b"".join(play(program, folder, line) for line in lines)
    texts = [it.decode(errors="replace").splitlines() for it in (wanted, written)]
    for line in list(difflib.unified_diff(*texts, "stdout", "written", n=1, lineterm=""))[:60]:
        print(line)
    print(f"{len(lines)} lines, {'the same' if wanted == written else 'OTHER'}")
    return 0 if wanted == written else 1


if __name__ == "__main__":
    sys.exit(main())
