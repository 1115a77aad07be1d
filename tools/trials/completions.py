#!/usr/bin/env python3
"""completions.py PROGRAM: what bash, zsh and fish make of the tab key, in a terminal of their own.

Each shell is started with a pseudo-terminal and the completions that `tools/completions` writes for PROGRAM. For each case the
front of a command is typed and then the tab key, and what the line is after that is printed; status 1 where it is not what is
wanted. The table is that of examples/events-java. A shell that is not installed is named, and status is 1 too.
"""
import fcntl
import os
import pty
import re
import select
import shutil
import struct
import subprocess
import sys
import tempfile
import termios
import time

TOP = os.path.dirname(os.path.dirname(os.path.dirname(os.path.abspath(__file__))))
TABLE = os.path.join(TOP, "examples/events-java/table")
PREFIX = "s3://warehouse/db/events"
NEWEST = "00009-ea5012f5-592b-59fd-6564-e953f439e682.metadata.json"
LIST = "snap-7559570768388442785-1-abbca149-133e-4733-c1b4-179d137ebc57.avro"
PLACE = f"--dir {TABLE} --prefix {PREFIX}"

# What is typed before the tab key, and what the line is to be after it.
CASES = [
    ("icescan pl", "icescan plan"),
    ("icescan --explain pl", "icescan --explain plan"),
    ("icescan --explain plan --wor", "icescan --explain plan --workers"),
    ("icescan plan --format js", "icescan plan --format json"),
    (f"icescan plan --dir {TABLE}/meta", f"icescan plan --dir {TABLE}/metadata"),
    (f"icescan locate {TABLE}/meta", f"icescan locate {TABLE}/metadata"),
    (f"icescan plan {PLACE} s3", f"icescan plan {PLACE} {PREFIX}/metadata/{NEWEST}"),
    (f"icescan plan {PLACE} s3://warehouse/db/ev", f"icescan plan {PLACE} {PREFIX}/metadata/{NEWEST}"),
    (f"icescan --explain audit {PLACE} {PREFIX}/metadata/00009", f"icescan --explain audit {PLACE} {PREFIX}/metadata/{NEWEST}"),
    (f"icescan plan {PLACE} --ref wa", f"icescan plan {PLACE} --ref wap"),
    (f"icescan plan {PLACE} --ref eo", f"icescan plan {PLACE} --ref eoy"),
    (f"icescan list-plan {PLACE} {PREFIX}/metadata/snap-7559", f"icescan list-plan {PLACE} {PREFIX}/metadata/{LIST}"),
    (f"icescan join {TOP}/READ", f"icescan join {TOP}/README.md"),
    (f"icescan finish {PLACE} {PREFIX}/metadata/{NEWEST} {TOP}/READ",
     f"icescan finish {PLACE} {PREFIX}/metadata/{NEWEST} {TOP}/README.md"),
]


def started(shell, script):
    """The words that start a shell, and what is typed into it first."""
    match shell:
        case "bash":
            return ["bash", "--norc", "--noprofile", "-i"], f"source {script}\n"
        case "zsh":
            path = f"fpath=({os.path.dirname(script)} $fpath)"
            return ["zsh", "-f", "-i"], f"{path}; autoload -U compinit; compinit -u -D; unsetopt prompt_sp\n"
        case _:
            return ["fish", "--no-config", "-i"], f"source {script}\n"


def read_for(end, seconds):
    got, until = b"", time.monotonic() + seconds
    while (left := until - time.monotonic()) > 0:
        if select.select([end], [], [], left)[0]:
            try:
                got += os.read(end, 65536)
            except OSError:
                break
    return got


def line_after(shell, script, path, typed):
    """The line after the tab key: `printf` is put before it, and says it."""
    words, first = started(shell, script)
    child, end = pty.fork()
    if child == 0:
        os.environ.update({"PATH": path, "TERM": "xterm", "PS1": "$ ", "HOME": os.path.dirname(script)})
        os.execvp(words[0], words)
    fcntl.ioctl(end, termios.TIOCSWINSZ, struct.pack("HHHH", 50, 1000, 0, 0))
    read_for(end, 1.0)
    os.write(end, first.encode())
    read_for(end, 1.5)
    os.write(end, typed.encode() + b"\t")
    read_for(end, 2.0)
    os.write(end, b"\x01printf '<%s>\\n' '' \n")
    shown = read_for(end, 1.0).decode(errors="replace")
    os.close(end)
    os.waitpid(child, 0)
    return " ".join(word for word in re.findall(r"^<([^>\r\n]*)>\r?$", shown, re.M) if word)


def main():
    if len(sys.argv) != 2:
        sys.exit(__doc__)
    program, bad = os.path.abspath(sys.argv[1]), 0
    with tempfile.TemporaryDirectory() as folder:
        os.mkdir(os.path.join(folder, "bin"))
        os.symlink(program, os.path.join(folder, "bin", "icescan"))
        path = os.path.join(folder, "bin") + ":" + os.environ["PATH"]
        for shell in ("bash", "zsh", "fish"):
            if not shutil.which(shell):
                print(f"FAULT: {shell} is not installed")
                bad += 1
                continue
            script = os.path.join(folder, {"bash": "icescan", "zsh": "_icescan", "fish": "icescan.fish"}[shell])
            with open(script, "w") as out:
                subprocess.run([os.path.join(TOP, "tools/completions"), program, shell], stdout=out, check=True)
            for typed, wanted in CASES:
                found = line_after(shell, script, path, typed)
                is_so = found.rstrip("/") == wanted
                print(f"{'' if is_so else 'FAULT: '}{shell}: {typed!r} -> {found!r}")
                bad += not is_so
    print(f"{3 * len(CASES)} cases, {bad} not as they should be")
    return bool(bad)


if __name__ == "__main__":
    sys.exit(main())
