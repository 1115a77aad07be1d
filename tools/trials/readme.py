#!/usr/bin/env python3
"""readme.py PROGRAM [PAGE..]: the commands of README.md and docs/USING.md, each run in bash, zsh and fish.

A block that begins with ```sh is given to each shell as it stands, at the top of the repository, with PROGRAM on the
path as `icescan`; but /tmp is a new folder for each shell. What it prints on both outputs is compared with the next
block, if that is before the next commands and heading: there `..` alone stands for any lines, and inside a line for any
text; a long line may be broken. Without such a block the status has to be 0. A paragraph that ends with `in bash and
zsh:` names the shells of its block. In place of `rt try` PROGRAM is called. Blocks with other words after `rt` need the kit,
and are left out: a line names each.

Printed are the blocks that differ, also those in which a terminal would take `!` or `#` for something else. Status 1
where there are any, or where a shell is not installed.
"""
import os
import re
import shutil
import subprocess
import sys
import tempfile

TOP = os.path.dirname(os.path.dirname(os.path.dirname(os.path.abspath(__file__))))
PAGES = ["README.md", "docs/USING.md"]
SHELLS = {"bash": ["bash", "--norc", "--noprofile"], "zsh": ["zsh", "-f"], "fish": ["fish", "--no-config"]}
BLOCK = re.compile(r"^```(\w*)\n(.*?)^```$", re.M | re.S)
QUOTED = re.compile(r"'[^']*'")
STAND_IN = '#!/bin/sh\n[ "$1 $2" = "try --" ] && shift 2 && exec icescan "$@"\n'
TAKEN_ELSEWHERE = re.compile(r"![^\s=(]|(^|\s)#", re.M)


def blocks_of(page):
    """The blocks of commands of a page: the line, the commands, what is to be printed (or None), the paragraph before."""
    with open(os.path.join(TOP, page), encoding="utf-8") as file:
        text = file.read()
    found = list(BLOCK.finditer(text))
    for at, block in enumerate(found):
        if block[1] != "sh":
            continue
        after = found[at + 1] if at + 1 < len(found) else None
        is_shown = after and after[1] == "" and "\n#" not in text[block.end():after.start()]
        before = text[:block.start()].rstrip().rsplit("\n\n", 1)[-1]
        yield text.count("\n", 0, block.start()) + 1, block[2], after[2] if is_shown else None, before


def pattern_of(shown, between):
    """The pattern of what a page shows, its lines apart by `between`."""
    parts = []
    for line in shown.rstrip("\n").split("\n"):
        parts.append(r"(.*\n)*?" if line == ".." else ".*".join(map(re.escape, line.split(".."))) + between)
    return "".join(parts)


def is_as_shown(shown, printed):
    broken = re.fullmatch(pattern_of(shown, "") + "\n?", printed)
    return bool(re.fullmatch(pattern_of(shown, "\n"), printed) or broken)


def run(shell, commands, room, program):
    words = [*SHELLS[shell], "-c", commands.replace("/tmp/", room + "/")]
    paths = os.pathsep.join([os.path.dirname(program), os.environ["PATH"]])
    ended = subprocess.run(words, cwd=TOP, env={**os.environ, "PATH": paths, "HOME": room}, stdin=subprocess.DEVNULL,
                           stdout=subprocess.PIPE, stderr=subprocess.STDOUT, text=True, timeout=600)
    return ended.returncode, ended.stdout.replace(room + "/", "/tmp/")


def what_differs(shell, block, room, program):
    """What is not as the page says, or None."""
    _, commands, shown, _ = block
    status, printed = run(shell, commands, room, program)
    if shown is None:
        return None if status == 0 else f"status {status}:\n{printed}"
    return None if is_as_shown(shown, printed) else f"status {status}, printed:\n{printed}"


def try_page(page, rooms, program):
    """How many runs were tried, and how many differ."""
    tried = differ = 0
    for block in blocks_of(page):
        line, commands, _, before = block
        if re.search(r"\brt (?!try -- )", commands):
            print(f"{page}:{line}: left out, it needs the kit")
            continue
        if TAKEN_ELSEWHERE.search(QUOTED.sub("''", commands)):
            print(f"{page}:{line}: a terminal takes a `!` or a `#` for something else")
            differ += 1
        only = ["bash", "zsh"] if before.endswith("in bash and zsh:") else SHELLS
        for shell in (it for it in rooms if it in only):
            tried += 1
            if (differs := what_differs(shell, block, rooms[shell], program)) is not None:
                differ += 1
                print(f"{page}:{line}: {shell}: {differs}")
    return tried, differ


def main():
    if len(sys.argv) < 2:
        sys.exit(__doc__)
    lacking = [it for it in SHELLS if not shutil.which(it)]
    with tempfile.TemporaryDirectory(prefix="readme-") as room:
        program = os.path.join(room, "bin", "icescan")
        os.mkdir(os.path.dirname(program))
        os.symlink(os.path.abspath(sys.argv[1]), program)
        os.symlink(os.path.join(TOP, "tools/uncompress.py"), program + "-uncompress")
        with open(os.path.join(room, "bin", "rt"), "w") as file:
            file.write(STAND_IN)
        os.chmod(file.name, 0o755)
        rooms = {it: os.path.join(room, it) for it in SHELLS if it not in lacking}
        for each in rooms.values():
            os.mkdir(each)
        counts = [try_page(page, rooms, program) for page in sys.argv[2:] or PAGES]
    for shell in lacking:
        print(f"{shell} is not installed")
    tried, differ = (sum(it) for it in zip(*counts))
    print(f"{tried} runs of commands, {differ} differ")
    sys.exit(1 if differ or lacking else 0)


if __name__ == "__main__":
    main()
