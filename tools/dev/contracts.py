#!/usr/bin/env python3
"""contracts.py OLD NEW [CRATE..]: which contracts of public functions differ between two commits.

Says of each crate (default: all) which public functions are new or gone, whose requires and ensures differ, with both texts,
and whose are the same, word for word. White space counts for nothing.
"""
import re
import subprocess
import sys

FUNCTION = re.compile(r"( *)pub fn (\w+)")
BLOCK = re.compile(r"impl(?:<[^>]*>)? (.*) \{$")


def git(*words):
    done = subprocess.run(["git", *words], capture_output=True, text=True)
    return done.stdout if done.returncode == 0 else ""


def head(lines, at, indent):
    """The lines of a function up to its body."""
    taken = []
    for line in lines[at:]:
        if line.rstrip() in (indent + "{", indent + "{}"):
            break
        taken.append(line.strip())
        if line.rstrip().endswith((" {", " {}")) and not re.search(r"\b(requires|ensures)\b", line):
            break
    return " ".join(taken)


def contracts(text):
    """Each public function by its name, with its requires and ensures."""
    found, owner = {}, ""
    lines = text.split("\n")
    for at, line in enumerate(lines):
        block = BLOCK.match(line)
        if block:
            owner = re.sub(r"<.*", "", block.group(1)) + "::"
        elif line == "}":
            owner = ""
        function = FUNCTION.match(line)
        if function:
            front = head(lines, at, function.group(1))
            clauses = re.search(r"\b(requires|ensures)\b", front)
            found[owner + function.group(2)] = front[clauses.start():] if clauses else ""
    return found


def crate_at(commit, crate):
    found = {}
    for path in git("ls-tree", "-r", "--name-only", commit, f"crates/{crate}/src").split():
        if path.endswith(".rt"):
            found.update(contracts(git("show", f"{commit}:{path}")))
    return found


def crates_of(commit):
    return {path.removeprefix("crates/") for path in git("ls-tree", "--name-only", commit, "crates/").split()}


def main():
    if len(sys.argv) < 3:
        sys.exit(__doc__)
    old, new, crates = sys.argv[1], sys.argv[2], sys.argv[3:]
    for crate in crates or sorted(crates_of(old) | crates_of(new)):
        before, after = crate_at(old, crate), crate_at(new, crate)
        same = [name for name in before if after.get(name) == before[name]]
        print(f"{crate}: {len(same)} same: {' '.join(sorted(same))}")
        for name in sorted(before.keys() | after.keys()):
            if name not in before:
                print(f"  new {name}")
            elif name not in after:
                print(f"  gone {name}")
            elif before[name] != after[name]:
                print(f"  differs {name}\n    - {before[name]}\n    + {after[name]}")


main()
