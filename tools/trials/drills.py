#!/usr/bin/env python3
"""Runs drills of several sizes fifty times each, and sees that every run prints the same.

usage: drills.py PROGRAM [RUNS]

What a drill prints does not depend on the order in which its threads commit: as many commits as all threads make, as
many sequence numbers, and as many files. Exit 0 where all runs printed that, 1 with the first that did not.
"""
import subprocess
import sys

SIZES = [(1, 1), (3, 4), (64, 2)]


def main():
    if len(sys.argv) < 2 or sys.argv[1].startswith("--"):
        sys.exit(__doc__)
    program = sys.argv[1]
    runs = int(sys.argv[2]) if len(sys.argv) > 2 else 50
    for threads, commits in SIZES:
        count = threads * commits
        expected = f"commits {count}\nlast-sequence-number {count}\nfiles {count} deletes 0\n"
        for run in range(runs):
            words = [program, "drill", "--threads", str(threads), "--commits", str(commits)]
            ended = subprocess.run(words, capture_output=True, text=True, timeout=600)
            if (ended.returncode, ended.stdout, ended.stderr) != (0, expected, ""):
                print(f"threads {threads} commits {commits}, run {run}: status {ended.returncode}")
                print(ended.stdout + ended.stderr, end="")
                return 1
        print(f"threads {threads} commits {commits}: {runs} runs alike")
    return 0


sys.exit(main())
