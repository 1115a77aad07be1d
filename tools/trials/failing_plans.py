#!/usr/bin/env python3
"""failing_plans.py PROGRAM: plans of a small table whose files can't be read for a while, or whose text can't be
written.

Each file that a plan reads fails 1 to 4 times, with 1, 2 and 64 workers. A manifest that failed three times is in the
plan, and one that failed four times is refused, as the metadata and the list are that failed once. No thread is
started, and the plan is the same. Standard output takes each number
of bytes below those of the plan, and then refuses, or takes nothing: the run has to end in `W1 Write`, and what went
out is just that front of the text.

Prints a line for each kind of run, and a last one that counts; the status is 1 where one failed. Wants a C compiler.
"""
import os
import subprocess
import sys
import tempfile

import stopped_commits as small

HERE = os.path.dirname(os.path.abspath(__file__))
CREWS = (1, 2, 64)
WRITE = (3, b"icescan: W1 Write\n")


class Plans:
    def __init__(self, program, work):
        self.table = small.Table(program, work)
        self.shim = os.path.join(work, "fail_calls.so")
        source = os.path.join(HERE, "fail_calls.c")
        subprocess.run(["cc", "-O1", "-shared", "-fPIC", "-o", self.shim, source, "-ldl"], check=True)
        self.files = sorted(name for name in self.table.before if name.endswith(".avro")) + [small.BASE]
        self.text = small.BEFORE[1].encode()

    def run(self, workers, **fails):
        words = ["plan", "--dir", self.table.made, "--prefix", small.PREFIX, "--workers", str(workers)]
        environment = {"FAIL_" + name.upper(): str(value) for name, value in fails.items()}
        words = [self.table.program, *words, small.PREFIX + "/" + small.BASE]
        done = subprocess.run(words, capture_output=True, env={"LD_PRELOAD": self.shim, **environment})
        return done.returncode, done.stdout, done.stderr

    def read_faults(self, file, workers):
        """A file that fails once and more often."""
        is_tried = os.path.basename(file)[:5] not in ("snap-", "v1.js")
        device = (3, b"", ("icescan: P3 Device %s/%s\n" % (small.PREFIX, file)).encode())
        for times in range(1, 5):
            wanted = (0, self.text, b"") if is_tried and times < 4 else device
            got = self.run(workers, file=file, times=times)
            if got != wanted:
                yield "%s fails %d times: %r" % (file, times, got)

    def write_faults(self, workers, how):
        for room in range(len(self.text)):
            status, said, why = self.run(workers, room=room, how=how)
            if (status, why) != WRITE or said != self.text[:room]:
                yield "room for %d bytes: status %d, %d bytes, %r" % (room, status, len(said), why)


def main():
    if len(sys.argv) != 2:
        sys.exit(__doc__)
    with tempfile.TemporaryDirectory() as work:
        plans = Plans(os.path.abspath(sys.argv[1]), work)
        for workers in CREWS:
            for file in plans.files:
                small.check("%s can't be read, %d workers" % (file, workers), list(plans.read_faults(file, workers)))
            for how in ("refuses", "nothing"):
                small.check("output is full (%s), %d workers" % (how, workers), list(plans.write_faults(workers, how)))
            same = plans.run(workers, threads=1) == (0, plans.text, b"")
            small.check("no thread is started, %d workers" % workers, [] if same else ["another plan"])
    print("failing_plans: %d checks passed, %d failed" % (small.COUNTS[True], small.COUNTS[False]))
    sys.exit(1 if small.COUNTS[False] else 0)


main()
