#!/usr/bin/env python3
"""shares.py PROGRAM [SHARINGS [TWISTS]]: plans by shares, in processes of their own, against the plan of one.

SHARINGS (200): a random plan of a table of examples/ is taken in random shares, some more than once and by several workers, the
states are joined in a random tree, some more than once, and `finish` of what is left has to print what `plan` prints, as text or
as JSON, or its refusal. Where a share is left out, it has to name a manifest that is missing, or have none in that share.

Then each cut of a state, and TWISTS (10000) of one with bytes changed, put in or left out, by one or several: a named refusal of
the file, or the same state. As many with a right digest: the same, or another state or plan, and nothing worse.
"""
import hashlib
import os
import random
import subprocess
import sys
import tempfile

TOP = os.path.dirname(os.path.dirname(os.path.dirname(os.path.abspath(__file__))))
EVENTS = ["--dir", f"{TOP}/examples/events-java/table", "--prefix", "s3://warehouse/db/events"]
EVENTS_AT = "s3://warehouse/db/events/metadata/00009-ea5012f5-592b-59fd-6564-e953f439e682.metadata.json"
PLAIN = ["--dir", f"{TOP}/examples/plain-java/table", "--prefix", "s3://warehouse/db/plain"]
PLAIN_AT = "s3://warehouse/db/plain/metadata/00005-c64aaab7-8283-c18e-53ea-99e6e56da046.metadata.json"
FILTERS = [None, "id = 42", "id in (34, 42) and ts > 1710028799999999", "code is null", "ts < 0", "category starts with 'b'", "false"]
PLAIN_FILTERS = [None, "id in (5, 219, 100000)", "data is null"]


class Trial:
    def __init__(self, program, folder):
        self.program, self.folder, self.made, self.wrong = program, folder, 0, 0

    def run(self, *words):
        return subprocess.run([self.program, *words], capture_output=True, stdin=subprocess.DEVNULL, timeout=60)

    def file(self, data):
        self.made += 1
        name = os.path.join(self.folder, f"{self.made}.state")
        with open(name, "wb") as out:
            out.write(data)
        return name

    def state(self, *words):
        """The file of what the program prints, or its refusal."""
        ran = self.run(*words)
        if ran.returncode:
            raise Refused(ran)
        return self.file(ran.stdout)

    def fault(self, *what):
        self.wrong += 1
        print("FAULT:", *what)


class Refused(Exception):
    def __init__(self, ran):
        super().__init__(ran.stderr)
        self.ran = ran


def random_words(draw):
    """The words of a plan: options, and the path of the metadata."""
    where, at, filters, refs = draw.choice([(EVENTS, EVENTS_AT, FILTERS, ["eoy", "wap"]), (PLAIN, PLAIN_AT, PLAIN_FILTERS, ["v1"])])
    words = list(where)
    if draw.random() < 0.3:
        words += ["--ref", draw.choice(refs)]
    text = draw.choice(filters)
    if text is not None:
        words += ["--filter", text]
        if draw.random() < 0.2:
            words += ["--relax"]
    return words, at


def taken(trial, draw, words, at, shares):
    states = []
    for k in shares:
        workers = ["--workers", str(draw.choice([1, 2, 4]))] if draw.random() < 0.5 else []
        states.append(trial.state("take", "--part", k, *workers, *words, at))
    return states


def joined(trial, draw, states):
    """Some of the states joined, in a random tree."""
    states = list(states)
    left = draw.randint(1, len(states))
    while len(states) > left:
        draw.shuffle(states)
        n = draw.randint(2, min(4, len(states)))
        states = [trial.state("join", *states[:n], *draw.choices(states, k=draw.randint(0, 1))), *states[n:]]
    return states


def sharing(trial, draw):
    words, at = random_words(draw)
    form = ["--format", "json"] if draw.random() < 0.3 else []
    plan = trial.run("plan", *form, *words, at)
    n = draw.choice([1, 2, 3, 5, 8, 13, 40])
    shares = [f"{k}/{n}" for k in range(1, n + 1)]
    shares += draw.choices(shares, k=draw.randint(0, 3))
    if draw.random() < 0.3:
        m = draw.randint(1, 9)
        shares += [f"{k}/{m}" for k in range(1, m + 1) if draw.random() < 0.5]
    draw.shuffle(shares)
    try:
        states = joined(trial, draw, taken(trial, draw, words, at, shares))
    except Refused as refused:
        if (refused.ran.returncode, refused.ran.stderr) != (plan.returncode, plan.stderr):
            trial.fault(words, shares, refused.ran.stderr)
        return
    draw.shuffle(states)
    finished = trial.run("finish", *form, *words, at, *states)
    if (finished.returncode, finished.stdout) != (plan.returncode, plan.stdout) or plan.returncode and finished.stderr != plan.stderr:
        trial.fault("not the plan", words, shares, finished.stderr)
    lacking(trial, draw, words, at, n)


def lacking(trial, draw, words, at, n):
    """One share of n is left out."""
    out = draw.randint(1, n)
    rest = [f"{k}/{n}" for k in range(1, n + 1) if k != out]
    if not rest:
        return
    states = taken(trial, draw, words, at, rest)
    ran = trial.run("finish", *words, at, *states)
    alone = trial.run("finish", *words, at, *states, trial.state("take", "--part", f"{out}/{n}", *words, at))
    missing = ran.returncode == 1 and ran.stderr.startswith(b"icescan: Z1 Missing ")
    if not missing and (ran.returncode, ran.stdout) != (alone.returncode, alone.stdout):
        trial.fault("left out", out, n, words, ran.stderr)


def twisted(draw, data):
    data = bytearray(data)
    for _ in range(draw.choice([1, 1, 1, 2, 5])):
        i = draw.randrange(len(data))
        match draw.randrange(4):
            case 0:
                data[i] ^= 1 << draw.randrange(8)
            case 1:
                data[i] = draw.randrange(256)
            case 2:
                del data[i:i + draw.randint(1, 4)]
            case 3:
                data[i:i] = draw.randbytes(draw.randint(1, 4))
    return bytes(data)


def resealed(data):
    return data[:-32] + hashlib.sha256(data[:-32]).digest()


def judge(trial, name, same, words):
    """Whether a state's file is refused by its name, or is the same; by `join`, and by `finish` too."""
    for ran, own in ((trial.run("join", name), same[0]), (trial.run("finish", *words, name), same[1])):
        refused = ran.returncode == 2 and ran.stdout == b"" and ran.stderr.startswith(b"icescan: Y") \
            and ran.stderr.endswith(f" {name}\n".encode()) and ran.stderr.count(b"\n") == 1
        if not refused and (ran.returncode, ran.stdout, ran.stderr) != own:
            trial.fault(name, ran.returncode, ran.stderr)


def orderly(trial, name, words):
    for ran in (trial.run("join", name), trial.run("finish", *words, name)):
        if ran.returncode not in (0, 1, 2) or ran.returncode and (ran.stdout or ran.stderr.count(b"\n") != 1):
            trial.fault(name, ran.returncode, ran.stderr)


def twists(trial, draw, count):
    """Cuts and twists of a state."""
    words = [*EVENTS, "--filter", "id in (34, 42) and ts > 1710028799999999", EVENTS_AT]
    with open(trial.state("take", "--part", "1/1", *words), "rb") as state:
        data = state.read()
    name = os.path.join(trial.folder, "twisted.state")

    def put(changed):
        with open(name, "wb") as out:
            out.write(changed)
    put(data)
    same = [(ran.returncode, ran.stdout, ran.stderr) for ran in (trial.run("join", name), trial.run("finish", *words, name))]
    for n in range(len(data)):
        put(data[:n])
        judge(trial, name, same, words)
    for _ in range(count):
        put(twisted(draw, data))
        judge(trial, name, same, words)
    for _ in range(count):
        put(resealed(twisted(draw, data)))
        orderly(trial, name, words)
    return len(data)


def main():
    program, sharings, count = (*sys.argv[1:], *[None] * 3)[:3]
    if program is None:
        print(__doc__, file=sys.stderr)
        return 2
    draw = random.Random(71)
    with tempfile.TemporaryDirectory() as folder:
        trial = Trial(os.path.abspath(program), folder)
        for _ in range(int(sharings or 200)):
            sharing(trial, draw)
        cuts = twists(trial, draw, int(count or 10000))
    print(f"{sharings or 200} sharings, {cuts} cuts, {count or 10000} twists and as many resealed, {trial.wrong} not as they should be")
    return bool(trial.wrong)


if __name__ == "__main__":
    sys.exit(main())
