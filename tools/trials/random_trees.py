#!/usr/bin/env python3
"""Plans a table through the library for C by states that are made in threads and brought together in random trees:

    random_trees.py LIBRARY FOLDER PREFIX METADATA [FILTER [RUNS [SEED]]]

Each run makes up to nine states of one scan, each of which takes some of the wanted manifests in a thread of its own,
several of them more than once. They are brought together in pairs that are drawn, by icescan_state_merge, whose other
is let go or drawn again, or by icescan_state_absorb, which empties it; what nobody took is taken by the last, or in
every fourth run some of it is left out. The plan has to be that of one state that took each manifest once, and where
some are missing the refusal has to name the one with the least path.
"""
import os
import random
import sys
import threading
from ctypes import byref

sys.path.insert(0, os.path.join(os.path.dirname(os.path.abspath(__file__)), "..", "..", "python"))
from icescan import Error, Folder, _library, _plan, _text  # noqa: E402


class Scan:
    """A scan that is started, and the bytes of the manifests that it wants."""

    def __init__(self, library, read, metadata, text):
        asked = _plan.Asked(read(metadata), None, None, text)
        self.library, self.held = library, _plan.started(library, asked, read)
        self.paths = [self.held.text("scan_wanted", i) for i in range(self.held.count("scan_count"))]
        self.manifests = [read(path) for path in self.paths]

    def state(self):
        state = _library.Held(self.library)
        self.held.call("state_new", byref(state.handle))
        return state

    def take(self, state, i):
        state.call("state_take", i, *_library.given(self.manifests[i]))


def finished(state):
    """The plan's text, or the line of the refusal."""
    with state:
        try:
            state.call("finish")
        except Error as refused:
            return refused.line
        return _text.text_of(_plan.plan_of(state, ()))


def by_one(scan, wanted):
    state = scan.state()
    for i in wanted:
        scan.take(state, i)
    return finished(state)


def shares(draw, many):
    """Which manifests each state takes, in which order: some twice, some by several, some by none."""
    for _ in range(draw.randint(1, 9)):
        share = [i for i in range(many) if draw.random() < 0.5]
        share += draw.sample(share, len(share) // 3)
        draw.shuffle(share)
        yield share


def taken_in_threads(scan, parts):
    states = [scan.state() for _ in parts]
    threads = [threading.Thread(target=lambda s=s, p=p: [scan.take(s, i) for i in p]) for s, p in zip(states, parts)]
    for thread in threads:
        thread.start()
    for thread in threads:
        thread.join()
    return [(state, set(part)) for state, part in zip(states, parts)]


def brought_together(scan, draw, states):
    """One state, and what it took."""
    again = len(states)
    while len(states) > 1:
        a, b = draw.sample(range(len(states)), 2)
        (state, took), (other, others) = states[a], states[b]
        states[a] = (state, took | others)
        how = draw.choice(("state_absorb", "state_merge"))
        state.call(how, byref(other.handle))
        if how == "state_merge" and again > 0 and draw.random() < 0.5:
            again -= 1
        else:
            other.free()
            del states[b]
    return states[0]


def run(scan, draw, whole):
    many = len(scan.paths)
    state, took = brought_together(scan, draw, taken_in_threads(scan, list(shares(draw, many))))
    left = [i for i in range(many) if i not in took]
    skipped = draw.sample(left, draw.randint(1, len(left))) if left and draw.random() < 0.25 else []
    for i in left:
        if i not in skipped:
            scan.take(state, i)
    told = finished(state)
    if not skipped:
        return told == whole
    missing = min(scan.paths[i] for i in skipped)
    return told == f"Z1 Missing {_text.escaped(missing)}"


def main():
    if len(sys.argv) < 5 or sys.argv[1].startswith("--"):
        sys.exit(__doc__)
    path, folder, prefix, metadata, *rest = sys.argv[1:]
    text, runs, seed = rest[0] if rest else "", int(rest[1]) if rest[1:] else 200, int(rest[2]) if rest[2:] else 1
    scan = Scan(_library.loaded(path), Folder(folder, prefix), metadata, text)
    whole = by_one(scan, range(len(scan.paths)))
    draw = random.Random(seed)
    wrong = sum(not run(scan, draw, whole) for _ in range(runs))
    scan.held.free()
    print(f"{runs} trees over {len(scan.paths)} manifests, {wrong} wrong")
    sys.exit(1 if wrong else 0)


if __name__ == "__main__":
    main()
