#!/usr/bin/env python3
"""Prints the plan that `icescan plan WORDS..` prints, made by four worker processes of a local Dask cluster (Debian's
python3-distributed):

    dask_plan.py [--kill] SHARES WORDS..

Each task takes a share, or joins two states; Dask has the tree, and runs the tasks of a lost worker again. With --kill the worker
that has the first state is killed as soon as it has it. `icescan` is on the path; `--format` is for the plan alone.
"""
import os
import signal
import subprocess
import sys
import tempfile

from distributed import Client, LocalCluster, wait


def icescan(*words):
    """What the program prints; a refusal fails the task, with its line."""
    run = subprocess.run(["icescan", *words], capture_output=True, stdin=subprocess.DEVNULL)
    if run.returncode:
        raise RuntimeError(run.stderr.decode(errors="replace").strip())
    return run.stdout


def with_files(states, *words):
    """What the program prints of states, whose files are its last words."""
    with tempfile.TemporaryDirectory() as folder:
        names = [os.path.join(folder, f"{i}.state") for i in range(len(states))]
        for name, state in zip(names, states):
            with open(name, "wb") as out:
                out.write(state)
        return icescan(*words, *names)


def take(k, shares, words):
    return icescan("take", "--part", f"{k}/{shares}", *words)


def join(one, other):
    return with_files([one, other], "join")


def joined(client, states):
    """The state of all, by a tree of joins of two."""
    while len(states) > 1:
        pairs = [client.submit(join, *states[i:i + 2], pure=False) for i in range(0, len(states) - 1, 2)]
        states = pairs + states[len(pairs) * 2:]
    return states[0]


def kill_holder(client, state):
    """Kills the worker that has this result."""
    wait(state)
    holders = client.who_has(state)[state.key]
    pids = client.run(os.getpid, workers=list(holders))
    for pid in pids.values():
        os.kill(pid, signal.SIGKILL)
        print(f"killed worker {pid}", file=sys.stderr)


def main():
    words = sys.argv[1:]
    kills = words[:1] == ["--kill"]
    shares, *asked = words[kills:]
    plain = [word for word in asked if not word.startswith("--format=")]
    with LocalCluster(n_workers=4, threads_per_worker=1, dashboard_address=None) as cluster, Client(cluster) as client:
        states = client.map(take, range(1, int(shares) + 1), shares=shares, words=plain, pure=False)
        if kills:
            kill_holder(client, states[0])
        whole = joined(client, states).result()
    sys.stdout.buffer.write(with_files([whole], "finish", *asked))


if __name__ == "__main__":
    main()
