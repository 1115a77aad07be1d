#!/usr/bin/env python3
"""stopped_commits.py [--rounds N] [--same-words] PROGRAM: commits that are killed, commits to a disk that fails or
loses its power, and two commits at once.

PROGRAM is the built icescan; `tools/trials/stopped_commits.py crates/icescan/out/icescan`. A small table is made in a
new folder, and a row delta to it is made again and again:

- with the power lost behind each call of the system: of what was not synced any part may be there;
- killed at each call of the system that has to do with a file, from the first that reads the table on;
- with each of these calls refused, by ENOSPC, by EIO and by EROFS; the sync of a folder also as one that the system has
  not got (EINVAL, EOPNOTSUPP, ENOSYS), the opening of a folder also as one that may not be read (EACCES), and a link
  also as one that the file system has not got (EPERM);
- with files that may not grow past some sizes, so that a write ends in the middle: refused then, and killed then;
- with each link made, and EEXIST said all the same;
- with files of stopped commits lying around.

After each the files that were there are as they were, and the table before has its plan; each new file under a name
that is not `.icescan-*.tmp` is whole; the new metadata has the whole commit's plan, or is absent; a commit that is told
was made, and the status is the one that is wanted. Then the commit is made again: with the same words it is made where
no file of it stands, and under new names where its metadata does not stand; else it is a conflict. Where some file of
it stands, the same words may also be refused as a failed write; with --same-words they may not.

Then two commits compete for one path, N times (500): one tells its receipt and the other the conflict, and the table
has what the first wrote. A reader who plans meanwhile finds no file or the whole plan, and no file is seen in part.

Prints a line for each check, and a last one that counts; the status is 1 where a check failed. Wants strace and a C
compiler."""
import itertools
import json
import os
import re
import resource
import shutil
import subprocess
import sys
import tempfile
import threading
import time

HERE = os.path.dirname(os.path.abspath(__file__))
PREFIX = "s3://warehouse/db/small"
BASE, OUT = "metadata/v1.json", "metadata/v2.json"
BASE_UUID = "00000000-0000-0000-0000-000000000001"
COLUMNS = [{"id": 1, "name": "key", "required": True, "type": "long"},
           {"id": 2, "name": "day", "required": False, "type": "date"}]
METADATA = {
    "format-version": 2, "table-uuid": "f79c3e09-677c-4bbd-a479-3f349cb785e7", "location": PREFIX,
    "last-sequence-number": 0, "last-updated-ms": 0, "last-column-id": 2, "current-schema-id": 0,
    "schemas": [{"type": "struct", "schema-id": 0, "fields": COLUMNS}], "default-spec-id": 1,
    "partition-specs": [{"spec-id": 0, "fields": []}, {"spec-id": 1, "fields": [
        {"source-id": 2, "field-id": 1000, "name": "day", "transform": "identity"}]}],
    "last-partition-id": 1000}


def file_of(name, spec, partition, **more):
    return dict({"path": "%s/data/%s" % (PREFIX, name), "format": "parquet", "spec-id": spec, "partition": partition,
                 "record-count": 10, "file-size": 1000}, **more)


CHANGES = {
    "base": {"data": [file_of("a", 0, []), file_of("b", 1, [19790])], "deletes": []},
    "change": {"data": [file_of("c", 1, [19790])], "deletes": [file_of("p", 1, [19790], content="position")]},
    "first": {"data": [file_of("first", 1, [19790])], "deletes": [file_of("fp", 1, [19790], content="position")]},
    "second": {"data": [file_of("second", 0, [])], "deletes": []},
}


def plan_of(*lines):
    """A plan: of each data file its name, number, spec and, if it has one, the delete file of the number 2."""
    text = ""
    for name, number, spec, delete in lines:
        text += "data %s/data/%s seq %d spec %d rows 10 size 1000\n" % (PREFIX, name, number, spec)
        text += "  pos %s/data/%s seq 2\n" % (PREFIX, delete) if delete else ""
    return (0, text + "files %d deletes %d\n" % (len(lines), sum(bool(line[3]) for line in lines)), "")


BEFORE = plan_of(("a", 1, 0, None), ("b", 1, 1, None))
PLANS = {
    "change": plan_of(("a", 1, 0, None), ("b", 1, 1, "p"), ("c", 2, 1, "p")),
    "first": plan_of(("a", 1, 0, None), ("b", 1, 1, "fp"), ("first", 2, 1, "fp")),
    "second": plan_of(("a", 1, 0, None), ("b", 1, 1, None), ("second", 2, 0, None)),
}
ABSENT = (3, "", "icescan: P2 Absent %s/%s\n" % (PREFIX, OUT))
CONFLICT = (4, "", "icescan: Conflict %s/%s\n" % (PREFIX, OUT))
NOT_WRITTEN = (3, "", "icescan: W1 Write\n")

# the status that is wanted where a call of this kind is refused: a failed read or write, or the commit goes on
STATUSES = {"read": 3, "create": 3, "write": 3, "sync": 3, "link": 3, "unlink": 0, "open folder": 3, "sync folder": 3,
            "close": 0, "tell": 3, "look": None}
NO_SYNC = ("EINVAL", "EOPNOTSUPP", "ENOSYS")
REFUSALS = ("ENOSPC", "EIO", "EROFS")
MORE_REFUSALS = {"sync folder": NO_SYNC, "open folder": ("EACCES",), "link": ("EPERM",)}
KINDS = {"read": "read", "pread64": "read", "write": "write", "pwrite64": "write", "writev": "write", "fsync": "sync",
         "fdatasync": "sync", "link": "link", "linkat": "link", "unlink": "unlink", "unlinkat": "unlink",
         "close": "close", "stat": "look", "lstat": "look", "fstat": "look", "newfstatat": "look", "statx": "look",
         "lseek": "look"}

# ---- checks

COUNTS = {True: 0, False: 0}


def check(what, faults):
    """Prints a check's line."""
    COUNTS[not faults] += 1
    print("%s %s" % ("FAIL" if faults else "ok  ", what) + "".join("\n       " + fault for fault in faults), flush=True)


# ---- the program, and its table


def run(words, **more):
    done = subprocess.run(words, stdin=subprocess.DEVNULL, capture_output=True, text=True, **more)
    return done.returncode, done.stdout, done.stderr


def receipt(number):
    return 0, "committed snapshot %d seq 2\n" % number, ""


def uuid_of(number):
    return "00000000-0000-0000-0000-%012x" % number


def words_of(program, folder, command, *rest):
    return [program, command, "--dir", folder, "--prefix", PREFIX, *rest]


def commit_words(program, folder, number, change="change", base=BASE, out=OUT):
    return words_of(program, folder, "row-delta", "--snapshot-id", str(number), "--uuid", uuid_of(number), "--now-ms",
                    "1709942400000", "--out", PREFIX + "/" + out, PREFIX + "/" + base,
                    "%s/%s.json" % (PREFIX, change))


def plan(program, folder, path):
    return run(words_of(program, folder, "plan", PREFIX + "/" + path))


def files_of(folder):
    found = {}
    for name in os.listdir(os.path.join(folder, "metadata")):
        with open(os.path.join(folder, "metadata", name), "rb") as it:
            found["metadata/" + name] = it.read()
    return found


def is_aside(name):
    return re.fullmatch(r"metadata/\.icescan-.*\.tmp", name) is not None


class Table:
    """The table before the commit, and what a commit that nothing stops leaves."""

    def __init__(self, program, work):
        self.program, self.work, self.made = program, work, os.path.join(work, "before")
        self.shim = os.path.join(work, "link_there.so")
        os.makedirs(os.path.join(self.made, "metadata"))
        for name, value in [("metadata/v0.json", METADATA)] + [(k + ".json", v) for k, v in CHANGES.items()]:
            with open(os.path.join(self.made, name), "w", encoding="utf-8") as it:
                json.dump(value, it)
        ended = run(commit_words(program, self.made, 1, "base", "metadata/v0.json", BASE))
        if ended != (0, "committed snapshot 1 seq 1\n", "") or plan(program, self.made, BASE) != BEFORE:
            sys.exit("stopped_commits: the table before is not made: %r" % (ended,))
        self.before, self.whole = files_of(self.made), {}

    def copy(self, name="table"):
        folder = os.path.join(self.work, name)
        shutil.rmtree(folder, ignore_errors=True)
        return shutil.copytree(self.made, folder)

    def new_files(self, folder):
        return {name: bytes for name, bytes in files_of(folder).items() if name not in self.before}

    def faults(self, folder, plans):
        """What is wrong with the table, after a commit with these plans was stopped or made."""
        after, faults = files_of(folder), []
        faults += ["%s is not as it was" % name for name, bytes in self.before.items() if after.get(name) != bytes]
        faults += ["half of %s stands" % name for name, bytes in self.whole.items() if after.get(name, bytes) != bytes]
        if plan(self.program, folder, BASE) != BEFORE:
            faults.append("the table before has another plan")
        found = plan(self.program, folder, OUT)
        if found not in (plans if OUT in after else [ABSENT]):
            faults.append("the new table's plan is %r" % (found,))
        return faults


# ---- calls of the system


class Call:
    """A call that a commit makes: the turn among those of its name, its kind and the file, and where a link begins."""

    def __init__(self, name, turn, kind, file, source):
        self.name, self.turn, self.kind, self.file, self.source = name, turn, kind, file, source

    def __str__(self):
        return "%s %d (%s %s)" % (self.name, self.turn, self.kind, self.file)


def kind_of(name, text, folder):
    """The kind of a call, none where it is about no file, and the first and last file that it names."""
    held = re.findall(r"^\d+<([^>]*)>", text)
    paths = held or re.findall(r'"([^"]*)"', text) or [""]
    source, file = (path[len(folder) + 1:] if path.startswith(folder + "/") else path for path in (paths[0], paths[-1]))
    if name in ("open", "openat"):
        kind = "create" if "O_CREAT" in text else "read" if file != "metadata" else "open folder"
    else:
        kind = KINDS.get(name)
    if kind == "write" and text.startswith("1<"):
        return "tell", "standard output", source
    return ("sync folder" if kind == "sync" and file == "metadata" else kind), file, source


def traced(words, log, *rules):
    ended = run(["strace", "-qq", "-y", "-o", log, *itertools.chain(*(("-e", rule) for rule in rules))] + words)
    with open(log, encoding="utf-8", errors="replace") as it:
        return ended, it.read()


def calls_of(text, folder):
    """The calls of a traced commit, from the first that names its folder on."""
    turns, calls, begun = {}, [], False
    for line in text.splitlines():
        matched = re.match(r"(\w+)\((.*)\)\s+= ", line)
        if not matched:
            continue
        name = matched[1]
        turns[name] = turns.get(name, 0) + 1
        kind, file, source = kind_of(name, matched[2], folder)
        begun = begun or file == BASE
        if begun and kind:
            calls.append(Call(name, turns[name], kind, file, source))
    return calls


# ---- the power lost


class Disk:
    """What a commit did to the folder: its names, those that a power loss leaves, and the files that are left whole."""

    def __init__(self):
        self.names, self.kept, self.synced, self.is_told = {}, {}, set(), False

    def make(self, call, number):
        if call.kind == "create":
            self.names[call.file] = number
        elif call.kind == "write":
            self.synced.discard(self.names.get(call.file))
        elif call.kind == "sync":
            self.synced.add(self.names.get(call.file))
        elif call.kind == "link":
            self.names[call.file] = self.names[call.source]
        elif call.kind == "unlink":
            self.names.pop(call.file, None)
        elif call.kind == "sync folder":
            self.kept = dict(self.names)
        self.is_told = self.is_told or call.kind == "tell"

    def left(self):
        """What may be left: the names, each with whether its file is whole."""
        changed = [name for name in {**self.names, **self.kept} if self.names.get(name) != self.kept.get(name)]
        for picks in itertools.product((self.names, self.kept), repeat=len(changed)):
            left = dict(self.kept)
            for name, pick in zip(changed, picks):
                left[name] = pick.get(name)
            yield frozenset((name, file in self.synced) for name, file in left.items() if file is not None)


def losses_of(calls):
    """Each state that a loss of power may leave, with the call behind which it is met first, and whether a commit was
    told before it is met last."""
    disk, states = Disk(), {}
    for number, call in enumerate(calls):
        disk.make(call, number)
        for state in disk.left():
            first, _ = states.get(state, (call, False))
            states[state] = first, disk.is_told
    return states


def check_losses(table, calls):
    for state, (call, is_told) in losses_of(calls).items():
        folder = table.copy()
        for name, is_whole in state:
            bytes = table.whole.get(name, b"unfinished")
            with open(os.path.join(folder, name), "wb") as it:
                it.write(bytes if is_whole else bytes[:len(bytes) // 2])
        faults = table.faults(folder, [PLANS["change"]]) + again_faults(table, folder, False)
        if is_told and (OUT, True) not in state:
            faults.append("the commit was told, and is lost")
        half = sum(not is_whole for _, is_whole in state)
        check("the power is lost behind %s: %d files are left, %d of them not whole" % (call, len(state), half), faults)


# ---- a commit that nothing stops


def check_whole(table):
    """A commit that nothing stops; gives its calls."""
    folder = table.copy("whole")
    ended, text = traced(commit_words(table.program, folder, 7), os.path.join(table.work, "log"), "trace=all")
    table.whole = table.new_files(folder)
    calls = calls_of(text, folder)
    faults = table.faults(folder, [PLANS["change"]])
    faults += [] if ended == receipt(7) else ["it ends with %r" % (ended,)]
    faults += ["%s stays" % name for name in table.whole if is_aside(name)]
    faults += [] if len(table.whole) == 4 else ["new files are %s" % sorted(table.whole)]
    check("a commit that nothing stops", faults)
    aside = [call.file for call in calls if call.kind == "create"]
    own = re.compile(r"metadata/\.icescan-%s-\d+\.tmp" % uuid_of(7))
    check("files that are not whole are called .icescan-UUID-N.tmp",
          ["%s is none" % name for name in aside if not own.fullmatch(name)][:1])
    return calls


# ---- stops


def again_faults(table, folder, strict):
    """What is wrong where the stopped commit is made again: with the same words, and then under new names."""
    new = table.new_files(folder)
    stands, aside = [name for name in new if not is_aside(name)], {name: new[name] for name in new if is_aside(name)}
    allowed = [CONFLICT] if OUT in stands else [receipt(7)]
    allowed += [NOT_WRITTEN] if stands and not strict else []
    faults, same = [], run(commit_words(table.program, folder, 7))
    if same not in allowed:
        faults.append("the same words, where %d files stand: %r" % (len(stands), same))
    if same[0] == 3 and table.new_files(folder) != new:
        faults.append("the same words are refused, and there are other files")
    made = OUT in files_of(folder)
    renewed = run(commit_words(table.program, folder, 8))
    if renewed != (CONFLICT if made else receipt(8)):
        faults.append("under new names: %r" % (renewed,))
    if plan(table.program, folder, OUT) != PLANS["change"]:
        faults.append("the table after them has another plan")
    if {name: bytes for name, bytes in files_of(folder).items() if is_aside(name)} != aside:
        faults.append("they leave other unfinished files than they found")
    return faults


def stop_faults(table, folder, ended, wanted, most_aside, strict):
    """What is wrong after a stop. Of a commit that was killed no status is wanted."""
    faults = table.faults(folder, [PLANS["change"]])
    new = table.new_files(folder)
    made, aside = OUT in new, sum(map(is_aside, new))
    if aside > most_aside:
        faults.append("%d unfinished files stay" % aside)
    if ended[1] == receipt(7)[1] and not made:
        faults.append("a commit is told that was not made")
    if wanted is not None and ended[0] != wanted:
        faults.append("status %d is wanted: %r" % (wanted, ended))
    if wanted is not None and ended[0] == 0 and not made or ended[0] == 4:
        faults.append("it ends with %r, and the metadata %s" % (ended, "stands" if made else "is absent"))
    return faults + again_faults(table, folder, strict)


def check_stop(table, call, error, strict):
    """The commit with one call refused by this error, or killed there."""
    folder = table.copy()
    how = "error=" + error if error else "signal=SIGKILL"
    rule = "inject=%s:%s:when=%d" % (call.name, how, call.turn)
    ended, text = traced(commit_words(table.program, folder, 7), os.path.join(table.work, "log"),
                         "trace=" + call.name, rule)
    stopped = "(INJECTED)" in text or "killed by SIGKILL" in text
    wanted = STATUSES[call.kind] if error else None
    if call.kind == "sync folder" and error in NO_SYNC:
        wanted = 0
    most = 1 if not error or call.kind == "unlink" else 0
    faults = stop_faults(table, folder, ended, wanted, most, strict) if stopped else ["the call was not made"]
    check("%s %s" % (error or "killed", call), faults)


def check_sizes(table, strict):
    """The commit where no file may grow past a size: the write that would ends in its middle."""
    sizes = sorted({0, 1} | {n for bytes in table.whole.values() for n in (len(bytes) // 2, len(bytes) - 1)})
    for size, is_killed in itertools.product(sizes, (False, True)):
        folder = table.copy()
        ended = run(commit_words(table.program, folder, 7), restore_signals=is_killed,
                    preexec_fn=lambda: resource.setrlimit(resource.RLIMIT_FSIZE, (size, size)))
        faults = stop_faults(table, folder, ended, None if is_killed else 3, int(is_killed), strict)
        check("%s where a file would be larger than %d bytes" % ("killed" if is_killed else "EFBIG", size), faults)


def check_links(table, count):
    """The commit with a link made, and EEXIST said."""
    subprocess.run(["cc", "-O1", "-shared", "-fPIC", "-o", table.shim, os.path.join(HERE, "link_there.c"), "-ldl"],
                   check=True)
    for turn in range(1, count + 1):
        folder = table.copy()
        ended = run(commit_words(table.program, folder, 7),
                    env=dict(os.environ, LD_PRELOAD=table.shim, LINK_THERE=str(turn)))
        faults = table.faults(folder, [PLANS["change"]])
        faults += [] if ended == receipt(7) else ["it ends with %r" % (ended,)]
        faults += ["%s stays" % name for name in table.new_files(folder) if is_aside(name)]
        check("link %d is made and says EEXIST: no conflict" % turn, faults)


def check_left(table):
    """The commit where files of stopped commits lie around."""
    some = [".icescan-%s-%d.tmp" % (uuid_of(7), n) for n in range(3)]
    for what, names in [("three of the same words", some),
                        ("1000 of other commits", [".icescan-%d.tmp" % n for n in range(1000)])]:
        folder = table.copy()
        for name in names:
            with open(os.path.join(folder, "metadata", name), "w", encoding="utf-8") as it:
                it.write("half")
        ended = run(commit_words(table.program, folder, 7))
        faults = table.faults(folder, [PLANS["change"]])
        faults += [] if ended == receipt(7) else ["it ends with %r" % (ended,)]
        left = {name: bytes for name, bytes in table.new_files(folder).items() if is_aside(name)}
        if left != {"metadata/" + name: b"half" for name in names}:
            faults.append("they are not as they were")
        check("unfinished files lie around: " + what, faults)


# ---- two at once


class Reader(threading.Thread):
    """Plans the new table, and reads each new file as soon as it stands, until it is stopped."""

    def __init__(self, table, folder):
        super().__init__()
        self.table, self.folder, self.is_over, self.plans, self.seen = table, folder, False, [], {}

    def look(self):
        for name in os.listdir(os.path.join(self.folder, "metadata")):
            name = "metadata/" + name
            if name not in self.seen and name not in self.table.before and not is_aside(name):
                with open(os.path.join(self.folder, name), "rb") as it:
                    self.seen[name] = it.read()

    def run(self):
        words = words_of(self.table.program, self.folder, "plan", PREFIX + "/" + OUT)
        while not self.is_over:
            began = subprocess.Popen(words, stdin=subprocess.DEVNULL, stdout=subprocess.PIPE, stderr=subprocess.PIPE,
                                     text=True)
            while began.poll() is None:
                self.look()
                time.sleep(0.002)
            told, complained = began.communicate()
            self.plans.append((began.returncode, told, complained))
            time.sleep(0.02)


def begin(table, folder, number, change):
    return subprocess.Popen(commit_words(table.program, folder, number, change), stdin=subprocess.DEVNULL,
                            stdout=subprocess.PIPE, stderr=subprocess.PIPE, text=True)


def compete(table, turn):
    """One round: whether the one that began first won, the reader, and the faults by their kinds."""
    folder, faults = table.copy(), {"answers": [], "table": [], "left": [], "reader": []}
    pair = [("first", 11), ("second", 12)]
    pair = pair if turn % 2 else pair[::-1]
    reader = Reader(table, folder)
    reader.start()
    began = [begin(table, folder, number, change) for change, number in pair]
    ended = [(it.communicate(), it.returncode) for it in began]
    ended = [(status, told, complained) for (told, complained), status in ended]
    reader.is_over = True
    reader.join()
    made = [end == receipt(number) for end, (_, number) in zip(ended, pair)]
    if sorted(made) != [False, True] or CONFLICT not in ended:
        faults["answers"].append("round %d: %r" % (turn, ended))
    plans = [PLANS[change] for one, (change, _) in zip(made, pair) if one]
    faults["table"] += ["round %d: %s" % (turn, fault) for fault in table.faults(folder, plans)]
    last = files_of(folder)
    faults["left"] += ["round %d: %s stays" % (turn, name) for name in last if is_aside(name)]
    faults["reader"] += ["round %d: half of %s" % (turn, name) for name in reader.seen
                         if reader.seen[name] != last.get(name)]
    faults["reader"] += ["round %d: %r" % (turn, found) for found in reader.plans if found not in plans + [ABSENT]]
    return made[0], reader, faults


def check_pairs(table, rounds):
    table.whole, first, absent, planned, faults = {}, 0, 0, 0, {}
    for turn in range(1, rounds + 1):
        won, reader, found = compete(table, turn)
        first += won
        absent += sum(it == ABSENT for it in reader.plans)
        planned += sum(it[0] == 0 for it in reader.plans)
        faults = {kind: faults.get(kind, []) + found[kind] for kind in found}
    check("%d pairs of commits at once: a receipt and a conflict; the one that began first won %d times" %
          (rounds, first), faults["answers"])
    check("the table has what the first of each pair wrote", faults["table"])
    check("no unfinished file stays", faults["left"])
    check("who plans meanwhile finds nothing (%d times) or all (%d times), and no file is seen in part" %
          (absent, planned), faults["reader"])


def main():
    words = sys.argv[1:]
    strict = "--same-words" in words
    rounds = int(words[words.index("--rounds") + 1]) if "--rounds" in words else 500
    if not words or not os.path.isfile(words[-1]):
        sys.exit(__doc__)
    with tempfile.TemporaryDirectory() as work:
        table = Table(os.path.abspath(words[-1]), work)
        calls = check_whole(table)
        check_losses(table, calls)
        for call in calls:
            refusals = REFUSALS if call.kind != "look" else ()
            for error in (None, *refusals, *MORE_REFUSALS.get(call.kind, ())):
                check_stop(table, call, error, strict)
        check_sizes(table, strict)
        check_links(table, sum(call.kind == "link" for call in calls))
        check_left(table)
        if rounds:
            check_pairs(table, rounds)
    print("stopped_commits: %d checks passed, %d failed" % (COUNTS[True], COUNTS[False]))
    sys.exit(1 if COUNTS[False] else 0)


if __name__ == "__main__":
    main()
