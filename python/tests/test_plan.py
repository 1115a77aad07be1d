"""Plans of the example tables, and refusals. ICESCAN_LIBRARY says where the shared library is:

    tools/build_c /tmp/icescan
    cd python && ICESCAN_LIBRARY=/tmp/icescan/lib/libicescan.so python3 -m unittest
"""
import ctypes
import importlib.util
import json
import os
import sys
import threading
import types
import unittest
import uuid
from unittest import mock

import icescan
from icescan import _audit, _library, _plan

EXAMPLES = os.path.join(os.path.dirname(os.path.abspath(__file__)), "..", "..", "examples")
EVENTS = "s3://warehouse/db/events"
EVENTS_METADATA = f"{EVENTS}/metadata/00009-ea5012f5-592b-59fd-6564-e953f439e682.metadata.json"
LIST = "snap-7559570768388442785-1-abbca149-133e-4733-c1b4-179d137ebc57"
PLAIN = "s3://warehouse/db/plain"
PLAIN_METADATA = f"{PLAIN}/metadata/00005-c64aaab7-8283-c18e-53ea-99e6e56da046.metadata.json"
# What the program prints, by its words.
RUNS = os.path.join(EXAMPLES, "..", "crates", "icescan_runs", "stdout")
# What is asked of the table of events, by the name of the file that has its plan.
ASKED = {
    "all": {},
    "before1970": {"filter": "ts < 0"},
    "cat": {"filter": "(cat = 'books' or code in (7, 9))"},
    "code_null": {"filter": "code is null"},
    "day": {"filter": "(ts >= 1709856000000000 and ts < 1709942400000000)"},
    "id42": {"filter": "id = 42"},
    "id_in_day": {"filter": "(id in (34, 42) and ts > 1710028799999999)"},
    "none": {"filter": "false"},
    "note": {"filter": "(note starts with 'note 4' and cat is not null)"},
    "snapshot5": {"snapshot": 27284459368031241, "filter": "id not in (7)"},
    "tag_old_schema": {"ref": "eoy", "filter": "(category starts with 'b' and code >= 3)"},
    "wap": {"ref": "wap", "filter": "ts <= 1709683200000000"},
}


def folder_of(table):
    return os.path.join(EXAMPLES, table, "table")


def expected(table, name):
    with open(os.path.join(EXAMPLES, table, "expected", f"{name}.txt"), encoding="utf-8") as file:
        return file.read()


def events(**asked):
    return icescan.plan(EVENTS_METADATA, folder=folder_of("events-java"), prefix=EVENTS, **asked)


def plain():
    return icescan.plan(PLAIN_METADATA, folder=folder_of("plain-java"), prefix=PLAIN)


def one_plan():
    """The plan of the table of events, as the library holds it."""
    read = icescan.Folder(folder_of("events-java"), EVENTS)
    asked = _plan.Asked(read(EVENTS_METADATA), None, None, "")
    with _plan.started(_library.loaded(_library.place()), asked, read) as scan:
        return _plan.finished(scan, read, 1)


class Plans(unittest.TestCase):
    def test_events(self):
        for name, asked in ASKED.items():
            with self.subTest(name):
                self.assertEqual(events(**asked).text(), expected("events-java", name))

    def test_plain(self):
        self.assertEqual(plain().text(), expected("plain-java", "list-plan"))

    def test_any_number_of_workers(self):
        for workers in (1, 2, 3, 16):
            with self.subTest(workers=workers):
                self.assertEqual(events(workers=workers).text(), expected("events-java", "all"))

    def test_files_are_plain_objects(self):
        plan = events(filter="id = 42")
        file = next(it for it in plan if it.path.endswith("imported file.orc"))
        self.assertEqual((file.sequence_number, file.spec_id, file.record_count, file.file_size), (8, 0, 1, 1))
        self.assertEqual(len(plan), len(plan.files))
        self.assertEqual(file.position_deletes + file.equality_deletes, ())
        self.assertEqual(plan, events(filter="id = 42", workers=1))

    def test_a_delete_file_is_one_object(self):
        deletes = [it for file in events() for it in file.equality_deletes]
        self.assertEqual(len({id(it) for it in deletes}), len(set(deletes)))
        self.assertIn((1, 3), {it.equality_ids for it in deletes})

    def test_delete_files_stand_once(self):
        plan = events()
        used = {it for file in plan for it in file.position_deletes + file.equality_deletes}
        self.assertEqual(set(plan.delete_files), used)
        self.assertEqual([it.path for it in plan.delete_files], sorted(it.path for it in used))
        self.assertEqual(events(filter="false").delete_files, ())

    def test_formats_and_partitions(self):
        for table, plan in {"events-java": events(), "plain-java": plain()}.items():
            counts = {}
            for file in plan:
                name = " ".join([file.format, "spec", str(file.spec_id), *map(str, file.partition)])
                count = counts.setdefault(name, [0, 0, 0])
                deletes = len(file.position_deletes) + len(file.equality_deletes)
                counts[name] = [a + b for a, b in zip(count, (1, file.record_count, deletes))]
            lines = [f"{it}: files {a} rows {b} deletes {c}\n" for it, (a, b, c) in counts.items()]
            with self.subTest(table):
                self.assertEqual("".join(lines), expected(table, "partitions"))

    def test_types_of_partitions(self):
        types = {it.partition_types for it in (*events(), *events().delete_files)}
        self.assertEqual(types, {(), ("date",), ("date", "int")})
        self.assertEqual({len(it.partition_types) - len(it.partition) for it in events()}, {0})

    def test_json(self):
        for name, asked in ASKED.items():
            plan = events(**asked)
            text = icescan.plan_json(EVENTS_METADATA, folder=folder_of("events-java"), prefix=EVENTS, **asked)
            told = json.loads(text)
            deletes = [it["file-path"] for it in told["delete-files"]]
            tasks = [
                (it["data-file"]["file-path"], [deletes[n] for n in it.get("delete-file-references", [])])
                for it in told["file-scan-tasks"]
            ]
            wanted = [(it.path, [d.path for d in it.position_deletes + it.equality_deletes]) for it in plan]
            with self.subTest(name):
                self.assertEqual(tasks, wanted)

    def test_json_has_the_filter(self):
        is_42 = {"type": "eq", "term": "id", "value": 42}
        for asked, wanted in (
            ({}, True),
            ({"filter": "id = 42"}, is_42),
            ({"filter": "amount > 5 and id = 42", "relax": True}, {"type": "and", "left": True, "right": is_42}),
        ):
            text = icescan.plan_json(EVENTS_METADATA, folder=folder_of("events-java"), prefix=EVENTS, **asked)
            with self.subTest(asked=asked):
                self.assertEqual(json.loads(text)["file-scan-tasks"][0]["residual-filter"], wanted)

    def test_partitions_of_delete_files(self):
        for file in events():
            for delete in file.position_deletes + file.equality_deletes:
                if delete.partition:
                    self.assertEqual((delete.spec_id, delete.partition), (file.spec_id, file.partition))

    def test_file_sequence_numbers(self):
        files = {it.path[-40:]: it for it in events()}
        # An entry that names no sequence number for its file inherits its manifest's, as an added one of number 4 does.
        inherited = files["e56-d3d6-fa74-8ab6d9af3fd7-00001.parquet"]
        existing = files["b98-ab91-59f5-1fd0297e236d-00001.parquet"]
        self.assertEqual((inherited.sequence_number, inherited.file_sequence_number), (4, 6))
        self.assertEqual((existing.sequence_number, existing.file_sequence_number), (2, 2))

    def test_a_relaxed_filter(self):
        relaxed = events(filter="amount > 5 and id = 42", relax=True)
        asked = events(filter="id = 42")
        self.assertEqual(relaxed.unasked, ("amount > 5",))
        self.assertEqual((relaxed.files, relaxed.delete_files, asked.unasked), (asked.files, asked.delete_files, ()))
        self.assertEqual(events(filter="id = 42", relax=True), asked)
        self.assertEqual(events(relax=True), events())
        tagged = events(ref="eoy", filter="category = 'books' and amount > 5", relax=True)
        self.assertEqual(tagged.unasked, ("amount > 5",))


class Columns(unittest.TestCase):
    def columns(self, **asked):
        return icescan.columns(EVENTS_METADATA, folder=folder_of("events-java"), prefix=EVENTS, **asked)

    def test_of_a_tag(self):
        columns = self.columns(ref="eoy")
        self.assertEqual(
            [(it.id, it.type, it.compared, it.name) for it in columns][:5],
            [
                (1, "long", "yes", "id"),
                (2, "timestamptz", "yes", "ts"),
                (3, "string", "yes", "category"),
                (4, "double", "no", "amount"),
                (5, "struct", "no", "location"),
            ],
        )
        self.assertEqual((columns.schema_id, len(columns), columns.default_spec_id), (0, 14, 2))
        self.assertEqual([it.required for it in columns][:3], [True, True, False])
        bucket = icescan.PartitionField(1001, 1, "bucket[16]", "id_bucket")
        self.assertEqual((columns.specs[0], columns.specs[2][1:]), ((), (bucket,)))

    def test_names_are_asked(self):
        for column in self.columns():
            if column.name and column.compared == "yes":
                with self.subTest(column.name):
                    events(filter=f"{column.name} is null")

    def test_refusals(self):
        for reason, asked in {"M6": {"ref": "nowhere"}, "M7": {"snapshot": 1}}.items():
            with self.subTest(reason), self.assertRaises(icescan.TableError) as raised:
                self.columns(**asked)
            self.assertEqual(raised.exception.reason, reason)
        with self.assertRaises(ValueError):
            self.columns(ref="eoy", snapshot=1)


class Audits(unittest.TestCase):
    def audit(self, **asked):
        return icescan.audit(EVENTS_METADATA, folder=folder_of("events-java"), prefix=EVENTS, **asked)

    def test_any_number_of_workers(self):
        audit = self.audit()
        self.assertEqual(audit.faults, ())
        self.assertGreaterEqual(audit.entries, len(events()))
        for workers in (1, 3, 16):
            with self.subTest(workers=workers):
                self.assertEqual(self.audit(workers=workers), audit)

    def test_refusals(self):
        folder = icescan.Folder(folder_of("events-java"), EVENTS)
        for end, reason in {".metadata.json": "M1", f"{LIST}.avro": "N1", "u0-m0.avro": "Z2"}.items():
            with self.subTest(end), self.assertRaises(icescan.TableError) as raised:
                icescan.audit(EVENTS_METADATA, read=lambda path: b"" if path.endswith(end) else folder(path))
            self.assertEqual(raised.exception.reason, reason, raised.exception.line)

    def test_findings(self):
        lines = [
            '{"kind":"finding","finding":"uncovered","level":"fault","manifest":"m","file":"f","field":"d"}',
            '{"kind":"finding","finding":"total-records","level":"note","says":3,"counted":4}',
            '{"kind":"totals","manifests":1,"entries":2,"findings":2,"faults":1}',
        ]
        audit = _audit.audit_of([json.loads(it) for it in lines])
        fault = icescan.Finding("uncovered", True, "m", "f", "d")
        self.assertEqual((audit.faults, audit.manifests, audit.entries), ((fault,), 1, 2))
        self.assertEqual(audit.findings[1], icescan.Finding("total-records", False, says=3, counted=4))


class Explanations(unittest.TestCase):
    def explain(self, **asked):
        return icescan.explain(EVENTS_METADATA, **{"folder": folder_of("events-java"), "prefix": EVENTS, **asked})

    def printed(self, *words):
        """What the program prints of the table of events."""
        asked = ("explain", "--dir", "events", "--prefix", EVENTS, *words, "--format", "json", EVENTS_METADATA)
        with open(RUNS, encoding="utf-8") as file:
            behind = file.read().partition("> " + "\t".join(asked) + "\n")[2]
        return behind[: behind.index("status ")]

    def test_as_the_program_prints(self):
        explanation = self.explain(filter="id = 42")
        self.assertEqual(explanation.text(), self.printed("--filter", "id = 42"))
        self.assertEqual([it["of"] for it in explanation.lines[-3:]], ["manifest", "data", "delete"])

    def test_kept_files_are_those_of_the_plan(self):
        for name, asked in ASKED.items():
            with self.subTest(name):
                kept = [it["path"] for it in self.explain(**asked) if it["kind"] == "data" and it["kept"]]
                self.assertEqual(sorted(kept), sorted(it.path for it in events(**asked)))

    def test_refusals(self):
        with self.assertRaises(icescan.FilterError) as refused:
            self.explain(filter="price = 1")
        self.assertEqual(refused.exception.reason, "F2")
        folder = icescan.Folder(folder_of("events-java"), EVENTS)
        for end, reason in {".metadata.json": "M1", f"{LIST}.avro": "N1", "u0-m0.avro": "Z2"}.items():
            with self.subTest(end), self.assertRaises(icescan.TableError) as raised:
                icescan.explain(EVENTS_METADATA, read=lambda path: b"" if path.endswith(end) else folder(path))
            self.assertEqual(raised.exception.reason, reason, raised.exception.line)


class Commits(unittest.TestCase):
    NEW = f"{PLAIN}/metadata/v6.json"
    FILE = {"format": "parquet", "spec-id": 0, "partition": [], "record-count": 10, "file-size": 1000}

    def prepared(self, paths, **words):
        change = {"data": [{**self.FILE, "path": path} for path in paths], "deletes": []}
        asked = {"folder": folder_of("plain-java"), "prefix": PLAIN, "snapshot": 7, "uuid": uuid.UUID(int=7 << 64 | 9)}
        return icescan.prepare_commit(PLAIN_METADATA, json.dumps(change), **{**asked, "now_ms": 1709942400000, **words})

    def test_a_commit_is_planned(self):
        path = f"{PLAIN}/data/new.parquet"
        commit = self.prepared([path])
        self.assertEqual([os.path.basename(name) for name, _ in commit.files][-1][:7], "snap-7-")
        new = {**dict(commit.files), self.NEW: commit.metadata}
        old = icescan.Folder(folder_of("plain-java"), PLAIN)
        after = icescan.plan(self.NEW, read=lambda name: new.get(name) or old(name))
        (added,) = [it for it in after if it.path == path]
        self.assertEqual((added.sequence_number, added.record_count), (6, 10))
        self.assertEqual([it for it in after if it.path != path], list(plain()))

    def test_files_are_named_by_the_uuid(self):
        paths = [name for name, _ in self.prepared([f"{PLAIN}/data/new.parquet"]).files]
        self.assertEqual({"00000000-0000-0007-0000-000000000009" in it for it in paths}, {True})

    def test_refusals(self):
        with self.assertRaises(icescan.ChangeError) as raised:
            icescan.prepare_commit(PLAIN_METADATA, "[]", folder=folder_of("plain-java"), prefix=PLAIN, snapshot=7,
                                   uuid=uuid.UUID(int=1), now_ms=0)
        self.assertEqual(raised.exception.reason, "C1")
        for reason, words in {"K1": {"snapshot": -1}, "K12": {"now_ms": 0}}.items():
            with self.subTest(reason), self.assertRaises(icescan.TableError) as raised:
                self.prepared([f"{PLAIN}/data/new.parquet"], **words)
            self.assertEqual(raised.exception.reason, reason)


class Sizes(unittest.TestCase):
    def test_a_smaller_file_gets_its_front(self):
        with one_plan() as held:
            whole, front = _library.File(), _library.File(record_count=-77)
            held.call("plan_file", 0, *_library.told(whole))
            held.call("plan_file", 0, ctypes.byref(front), _library.File.record_count.offset)
            self.assertEqual((front.path.text(), front.record_count), (whole.path.text(), -77))

    def test_a_larger_file_keeps_what_is_not_known(self):
        class Larger(ctypes.Structure):
            _fields_ = [("file", _library.File), ("later", ctypes.c_uint64)]

        with one_plan() as held:
            larger = Larger(later=77)
            file = ctypes.cast(ctypes.byref(larger), ctypes.POINTER(_library.File))
            held.call("plan_file", 0, file, ctypes.sizeof(larger))
            self.assertEqual((larger.file.path.text()[:5], larger.later), ("s3://", 77))


class Reads(unittest.TestCase):
    def setUp(self):
        self.folder = icescan.Folder(folder_of("events-java"), EVENTS)

    def test_by_a_function(self):
        paths = []

        def read(path):
            paths.append(path)
            return bytearray(self.folder(path))

        plan = icescan.plan(EVENTS_METADATA, read=read, workers=3)
        self.assertEqual(plan.text(), expected("events-java", "all"))
        self.assertEqual(paths[0], EVENTS_METADATA)
        self.assertEqual(len(paths), len(set(paths)))

    def test_workers_read_at_once(self):
        paths = []
        icescan.plan(EVENTS_METADATA, read=lambda path: paths.append(path) or self.folder(path))
        wanted = len(paths) - 2
        all_read = threading.Barrier(wanted)

        def read(path):
            if path.endswith(".avro") and LIST not in path:
                all_read.wait(timeout=60)
            return self.folder(path)

        self.assertGreater(wanted, 4)
        plan = icescan.plan(EVENTS_METADATA, read=read, workers=wanted)
        self.assertEqual(plan.text(), expected("events-java", "all"))

    def test_what_a_read_raises_is_raised(self):
        for end in (".json", f"{LIST}.avro", "u3-m0.avro"):
            for workers in (1, 4):

                def read(path):
                    if path.endswith(end):
                        raise ConnectionError(path)
                    return self.folder(path)

                with self.subTest(end, workers=workers), self.assertRaises(ConnectionError) as raised:
                    icescan.plan(EVENTS_METADATA, read=read, workers=workers)
                self.assertTrue(str(raised.exception).endswith(end))

    def test_outside_of_the_folder(self):
        for path in ("s3://other/a", f"{EVENTS}/metadata/../../../README.md", f"{EVENTS}/./metadata/u0-m0.avro"):
            with self.subTest(path), self.assertRaises(FileNotFoundError):
                self.folder(path)
        self.assertEqual(self.folder(f"{EVENTS}/metadata/u0-m0.avro")[:4], b"Obj\x01")

    def test_without_a_folder_paths_are_of_this_system(self):
        metadata = os.path.join(folder_of("events-java"), EVENTS_METADATA[len(EVENTS) + 1:])
        for path in (metadata, "file://" + os.path.abspath(metadata)):
            with self.subTest(path), self.assertRaisesRegex(FileNotFoundError, "give folder and prefix, or read"):
                icescan.plan(path)


class Refusals(unittest.TestCase):
    def refused(self, error, reason, **asked):
        with self.assertRaises(error) as raised:
            events(**asked)
        self.assertEqual(raised.exception.reason, reason)
        return raised.exception

    def test_of_a_filter(self):
        error = self.refused(icescan.FilterError, "F2", filter="colour = 'red'")
        self.assertEqual((error.line, str(error), error.status), ("F2 NoSuchColumn", "F2 NoSuchColumn", 2))
        self.refused(icescan.FilterError, "F3", filter="id = 'red'")
        self.refused(icescan.FilterError, "F4", filter="amount > 5")
        self.refused(icescan.FilterError, "F2", filter="colour = 'red' or amount > 5", relax=True)
        self.refused(icescan.EncodingError, "", filter="cat = '\ud800'")

    def test_hints(self):
        hint = self.refused(icescan.FilterError, "F2", filter="locaton = 'red'").hint
        self.assertIn("\n  here: `locaton` is no column; nearest to it: `location`", hint)
        self.assertRegex(hint, r"\A  F2 NoSuchColumn: .*\n(.*\n)*  to do: .*\n(.*\n)*\Z")
        self.assertIn("`amount`: double", self.refused(icescan.FilterError, "F4", filter="amount > 5").hint)
        self.assertIn("equality is one `=`", self.refused(icescan.FilterError, "F1", filter="id == 5").hint)
        self.assertIn("does not take", self.refused(icescan.FilterError, "F3", filter="id = 'red'", relax=True).hint)
        self.assertEqual(self.refused(icescan.TableError, "M7", snapshot=1, filter="id = 42").hint, "")

    def test_of_a_snapshot(self):
        self.assertIsInstance(self.refused(icescan.TableError, "M6", ref="nowhere"), icescan.Error)
        self.refused(icescan.TableError, "M7", snapshot=1)
        self.refused(icescan.EncodingError, "", ref="\ud800")

    def test_of_files(self):
        folder = icescan.Folder(folder_of("events-java"), EVENTS)
        for end, reason in {".metadata.json": "M1", f"{LIST}.avro": "N1", "u0-m0.avro": "Z2"}.items():
            with self.subTest(end), self.assertRaises(icescan.TableError) as raised:
                icescan.plan(EVENTS_METADATA, read=lambda path: b"" if path.endswith(end) else folder(path))
            self.assertEqual(raised.exception.reason, reason, raised.exception.line)

    def test_of_arguments(self):
        for asked in ({"ref": "eoy", "snapshot": 1}, {"snapshot": 2**63}, {"workers": 0}, {"read": len}):
            with self.subTest(asked), self.assertRaises(ValueError):
                events(**asked)

    def test_without_the_library(self):
        with mock.patch.dict(os.environ, ICESCAN_LIBRARY="/nowhere/libicescan.so"):
            with self.assertRaisesRegex(icescan.LibraryNotFound, "/nowhere/libicescan.so"):
                events()


class Arrow(unittest.TestCase):
    def test_rows_have_the_columns_that_are_declared(self):
        names = ("string", "uint64", "int32", "int64", "list_", "struct")
        kinds = {name: lambda *of, name=name: (name, *of) for name in names}
        table = types.SimpleNamespace(from_pylist=lambda rows, schema: (rows, schema))
        fake = types.SimpleNamespace(**kinds, schema=dict, Table=table)
        with mock.patch.dict(sys.modules, pyarrow=fake):
            rows, schema = events().to_arrow()
        (_, (_, columns)) = schema["equality_deletes"]
        self.assertEqual({tuple(it) for it in rows}, {tuple(schema)})
        self.assertEqual({tuple(it) for row in rows for it in row["equality_deletes"]}, {tuple(dict(columns))})
        self.assertEqual(len(rows), len(events()))

    @unittest.skipIf(importlib.util.find_spec("pyarrow"), "pyarrow is here")
    def test_without_pyarrow(self):
        with self.assertRaisesRegex(ImportError, "pip install pyarrow"):
            events().to_arrow()

    @unittest.skipUnless(importlib.util.find_spec("pyarrow"), "there is no pyarrow")
    def test_rows(self):
        plan = events(filter="id = 42")
        table = plan.to_arrow()
        self.assertEqual(table.column("path").to_pylist(), [it.path for it in plan])
        ids = [[it["equality_ids"] for it in row] for row in table.column("equality_deletes").to_pylist()]
        self.assertEqual(ids, [[list(it.equality_ids) for it in file.equality_deletes] for file in plan])


if __name__ == "__main__":
    unittest.main()
