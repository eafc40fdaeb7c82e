#!/usr/bin/env python3
"""The functions of the extension, as a program meets them through SQL.

    sqlite/test.py JSON_PATCH_SO [TEST..]

The rows are the tables of cases of the library for C (c/cases.json); the random changes are those of
diff/cases.py, whose model says what a document is after them."""
import ctypes
import json
import random
import re
import sqlite3
import subprocess
import sys
import tempfile
import threading
import unittest
from pathlib import Path

TOP = Path(__file__).resolve().parent.parent
sys.path.append(str(TOP / "diff"))
import cases  # noqa: E402
from model import copied  # noqa: E402

LIBRARY = None
APPLY, MERGE, INVERSE, CHECK = ("json_patch_apply", "json_patch_merge", "json_patch_inverse", "json_patch_check")
DIFF, MERGE_DIFF = "json_patch_diff", "json_patch_merge_diff"
CHANGES = 10_000
ROWS, WRONG_ROW = 100_000, 50_000
THREADS, EACH = 4, 200
# of c/cases.json: a number of the document, or of a patch's value, isn't whole, or is past a float's range
NUMBERS_OF_KEPT = (2, 10, 23)


def opened(path=":memory:"):
    database = sqlite3.connect(path, timeout=60, isolation_level=None)
    database.enable_load_extension(True)
    database.load_extension(LIBRARY)
    return database


class Sql(unittest.TestCase):
    def setUp(self):
        self.database = opened()
        self.addCleanup(self.database.close)

    def of(self, name, *given):
        marks = ", ".join("?" for _ in given)
        return self.database.execute(f"SELECT {name}({marks})", given).fetchone()[0]

    def assertFails(self, told, name, *given):
        with self.assertRaises(sqlite3.OperationalError) as caught:
            self.of(name, *given)
        self.assertEqual(str(caught.exception), f"{name}: {told}", given)

    def assertSays(self, value, text):
        self.assertEqual(json.loads(text), value)


class Calls(Sql):
    def test_cases_of_the_tables(self):
        """Each accepted case, each refusal with its operation and path, and each text that is no patch."""
        counts = {}
        for call, document, patch, status, operation, kind, written in json.loads((TOP / "c/cases.json").read_text()):
            counts[call, status] = counts.get((call, status), 0) + 1
            name = {"apply": APPLY, "merge": MERGE, "record": INVERSE, "merge_diff": MERGE_DIFF}.get(call)
            if name is None or kind in NUMBERS_OF_KEPT:
                continue
            if status == 0:
                found = self.of(name, document, patch)
                # of `record` an array of the new text and the inverse
                self.assertEqual(f"[{self.of(APPLY, document, patch)},{found}]" if name == INVERSE else found, written)
                continue
            with self.assertRaises(sqlite3.OperationalError) as caught:
                self.of(name, document, patch)
            told = str(caught.exception)
            if status == 1:
                self.assertIn(f"operation {operation} failed at path '{written}': ", told)
        kinds = ("apply", 0), ("apply", 1), ("apply", 3), ("merge", 0), ("merge_diff", 0)
        self.assertGreater(min(counts[kind] for kind in kinds), 10, counts)

    def test_kinds_of_refusal(self):
        for told, document, operation in [
            ("operation 0 failed at path '/a': value did not match", {"a": 1}, {"op": "test", "path": "/a", "value": 2}),
            ("operation 0 failed at path '/a': \"from\" path is invalid", {}, {"op": "copy", "from": "/b", "path": "/a"}),
            ("operation 0 failed at path '/b': path is invalid", {}, {"op": "remove", "path": "/b"}),
            ("operation 0 failed at path '/a/b': cannot move the value inside itself", {"a": {}}, {"op": "move", "from": "/a", "path": "/a/b"}),
        ]:
            self.assertFails(told, APPLY, json.dumps(document), json.dumps([operation]))
            self.assertFails(told, INVERSE, json.dumps(document), json.dumps([operation]))
        self.assertFails("operation 1 failed at path '/\u00e9': path is invalid", INVERSE, "{}", '[{"op":"add","path":"/a","value":1},{"op":"remove","path":"/\\u00e9"}]')

    def test_paths_in_visible_characters(self):
        """Each character from U+0000 to U+00FF, and some that take more bytes."""
        path = "/" + "".join(map(chr, range(0x100))).replace("~", "~0") + "\u0100\u0e80\u20ac\U0001f600"
        told = ""
        for character in path:
            control = character < " " or "\x7f" <= character < "\xa0"
            told += f"\\u{ord(character):04x}" if control else "\\\\" if character == "\\" else character
        self.assertFails(f"operation 0 failed at path '{told}': path is invalid", APPLY, "{}", json.dumps([{"op": "remove", "path": path}]))
        self.assertFails("operation 0 failed at path '/a\\u0000b': value did not match", INVERSE, '{"a\\u0000b":1}', '[{"op":"test","path":"/a\\u0000b","value":2}]')

    def test_what_is_no_document_or_patch(self):
        for name in (APPLY, INVERSE, MERGE, DIFF, MERGE_DIFF):
            self.assertFails("document is not JSON", name, "{", "[]")
            self.assertFails("document holds an unpaired surrogate", name, '["\\ud800"]', "[]")
        self.assertFails("document nests too deep", APPLY, "[" * 125 + "]" * 125, "[]")
        self.assertFails("patch is not JSON", APPLY, "{}", "[")
        self.assertFails("patch holds an unpaired surrogate", INVERSE, "{}", '["\\ud800"]')
        self.assertFails("patch is not a list", APPLY, "{}", "{}")
        self.assertFails("patch: operation 1: member \"op\" is missing", APPLY, "1", '[{"op":"test","path":"","value":1},{}]')
        self.assertFails("merge patch is not JSON", MERGE, "{}", "")
        for name in (DIFF, MERGE_DIFF):
            self.assertFails("goal is not JSON", name, "1", "1e")
            self.assertFails("goal nests too deep", name, "1", "[" * 125 + "]" * 125)

    def test_what_is_no_text(self):
        for name, which in [(APPLY, "patch"), (MERGE, "merge patch"), (INVERSE, "patch"), (DIFF, "goal"), (MERGE_DIFF, "goal")]:
            for value in (1, 1.5, b"[]"):
                self.assertFails("document is not a text", name, value, "[]")
                self.assertFails(f"{which} is not a text", name, "{}", value)
        self.assertFails("patch is not a text", CHECK, b"[]")

    def test_null_gives_null(self):
        for name in (APPLY, MERGE, INVERSE, DIFF, MERGE_DIFF):
            for given in [(None, "[]"), ("[]", None), (None, None), ("[", None), (None, "[]", 1, 1), ("[]", "[]", None, 1), ("[]", "[]", 1, None)]:
                self.assertIsNone(self.of(name, *given), (name, given))
        self.assertIsNone(self.of(CHECK, None))

    def test_check(self):
        self.assertIsNone(self.of(CHECK, '[{"op":"remove","path":"/a"}]'))
        self.assertEqual(self.of(CHECK, "[{}]"), 'patch: operation 0: member "op" is missing')
        self.assertEqual(self.of(CHECK, '[{"op":"remove","path":"/a"},{"op":"remove","path":"a"}]'), 'patch: operation 1: member "path" is not a pointer')
        self.assertEqual(self.of(CHECK, "{}"), "patch is not a list")
        self.assertEqual(self.of(CHECK, "]"), "patch is not JSON")
        self.assertIsNone(self.of(CHECK, '[{"op":"add","path":"/a","value":[1.50,1e400]}]'))

    def test_merge_is_by_the_rfc(self):
        """RFC 7396 wants the nulls of what is put in taken out; SQLite's own json_patch too."""
        self.assertSays({"a": {"c": 1}}, self.of(MERGE, '{"a":"b"}', '{"a":{"b":null,"c":1}}'))
        self.assertSays([1], self.of(MERGE, '{"a":1}', "[1]"))

    def test_what_leads_there_and_back(self):
        d, e = '{"a":[1,2,3],"b":{"x":1}}', '{"a":[1,3],"b":{"x":1,"y":2}}'
        patch = self.of(DIFF, d, e)
        self.assertSays(json.loads(e), self.of(APPLY, d, patch))
        self.assertSays(json.loads(d), self.of(APPLY, e, self.of(INVERSE, d, patch)))
        self.assertEqual(self.of(DIFF, d, d), "[]")

    def test_any_numbers_lead_there_and_back(self):
        d, e = '{"price": 1.50, "large": 1e400, "was": [0.1, 7]}', '{"large": 10e399, "price": 1.5, "was": [0.1, 2.50, 7]}'
        self.assertEqual(self.of(DIFF, d, e), '[{"op":"add","path":"/was/1","value":2.50}]')
        self.assertEqual(self.of(APPLY, d, self.of(DIFF, d, e)), '{"price": 1.50, "large": 1e400, "was": [0.1, 2.50, 7]}')
        self.assertEqual(self.of(APPLY, e, self.of(DIFF, e, d)), '{"large": 10e399, "price": 1.5, "was": [0.1, 7]}')

    def test_merge_patches_lead_there(self):
        d, e = '{"price": 1.50, "large": 1e400, "a": {"b": null, "c": [1]}}', '{"a": {"c": [1.0, 2.50], "b": null}, "price": 15e-1, "was": 1.50}'
        patch = self.of(MERGE_DIFF, d, e)
        self.assertEqual(patch, '{"a":{"c":[1.0,2.50]},"large":null,"was":1.50}')
        self.assertEqual(self.of(MERGE, d, patch), '{"price": 1.50, "a": {"b": null, "c": [1.0,2.50]}, "was": 1.50}')
        self.assertEqual(self.of(MERGE_DIFF, d, d), "{}")
        self.assertEqual(self.of(MERGE_DIFF, "[1]", "{}"), "{}")
        self.assertEqual(self.of(MERGE_DIFF, "[1]", " [ 1 ] "), "[1]")
        found = self.database.execute(f"SELECT json_array({MERGE_DIFF}('{{}}', '[]'), '[]')").fetchone()[0]
        self.assertEqual(found, '[[],"[]"]')

    def test_where_no_merge_patch_leads(self):
        """A null of a merge patch removes (RFC 7396, section 2), so a member that is to be null is made by none."""
        told = "no merge patch leads to the goal: it would have to make a member null"
        for d, e in [("{}", '{"a":null}'), ('{"a":1}', '{"a":{"b":{"c":null}}}'), ("1", '{"a":1,"b":null}')]:
            self.assertFails(told, MERGE_DIFF, d, e)
            self.assertFails(told, MERGE_DIFF, d, e, 3, 0)
        self.assertEqual(self.of(MERGE_DIFF, '{"a":null,"b":1}', '{"a":null}'), '{"b":null}')
        self.assertEqual(self.of(MERGE_DIFF, "{}", '{"a":[null]}'), '{"a":[null]}')

    def test_inverses_of_any_numbers(self):
        """What was there comes back as it was written, such as a price."""
        d = '{ "price": 12.50, "stock": 5, "tags": [ 1e400, "new" ], "was": -0 }'
        for operations in (
            [{"op": "test", "path": "/price", "value": 12.5}, {"op": "replace", "path": "/price", "value": 9.9}],
            [{"op": "replace", "path": "/price", "value": 9.9}, {"op": "replace", "path": "/tags/0", "value": 1.5}],
            [{"op": "remove", "path": "/was"}, {"op": "add", "path": "/was", "value": 0.25}],
            [{"op": "copy", "from": "/tags", "path": "/more"}, {"op": "move", "from": "/tags/0", "path": "/tags/1"}],
        ):
            patch = json.dumps(operations)
            inverse = self.of(INVERSE, d, patch)
            after = self.of(APPLY, self.of(APPLY, d, patch), inverse)
            self.assertEqual(re.findall(r"12\.50|1e400|-0", after), ["12.50", "1e400", "-0"], (operations, inverse))
            self.assertEqual(self.of(DIFF, d, after), "[]")
        self.assertEqual(self.of(INVERSE, d, '[{"op":"replace","path":"/price","value":9.90}]'), '[{"op":"replace","path":"/price","value":12.50}]')

    def test_inverses_larger_than_first_room(self):
        """By far, as is the new text, or the inverse alone, where an element is moved again and again."""
        patch = json.dumps([{"op": "copy", "from": "/a", "path": f"/{number}"} for number in range(100)])
        found = json.loads(self.of(INVERSE, json.dumps({"a": "x" * 10_000}), patch, 124, 2_000_000))
        self.assertEqual(found, [{"op": "remove", "path": f"/{number}"} for number in reversed(range(100))])
        moves = [{"op": "move", "from": "/0", "path": "/1"}] * 30
        document = json.dumps(["x" * 10_000, 1])
        found = self.of(INVERSE, document, json.dumps(moves))
        self.assertGreater(len(found), 30 * 5_000)
        self.assertSays(json.loads(document), self.of(APPLY, document, found))

    def test_a_result_is_json_to_sqlite(self):
        found = self.database.execute("SELECT json_array(json_patch_apply('[]', '[]'), '[]')").fetchone()[0]
        self.assertEqual(found, '[[],"[]"]')

    def test_other_encodings(self):
        self.database.execute("PRAGMA encoding = 'UTF-16'")
        self.database.execute("CREATE TABLE t (d)")
        self.database.execute("INSERT INTO t VALUES ('[\"\u00e9\U0001F600\"]')")
        found = self.database.execute("SELECT json_patch_apply(d, '[]') FROM t").fetchone()[0]
        self.assertEqual(found, '["\u00e9\U0001F600"]')

    def test_apply_keeps_the_text(self):
        self.assertEqual(
            self.of(APPLY, '{ "price": 1.50, "tags": ["new"],\n  "a": "\\u00e9" }', '[{"op":"add","path":"/tags/-","value": 1e400}]'),
            '{ "price": 1.50, "tags": ["new",1e400],\n  "a": "\\u00e9" }')
        self.assertEqual(self.of(APPLY, ' {"b": 1.0, "a": 2}\n', '[{"op":"test","path":"/b","value":1},{"op":"remove","path":"/a"}]'), ' {"b": 1.0}\n')
        self.assertFails("operation 0 failed at path '/b': value did not match", APPLY, '{"b": 1.5}', '[{"op":"test","path":"/b","value":1}]')

    def test_merge_keeps_the_text(self):
        self.assertEqual(self.of(MERGE, '{ "price": 1.50, "old": 1 }\n', '{"old":null,"stock":1e1}'), '{ "price": 1.50, "stock": 1e1 }\n')
        self.assertEqual(self.of(MERGE, ' {"b": 1.0, "a": 2}', '{"b":1}'), ' {"b": 1.0, "a": 2}')

    def test_limits(self):
        nest = '[{"op":"copy","from":"","path":"/0"}]'
        self.assertEqual(self.of(APPLY, "[]", nest, 2, 1), "[[]]")
        self.assertFails("operation 0 is over the limits: it nests too deep", APPLY, "[]", nest, 1, 1)
        # the text has 104 bytes, the patch 39, and the copy leaves 104 + 103 = 207
        long, twice = json.dumps(["x" * 100]), '[{"op":"copy","from":"/0","path":"/0"}]'
        self.assertEqual(self.of(APPLY, long, twice, 124, 64), '["' + "x" * 100 + '","' + "x" * 100 + '"]')
        self.assertFails("operation 0 is over the limits: it takes too much", APPLY, long, twice, 124, 63)
        self.assertEqual(self.of(INVERSE, long, twice, 124, 64), '[{"op":"remove","path":"/0"}]')
        self.assertFails("operation 0 is over the limits: it takes too much", INVERSE, long, twice, 124, 63)
        # nor may the inverse be longer, which holds what a move displaces
        moves = json.dumps([{"op": "move", "from": "/0", "path": "/0"}] * 9)
        inverse = self.of(INVERSE, long, moves)
        spare = len(inverse) - len(long) - len(moves)
        self.assertEqual(self.of(INVERSE, long, moves, 124, spare), inverse)
        self.assertFails("operation 8 is over the limits: it takes too much", INVERSE, long, moves, 124, spare - 1)
        self.assertEqual(self.of(APPLY, long, moves, 124, 0), long)
        self.assertFails("document nests too deep", APPLY, "[[]]", "[]", 1, 1)
        self.assertFails("depth is not a whole number from 0 on", APPLY, "[]", "[]", -1, 1)
        self.assertFails("bytes is not a whole number from 0 on", APPLY, "[]", "[]", 1, "1")
        self.assertFails("operations is not a whole number from 0 on", APPLY, "[]", "[]", 1, 1, "1")
        self.assertFails("merge patch nests too deep", MERGE, "[]", "[[]]", 1, 1)
        for name in (DIFF, MERGE_DIFF):
            self.assertFails("goal nests too deep", name, "[]", "[[]]", 1, 1)
        self.assertEqual(self.of(MERGE_DIFF, "[]", "[[]]", 2, 0), "[[]]")
        # 9 bytes and 7 are merged to 17
        self.assertEqual(self.of(MERGE, '{ "a": 1}', '{"b":2}', 1, 1), '{ "a": 1, "b": 2}')
        self.assertFails("merge patch is over the limits: it takes too much", MERGE, '{ "a": 1}', '{"b":2}', 1, 0)

    def test_how_many_operations(self):
        """One more is refused before the first is made, whatever that would come to."""
        removed = json.dumps([{"op": "remove", "path": "/0"}] * 3)
        for name in (APPLY, INVERSE):
            self.assertEqual(self.of(name, "[]", "[]", 1, 0, 0), "[]")
            self.assertFails("operation 2 is over the limits: it exceeds the number of operations", name, "[]", removed, 1, 0, 2)
            self.assertFails("operation 0 failed at path '/0': path is invalid", name, "[]", removed, 1, 0, 3)
            self.assertFails("document is not JSON", name, "[", removed, 1, 0, 2)
        with self.assertRaisesRegex(sqlite3.OperationalError, "wrong number of arguments"):
            self.of(MERGE, "[]", "[]", 1, 0, 0)

    def test_whitespace_does_not_multiply(self):
        """New members beside one with much whitespace; an undo that would take it over again and again."""
        wide, many = "{" + " " * 60_000 + '"a":1}', json.dumps({f"m{number}": 1 for number in range(6_000)}, separators=(",", ":"))
        self.assertEqual(len(self.of(MERGE, wide, many, 2, 0)), len(wide) + len(many) - 1)
        old = "{" + " " * 1_000_000 + '"m0":0' + "".join(f',"m{number}":0' for number in range(1, 80)) + "}"
        new = self.of(APPLY, old, json.dumps([{"op": "remove", "path": f"/m{number}"} for number in range(79, 0, -1)]))
        self.assertSays(json.loads(old), self.of(APPLY, new, self.of(DIFF, new, old), 124, 79 * 256))

    def test_a_stranger_ends_no_process(self):
        """Copies into themselves, doubled again and again, and texts that are only brackets."""
        nest = json.dumps([{"op": "copy", "from": "", "path": "/a" * 2**number} for number in range(12)])
        self.assertFails("operation 6 is over the limits: it nests too deep", APPLY, '{"a":0}', nest)
        double = json.dumps([{"op": "copy", "from": "", "path": f"/{number}"} for number in range(60)])
        # a text of n bytes comes to 2n + 4, and one more for a comma; before the 16th it has 426,042,
        # with the longer names; twice that is more than 500,000, the 2,570 of the patch and 2
        for name in (APPLY, INVERSE):
            self.assertFails("operation 16 is over the limits: it takes too much", name, "{}", double)
        self.assertFails("document nests too deep", APPLY, "[" * 1_000_000, "[]")

    def test_a_text_larger_than_first_room(self):
        """The patch makes more than the room that is asked for at first."""
        patch = json.dumps([{"op": "copy", "from": "/a", "path": f"/{number}"} for number in range(100)])
        found = self.of(APPLY, json.dumps({"a": "x" * 10_000}), patch, 124, 2_000_000)
        self.assertSays({"a": "x" * 10_000, **{str(number): "x" * 10_000 for number in range(100)}}, found)


class Names(Sql):
    def test_what_the_readme_names(self):
        """Of its table those that SQL has, but for PostgreSQL alone, and those of docs/SQLITE.md."""
        rows = re.findall(r"^\|[^|]*\|[^|]*\| ([^|]*) \|[^|]*\|[^|]*\|$", (TOP / "README.md").read_text(encoding="utf-8"), re.MULTILINE)
        named = [re.search(r"(?:^|SQL: )`(\w+)`$", row) for row in rows if not row.startswith("C")]
        wanted = {f"json_patch_{found[1]}" for found in named if found}
        wanted |= set(re.findall(r"^\| `(json_patch_\w+)\(", (TOP / "docs/SQLITE.md").read_text(encoding="utf-8"), re.MULTILINE))
        there = {name for name, in self.database.execute("SELECT name FROM pragma_function_list")}
        self.assertEqual((len(wanted), wanted - there), (6, set()))


class Tables(Sql):
    """The functions where SQLite asks that they be deterministic and harmless."""

    def test_index_column_check_and_trigger(self):
        run = self.database.execute
        run("PRAGMA trusted_schema = OFF")
        run("CREATE TABLE patches (p TEXT CHECK (json_patch_check(p) IS NULL))")
        run("INSERT INTO patches VALUES ('[]')")
        with self.assertRaises(sqlite3.IntegrityError):
            run("INSERT INTO patches VALUES ('{}')")
        run("CREATE TABLE t (d TEXT, p TEXT, "
            "e TEXT GENERATED ALWAYS AS (json_patch_apply(d, p)) STORED)")
        run("CREATE INDEX i ON t (json_patch_apply(d, p))")
        run("CREATE TABLE log (p TEXT)")
        run("CREATE TRIGGER g AFTER UPDATE ON t BEGIN INSERT INTO log VALUES (json_patch_diff(new.d, old.d)); END")
        run("INSERT INTO t (d, p) VALUES ('[1]', '[{\"op\":\"add\",\"path\":\"/-\",\"value\":2}]')")
        self.assertEqual(run("SELECT e FROM t").fetchall(), [("[1,2]",)])
        run("UPDATE t SET d = '[3]'")
        self.assertEqual(run("SELECT e FROM t").fetchall(), [("[3,2]",)])
        self.assertEqual(len(run("SELECT * FROM log").fetchall()), 1)
        plan = run("EXPLAIN QUERY PLAN SELECT * FROM t WHERE json_patch_apply(d, p) = '[1]'").fetchall()
        self.assertIn("INDEX i", str(plan))

    def test_a_refused_row_changes_none(self):
        run = self.database.execute
        run("CREATE TABLE t (id INTEGER PRIMARY KEY, d TEXT)")
        self.database.executemany("INSERT INTO t VALUES (?, ?)", (
            (row, '{"n":1}' if row != WRONG_ROW else '{"m":1}') for row in range(ROWS)))
        patch = '[{"op":"replace","path":"/n","value":2}]'
        with self.assertRaises(sqlite3.OperationalError) as caught:
            run("UPDATE t SET d = json_patch_apply(d, ?)", (patch,))
        self.assertEqual(str(caught.exception), "json_patch_apply: operation 0 failed at path '/n': path is invalid")
        self.assertEqual(run("SELECT d, count(*) FROM t GROUP BY d ORDER BY d").fetchall(), [('{"m":1}', 1), ('{"n":1}', ROWS - 1)])
        run("UPDATE t SET d = '{\"n\":1}' WHERE id = ?", (WRONG_ROW,))
        run("UPDATE t SET d = json_patch_apply(d, ?)", (patch,))
        self.assertEqual(run("SELECT d, count(*) FROM t GROUP BY d").fetchall(), [('{"n":2}', ROWS)])


class History(Sql):
    """The example, and what it promises."""

    def schema(self, database):
        text = (TOP / "sqlite/example.sql").read_text()
        database.executescript("CREATE TABLE" + text.split("CREATE TABLE", 1)[1].split("INSERT INTO documents (id", 1)[0])

    def undo_statement(self):
        text = (TOP / "sqlite/example.sql").read_text()
        return text.split("-- an undo\n", 1)[1].split(";", 1)[0].replace("WHERE id = 1", "WHERE id = ?")

    def test_random_changes_and_all_undone(self):
        self.schema(self.database)
        run = self.database.execute
        made = cases.Cases(51)
        pick = random.Random(52)
        first = [made.value() for _ in range(20)]
        for number, document in enumerate(first):
            run("INSERT INTO documents (id, document) VALUES (?, json(?))", (number, json.dumps(document)))
        states, changes, refused = [[document] for document in first], 0, 0
        while changes < CHANGES:
            number = pick.randrange(len(first))
            patch = [made.operation(states[number][-1])]
            try:
                run("UPDATE documents SET version = version + 1, document = json_patch_apply(document, ?) WHERE id = ?", (json.dumps(patch), number))
            except sqlite3.OperationalError:
                refused += 1
                continue
            states[number].append(made.model.step(copied(states[number][-1]), patch[0]))
            changes += 1
        self.assertGreater(refused, 100)
        for number, passed in enumerate(states):
            for state in reversed(passed):
                self.assertSays(state, run("SELECT document FROM documents WHERE id = ?", (number,)).fetchone()[0])
                run(self.undo_statement(), (number,)) if state is not passed[0] else None
        self.assertEqual(run("SELECT count(*) FROM undos").fetchone(), (0,))

    def test_two_connections_lose_nothing(self):
        """Each adds to a number behind a `test` of what it read, and reads again where it is refused."""
        with tempfile.TemporaryDirectory() as folder:
            path = str(Path(folder) / "documents.db")
            database = opened(path)
            database.execute("PRAGMA journal_mode = WAL")
            database.execute("CREATE TABLE t (d TEXT)")
            database.execute("INSERT INTO t VALUES ('{\"n\":0}')")
            refused = [0] * THREADS

            def count(thread):
                own = opened(path)
                added = 0
                while added < EACH:
                    n = json.loads(own.execute("SELECT d FROM t").fetchone()[0])["n"]
                    patch = json.dumps([{"op": "test", "path": "/n", "value": n}, {"op": "replace", "path": "/n", "value": n + 1}])
                    try:
                        own.execute("UPDATE t SET d = json_patch_apply(d, ?)", (patch,))
                        added += 1
                    except sqlite3.OperationalError as error:
                        if "value did not match" in str(error):
                            refused[thread] += 1
                        elif "locked" not in str(error):
                            raise
                own.close()

            threads = [threading.Thread(target=count, args=(number,)) for number in range(THREADS)]
            for thread in threads:
                thread.start()
            for thread in threads:
                thread.join()
            self.assertEqual(database.execute("SELECT d FROM t").fetchone(), (f'{{"n":{THREADS * EACH}}}',))
            self.assertGreater(sum(refused), 0)
            database.close()

    def shown(self, page):
        """The one block of SQL that a page shows."""
        block, = re.findall(r"^```sql\n(.*?)^```", (TOP / page).read_text(), re.MULTILINE | re.DOTALL)
        return block

    def test_what_the_texts_show(self):
        self.assertIn(self.shown("docs/SQLITE.md"), (TOP / "sqlite/example.sql").read_text())
        self.schema(self.database)
        self.database.execute("INSERT INTO documents (id, document) VALUES (1, '{\"a\":1,\"b\":2}')")
        self.database.execute(self.shown("README.md"))
        self.assertEqual(self.database.execute("SELECT document FROM documents").fetchall(), [('{"b":2}',)])

    def test_example(self):
        done = subprocess.run(["sqlite3"], input=(TOP / "sqlite/example.sql").read_text(), cwd=Path(LIBRARY).parent, capture_output=True, text=True, timeout=60)
        self.assertEqual((done.stdout, done.stderr), ((TOP / "sqlite/example.out").read_text(), ""))


class Memory(Sql):
    def test_hard_heap_limit(self):
        """Out of SQLite's memory at any point: the statement fails for that, and nothing is changed."""
        limit_heap = ctypes.CDLL("libsqlite3.so.0").sqlite3_hard_heap_limit64
        limit_heap.argtypes = [ctypes.c_int64]
        self.addCleanup(limit_heap, 0)
        run = self.database.execute
        before = json.dumps({"a": "x" * 100_000}, separators=(",", ":"))
        run("CREATE TABLE t (d TEXT)")
        run("INSERT INTO t VALUES (?)", (before,))
        patch = json.dumps([{"op": "copy", "from": "/a", "path": f"/{number}"} for number in range(50)])
        failed = 0
        for limit in range(300_000, 30_000_000, 300_000):
            limit_heap(limit)
            try:
                run("UPDATE t SET d = json_patch_apply(d, ?, 124, 10000000)", (patch,))
                break
            except MemoryError:
                failed += 1
            finally:
                limit_heap(0)
            self.assertEqual(run("SELECT d FROM t").fetchall(), [(before,)])
        self.assertGreater(failed, 3)
        self.assertEqual(len(json.loads(run("SELECT d FROM t").fetchone()[0])), 51)


if __name__ == "__main__":
    LIBRARY = str(Path(sys.argv[1]).resolve())
    unittest.main(argv=[sys.argv[0], *sys.argv[2:]])
