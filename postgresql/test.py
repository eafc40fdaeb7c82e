#!/usr/bin/env python3
"""The extension, as programs meet it through SQL.

    postgresql/test.py ROOT [TEST..]

ROOT is a folder of postgresql/server, in which the server `one` runs, at port 5432, with the extension; those
that some tests start beside it they end. The rows are the tables of cases of the library for C (c/cases.json),
the random changes those of diff/cases.py, whose model says what a document is after them, and a patch between
two documents is applied by Python's jsonpatch (Debian: python3-jsonpatch, python3-psycopg2)."""
import json
import os
import random
import re
import resource
import signal
import subprocess
import sys
import threading
import time
import unittest
from contextlib import contextmanager
from decimal import Decimal
from pathlib import Path

import jsonpatch
import psycopg2

TOP = Path(__file__).resolve().parent.parent
sys.path += [str(TOP / "diff"), str(TOP / "hostile")]
import cases  # noqa: E402
import worst_cases  # noqa: E402
from model import copied, same  # noqa: E402

ROOT = None
CHANGES, PAIRS = 3_000, 3_000
CLIENTS, EACH, ROWS = 8, 120, 20
UNTIL_ENDED = 1_000_000
LONG = 1_000_000
APPLY, INVERSE, MERGE, DIFF = "json_patch_apply", "json_patch_inverse", "json_patch_merge", "json_patch_diff"
MERGE_DIFF = "json_patch_merge_diff"
NAMES = {"apply": APPLY, "record": INVERSE, "merge": MERGE, "diff": DIFF, "merge_diff": MERGE_DIFF}
# the statuses and kinds of c/json_patch.h
OK, REFUSED, NO_DOCUMENT, NO_PATCH, IMPOSSIBLE = 0, 1, 2, 3, 11
STATES = {3: "JP001", 5: "JP002", 4: "JP003", 6: "JP004"}
# what the server itself refuses: a text that is no JSON, and an escape that jsonb can't hold
SERVERS_OWN = ("22P02", "22P05")
PATCH_N = '[{"op":"replace","path":"/n","value":2}]'


def opened(database="postgres", port=5432, user="postgres"):
    connection = psycopg2.connect(host=ROOT, port=port, user=user, dbname=database, connect_timeout=60)
    connection.autocommit = True
    return connection


def server(*asked):
    subprocess.run([str(TOP / "postgresql/server"), asked[0], ROOT, *asked[1:]], check=True, timeout=120)


def program(*command):
    """Runs one of Debian's client programs on the server `one`, or where the command says."""
    environment = {**os.environ, "PGHOST": ROOT, "PGPORT": "5432", "PGUSER": "postgres"}
    return subprocess.run(command, env=environment, stdout=subprocess.PIPE, stderr=subprocess.STDOUT, text=True, timeout=120, check=False)


def limited(pid, size):
    """Limits the address space of a server's process."""
    owner = ["setpriv", "--reuid=postgres", "--regid=postgres", "--clear-groups"] if os.geteuid() == 0 else []
    subprocess.run([*owner, "prlimit", f"--pid={pid}", f"--as={size}:"], check=True)


def loaded(text):
    """A text as a value in which 1.5 and 1.50 are one number, and 1e400 is one."""
    return json.loads(text, parse_float=Decimal, parse_int=Decimal)


@contextmanager
def session(*where, **more):
    """A session in which each statement is a transaction."""
    connection = opened(*where, **more)
    try:
        yield connection.cursor()
    finally:
        connection.close()


def new_database(name, how=""):
    with session() as run:
        run.execute(f"DROP DATABASE IF EXISTS {name} WITH (FORCE)")
        run.execute(f"CREATE DATABASE {name} {how}")


class Sql(unittest.TestCase):
    """A database for the tests of a class."""

    @classmethod
    def setUpClass(cls):
        cls.name = cls.__name__.lower()
        new_database(cls.name)
        cls.connection = opened(cls.name)
        cls.cursor = cls.connection.cursor()
        cls.cursor.execute("CREATE EXTENSION json_patch")

    @classmethod
    def tearDownClass(cls):
        cls.connection.close()

    def rows(self, query, *given):
        self.cursor.execute(query, given or None)
        return self.cursor.fetchall() if self.cursor.description else []

    def one(self, query, *given):
        (value,), = self.rows(query, *given)
        return value

    def of(self, name, kind, *given):
        return self.one(f"SELECT {name}({', '.join([f'%s::{kind}'] * len(given))})::text", *given)

    def fails(self, query, *given):
        """The error of a statement."""
        with self.assertRaises(psycopg2.Error) as caught:
            self.rows(query, *given)
        return caught.exception


class Calls(Sql):
    def check_case(self, kind, case):
        """A row of the tables, for documents of json or jsonb; the SQLSTATE that it came to."""
        call, document, patch, status, operation, fault, written = case
        try:
            found = self.of(NAMES[call], kind, document, patch)
        except psycopg2.Error as error:
            state, told = error.pgcode, error.diag.message_detail
            if state in SERVERS_OWN:
                self.assertTrue(status in (NO_DOCUMENT, NO_PATCH) or "\\u0000" in document + patch, case)
            elif status == REFUSED:
                self.assertEqual(state, STATES[fault], case)
                number, path = re.fullmatch(r"Operation (\d+), path (.*)\.", told, re.DOTALL).groups()
                self.assertEqual((int(number), json.loads(path)), (operation, written), case)
            elif status == IMPOSSIBLE:
                self.assertEqual((state, told), ("JP013", None), case)
            else:
                self.assertEqual((state, status), ("JP011", NO_PATCH), case)
                self.assertEqual(told, f"Operation {operation}." if fault >= 12 else None, case)
            return state
        self.assertEqual(status, OK, case)
        if written is not None:
            goal = loaded(written)
            self.assertTrue(same(loaded(found), goal[1] if call == "record" else goal), (case, found))
        return "OK"

    def test_cases_of_the_tables(self):
        counts = {}
        for case in json.loads((TOP / "c/cases.json").read_text()):
            if case[0] not in NAMES:  # here merge patches aren't joined
                continue
            for kind in ("json", "jsonb"):
                key = case[0], kind, self.check_case(kind, case)
                counts[key] = counts.get(key, 0) + 1
        for key in [(call, kind, "OK") for call in NAMES for kind in ("json", "jsonb")] + [("apply", "json", "JP002"), ("record", "jsonb", "JP011")]:
            self.assertGreater(counts.get(key, 0), 10, counts)

    def random_text(self, pick, depth):
        roll = pick.random()
        if depth == 0 or roll < 0.4:
            return pick.choice(["null", "true", "0", "-0", "1", "1.0", "1.5", "1.50", "15e-1", "0.10", "1e400", "10E399", "18446744073709551617",
                                "2.5e-7", '"#1.5"', '"x"', '"\u00e9\U0001f600"', '"\\u00e9"'])
        parts = [self.random_text(pick, depth - 1) for _ in range(pick.randrange(5))]
        if roll < 0.7:
            return "[" + ", ".join(parts) + "]"
        names = pick.sample(["a", "b/c", "~", "", "\u00e9", "1", "#d"], len(parts))
        return "{ " + ",".join(f"{json.dumps(name)} :{part}" for name, part in zip(names, parts)) + "}"

    def test_random_pairs_with_decimals(self):
        """The patch between two documents leads there, by Python's jsonpatch and here; none where they say the same. What it displaces the inverse
        has as it stood, and leads back."""
        pick = random.Random(53)
        pairs = [[self.random_text(pick, 4) for _ in range(2)] for _ in range(PAIRS)]
        for pair in pairs[::10]:
            pair[1] = pair[0].replace("1.5", "1.50").replace("[", " [")
        for kind in ("json", "jsonb"):
            found = self.rows("SELECT patch::text, json_patch_apply(a, patch)::text, document::text, inverse::text, json_patch_apply(document, inverse)::text,"
                              " (SELECT coalesce(bool_and(strpos(a::text, (step->'value')::text) > 0), true) FROM json_array_elements(inverse::json) step)"
                              f" FROM (SELECT a::{kind}, json_patch_diff(a::{kind}, b::{kind}) AS patch FROM unnest(%s::text[], %s::text[]) WITH ORDINALITY pairs (a, b, n)"
                              " ORDER BY n) differences, json_patch_record(a, patch)", *map(list, zip(*pairs)))
            self.assertEqual(len(found), PAIRS)
            for (a, b), (patch, after, document, inverse, back, is_as_it_stood) in zip(pairs, found):
                goal = loaded(b)
                self.assertTrue(same(loaded(after), goal), (kind, a, b, patch))
                self.assertEqual(document, after, (kind, a, b, patch))
                self.assertTrue(same(loaded(back), loaded(a)), (kind, a, b, inverse))
                self.assertTrue(is_as_it_stood, (kind, a, b, inverse))
                self.assertTrue(same(jsonpatch.apply_patch(loaded(a), loaded(patch)), goal), (kind, a, b, patch))
                self.assertEqual(patch == "[]", same(loaded(a), goal), (kind, a, b, patch))
        self.assertGreater(sum(same(*map(loaded, pair)) for pair in pairs), PAIRS / 20)

    def test_random_changes_and_back(self):
        made, pick = cases.Cases(51), random.Random(52)
        states, changes, refused = [made.value() for _ in range(20)], 0, 0
        while changes < CHANGES:
            number, kind = pick.randrange(len(states)), pick.choice(["json", "jsonb"])
            patch = [made.operation(states[number])]
            try:
                (new, inverse, back), = self.rows(
                    f"SELECT document::text, inverse::text, json_patch_apply(document, inverse)::text FROM json_patch_record(%s::{kind}, %s::jsonb)",
                    json.dumps(states[number]), json.dumps(patch))
            except psycopg2.Error as error:
                self.assertIn(error.pgcode, STATES.values())
                refused += 1
                continue
            goal = made.model.step(copied(states[number]), patch[0])
            self.assertTrue(same(json.loads(new), goal), (states[number], patch))
            self.assertTrue(same(json.loads(back), states[number]), (states[number], patch, inverse))
            self.assertEqual(json.loads(self.of(INVERSE, kind, json.dumps(states[number]), json.dumps(patch))), json.loads(inverse))
            states[number] = goal
            changes += 1
        self.assertGreater(refused, 100)

    def test_types(self):
        for document in ("json", "jsonb"):
            for patch in ("json", "jsonb"):
                kinds = self.rows(f"SELECT pg_typeof(json_patch_apply(d, p))::text, pg_typeof(json_patch_inverse(d, p))::text, pg_typeof(json_patch_merge(d, p))::text,"
                                  f" pg_typeof((json_patch_record(d, p)).inverse)::text, pg_typeof(json_patch_diff(d, d))::text, pg_typeof(json_patch_value(d, ''))::text,"
                                  f" pg_typeof(json_patch_merge_diff(d, d))::text"
                                  f" FROM (SELECT '[]'::{document}, '[]'::{patch}) v (d, p)")
                self.assertEqual(set(kinds[0]), {document})

    def test_texts_larger_than_first_room(self):
        """Copies make a document, and moves an inverse, that take more than the room that is asked for at first."""
        was = {"a": "x" * 10_000}
        copies = [{"op": "copy", "from": "/a", "path": f"/{number}"} for number in range(100)]
        moves = [{"op": "move", "from": f"/{way[0]}", "path": f"/{way[1]}"} for way in ("ab", "ba") * 50]
        self.rows("SET json_patch.max_bytes = '2MB'")
        for kind in ("json", "jsonb"):
            for patch, goal, large in [(copies, {**was, **{str(number): was["a"] for number in range(100)}}, 0), (moves, was, 1)]:
                self.assertEqual(json.loads(self.of(APPLY, kind, json.dumps(was), json.dumps(patch))), goal)
                (*both, back), = self.rows(f"SELECT document::text, inverse::text, json_patch_apply(document, inverse)::text FROM json_patch_record(%s::{kind}, %s::jsonb)",
                                           json.dumps(was), json.dumps(patch))
                self.assertEqual((json.loads(both[0]), json.loads(back)), (goal, was))
                self.assertEqual([len(text) > 1_000_000 for text in both], [large == 0, large == 1])
        self.rows("RESET json_patch.max_bytes")

    def test_a_text_longer_than_a_value_holds(self):
        """Ten times 110,000,000 bytes are more than 1 GB, in a document and in an inverse."""
        copies = [{"op": "copy", "from": "/a", "path": f"/{number}"} for number in range(9)]
        moves = [{"op": "move", "from": f"/{way[0]}", "path": f"/{way[1]}"} for way in ("ab", "ba") * 5]
        self.rows("SET json_patch.max_bytes = '2147483647B'")
        for name, patch in [(APPLY, copies), (INVERSE, moves)]:
            self.assertEqual(self.fails(f"SELECT {name}(json_build_object('a', repeat('x', 110000000)), %s) IS NULL", json.dumps(patch)).pgcode, "54000")
        self.rows("RESET json_patch.max_bytes")

    def test_the_stack(self):
        """Calls at each depth of a recursion until the stack is used up, with a document of 124 levels."""
        self.rows("""CREATE FUNCTION deep(n int) RETURNS int LANGUAGE plpgsql AS $$
            DECLARE d json := (repeat('[', 124) || repeat(']', 124))::json;
            BEGIN
                PERFORM json_patch_apply(d, '[]'), json_patch_inverse(d, '[]'), json_patch_diff(d, '[]'), json_patch_merge(d, '[]'), json_patch_value(d, '/0'),
                    json_patch_merge_diff(d, '[]'), json_patch_merge_diff('[]', d);
                RETURN deep(n + 1);
            EXCEPTION WHEN statement_too_complex THEN RETURN n;
            END$$""")
        for most, least in [("100kB", 0), ("7MB", 100)]:
            self.rows(f"SET max_stack_depth = '{most}'")
            self.assertGreaterEqual(self.one("SELECT deep(0)"), least)
        self.rows("RESET max_stack_depth")

    def test_compiled_queries(self):
        """What the server compiles of a query calls the functions as before."""
        for name in ("jit_above_cost", "jit_inline_above_cost", "jit_optimize_above_cost"):
            self.rows(f"SET {name} = 0")
        plan = str(self.rows("EXPLAIN ANALYZE SELECT json_patch_apply(to_jsonb(n), %s) FROM generate_series(1, 10) n", '[{"op":"replace","path":"","value":1}]'))
        self.assertIn("Inlining true", plan)
        self.assertEqual(self.one("SELECT sum(json_patch_apply(to_jsonb(n), %s)::int) FROM generate_series(1, 10) n", '[{"op":"replace","path":"","value":2}]'), 20)
        for name in ("jit_above_cost", "jit_inline_above_cost", "jit_optimize_above_cost"):
            self.rows(f"RESET {name}")

    def test_workers(self):
        """In parallel, limits reach the workers, and errors come from them; a timeout ends a query between rows."""
        self.rows("CREATE TABLE many AS SELECT jsonb_build_object('n', n) AS d FROM generate_series(1, 20000) n")
        self.rows("SET parallel_setup_cost = 0; SET parallel_tuple_cost = 0; SET min_parallel_table_scan_size = 0; SET max_parallel_workers_per_gather = 2")
        query = f"SELECT count(*) FROM many WHERE json_patch_apply(d, '{PATCH_N}')->>'n' = '2'"
        self.assertIn("Workers Planned: 2", str(self.rows("EXPLAIN " + query)))
        self.assertEqual(self.one(query), 20000)
        self.rows("SET json_patch.max_depth = 0")
        self.assertEqual(self.fails(query).pgcode, "JP020")
        self.rows("RESET json_patch.max_depth; SET statement_timeout = '20ms'")
        self.assertEqual(self.fails("SELECT count(json_patch_apply(jsonb_build_object('n', n), %s)) FROM generate_series(1, 10000000) n", PATCH_N).pgcode, "57014")
        self.rows("RESET ALL")

    def spent(self):
        """The processor's seconds of the process that serves this connection, whatever runs beside it."""
        pid = self.connection.get_backend_pid()
        told = Path(f"/proc/{pid}/stat").read_text(encoding="utf-8").rpartition(")")[2].split()
        return (int(told[11]) + int(told[12])) / os.sysconf("SC_CLK_TCK")

    def test_no_call_outlives_a_timeout_by_much(self):
        """The calls that are known to take longest, on two texts of a megabyte, end by themselves in seconds."""
        self.rows("SET statement_timeout = '100ms'")
        for call, name, *texts in worst_cases.cases(LONG):
            begun = self.spent()
            try:
                self.rows(f"SELECT {NAMES[call]}(%s::json, %s::json) IS NULL", *texts)
            except psycopg2.Error as error:
                self.assertIn(error.pgcode, ("57014", "JP021"), name)
            self.assertLess(self.spent() - begun, 15, f"{call}: {name}")
        self.rows("RESET statement_timeout")


class Encodings(unittest.TestCase):
    """Databases that aren't UTF-8: what an encoding lacks is an escape in json, and an error of jsonb."""

    def setUp(self):
        self.encoding = None

    def one(self, query):
        with self.connection.cursor() as run:
            run.execute(query)
            return run.fetchone()[0]

    def opened(self, encoding):
        new_database("encoded", f"TEMPLATE template0 ENCODING '{encoding}' LOCALE 'C'")
        self.connection = opened("encoded")
        self.connection.set_client_encoding("UTF8")
        self.addCleanup(self.connection.close)
        self.connection.cursor().execute("CREATE EXTENSION json_patch")

    def check_encoding(self, encoding, middle):
        """The character U+4E2D is the one that LATIN1 lacks, and EUC_JP has."""
        self.opened(encoding)
        self.assertEqual(self.one("""SELECT json_patch_apply('{ "a":"\u00e9"}'::json, '[{"op":"add","path":"/b","value":"\u00e9\\u00e9"}]')::text"""),
                         '{ "a":"\u00e9", "b":"\u00e9\\u00e9"}')
        self.assertEqual(self.one("""SELECT json_patch_apply('{"a":"\u00e9"}'::jsonb, '[{"op":"add","path":"/\u00e9","value":"\u00e9"}]')::text"""),
                         '{"a": "\u00e9", "\u00e9": "\u00e9"}')
        found = self.one("""SELECT json_patch_diff('{}'::json, '{"a":"\\u4e2d\\ud83d\\ude00\u00e9"}')::text""")
        self.assertIn(found, [f'[{{"op":"add","path":"/a","value":"{a}{b}\u00e9"}}]' for a in {middle, "\\u4e2d"} for b in {"\\ud83d\\ude00"}])
        self.assertEqual(self.one("""SELECT json_patch_value('{"\u00e9":1.50}'::json, '/\u00e9')::text"""), "1.50")
        with self.assertRaises(psycopg2.Error) as caught:
            self.one("""SELECT json_patch_apply('{}'::json, '[{"op":"remove","path":"/\u00e9\\u4e2d"}]')""")
        self.assertEqual((caught.exception.pgcode, caught.exception.diag.message_detail), ("JP002", f'Operation 0, path "/\u00e9{middle}".'))
        long = "\u00e9" * 5000
        self.assertEqual(self.one(f"""SELECT json_patch_apply('["{long}"]'::json, '[]')::text"""), f'["{long}"]')

    def test_latin1(self):
        self.check_encoding("LATIN1", "\\u4e2d")
        with self.assertRaises(psycopg2.Error) as caught:
            self.one("""SELECT json_patch_apply('{}'::jsonb, '[{"op":"add","path":"/b","value":"\\u4e2d"}]'::json)""")
        self.assertIn(caught.exception.pgcode, ("22P05",))

    def test_euc_jp(self):
        self.check_encoding("EUC_JP", "\u4e2d")
        self.assertEqual(self.one("""SELECT json_patch_apply('{}'::jsonb, '[{"op":"add","path":"/b","value":"\\u4e2d"}]'::json)::text"""), '{"b": "\u4e2d"}')

    def test_sql_ascii(self):
        self.opened("SQL_ASCII")
        self.connection.set_client_encoding("SQL_ASCII")
        same_text = """SELECT octet_length(json_patch_apply(('["' || convert_from('%s'::bytea, 'SQL_ASCII') || '"]')::json, '[]')::text)"""
        self.assertEqual(self.one(same_text % "\\xc3a9"), 6)
        with self.assertRaises(psycopg2.Error) as caught:
            self.one(same_text % "\\xe9")
        self.assertEqual(caught.exception.pgcode, "22021")


class History(Sql):
    def tracked(self, columns, table="t"):
        self.rows(f"DROP TABLE IF EXISTS {table}, {table}_history CASCADE; CREATE TABLE {table} ({columns})")
        self.one(f"SELECT json_patch_keep_history('{table}')::text")

    def test_columns_of_many_kinds(self):
        """Two columns in the key, odd names, an array, an identity, a generated column; a key that changes."""
        self.tracked('number bigint GENERATED ALWAYS AS IDENTITY, part text, other int GENERATED ALWAYS AS IDENTITY, "odd name" text[], d jsonb, price numeric(10,2), twice numeric GENERATED ALWAYS AS (price * 2) STORED,'
                     ' f float8, b bytea, PRIMARY KEY (part, number)')
        first = self.rows("""INSERT INTO t (part, "odd name", d, price, f, b) VALUES ('a', '{x,"y z",NULL}', '{"n":1.50}', 1.50, 0.1, '\\x00ff') RETURNING *""")
        self.rows("""UPDATE t SET d = json_patch_apply(d, '[{"op":"remove","path":"/n"}]'), "odd name" = NULL, price = 2, f = 'NaN', b = ''""")
        self.rows("UPDATE t SET part = 'b'")
        key = '{"part":"a","number":1}'
        self.assertEqual(self.rows("SELECT deed, key FROM t_history ORDER BY version"), [
            ("INSERT", json.loads(key)), ("UPDATE", json.loads(key)), ("DELETE", json.loads(key)), ("INSERT", {"part": "b", "number": 1})])
        self.one("SELECT json_patch_undo('t', %s, 1) IS NULL", key)
        self.assertEqual(self.rows("SELECT * FROM t WHERE part = 'a'"), first)
        self.one("SELECT json_patch_undo('t', %s, 2) IS NULL", key)
        self.assertEqual(self.one("SELECT f::text FROM t WHERE part = 'a'"), "NaN")
        self.one("SELECT json_patch_undo('t', %s, 1) IS NULL", key)
        self.assertEqual(self.rows("SELECT * FROM t WHERE part = 'a'"), first)
        self.assertTrue(self.one("SELECT json_patch_undo('t', %s, 0) IS NULL", key))
        self.assertEqual(self.rows("SELECT part FROM t"), [("b",)])

    def test_a_key_in_other_settings(self):
        """A key that is written otherwise in another session is the same key; without an offset a time is one of UTC."""
        self.tracked("at timestamptz PRIMARY KEY, d jsonb")
        self.rows("SET timezone = 'Asia/Tokyo'; INSERT INTO t VALUES ('2026-01-01 09:00:00+09', '1')")
        self.rows("SET timezone = 'America/New_York'; UPDATE t SET d = '2'")
        for key in ("2026-01-01T00:00:00+00:00", "2025-12-31T19:00:00-05:00", "2026-01-01T00:00:00"):
            self.rows("UPDATE t SET d = '3'")
            self.assertEqual(self.one("SELECT json_patch_row_at('t', jsonb_build_object('at', %s), 1)->'d'", key), 1)
            self.one("SELECT json_patch_undo('t', jsonb_build_object('at', %s), 1)", key)
            self.assertEqual(self.rows("SELECT d FROM t"), [(1,)])
        self.rows("RESET timezone")

    def test_dates_in_other_styles(self):
        """What a range of dates is written as is read as the same dates, by a session of another DateStyle."""
        self.tracked("days daterange PRIMARY KEY, times tstzrange[], d int")
        self.rows("SET datestyle = 'SQL, DMY'; INSERT INTO t VALUES ('[2024-02-01,2024-03-05)', '{\"[2024-02-01 10:00+00,2024-03-05)\"}', 1)")
        first = self.rows("SET datestyle = 'ISO, MDY'; SELECT days::text, times::text, d FROM t")
        self.rows("SET datestyle = 'German'; UPDATE t SET times = NULL, d = 2; RESET datestyle")
        self.assertEqual(self.rows("SELECT DISTINCT key FROM t_history"), [({"days": "[2024-02-01,2024-03-05)"},)])
        self.one("SELECT json_patch_undo('t', '{\"days\":\"[2024-02-01,2024-03-05)\"}', 1)")
        self.assertEqual(self.rows("SELECT days::text, times::text, d FROM t"), first)

    def test_columns_with_the_names_of_the_history_s_own(self):
        names = ("k", "t", "h", "a", "was", "now", "all_rows", "name", "relation", "key", "version", "state", "step", "found", "columns")
        self.tracked(", ".join(f"{name} int" for name in names) + ", PRIMARY KEY (k, name)")
        first = dict(zip(names, range(len(names))))
        key = json.dumps({"k": first["k"], "name": first["name"]})
        self.rows(f"INSERT INTO t VALUES ({', '.join(map(str, first.values()))}); UPDATE t SET t = 70, a = 80")
        self.assertEqual([self.one("SELECT json_patch_row_at('t', %s, %s)", key, version) for version in range(3)], [None, first, {**first, "t": 70, "a": 80}])
        self.one("SELECT json_patch_undo('t', %s, 1)", key)
        self.rows("TRUNCATE t")
        self.assertEqual(self.rows("SELECT key, deed FROM t_history WHERE version = 4"), [(json.loads(key), "TRUNCATE")])
        self.one("SELECT json_patch_undo('t', %s, 3)", key)
        self.assertEqual(self.one("SELECT to_jsonb(t.*) FROM t"), first)

    def test_a_key_that_includes_columns(self):
        """What an index has beside its key is none of it."""
        self.tracked("id int, v int, w int, PRIMARY KEY (w, id) INCLUDE (v)")
        self.rows("INSERT INTO t VALUES (1, 10, 0); UPDATE t SET v = 20")
        self.assertEqual(self.rows("SELECT key, deed FROM t_history ORDER BY version"), [({"w": 0, "id": 1}, "INSERT"), ({"w": 0, "id": 1}, "UPDATE")])
        self.assertEqual(self.one("SELECT json_patch_row_at('t', '{\"w\":0,\"id\":1}', 1)"), {"id": 1, "v": 10, "w": 0})

    def test_a_null_of_json(self):
        """Where a column can't be NULL a null is one of JSON, and elsewhere NULL."""
        self.tracked("id int PRIMARY KEY, d jsonb NOT NULL, j json NOT NULL, n jsonb")
        self.rows("INSERT INTO t VALUES (1, 'null', 'null', 'null'); UPDATE t SET d = '1', j = '2', n = '3'")
        for version in (1, 2, 0, 1):
            self.one("SELECT json_patch_undo('t', '{\"id\":1}', %s)", version)
            wanted = {0: [], 1: [("null", "null", None)], 2: [("1", "2", "3")]}[version]
            self.assertEqual(self.rows("SELECT d::text, j::text, n::text FROM t"), wanted)

    def test_a_trigger_that_changes_the_row_again(self):
        """Each change comes before those that it leads to."""
        self.tracked("id int PRIMARY KEY, parent int REFERENCES t ON UPDATE CASCADE, v int, w int")
        self.rows("""CREATE FUNCTION follow() RETURNS trigger LANGUAGE plpgsql AS 'BEGIN
            IF NEW.w IS DISTINCT FROM NEW.v THEN UPDATE t SET w = NEW.v WHERE id = NEW.id; END IF; RETURN NULL; END';
            CREATE TRIGGER "A" AFTER INSERT OR UPDATE ON t FOR EACH ROW EXECUTE FUNCTION follow()""")
        self.rows("INSERT INTO t VALUES (1, 1, 10, 0); UPDATE t SET v = 20; UPDATE t SET id = 2")
        at = [self.one("SELECT json_patch_row_at('t', '{\"id\":1}', %s)", version) for version in range(6)]
        self.assertEqual(at, [None, *({"id": 1, "parent": 1, "v": v, "w": w} for v, w in [(10, 0), (10, 10), (20, 10), (20, 20)]), None])
        at = [self.one("SELECT json_patch_row_at('t', '{\"id\":2}', %s)", version) for version in range(5, 8)]
        self.assertEqual(at, [None, *({"id": 2, "parent": parent, "v": 20, "w": 20} for parent in (1, 2))])

    def test_a_table_that_is_no_history(self):
        """By its name it would be: one of the user's, or the table itself, whose name has no room for more."""
        long = "a" * 63
        self.rows(f"CREATE TABLE u_history (a int); CREATE TABLE u (id int PRIMARY KEY); CREATE TABLE {long} (id int PRIMARY KEY)")
        for table in ("u", long):
            self.assertEqual(self.fails("SELECT json_patch_keep_history(%s)", table).pgcode, "42P07")
            self.rows(f"INSERT INTO {table} VALUES (1)")
        self.rows(f"DROP TABLE u, u_history, {long}")
        long = "a" * 62
        self.tracked("id int PRIMARY KEY, d jsonb", long)
        self.rows(f"INSERT INTO {long} VALUES (1, '1'); UPDATE {long} SET d = '2'")
        self.assertEqual(self.one(f"SELECT json_patch_row_at('{long}', '{{\"id\":1}}', 1)->'d'"), 1)
        self.rows(f"DROP TABLE {long}")

    def test_truncate(self):
        self.tracked("id int PRIMARY KEY, d jsonb")
        self.rows("INSERT INTO t SELECT n, to_jsonb(n) FROM generate_series(1, 3) n; TRUNCATE t")
        self.assertEqual(self.rows("SELECT deed, count(*) FROM t_history GROUP BY deed ORDER BY deed"), [("INSERT", 3), ("TRUNCATE", 3)])
        self.one("SELECT count(json_patch_undo('t', key, 3)) FROM t_history WHERE deed = 'TRUNCATE'")
        self.assertEqual(self.rows("SELECT * FROM t ORDER BY id"), [(1, 1), (2, 2), (3, 3)])

    def test_partitions(self):
        """A row that goes to another partition keeps its history."""
        self.tracked("id int, place int, d jsonb, PRIMARY KEY (id, place)) PARTITION BY LIST (place")
        self.rows("CREATE TABLE t1 PARTITION OF t FOR VALUES IN (1); CREATE TABLE t2 PARTITION OF t FOR VALUES IN (2)")
        self.rows("INSERT INTO t VALUES (7, 1, '{\"n\":1}'); UPDATE t SET d = '{\"n\":2}'; UPDATE t SET place = 2")
        self.assertEqual(self.one("SELECT json_patch_row_at('t', '{\"id\":7,\"place\":1}', 1)"), {"id": 7, "place": 1, "d": {"n": 1}})
        self.one("SELECT json_patch_undo('t', '{\"id\":7,\"place\":1}', 2)")
        self.assertEqual(self.rows("SELECT tableoid::regclass::text, d FROM t ORDER BY 1"), [("t1", {"n": 2}), ("t2", {"n": 2})])

    def test_an_undone_transaction_leaves_none(self):
        self.tracked("id int PRIMARY KEY, d jsonb")
        self.rows("INSERT INTO t VALUES (1, '{\"n\":1}')")
        self.rows("BEGIN; UPDATE t SET d = '2'; ROLLBACK")
        self.assertEqual(self.fails("UPDATE t SET d = json_patch_apply('{}'::jsonb, %s)", PATCH_N).pgcode, "JP002")
        self.assertEqual(self.rows("SELECT d, (SELECT count(*) FROM t_history) FROM t"), [({"n": 1}, 1)])

    def test_a_limit_of_the_session_is_not_the_history_s(self):
        self.tracked("id int PRIMARY KEY, d jsonb")
        self.rows("SET json_patch.max_depth = 1; SET json_patch.max_bytes = 0")
        self.rows("INSERT INTO t VALUES (1, '[[[1]]]'); UPDATE t SET d = '[[[1,2]]]'; DELETE FROM t")
        self.one("SELECT json_patch_undo('t', '{\"id\":1}', 1)")
        self.rows("RESET ALL")
        self.assertEqual(self.rows("SELECT d FROM t"), [([[[1]]],)])
        nested = "UPDATE t SET d = (repeat('[', %s) || repeat(']', %s))::jsonb"
        self.rows(nested, 123, 123)
        self.assertEqual(self.fails(nested, 124, 124).pgcode, "JP020")

    def test_what_is_refused(self):
        self.rows("CREATE TABLE keyless (a int); CREATE TABLE plain (id int PRIMARY KEY)")
        self.tracked("id int PRIMARY KEY, d jsonb")
        for query, state in [("json_patch_keep_history('keyless')", "JP030"), ("json_patch_undo('plain', '{\"id\":1}', 1)", "JP031"), ("json_patch_row_at('plain', '{\"id\":1}', 1)", "JP031"),
                             ("json_patch_undo('t', '{\"ID\":1}', 1)", "JP032"), ("json_patch_row_at('t', '{}', 1)", "JP032")]:
            self.assertEqual(self.fails("SELECT " + query).pgcode, state, query)

    def test_kept_again_after_names_change(self):
        self.tracked("id int PRIMARY KEY, d jsonb")
        self.rows("INSERT INTO t VALUES (1, '1'); DROP TABLE IF EXISTS u, u_history; ALTER TABLE t RENAME TO u; ALTER TABLE t_history RENAME TO u_history")
        self.assertEqual(self.fails("UPDATE u SET d = '2'").pgcode, "42P01")
        self.one("SELECT json_patch_keep_history('u')::text")
        self.rows("UPDATE u SET d = '2'")
        self.assertEqual(self.one("SELECT json_patch_row_at('u', '{\"id\":1}', 1)->'d'"), 1)

    def test_names_that_want_quotes(self):
        self.rows("""CREATE SCHEMA "My ""S"; CREATE TABLE "My ""S"."T'%s" ("Key ""1" int, "k, 2" text, "It's" jsonb, PRIMARY KEY ("k, 2", "Key ""1"))""")
        table = """"My ""S"."T'%s\""""
        self.assertEqual(self.one("SELECT json_patch_keep_history(%s)::text", table), '"My ""S"."T\'%s_history"')
        self.rows("""INSERT INTO "My ""S"."T'%s" VALUES (1, '{"', '1'); UPDATE "My ""S"."T'%s" SET "It's" = '2'; DELETE FROM "My ""S"."T'%s" """)
        key = json.dumps({'Key "1': 1, "k, 2": '{"'})
        for version, left in [(2, 2), (1, 1), (3, None), (1, 1)]:
            self.one("SELECT json_patch_undo(%s, %s, %s)", table, key, version)
            self.assertEqual(self.rows("""SELECT "It's" FROM "My ""S"."T'%s" """), [(left,)] if left else [])

    def test_names_of_a_stranger_are_not_called(self):
        """Functions that fit better, in a schema that the caller's search_path has first."""
        self.tracked("id int PRIMARY KEY, d jsonb")
        self.rows("CREATE SCHEMA trap")
        for function in ("to_jsonb(public.t)", "json_patch_apply(jsonb, jsonb)", "json_patch_diff(jsonb, jsonb)"):
            self.rows(f"CREATE FUNCTION trap.{function} RETURNS jsonb LANGUAGE plpgsql AS 'BEGIN RAISE EXCEPTION ''called''; END'")
        self.rows("SET search_path = trap, public")
        self.rows("INSERT INTO t VALUES (1, '1'); UPDATE t SET d = '2'")
        self.one("SELECT json_patch_undo('t', '{\"id\":1}', 1)")
        self.rows("RESET search_path")
        self.assertEqual(self.rows("SELECT d FROM t"), [(1,)])


class Clients(Sql):
    """Eight clients that change the same rows."""

    def setUp(self):
        self.rows("DROP TABLE IF EXISTS t, t_history; CREATE TABLE t (id int PRIMARY KEY, d jsonb)")
        self.one("SELECT json_patch_keep_history('t')::text")
        self.rows("""INSERT INTO t SELECT n, '{"n":0,"price":1.50,"log":[]}' FROM generate_series(1, %s) n""", ROWS)
        self.first = self.one("SELECT max(version) FROM t_history")
        self.done, self.each = [0] * CLIENTS, EACH

    def change(self, client, run, pick):
        """One more at a row's n, as one statement, or behind a `test` of the n that was read."""
        row = pick.randrange(ROWS) + 1
        log = [{"op": "add", "path": "/log/-", "value": client}]
        if pick.random() < 0.5:
            run.execute("UPDATE t SET d = json_patch_apply(d, jsonb_build_array(jsonb_build_object('op', 'replace', 'path', '/n', 'value', (d->'n')::int + 1)) || %s::jsonb) WHERE id = %s", (json.dumps(log), row))
            return True
        run.execute("SELECT d->'n' FROM t WHERE id = %s", (row,))
        n = run.fetchone()[0]
        try:
            run.execute("UPDATE t SET d = json_patch_apply(d, %s::jsonb) WHERE id = %s",
                        (json.dumps([{"op": "test", "path": "/n", "value": n}, {"op": "replace", "path": "/n", "value": n + 1}, *log]), row))
        except psycopg2.Error as error:
            if error.pgcode != "JP001":
                raise
            return False
        return True

    def client(self, number):
        pick = random.Random(number)
        try:
            with session(self.name) as run:
                while self.done[number] < self.each:
                    self.done[number] += self.change(number, run, pick)
        except (psycopg2.OperationalError, psycopg2.InterfaceError, psycopg2.errors.AdminShutdown):
            pass

    def started(self, each=EACH):
        self.each = each
        threads = [threading.Thread(target=self.client, args=(number,)) for number in range(CLIENTS)]
        for thread in threads:
            thread.start()
        return threads

    def check_all(self, least, most):
        """Each change is there once, with what takes it back; and all are undone."""
        changes = self.one("SELECT sum((d->'n')::int) FROM t")
        self.assertTrue(least <= changes <= most, (least, changes, most))
        self.assertEqual(self.rows("SELECT count(*), (SELECT sum(jsonb_array_length(d->'log')) FROM t) FROM t_history WHERE deed = 'UPDATE'"), [(changes, changes)])
        self.assertEqual(self.one("SELECT count(json_patch_undo('t', jsonb_build_object('id', id), %s)) FROM t", self.first), ROWS)
        self.assertEqual(self.rows("SELECT d::text, count(*) FROM t GROUP BY 1"), [('{"n": 0, "log": [], "price": 1.50}', ROWS)])

    def test_nothing_is_lost_and_all_is_undone(self):
        for thread in self.started():
            thread.join()
        self.assertEqual(self.done, [EACH] * CLIENTS)
        self.check_all(CLIENTS * EACH, CLIENTS * EACH)

    def test_undos_beside_changes(self):
        """Clients that undo a row's last changes while others change it: what the rows are fits their history."""
        def undo():
            pick = random.Random(1)
            with session(self.name) as run:
                for _ in range(EACH):
                    run.execute("SELECT json_patch_undo('t', key, version - 1) FROM (SELECT key, version FROM t_history WHERE key = jsonb_build_object('id', %s) AND deed = 'UPDATE'"
                                " ORDER BY version DESC OFFSET 2 LIMIT 1) h", (pick.randrange(ROWS) + 1,))
        undoing = threading.Thread(target=undo)
        undoing.start()
        for thread in [*self.started(), undoing]:
            thread.join()
        self.assertEqual(self.rows("SELECT DISTINCT json_patch_row_at('t', jsonb_build_object('id', id), %s)->>'d' FROM t", self.first), [('{"n": 0, "log": [], "price": 1.50}',)])

    def running(self):
        """The process of a client that is in an UPDATE."""
        until = time.monotonic() + 60
        while time.monotonic() < until:
            for pid, in self.rows("SELECT pid FROM pg_stat_activity WHERE datname = %s AND state = 'active' AND query LIKE 'UPDATE%%'", self.name):
                return pid
        return self.fail("no client is in an UPDATE")

    def ended(self, threads):
        self.each = 0
        for thread in threads:
            thread.join()

    def test_sessions_ended_in_mid_change(self):
        threads = self.started(UNTIL_ENDED)
        try:
            for _ in range(3):
                self.one("SELECT pg_terminate_backend(%s)", self.running())
                time.sleep(0.05)
        finally:
            self.ended(threads)
        self.check_all(sum(self.done), sum(self.done) + CLIENTS)

    def test_a_process_killed_and_the_server_restarted(self):
        for end in ("kill", "restart"):
            threads = self.started(UNTIL_ENDED)
            try:
                pid = self.running()
                if end == "kill":
                    os.kill(pid, signal.SIGKILL)
                else:
                    server("stop", "one", "immediate")
            finally:
                self.ended(threads)
            if end == "restart":
                server("start", "one", "5432")
            type(self).connection = self.reopened()
            type(self).cursor = self.connection.cursor()
            self.check_all(sum(self.done), sum(self.done) + CLIENTS)
            self.setUp()

    def reopened(self):
        for _ in range(100):
            try:
                return opened(self.name)
            except psycopg2.OperationalError:
                time.sleep(0.2)
        return opened(self.name)


class Memory(Sql):
    CALLS = [(APPLY, '[{"op":"copy","from":"/a","path":"/b"},{"op":"move","from":"/a/0","path":"/a/-"}]'), (APPLY, '[{"op":"remove","path":"/none"}]'),
             (MERGE, '{"a":null,"c":{"d":["e"]}}'), (INVERSE, '[{"op":"remove","path":"/a/0"}]'), (DIFF, '{"a":[1,3,"xx"],"b":{}}'),
             (MERGE_DIFF, '{"a":[1,3,"xx"],"b":{}}'), (MERGE_DIFF, '{"a":{"b":null}}')]

    def test_each_request_of_the_library_refused(self):
        """Then and only then the statement fails for that. A session that has json_patch_refuse has no json_patch."""
        document, total = '{"a":[1,{"b":"text"},[[]]]}', 0
        with session(self.name) as run:
            run.execute("CREATE SCHEMA refusing; CREATE FUNCTION refusing.refuse(int) RETURNS int LANGUAGE c AS '$libdir/json_patch_refuse', 'pg_json_patch_refuse'")
            for name in (APPLY, MERGE, INVERSE, DIFF, MERGE_DIFF, "json_patch_value", "json_patch_check"):
                kinds, gives = {"json_patch_value": ("json, text", "json"), "json_patch_check": ("json", "text")}.get(name, ("json, json", "json"))
                run.execute(f"CREATE FUNCTION refusing.{name}({kinds}) RETURNS {gives} LANGUAGE c AS '$libdir/json_patch_refuse', 'pg_{name}'")
            for query in [f"SELECT refusing.{name}('{document}', '{patch}')::text" for name, patch in self.CALLS] + [
                    f"SELECT refusing.json_patch_value('{document}', '/a/1')::text", "SELECT refusing.json_patch_check('[{\"op\":\"add\",\"path\":\"/b\",\"value\":[{}]}]')"]:
                ample, requests = self.refusing(run, query, 0)
                self.assertGreater(requests, 0, query)
                for number in range(1, requests + 1):
                    self.assertEqual(self.refusing(run, query, number)[0], "53200", (query, number))
                self.assertEqual(self.refusing(run, query, 0), (ample, requests))
                total += requests
        self.assertGreater(total, 50)

    def refusing(self, run, query, number):
        """What the query comes to while the request of this number is refused, and how many were made."""
        run.execute("SELECT refusing.refuse(%s)", (number,))
        try:
            run.execute(query)
            answer = run.fetchall()
        except psycopg2.Error as error:
            answer = error.pgcode
        run.execute("SELECT refusing.refuse(0)")
        return answer, run.fetchone()[0]

    def test_an_address_space_that_ends(self):
        """A backend that gets less memory than a call wants, in steps: an error, and the session goes on."""
        self.rows("""CREATE TABLE big AS SELECT jsonb_build_object('n', 0, 'l', (SELECT jsonb_agg(jsonb_build_object('id', n, 't', 'some text ' || n)) FROM generate_series(1, 30000) n)) AS d;
                     ALTER TABLE big ADD j json; UPDATE big SET j = d::text::json; SELECT json_patch_apply('[]'::jsonb, '[]')""")
        pid = self.one("SELECT pg_backend_pid()")
        size = int(Path(f"/proc/{pid}/statm").read_text().split()[0]) * resource.getpagesize()
        failed = 0
        for call in ("json_patch_apply(j, %s)", "json_patch_inverse(j, %s)", "json_patch_apply(d, %s)"):
            query = f"SELECT octet_length({call % repr(PATCH_N)}::text) FROM big"
            ample = self.one(query)
            for more in range(0, 256 << 20, 4 << 20):
                limited(pid, size + more)
                try:
                    self.assertEqual(self.one(query), ample)
                    break
                except psycopg2.errors.OutOfMemory:
                    failed += 1
                finally:
                    limited(pid, "unlimited")
                self.assertEqual(self.one("SELECT 1"), 1)
            else:
                self.fail(call)
        self.assertGreater(failed, 5)

    def test_nothing_leaks(self):
        self.rows("""CREATE FUNCTION fail(d json, p json) RETURNS void LANGUAGE plpgsql AS $$
            BEGIN PERFORM json_patch_apply(d, p), json_patch_inverse(d, p); EXCEPTION WHEN OTHERS THEN NULL; END$$""")
        pid, sizes = self.one("SELECT pg_backend_pid()"), []
        for _ in range(4):
            self.rows("""SELECT count(fail(('{"a":[1,2,3],"b":"' || repeat('x', 2000) || '"}')::json, '[{"op":"remove","path":"/a/0"},{"op":"test","path":"/b","value":1}]')) FROM generate_series(1, 5000)""")
            self.rows("""SELECT count(json_patch_apply(d, p)), count(json_patch_inverse(d, p)), count(json_patch_diff(d, p)), count(json_patch_check(p))
                FROM (SELECT '{"a":[1,2,3]}'::jsonb, '[{"op":"remove","path":"/a/0"}]'::jsonb FROM generate_series(1, 20000)) v (d, p)""")
            sizes.append(int(Path(f"/proc/{pid}/statm").read_text().split()[1]) * resource.getpagesize())
        self.assertLess(sizes[-1] - sizes[0], 500_000, sizes)


class Kept(Sql):
    """What outlasts a server: dumps, other versions, and who may have the extension."""

    def test_dump_and_restore(self):
        self.rows("""CREATE TABLE docs (id int PRIMARY KEY, d jsonb, p jsonb CHECK (json_patch_is_valid(p)), e jsonb GENERATED ALWAYS AS (json_patch_apply(d, p)) STORED);
            CREATE INDEX ON docs (json_patch_merge(d, '{"x":null}'));
            CREATE VIEW v AS SELECT json_patch_apply(d, '[{"op":"test","path":"","value":1}]'::jsonb) FROM docs""")
        self.one("SELECT json_patch_keep_history('docs')::text")
        self.rows("""INSERT INTO docs SELECT n, jsonb_build_object('n', n, 'price', 1.50), '[{"op":"add","path":"/a","value":2.50}]' FROM generate_series(1, 100) n;
            UPDATE docs SET d = json_patch_apply(d, '[{"op":"remove","path":"/n"}]')""")
        sums = "SELECT (SELECT string_agg(docs::text, ',' ORDER BY id) FROM docs), (SELECT string_agg(h::text, ',' ORDER BY version) FROM docs_history h)"
        before = self.rows(sums)
        new_database("restored")
        file = f"{ROOT}/kept.dump"
        for command in [("pg_dump", "-Fc", "-f", file, self.name), ("pg_restore", "--exit-on-error", "-d", "restored", file)]:
            done = program(*command)
            self.assertEqual((done.returncode, done.stdout), (0, ""))
        with session("restored") as run:
            run.execute(sums)
            self.assertEqual(run.fetchall(), before)
            run.execute("SELECT json_patch_undo('docs', '{\"id\":7}', 7)->'e'")
            self.assertEqual(run.fetchone()[0], {"a": 2.5, "n": 7, "price": 1.5})
            run.execute("SELECT max(version) FROM docs_history")
            self.assertEqual(run.fetchone()[0], 201)

    def test_an_upgrade(self):
        """As the next version would come: a script from this one, for which nothing is made anew."""
        folder = next(Path(ROOT).glob("usr/share/postgresql/*/extension"))
        version = (TOP / "VERSION").read_text().strip()
        script = folder / f"json_patch--{version}--next.sql"
        self.addCleanup(script.unlink)
        script.write_text("CREATE FUNCTION json_patch_is_new() RETURNS boolean LANGUAGE sql AS 'SELECT true';\n")
        new_database("upgraded")
        with session("upgraded") as run:
            run.execute("CREATE EXTENSION json_patch; CREATE TABLE t (d jsonb, p jsonb CHECK (json_patch_is_valid(p))); INSERT INTO t VALUES ('{}', '[]')")
            run.execute("ALTER EXTENSION json_patch UPDATE TO 'next'")
            run.execute("SELECT extversion, json_patch_is_new(), json_patch_apply(d, p) FROM pg_extension, t WHERE extname = 'json_patch'")
            self.assertEqual(run.fetchall(), [("next", True, {})])
            run.execute("DROP TABLE t; DROP EXTENSION json_patch; CREATE EXTENSION json_patch VERSION 'next'")
            run.execute("SELECT count(*) FROM pg_proc WHERE proname LIKE 'json\\_patch%'")
            self.assertGreater(run.fetchone()[0], 30)

    def test_who_is_no_superuser(self):
        with session() as run:
            run.execute("DROP DATABASE IF EXISTS simple WITH (FORCE)")
            run.execute("DROP ROLE IF EXISTS simple; CREATE ROLE simple LOGIN")
        new_database("simple", "OWNER simple")
        with session("simple", user="simple") as run:
            run.execute("CREATE EXTENSION json_patch; CREATE TABLE t (id int PRIMARY KEY, d jsonb)")
            run.execute("SELECT json_patch_keep_history('t')::text")
            run.execute("INSERT INTO t VALUES (1, '{}'); UPDATE t SET d = '1'")
            run.execute("SELECT json_patch_undo('t', '{\"id\":1}', 1)->'d'")
            self.assertEqual(run.fetchone()[0], {})

    def test_a_schema_with_an_odd_name(self):
        new_database("odd")
        with session("odd") as run:
            run.execute("""CREATE SCHEMA "a%b c"; CREATE EXTENSION json_patch SCHEMA "a%b c"; CREATE TABLE t (id int PRIMARY KEY, d jsonb)""")
            run.execute("""SELECT "a%b c".json_patch_keep_history('t')::text; INSERT INTO t VALUES (1, '1'); UPDATE t SET d = '2'; TRUNCATE t""")
            run.execute("""SELECT "a%b c".json_patch_undo('t', '{"id":1}', 1)->'d'""")
            self.assertEqual(run.fetchone()[0], 1)

    def test_the_symbols(self):
        """The file shows the functions, and none of the library."""
        file = next(Path(ROOT).glob("usr/lib/postgresql/*/lib/json_patch.so"))
        found = subprocess.run(["nm", "-D", "--defined-only", str(file)], capture_output=True, text=True, check=True).stdout.split()[2::3]
        self.assertEqual({re.sub(r"^pg_(finfo_pg_)?json_patch_\w+$", "pg_json_patch", name) for name in found}, {"Pg_magic_func", "_PG_init", "pg_json_patch"})


class Sharded(unittest.TestCase):
    """The example with documents on two other servers."""

    @classmethod
    def setUpClass(cls):
        for name, port in (("two", "5433"), ("three", "5434")):
            server("start", name, port)

    @classmethod
    def tearDownClass(cls):
        for name in ("two", "three"):
            server("stop", name)

    def test_example(self):
        new_database("sharded")
        done = program("psql", "-qX", "-d", "sharded", "-v", f"host={ROOT}", "-v", "two=5433", "-v", "three=5434", "-f", str(TOP / "postgresql/sharded.sql"))
        self.assertEqual(re.sub(r"^psql:.*?:\d+: ", "", done.stdout, flags=re.MULTILINE), (TOP / "postgresql/sharded.out").read_text())


class Texts(Sql):
    """What the texts show."""

    def shown(self, page):
        return re.findall(r"^```sql\n(.*?)^```", (TOP / page).read_text(), re.MULTILINE | re.DOTALL)

    def test_what_the_texts_show(self):
        self.rows("CREATE TABLE documents (id int PRIMARY KEY, document jsonb); INSERT INTO documents VALUES (1, '{\"a\":1,\"b\":2}')")
        for page, left in [("docs/POSTGRESQL.md", {"a": 1, "b": 2}), ("README.md", {"b": 2})]:
            block, = self.shown(page)
            self.rows(block)
            self.assertEqual(self.rows("SELECT document FROM documents"), [(left,)])


if __name__ == "__main__":
    ROOT = str(Path(sys.argv[1]).resolve())
    unittest.main(argv=[sys.argv[0], *sys.argv[2:]])
