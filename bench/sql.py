#!/usr/bin/python3
"""Updates a second of documents of 1 kB in a table, by one replace each.

    bench/sql.py JSON_PATCH_SO [--rows N] [--rounds N]         in SQLite
    bench/sql.py --postgresql ROOT [--rows N] [--rounds N]     in PostgreSQL

SQLite, three ways, in turn in each round: the extension's json_patch_apply in one statement; SQLite's own
json_set in one statement; and each row read, patched by Python's jsonpatch (Debian's python3-jsonpatch)
and written back. In memory, and on disk in one transaction.

PostgreSQL, on the server `one` of postgresql/server in ROOT: json_patch_apply on jsonb and on json, the
server's own jsonb_set, and jsonpatch in plpython3u (Debian's postgresql-plpython3-15), each in one
statement; and of a member at the top json_patch_merge and the server's ||. What is printed is the median
of the rounds, and the ratio of the medians to the first way."""
import argparse
import json
import sqlite3
import statistics
import tempfile
import time
from pathlib import Path

import jsonpatch

PATH, PATCH = "/rows/3/name", [{"op": "replace", "path": "/rows/3/name", "value": "changed"}]


def document(number):
    rows = [{"id": number * 100 + row, "name": f"row {row} of {number}", "on": row % 2 == 0, "tags": ["a", "b"]} for row in range(15)]
    return json.dumps({"id": number, "rows": rows}, separators=(",", ":"))


def by_extension(database):
    database.execute("UPDATE t SET d = json_patch_apply(d, ?)", (json.dumps(PATCH),))


def by_json_set(database):
    database.execute("UPDATE t SET d = json_set(d, '$.rows[3].name', 'changed')")


def by_jsonpatch(database):
    patch = jsonpatch.JsonPatch(PATCH)
    changed = [(json.dumps(patch.apply(json.loads(text)), separators=(",", ":")), number)
               for number, text in database.execute("SELECT id, d FROM t")]
    database.executemany("UPDATE t SET d = ? WHERE id = ?", changed)


WAYS = {"json_patch_apply": by_extension, "json_set": by_json_set, "read, jsonpatch, write": by_jsonpatch}


def seconds(way, library, path, rows):
    database = sqlite3.connect(path)
    database.enable_load_extension(True)
    database.load_extension(library)
    database.execute("CREATE TABLE t (id INTEGER PRIMARY KEY, d TEXT)")
    database.executemany("INSERT INTO t VALUES (?, ?)", ((number, document(number)) for number in range(rows)))
    database.commit()
    begun = time.perf_counter()
    way(database)
    database.commit()
    spent = time.perf_counter() - begun
    wrong = [text for text, in database.execute("SELECT d FROM t") if json.loads(text)["rows"][3]["name"] != "changed"]
    assert not wrong, wrong[0]
    database.close()
    return spent


PLPYTHON = """CREATE FUNCTION by_jsonpatch(d jsonb, p jsonb) RETURNS jsonb LANGUAGE plpython3u IMMUTABLE AS $$
import json
import jsonpatch
return json.dumps(jsonpatch.apply_patch(json.loads(d), json.loads(p), in_place=True))
$$"""
# a column, what it becomes, and whether that is the change at the top
IN_POSTGRESQL = {
    "json_patch_apply, jsonb": ("d", f"json_patch_apply(d, '{json.dumps(PATCH)}')", False),
    "json_patch_apply, json": ("j", f"json_patch_apply(j, '{json.dumps(PATCH)}')", False),
    "jsonb_set": ("d", "jsonb_set(d, '{rows,3,name}', '\"changed\"')", False),
    "plpython3u, jsonpatch": ("d", f"by_jsonpatch(d, '{json.dumps(PATCH)}')", False),
    "json_patch_merge, jsonb": ("d", "json_patch_merge(d, '{\"id\":-1}')", True),
    "||": ("d", "d || '{\"id\":-1}'", True),
}


def postgresql_seconds(run, column, change, is_at_top):
    run.execute("UPDATE t SET d = first, j = first::text::json")
    run.execute("VACUUM FULL ANALYZE t")
    begun = time.perf_counter()
    run.execute(f"UPDATE t SET {column} = {change}")
    spent = time.perf_counter() - begun
    changed = "d->>'id' = '-1'" if is_at_top else f"{column}#>>'{{rows,3,name}}' = 'changed'"
    run.execute(f"SELECT count(*) FROM t WHERE NOT ({changed})")
    assert run.fetchone() == (0,), change
    return spent


def in_postgresql(asked):
    import psycopg2
    connection = psycopg2.connect(host=str(Path(asked.postgresql).resolve()), port=5432, user="postgres", dbname="postgres")
    connection.autocommit = True
    run = connection.cursor()
    run.execute("DROP EXTENSION IF EXISTS json_patch, plpython3u CASCADE; DROP TABLE IF EXISTS t; CREATE EXTENSION json_patch; CREATE EXTENSION plpython3u")
    run.execute(PLPYTHON)
    run.execute("CREATE TABLE t (id int PRIMARY KEY, first jsonb, d jsonb, j json)")
    for number in range(asked.rows):
        run.execute("INSERT INTO t VALUES (%s, %s)", (number, document(number)))
    spent = {name: [] for name in IN_POSTGRESQL}
    for _ in range(asked.rounds):
        for name, way in IN_POSTGRESQL.items():
            spent[name].append(postgresql_seconds(run, *way))
    told("in PostgreSQL", spent, asked.rows)


def told(place, spent, rows):
    first = statistics.median(next(iter(spent.values())))
    for name, rounds in spent.items():
        middle = statistics.median(rounds)
        print(f"{place}, {name}: {rows / middle:,.0f} a second, {middle / first:.2f}")


def in_sqlite(asked):
    library = str(Path(asked.library).resolve())
    for place in ("in memory", "on disk"):
        spent = {name: [] for name in WAYS}
        for _ in range(asked.rounds):
            for name, way in WAYS.items():
                with tempfile.TemporaryDirectory() as folder:
                    path = ":memory:" if place == "in memory" else str(Path(folder) / "t.db")
                    spent[name].append(seconds(way, library, path, asked.rows))
        told(place, spent, asked.rows)


def main():
    asked = argparse.ArgumentParser(description=__doc__, formatter_class=argparse.RawDescriptionHelpFormatter)
    asked.add_argument("library", nargs="?")
    asked.add_argument("--postgresql", metavar="ROOT")
    asked.add_argument("--rows", type=int, default=20_000)
    asked.add_argument("--rounds", type=int, default=5)
    asked = asked.parse_args()
    print(f"{asked.rows} documents of {len(document(7))} bytes")
    if asked.library:
        in_sqlite(asked)
    if asked.postgresql:
        in_postgresql(asked)


if __name__ == "__main__":
    main()
