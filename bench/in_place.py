#!/usr/bin/env python3
"""Times changes of Python's objects, in place and not, beside Python's jsonpatch, which leaves a refused patch
part-way, and counts the instructions of both imports (valgrind).

    bench/in_place.py [--rounds N] [--rows WORDS..]

c/package has to have built the package. A JsonPatch is made once, and applied again and again: to the same object,
or where it wouldn't be accepted twice to a fresh copy. What is printed is as in bench.py. An import is counted
with its modules compiled, by a Python that is started for it."""
import argparse
import os
import re
import subprocess
import sys
import tempfile

import bench
import workloads

HERE = os.path.dirname(os.path.abspath(__file__))
TOP = os.path.dirname(HERE)
IMPORTS = ("pass", "import json_patch", "import jsonpatch", "import json")

OBJECT = {"name": "row", "tags": ["a", "b"], "done": False}


def made(rows, *places):
    """A document of so many rows, and the same with another row at each of these places, or in its middle."""
    document, other = workloads.rows(rows), workloads.rows(rows)
    for place in places or (rows // 2,):
        other["rows"][place] = OBJECT
    return document, other


# name, mode, calls a round, object and patch, or for make_patch both objects
CALLS = [
    ("two operations on a tiny array", "again", 5_000, workloads.TINY),
    ("one test in a tiny dict", "again", 5_000, ({"a": 1}, [{"op": "test", "path": "/a", "value": 1}])),
    ("one add of an object to a tiny dict", "again", 5_000, ({"a": 1}, [{"op": "add", "path": "/b", "value": OBJECT}])),
    ("one copy of an object", "again", 5_000, ({"a": OBJECT}, [{"op": "copy", "from": "/a", "path": "/b"}])),
    ("one replace in 1 kB", "again", 5_000, workloads.replace_in_the_middle(14)),
    ("one replace in 10 kB", "again", 5_000, workloads.replace_in_the_middle(145)),
    ("one replace in 100 kB", "again", 5_000, workloads.replace_in_the_middle(1_450)),
    ("one replace in 1 MB", "again", 5_000, workloads.replace_in_the_middle(14_500)),
    ("one remove and one add among 33,000 members, 1 MB", "again", 5_000,
     (workloads.object_of(33_000), [{"op": "remove", "path": "/member 0500"}, {"op": "add", "path": "/member 0500", "value": "x"}])),
    ("100 mixed operations on 100 kB", "inplace", 20, (workloads.rows(1_450), workloads.MIXED)),
    ("100 mixed operations on 100 kB, with shifts", "inplace", 20, (workloads.rows(1_450), workloads.SHIFTING)),
    ("two operations on a tiny array, not in place", "patch", 5_000, workloads.TINY),
    ("one replace in 1 kB, not in place", "patch", 2_000, workloads.replace_in_the_middle(14)),
    ("one replace in 100 kB, not in place", "patch", 50, workloads.replace_in_the_middle(1_450)),
    ("make_patch, one row alone", "make", 2_000, made(1)),
    ("make_patch, one row of 1 kB", "make", 500, made(14)),
    ("make_patch, one row of 100 kB", "make", 10, made(1_450)),
    ("make_patch, two rows of 100 kB", "make", 10, made(1_450, 100, 1_300)),
]


def instructions(code, folder):
    """Of a Python that runs this: its modules have been compiled before."""
    given = {**os.environ, "PYTHONPATH": f"{TOP}/c/out/python", "PYTHONPYCACHEPREFIX": folder, "PYTHONDONTWRITEBYTECODE": ""}
    subprocess.run([bench.PYTHON, "-c", code], env=given, check=True)
    valgrind = ["valgrind", "--tool=cachegrind", "--cache-sim=no", f"--cachegrind-out-file={folder}/counts"]
    told = subprocess.run([*valgrind, bench.PYTHON, "-c", code], env=given, check=True, capture_output=True, text=True).stderr
    return int(re.search(r"I +refs: +([0-9,]+)", told)[1].replace(",", ""))


def main():
    words = argparse.ArgumentParser()
    words.add_argument("--rounds", type=int, default=9)
    words.add_argument("--rows", nargs="*", help="the rows whose line has one of these texts, and no others")
    asked = words.parse_args()
    modes = {mode: mode for _, mode, _, _ in CALLS}
    sides = [
        bench.Side("here", [bench.PYTHON, os.path.join(HERE, "python_c_peer.py")], modes, None),
        bench.Side("jsonpatch (Python)", [bench.PYTHON, os.path.join(HERE, "python_peer.py")], modes, None),
    ]
    for name, mode, count, case in CALLS:
        if bench.chosen(asked, name):
            line = bench.line_of(case)
            bench.report(name, bench.rounds_of(asked, sides, lambda side: bench.call(side, mode, count, line)))
    with tempfile.TemporaryDirectory() as folder:
        for code in IMPORTS:
            if bench.chosen(asked, code):
                print(f"{code}: {instructions(code, folder) / 1e6:.1f} M instructions", flush=True)


if __name__ == "__main__":
    sys.exit(main())
