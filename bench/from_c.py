#!/usr/bin/env python3
"""Times the library for C, from C and from Python, beside nlohmann/json, Python's jsonpatch, and simdjson where
libsimdjson-dev is installed.

    bench/from_c.py [--rounds N] [--rows WORDS..]

c/build has to have built the library. A call goes from the texts of a document and a patch to the
text of the new one, whose other bytes are those of the document's; or it changes a document that is kept, by
the text of a patch. The other two change theirs in place, which leaves a refused patch part-way, and read,
patch and write where a call goes from texts to a text. "The bytes copied" is what a call from text to text does
at least, and "the patch read" what one would be spared that was handed a patch which is read already; simdjson only
reads the document, or copies it without whitespace. What is printed is as in bench.py."""
import argparse
import os
import subprocess
import tempfile

import bench
import workloads

HERE = os.path.dirname(os.path.abspath(__file__))
BUILT = os.path.join(os.path.dirname(HERE), "c", "out")
MODES = {"texts": "texts", "kept": "kept"}


def deep(levels, operations):
    """100 kB of rows below so many objects, and so many replaces there."""
    document, path = workloads.rows(1_450), "/next" * levels + "/rows/700/tags/1"
    for _ in range(levels):
        document = {"next": document}
    return document, [{"op": "replace", "path": path, "value": "c"}] * operations


# name, mode, calls a round, document and patch
CALLS = [
    ("from text to text: two operations on a tiny array", "texts", 20_000, workloads.TINY),
    ("from text to text: one replace in 1 kB", "texts", 5_000, workloads.replace_in_the_middle(15)),
    ("from text to text: 100 mixed operations on 1.2 kB", "texts", 500, (workloads.rows(17), workloads.MIXED)),
    ("from text to text: one replace in 100 kB", "texts", 100, workloads.replace_in_the_middle(1_450)),
    ("from text to text: one replace in 10 MB", "texts", 1, workloads.replace_in_the_middle(145_000)),
    ("from text to text: one add to 10 MB", "texts", 1,
     (workloads.rows(145_000), [{"op": "add", "path": "/rows/-", "value": "c"}])),
    ("from text to text: one replace below 1 object in 100 kB", "texts", 100, deep(1, 1)),
    ("from text to text: one replace below 115 objects in 100 kB", "texts", 100, deep(115, 1)),
    ("from text to text: two replaces below 1 object in 100 kB", "texts", 100, deep(1, 2)),
    ("from text to text: two replaces below 115 objects in 100 kB", "texts", 100, deep(115, 2)),
    ("from text to text: 100 mixed operations on 100 kB", "texts", 10, (workloads.rows(1_450), workloads.MIXED)),
    ("from text to text: 100 mixed operations on 10 MB", "texts", 1, (workloads.rows(145_000), workloads.MIXED)),
    ("from text to text: 1,000 replaces in 10,000 members", "texts", 1,
     (workloads.object_of(10_000), workloads.in_each_tenth("replace", 10_000, value="other text"))),
    ("from text to text: 1,000 removes from 10,000 members", "texts", 1,
     (workloads.object_of(10_000), workloads.in_each_tenth("remove", 10_000))),
    ("one replace in a kept document of 100 kB", "kept", 100, workloads.replace_in_the_middle(1_450)),
    ("one replace in a kept document of 10 MB", "kept", 1_000, workloads.replace_in_the_middle(145_000)),
]


def compiled(folder):
    """The timer of the calls for C."""
    program = os.path.join(folder, "c_calls")
    source = os.path.join(HERE, "c_calls.c")
    library = os.path.join(BUILT, "lib", "libjson_patch.a")
    include = os.path.join(BUILT, "include")
    command = [os.environ.get("CC", "cc"), "-O2", "-D_POSIX_C_SOURCE=200809L", "-I", include, "-o", program]
    subprocess.run([*command, source, library], check=True)
    return program


def simdjson(folder):
    """simdjson's timer as two sides, which it has where it compiles."""
    program = os.path.join(folder, "simdjson")
    command = ["g++", "-O2", "-std=c++17", "-o", program, os.path.join(HERE, "simdjson.cpp"), "-lsimdjson"]
    if subprocess.run(command, stderr=subprocess.DEVNULL, check=False).returncode:
        return []
    return [bench.Side(f"simdjson, {mode}", [program], {"texts": mode}, None) for mode in ("parse", "minify")]


def sides(folder):
    peer = [bench.PYTHON, os.path.join(HERE, "python_peer.py")]
    ours = compiled(folder)
    return [
        bench.Side("here", [ours], MODES, None),
        bench.Side("the bytes copied", [ours], {"texts": "copied"}, None),
        bench.Side("the patch read", [ours], {"texts": "read", "kept": "read"}, None),
        bench.Side("here from Python", [bench.PYTHON, os.path.join(HERE, "python_c_peer.py")], MODES, None),
        bench.Side("nlohmann/json", [bench.compiled(folder, os.path.join(HERE, "nlohmann.cpp"))], MODES, None),
        bench.Side("jsonpatch (Python)", peer, MODES, None),
        *simdjson(folder),
    ]


def main():
    words = argparse.ArgumentParser()
    words.add_argument("--rounds", type=int, default=9)
    words.add_argument("--rows", nargs="*", help="the rows whose line has one of these texts, and no others")
    asked = words.parse_args()
    with tempfile.TemporaryDirectory() as folder:
        found = sides(folder)
        for name, mode, count, case in CALLS:
            if not bench.chosen(asked, name):
                continue
            line = bench.line_of(case)
            able = [side for side in found if mode in side.modes]
            bench.report(name, bench.rounds_of(asked, able, lambda side: bench.call(side, mode, count, line)))


if __name__ == "__main__":
    main()
