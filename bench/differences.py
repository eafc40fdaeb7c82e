#!/usr/bin/env python3
"""Times the patch between two documents beside those of nlohmann/json and Python's jsonpatch, in turn.

    bench/differences.py --ours PROGRAM [--rounds N] [--rows WORDS..]

PROGRAM is that of bench/differences.rt.txt, which `diff/build FOLDER json_patch_differences
bench/differences.rt.txt json_patch_diff` proves and builds; the other two are as in bench.py. For each
pair of documents each one's least time of a round is printed, and how many operations and bytes its patch
has; each applies its own patch, and it has to lead to the second document. Below it is the least time
of one comparison of the first document with a copy: by `same` here, by `==` there."""
import argparse
import os
import subprocess
import tempfile

import bench
import workloads

MODES = {"diff": "diff", "same": "same"}


def sides(folder, ours):
    peer = [bench.PYTHON, os.path.join(bench.HERE, "python_peer.py")]
    return [
        bench.Side("here", [ours], MODES, None),
        bench.Side("nlohmann/json", [bench.compiled(folder, os.path.join(bench.HERE, "nlohmann.cpp"))], MODES, None),
        bench.Side("jsonpatch (Python)", peer, MODES, None),
    ]


def numbers(side, mode, count, line):
    """What a program prints: nanoseconds, and of a patch its operations and bytes."""
    some = max(1, count // 10) if side.timer[0] == bench.PYTHON else count
    out = subprocess.run([*side.timer, side.modes[mode], str(some)], input=line, capture_output=True, check=True).stdout
    assert out.split(), f"{side.name}: the patch doesn't lead to the second document"
    spent, *others = map(int, out.split())
    assert mode == "diff" or others == [some], f"{side.name}: a document isn't equal to itself"
    return spent, *others


def patch_told(spent, operations, size):
    return f"{bench.shown(spent)}, {operations:,} operations, {size:,} bytes"


def comparison_told(spent, _equal):
    return bench.shown(spent)


def least(asked, found, measure, told):
    """What each side printed in the round in which it took the least time."""
    times = bench.rounds_of(asked, found, measure)
    return "; ".join(f"{side} {told(*min(each))}" for side, each in times.items())


def main():
    words = argparse.ArgumentParser()
    words.add_argument("--ours", required=True)
    words.add_argument("--rounds", type=int, default=9)
    words.add_argument("--rows", nargs="+")
    asked = words.parse_args()
    with tempfile.TemporaryDirectory() as folder:
        found = sides(folder, asked.ours)
        for name, count, pair in workloads.DIFFERENCES:
            if not bench.chosen(asked, name):
                continue
            line, alone = bench.line_of(pair), bench.line_of((pair[0], pair[0]))
            print(f"{name}: {least(asked, found, lambda side: numbers(side, 'diff', count, line), patch_told)}", flush=True)
            once = least(asked, found, lambda side: numbers(side, "same", count, alone), comparison_told)
            print(f"  one comparison: {once}", flush=True)


if __name__ == "__main__":
    main()
