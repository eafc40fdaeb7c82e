#!/usr/bin/env python3
"""Times single calls and whole programs beside three other implementations, in turn, and draws a picture.

    bench/bench.py --calls DRIVER --tool TOOL [--rust-calls R --rust-tool S] [--rounds N]
        [--rows WORDS..] [--beside rust|nlohmann|python|none ..] [--picture FILE]

DRIVER is the program of bench/driver.rt.txt, which `diff/build FOLDER json_patch_timing
bench/driver.rt.txt json_patch_editor` proves and builds; TOOL is json_patch_tool, which `rt run --
patch < stdin` leaves in its folder out/. R and S are the programs of bench/rust/main.rs and
diff/rust/main.rs, both round the Rust crate json-patch 5.0.0. nlohmann/json (Debian's
nlohmann-json3-dev, with g++) and Python's jsonpatch (Debian's python3-jsonpatch) are taken where they
are installed; `--beside` names those that are wanted. The Rust crate keeps `apply_patches` to itself, and
has no limits, so beside ours stands its `patch`. In each round each program is called once, one after another; what is
printed is the ratio of the medians, with the least and the greatest ratio of a round. An edit and its
undo by the editor are timed beside the same edit through a copy of the document. With `--rows` only
the calls and programs are timed whose line has one of these texts, and nothing else. The picture shows
the time of one `replace`, and of a list of mixed operations, against the document's size. Two lists that
are apart are compared, too.
"""
import argparse
import json
import os
import shutil
import statistics
import subprocess
import tempfile
import time

import picture
import workloads

HERE = os.path.dirname(os.path.abspath(__file__))
TOP = os.path.dirname(HERE)
PYTHON = "/usr/bin/python3"


def compiled(folder, source):
    program = os.path.join(folder, os.path.basename(os.path.dirname(source)) + "_nlohmann")
    subprocess.run(["g++", "-O2", "-w", "-std=c++17", "-o", program, source], check=True)
    return program


class Side:
    """An implementation: its timer of calls with their modes, and its whole program."""

    def __init__(self, name, timer, modes, program):
        self.name, self.timer, self.modes, self.program = name, timer, modes, program


def sides(asked, folder):
    wanted = lambda other: not asked.beside or other in asked.beside
    modes = {"patch": "patch", "merge": "merge"}
    ours = {mode: mode for mode in ("patch", "merge", "patch_within", "patch_unsafe", "apply_patches")}
    found = [Side("here", [asked.calls], ours, [asked.tool, "patch"])]
    if wanted("rust") and asked.rust_calls and asked.rust_tool:
        theirs = {**ours, "patch_within": "patch", "apply_patches": "patch"}
        found.append(Side("json-patch 5.0.0", [asked.rust_calls], theirs, [asked.rust_tool, "patch"]))
    if wanted("nlohmann") and shutil.which("g++") and os.path.isdir("/usr/include/nlohmann"):
        timer = compiled(folder, os.path.join(HERE, "nlohmann.cpp"))
        program = compiled(folder, os.path.join(TOP, "diff", "nlohmann.cpp"))
        found.append(Side("nlohmann/json", [timer], {**modes, "in place": "inplace"}, [program, "patch"]))
    if wanted("python") and subprocess.run([PYTHON, "-c", "import jsonpatch"], capture_output=True).returncode == 0:
        timer = [PYTHON, os.path.join(HERE, "python_peer.py")]
        program = [PYTHON, os.path.join(TOP, "diff", "python_peer.py")]
        modes = {"patch": "patch", "in place": "inplace"}
        found.append(Side("jsonpatch (Python)", timer, modes, program))
    return found


def line_of(case):
    return (json.dumps(case, separators=(",", ":")) + "\n").encode()


def call(side, mode, count, line, end="accepted"):
    """The nanoseconds of one call."""
    command = [*side.timer, side.modes[mode], str(count), end]
    spent = int(subprocess.run(command, input=line, capture_output=True, check=True).stdout)
    assert spent > 0, f"{side.name}: a call had the wrong end"
    return spent


def program(side, line):
    """The nanoseconds of the whole program, and the document that it wrote."""
    start = time.perf_counter_ns()
    out = subprocess.run(side.program, input=line, capture_output=True, check=True).stdout
    spent = time.perf_counter_ns() - start
    return spent, json.loads(out.removeprefix(b"ok "))


def rounds_of(asked, found, measure):
    """The times of each side, a list each, made in turn."""
    times = {side.name: [] for side in found}
    for _ in range(asked.rounds):
        for side in found:
            times[side.name].append(measure(side))
    return times


def shown(nanoseconds):
    for unit, size in (("s", 1e9), ("ms", 1e6), ("µs", 1e3)):
        if nanoseconds >= size:
            return f"{nanoseconds / size:.3g} {unit}"
    return f"{nanoseconds} ns"


def report(name, times):
    ours = times.pop("here")
    told = [f"{name}: {shown(statistics.median(ours))}"]
    for other, theirs in times.items():
        ratio = statistics.median(ours) / statistics.median(theirs)
        each = [mine / other_time for mine, other_time in zip(ours, theirs)]
        told.append(f"{other} {ratio:.2g} ({min(each):.2g} to {max(each):.2g})")
    print("; ".join(told), flush=True)


def chosen(asked, name):
    return not asked.rows or any(words in name for words in asked.rows)


def calls(asked, found):
    print("Calls: our median, and its ratio to each other (least and greatest of a round)")
    for what, mode, count, case in workloads.CALLS:
        name = what if mode == "merge" else f"{mode}: {what}"
        if not chosen(asked, name):
            continue
        line, end = line_of(case), "refused" if what == workloads.REFUSED else "accepted"
        # the timers of those that have no `patch_unsafe` end where a call is refused
        able = [side for side in found if mode in side.modes and (end == "accepted" or "patch_unsafe" in side.modes)]
        # a slow peer makes fewer calls
        some = lambda side: max(1, count // 10) if side.timer[0] == PYTHON else count
        report(name, rounds_of(asked, able, lambda side: call(side, mode, some(side), line, end)))


def programs(asked, found):
    print("Whole programs: reading, patching and writing")
    for name, case in workloads.PROGRAMS:
        if not chosen(asked, name):
            continue
        line, written = line_of(case), []

        def measure(side):
            spent, document = program(side, line)
            written.append(document)
            return spent

        times = rounds_of(asked, found, measure)
        assert all(document == written[0] for document in written), name
        report(name, times)


def sizes(asked, found):
    """In documents of several sizes, the median time of each call, by its name: one replace by each,
    and 100 mixed operations by ours and the Rust crate's."""
    lines = {}

    def timed(name, side, mode, size, count, line):
        some = max(1, count // 20) if side.timer[0] == PYTHON else count
        times = [call(side, mode, some, line) for _ in range(asked.rounds)]
        lines.setdefault(name, []).append((size, statistics.median(times)))

    for size, rows, count in workloads.SIZES:
        line = line_of(workloads.replace_in_the_middle(rows))
        for side in found:
            timed(side.name, side, "patch", size, count, line)
            if "in place" in side.modes:
                timed(f"{side.name}, in place", side, "in place", size, count, line)
    for size, rows, count in workloads.SIZES[1:]:
        line = line_of((workloads.rows(rows), workloads.MIXED))
        for side in found:
            if "patch_unsafe" in side.modes:
                timed(f"{side.name}, 100 mixed", side, "patch", size, max(1, count // 20), line)
    for name, points in lines.items():
        print(f"{name}: " + ", ".join(f"{size} B {shown(spent)}" for size, spent in points))
    return lines


def edits(asked):
    """An edit and its undo: by the editor, and through a copy of the document that is let go."""
    print("The editor: an edit and its undo, and the same edit on a copy of the document")
    for size, rows, count in workloads.SIZES[1::2] + workloads.SIZES[-1:]:
        line, told = line_of(workloads.replace_in_the_middle(rows)), []
        for mode, calls_made in (("editor", 20_000), ("clone", max(1, count // 10))):
            side = Side("here", [asked.calls], {mode: mode}, None)
            times = [call(side, mode, calls_made, line) for _ in range(asked.rounds)]
            told.append(f"{mode} {shown(statistics.median(times))}")
        print(f"{size} B: " + ", ".join(told), flush=True)


def comparisons(asked):
    """`are_apart` on two lists that are."""
    print("Two lists that are apart, compared")
    side = Side("here", [asked.calls], {"apart": "apart"}, None)
    for name, count, lists in workloads.APART:
        line = line_of(lists)
        times = [call(side, "apart", count, line) for _ in range(asked.rounds)]
        print(f"{name}: {shown(statistics.median(times))} ({shown(min(times))} to {shown(max(times))})", flush=True)


def main():
    words = argparse.ArgumentParser()
    words.add_argument("--calls", required=True)
    words.add_argument("--tool", required=True)
    words.add_argument("--rust-calls")
    words.add_argument("--rust-tool")
    words.add_argument("--rounds", type=int, default=7)
    words.add_argument("--rows", nargs="+")
    words.add_argument("--beside", nargs="+", choices=["rust", "nlohmann", "python", "none"])
    words.add_argument("--picture")
    asked = words.parse_args()
    with tempfile.TemporaryDirectory() as folder:
        found = sides(asked, folder)
        calls(asked, found)
        programs(asked, found)
        if asked.rows:
            return
        edits(asked)
        comparisons(asked)
        lines = sizes(asked, found)
        if asked.picture:
            with open(asked.picture, "w", encoding="utf-8") as file:
                file.write(picture.of(lines))


if __name__ == "__main__":
    main()
