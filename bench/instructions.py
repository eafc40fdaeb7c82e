#!/usr/bin/env python3
"""Counts the instructions of one call of the library for C on a text of some 1 MB, by callgrind: those of a process
that makes the call twice, less those of one that makes it once.

    bench/instructions.py

c/build has to have built the library; it wants cc and valgrind. For each text, and for rows each call, it prints the
instructions for each byte of the text."""
import json
import re
import subprocess
import tempfile

import from_c
import workloads

ROWS = 14_500
COMPACT, SPACED, INDENTED = {"separators": (",", ":")}, {}, {"indent": 2}


def replace(path, value=7):
    return [{"op": "replace", "path": path, "value": value}]


def calls():
    """What each row of the table is called, the mode of c_calls, the document, how it is written, and the patch."""
    rows, middle = workloads.rows(ROWS), replace(f"/rows/{ROWS // 2}/name")
    yield "one replace in the middle of rows", "texts", rows, COMPACT, middle
    yield "one in the last row", "texts", rows, COMPACT, replace(f"/rows/{ROWS - 1}/name")
    middle_row, end = f"/rows/{ROWS // 2}", {"op": "add", "path": "/rows/-", "value": 7}
    yield "one remove", "texts", rows, COMPACT, [{"op": "remove", "path": middle_row}]
    yield "one add in the middle", "texts", rows, COMPACT, [{**end, "path": middle_row}]
    yield "one add at the end", "texts", rows, COMPACT, [end]
    yield "one move", "texts", rows, COMPACT, [{"op": "move", "from": middle_row, "path": "/rows/0"}]
    yield "a replace and an add", "texts", rows, COMPACT, [*middle, end]
    yield "100 mixed operations", "texts", rows, COMPACT, list(workloads.mixed(17, ROWS // 2))[:100]
    yield "a merge of one member", "merge", rows, COMPACT, {"new": 7}
    yield "one replace, the rows with spaces", "texts", rows, SPACED, middle
    yield "with two spaces of indentation", "texts", rows, INDENTED, middle
    yield "whole numbers", "texts", list(range(145_000)), COMPACT, replace("/72500")
    yield "pairs of other numbers", "texts", [[i / 7, -i * 1e-9] for i in range(26_000)], COMPACT, replace("/13000/1")
    yield "members", "texts", {f"a member {i:05}": "ten letter" for i in range(33_000)}, COMPACT, replace("/a member 16500")
    yield "long strings", "texts", ["some words, and more " * 75] * 680, COMPACT, replace("/340")


def instructions(program, mode, times, given):
    counted = subprocess.run(
        ["valgrind", "--tool=callgrind", "--callgrind-out-file=/dev/null", program, mode, str(times), "accepted"],
        input=given, capture_output=True, text=True, check=True,
    )
    assert counted.stdout.strip() != "0", "refused"
    return int(re.search(r"refs: +([\d,]+)", counted.stderr)[1].replace(",", ""))


def main():
    with tempfile.TemporaryDirectory() as folder:
        program = from_c.compiled(folder)
        for name, mode, document, style, patch in calls():
            text = json.dumps(document, **style)
            given = f"[{text},{json.dumps(patch)}]"
            once, twice = (instructions(program, mode, times, given) for times in (1, 2))
            print(f"{name}: {(twice - once) / len(text):.1f} a byte of {len(text):,}", flush=True)


if __name__ == "__main__":
    main()
