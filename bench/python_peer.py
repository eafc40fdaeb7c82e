"""Times the calls of Python's jsonpatch as bench/driver.rt.txt times those here: its arguments are
`MODE COUNT`, its input is `[document,patch]`, and it prints the nanoseconds of one call. The modes are
`patch`, which answers a new document, and `inplace`, which leaves a refused patch part-way and works
on a fresh copy, whose making isn't counted, or as `again` on the same; and `texts` and `kept` of bench/c_calls.c, in place too. For `diff`
and `same` the input is two documents: it prints what bench/differences.rt.txt prints, and for `make` the time alone."""
import copy
import json
import sys
import time

import jsonpatch

mode, count = sys.argv[1], int(sys.argv[2])
document, operations = json.load(sys.stdin)


def from_texts():
    document_text, patch_text = json.dumps(document), json.dumps(operations)
    start = time.perf_counter_ns()
    for _ in range(count):
        work = document if mode == "kept" else json.loads(document_text)
        made = jsonpatch.JsonPatch.from_string(patch_text).apply(work, in_place=True)
        if mode == "texts":
            json.dumps(made)
    return time.perf_counter_ns() - start


def differences(before, after):
    """The nanoseconds of one call, and how many operations and bytes the patch has."""
    start = time.perf_counter_ns()
    for _ in range(count):
        made = jsonpatch.make_patch(before, after)
    spent = (time.perf_counter_ns() - start) // count
    if made.apply(before) != after:
        return ""
    written = json.dumps(made.patch, ensure_ascii=False, separators=(",", ":"))
    return f"{spent} {len(made.patch)} {len(written.encode())}"


def comparisons(before, after):
    """The nanoseconds of one comparison, and how often the two were equal."""
    start = time.perf_counter_ns()
    equal = sum(before == after for _ in range(count))
    return f"{(time.perf_counter_ns() - start) // count} {equal}"


if mode in ("diff", "same"):
    print({"diff": differences, "same": comparisons}[mode](document, operations))
    sys.exit()
if mode == "make":
    print(differences(document, operations).split()[0])
    sys.exit()

if mode in ("texts", "kept"):
    print(from_texts() // count)
    sys.exit()

changes = jsonpatch.JsonPatch(operations)
spent = 0
for _ in range(count):
    work = copy.deepcopy(document) if mode == "inplace" else document
    start = time.perf_counter_ns()
    changes.apply(work, in_place=mode in ("inplace", "again"))
    spent += time.perf_counter_ns() - start
print(spent // count)
