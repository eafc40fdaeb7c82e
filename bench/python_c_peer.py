"""Times the calls of the package in python/ as bench/c_calls.c times those of json_patch.h, and in the modes `inplace`,
`again`, `patch` and `make` what bench/python_peer.py times."""
import copy
import json
import sys
import time
from pathlib import Path

TOP = Path(__file__).resolve().parent.parent
sys.path.append(str(TOP / "c/out/python"))
import json_patch  # noqa: E402

mode, count = sys.argv[1], int(sys.argv[2])
given = json.load(sys.stdin)
if mode in ("inplace", "again", "patch"):
    changes, spent = json_patch.JsonPatch(given[1]), 0
    for _ in range(count):
        work = copy.deepcopy(given[0]) if mode == "inplace" else given[0]
        start = time.perf_counter_ns()
        changes.apply(work, in_place=mode != "patch")
        spent += time.perf_counter_ns() - start
    print(spent // count)
    sys.exit()
if mode == "make":
    start = time.perf_counter_ns()
    for _ in range(count):
        json_patch.make_patch(*given)
    print((time.perf_counter_ns() - start) // count)
    sys.exit()

document, patch = (json.dumps(value, separators=(",", ":")).encode() for value in given)
with json_patch.Document.from_string(document) as kept:
    start = time.perf_counter_ns()
    for _ in range(count):
        if mode == "kept":
            kept.apply(patch)
        else:
            json_patch.apply_text(document, patch)
    print((time.perf_counter_ns() - start) // count)
