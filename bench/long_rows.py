#!/usr/bin/env python3
"""Times as many changes of one long array or object as it has elements or members, in one call of the library for C on
its text.

    bench/long_rows.py [--least N] [--most N] [--calls N]

c/build has to have built the library, which is called in this process. For each kind of change and each place it
prints the processor's microseconds of a call, the least of `--calls` (3), by its operations: with the reading of both
texts, and the opening of the array or object. A move goes to a random place, or to another name; a merge removes each
member."""
import argparse
import json
import random
import sys
import time
from pathlib import Path

sys.path.append(str(Path(__file__).resolve().parent.parent / "diff"))
import library  # noqa: E402

SIZES = (1_000, 10_000, 100_000, 1_000_000)
PLACES = {
    "front": lambda rest, rand: 0,
    "middle": lambda rest, rand: rest // 2,
    "random": lambda rest, rand: rand.randrange(max(rest, 1)),
}


def removes(place, count, rand):
    return [{"op": "remove", "path": f"/{place(count - i, rand)}"} for i in range(count)]


def inserts(place, count, rand):
    return [{"op": "add", "path": f"/{place(count + i, rand)}", "value": i} for i in range(count)]


def moves(place, count, rand):
    return [{"op": "move", "from": f"/{place(count, rand)}", "path": f"/{rand.randrange(count)}"} for _ in range(count)]


def names(count, rand):
    """Those of an object, in a random order."""
    return rand.sample([f"member {i:07}" for i in range(count)], count)


def cases(count, rand):
    """Each kind of change, the call, its array or object, and its patch."""
    array = list(range(count))
    for kind, made in (("removes", removes), ("inserts", inserts), ("moves", moves)):
        for name, place in PLACES.items():
            yield f"{kind}, {name}", "apply", array, made(place, count, rand)
    order = names(count, rand)
    members = {name: 0 for name in sorted(order)}
    yield "removes by name", "apply", members, [{"op": "remove", "path": f"/{name}"} for name in order]
    yield "adds by name", "apply", members, [{"op": "add", "path": f"/new {name}", "value": 1} for name in order]
    yield "moves by name", "apply", members, [{"op": "move", "from": f"/{name}", "path": f"/new {name}"} for name in order]
    yield "a merge", "merge", members, {name: None for name in order}


def spent(call, row, patch, left):
    """The processor's seconds of one call, which is given no room for the text, of so many bytes."""
    texts = [json.dumps(it, separators=(",", ":")).encode() for it in (row, patch)]
    given, report = [part for text in texts for part in (text, len(text))], library.Report()
    begun = time.process_time()
    status = library.CALLS[call](*given, None, None, 0, report)
    took = time.process_time() - begun
    assert status == library.NO_ROOM and left in (None, report.size), (status, report.size)
    return took


def main():
    words = argparse.ArgumentParser(description=__doc__, formatter_class=argparse.RawDescriptionHelpFormatter)
    words.add_argument("--least", type=int, default=1_000)
    words.add_argument("--most", type=int, default=100_000)
    words.add_argument("--calls", type=int, default=3)
    asked = words.parse_args()
    rand = random.Random(1)
    for count in (size for size in SIZES if asked.least <= size <= asked.most):
        for name, call, row, patch in cases(count, rand):
            left = 2 if name.startswith("removes") or call == "merge" else None
            took = min(spent(call, row, patch, left) for _ in range(asked.calls))
            print(f"{count:,}: {name}: {took / count * 1e6:.2f} µs", flush=True)


if __name__ == "__main__":
    main()
