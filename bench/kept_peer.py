#!/usr/bin/env python3
"""What bench/kept.c times of a document of some rows that is kept, by Python's jsonpatch, in place: the object is read
by json, and stays. A patch that is refused leaves it part-way. With the same rows, in the same random places, and by
the text of a patch for each change.

    bench/kept_peer.py [ROWS]

Times are the processor's, memory is what the process has beyond the text."""
import json
import os
import random
import sys
import time

import jsonpatch

TIMES, MANY = 1_000, 1_000_000
REPLACE = '[{"op":"replace","path":"/rows/%d/price","value":%d}]'
CHANGES = '[{"op":"remove","path":"/rows/%d"},{"op":"add","path":"/rows/%d","value":7}]'
REFUSED = CHANGES[:-1] + ',{"op":"test","path":"/rows/0","value":8}]'


def kilobytes():
    with open("/proc/self/statm", encoding="ascii") as file:
        return int(file.read().split()[1]) * os.sysconf("SC_PAGE_SIZE") // 1024


def tell(what, begun, times=1):
    print(f"{what:40} {(time.process_time() - begun) / times * 1e6:10.1f} us", flush=True)


def changed(document, form, numbers):
    """Whether the patch is made."""
    try:
        jsonpatch.JsonPatch.from_string(form % numbers).apply(document, in_place=True)
    except jsonpatch.JsonPatchTestFailed:
        return False
    return True


def changes(what, document, form, times, is_made=True):
    begun, last = time.process_time(), len(document["rows"]) - 1
    for _ in range(times):
        if changed(document, form, (random.randrange(last), random.randrange(last))) != is_made:
            sys.exit(f"{form} came to something else")
    tell(what, begun, times)


def main():
    rows = int(sys.argv[1]) if len(sys.argv) > 1 else 145_000
    random.seed(1)
    parts = ('{"id": %d, "name": "row %d", "price": %d.50, "tags": [1, 2]}' % (i, i, i % 1_000) for i in range(rows))
    text = '{"rows": [' + ", ".join(parts) + "]}"
    before, begun = kilobytes(), time.process_time()
    document = json.loads(text)
    tell("open", begun)
    print(f"{len(text)} bytes of text, {kilobytes() - before} kB")
    changes("the first replace", document, REPLACE, 1)
    changes("a replace", document, REPLACE, TIMES)
    changes("a replace, of 1,000,000", document, REPLACE, MANY)
    print(f"{kilobytes() - before} kB")
    changes("a remove and an add", document, CHANGES, TIMES)
    changes("a remove and an add, refused by a test", document, REFUSED, TIMES, is_made=False)
    begun = time.process_time()
    json.dumps(document)
    tell("the text", begun)
    begun = time.process_time()
    del document
    tell("close", begun)


if __name__ == "__main__":
    main()
