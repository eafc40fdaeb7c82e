#!/usr/bin/env python3
"""Times one operation or two on 1 MB of rows, by one call of the library for C on the text, and by a text that is opened,
changed, written and closed, which goes in pieces.

    bench/few.py [--rounds N]

c/build has to have built the library, which is called in this process. For rows in one object, and below 115, and for
each operation it prints the processor's milliseconds, the least of `--rounds` (15), and by how much that is the time of
a `replace` by one call."""
import argparse
import json
import sys
import time
from pathlib import Path

import workloads

sys.path.append(str(Path(__file__).resolve().parent.parent / "diff"))
import library  # noqa: E402
from library import KEPT, OK, Handle, Report  # noqa: E402

ROWS = 14_500


def patches(way):
    middle, other = f"{way}/rows/{ROWS // 2}", f"{way}/rows/{ROWS // 3}"
    replace = {"op": "replace", "path": f"{middle}/name", "value": "c"}
    add = {"op": "add", "path": f"{way}/rows/-", "value": "c"}
    return {
        "replace": [replace],
        "remove": [{"op": "remove", "path": middle}],
        "add": [add],
        "add in the middle": [{**add, "path": middle}],
        "copy": [{"op": "copy", "from": f"{middle}/name", "path": f"{other}/title"}],
        "move": [{"op": "move", "from": f"{middle}/name", "path": f"{other}/label"}],
        "replace and add": [replace, add],
        "two adds": [{**add, "path": middle}, add],
    }


def on_text(document, patch, out):
    assert library.CALLS["apply"](document, len(document), patch, len(patch), None, out, len(out), Report()) == OK


def kept(document, patch, out):
    handle = Handle()
    assert KEPT["open"](handle, document, len(document), None, Report()) == OK
    assert KEPT["update"](handle, patch, len(patch), out, len(out), Report()) == OK
    assert KEPT["text"](handle, out, len(out), Report()) == OK
    KEPT["close"](handle)


def least(rounds, call, *given):
    took = []
    for _ in range(rounds):
        begun = time.process_time()
        call(*given)
        took.append(time.process_time() - begun)
    return min(took)


def main():
    words = argparse.ArgumentParser(description=__doc__, formatter_class=argparse.RawDescriptionHelpFormatter)
    words.add_argument("--rounds", type=int, default=15)
    rounds = words.parse_args().rounds
    for levels in (1, 115):
        document = workloads.rows(ROWS)
        for _ in range(levels - 1):
            document = {"next": document}
        text = json.dumps(document, separators=(",", ":")).encode()
        out, one = library.ctypes.create_string_buffer(len(text) + 1_000), None
        for name, operations in patches("/next" * (levels - 1)).items():
            patch = json.dumps(operations).encode()
            took = [least(rounds, call, text, patch, out) for call in (on_text, kept)]
            one = one or took[0]
            told = ", ".join(f"{seconds * 1e3:.2f} ms ({seconds / one:.1f})" for seconds in took)
            print(f"{name} below {levels}: {told} kept", flush=True)


if __name__ == "__main__":
    main()
