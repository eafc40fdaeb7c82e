#!/usr/bin/env python3
"""Random pairs of Python's objects: what make_patch makes of the parts outside of which they are equal, against what
the library makes of both as a whole.

    diff/parts.py [--seed S] [--cases N]

c/package has to have built the package, which is called in this process. The pairs are those of
python/tests/test_parts.py, in arrays and objects with much that is equal, within random limits on depth. What is
refused as a whole has to be refused with the same exception, and no other; the patch has to lead from the one to the
other, change nothing outside of the parts, and be the same. The run fails where one of this doesn't hold, and where a
kind of case never came."""
import argparse
import json
import sys
from collections import Counter
from pathlib import Path

TOP = Path(__file__).resolve().parent.parent
sys.path[:0] = [str(TOP / "c/out/python"), str(TOP / "python/tests")]
import json_patch  # noqa: E402
from json_patch import _native  # noqa: E402
from test_parts import LEAVES, NAMES, STAYS, WHOLE, Pairs, are_equal  # noqa: E402

PLAIN = [leaf for leaf in LEAVES if are_equal(leaf, leaf, 0)]
KINDS = ("refused", "equal", "of the whole", "of parts", "of several operations", "otherwise")


def outcome(call):
    """The operations that a call makes, and what it raises, of which one is None."""
    try:
        return list(call()), None
    except Exception as error:
        return None, (type(error), str(error), vars(error))


def pair_of(pairs):
    """A pair that stands as deep as it may in what is equal otherwise."""
    src, dst = pairs.next()
    for _ in range(pairs.chance.randrange(4)):
        name = pairs.chance.choice(["rows", "a/b", "~", '"', "é" * 9, "x" * 40])
        stays = pairs.value(2), STAYS
        src, dst = ([*stays, src], [*stays, dst]) if pairs.chance.random() < 0.5 else ({"s": stays[0], name: src}, {"s": stays[0], name: dst})
    return src, dst


def text_of(document):
    return json.dumps(document, sort_keys=True, default=json_patch.JsonPatch.json_dumper)


def faults(src, dst, given, counts):
    wanted, wanted_error = outcome(lambda: json_patch.make_patch(src, dst, **given, **WHOLE))
    made, error = outcome(lambda: json_patch.make_patch(src, dst, **given))
    if error != wanted_error:
        yield f"{error}, and not {wanted_error}"
    if error or wanted_error:
        counts["refused"] += 1
        return
    way = _native.differs_at(src, dst, given["limits"].depth)
    counts["equal" if way is None else "of parts" if way else "of the whole"] += 1
    counts["of several operations"] += len(made) > 1
    if text_of(made) != text_of(wanted):
        counts["otherwise"] += 1
        yield f"{made}, and not {wanted}"
    path = json_patch.JsonPointer.from_parts(way or []).path
    if not all(change["path"] == path or change["path"].startswith(path + "/") for change in made):
        yield f"{made}, which changes more than {path}"
    limits = json_patch.Limits(given["limits"].depth, 2**63)
    if list(json_patch.make_patch(json_patch.apply_patch(src, made, limits=limits), dst, **WHOLE)):
        yield f"{made} doesn't lead there"


def main():
    words = argparse.ArgumentParser()
    words.add_argument("--seed", type=int, default=1)
    words.add_argument("--cases", type=int, default=2_000)
    asked = words.parse_args()
    odd, plain = Pairs(asked.seed, LEAVES, NAMES), Pairs(asked.seed, PLAIN, NAMES[:7])
    counts, wrong = Counter(), []
    for number in range(asked.cases):
        pairs = plain if number % 4 else odd
        src, dst = pair_of(pairs)
        depth = pairs.chance.choice([*[124] * 12, *range(12)])
        given = {"limits": json_patch.Limits(depth=depth), "guarded": pairs.chance.random() < 0.3}
        wrong += [f"{src!r}, {dst!r}, {given}: {line}" for line in faults(src, dst, given, counts)]
    wrong += [f"no case is {kind}" for kind in KINDS[:-1] if not counts[kind]]
    for line in sorted(wrong, key=len)[:5]:
        print(f"WRONG: {line}")
    said = ", ".join(f"{counts[kind]} {kind}" for kind in KINDS)
    print(f"diff/parts.py: seed {asked.seed}, {asked.cases} pairs: {said}; {len(wrong)} wrong")
    return 1 if wrong else 0


if __name__ == "__main__":
    sys.exit(main())
