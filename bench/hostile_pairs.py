#!/usr/bin/env python3
"""Times the patch between two documents that are meant to take long, from text to text.

    bench/hostile_pairs.py --ours PROGRAM

PROGRAM is that of diff/differences.rt.txt, as diff/differences.py says. Each pair is handed in as one line,
once for each of `diff`, `guarded_diff` and `moving_diff`. Those for `merge_diff` and `merge_both` come in
several sizes, so that twice the size shows to take twice the time, and the least of three times is told.
Processor time, so that other work beside counts little; reading and writing are in it, and the merge with
what was made."""
import argparse
import json
import random
import resource
import subprocess

TABLE = 4096  # of two arrays with as many elements all pairs of elements are looked at, and then of no others
LARGE = 100_000


def nested(levels, value):
    for _ in range(levels):
        value = [value]
    return value


def nested_objects(levels, value):
    for _ in range(levels):
        value = {f"m{number}": "x" * 70 for number in range(100)} | {"n": value}
    return value


def rows(numbers):
    return [{"row": number, "text": "x" * 20} for number in numbers]


def members(letter, value, count=LARGE):
    return {f"{letter}{number}": value(number) for number in range(count)}


def pairs(chance):
    two = lambda count: [chance.randrange(2) for _ in range(count)]
    others = lambda count: ([*range(count)], [-1 - number for number in range(count)])
    yield "two arrays of 4,096, all different", others(TABLE)
    yield "two arrays of 4,097, all different", others(TABLE + 1)
    for count in (4, 16, 64):
        yield f"{count} times two arrays of 4,096, all different", tuple({f"{n:02}": one for n in range(count)} for one in others(TABLE))
    yield "two arrays of 100,000, all different", others(LARGE)
    yield "two arrays of 100,000, equal but the last", ([*range(LARGE)], [*range(LARGE - 1), "x"])
    yield "two arrays of 4,096 of two values, shuffled", (two(TABLE), two(TABLE))
    yield "two arrays of 100,000 of two values, shuffled", (two(LARGE), two(LARGE))
    yield "an array of 4,096 rows, reversed", (rows(range(TABLE)), rows(reversed(range(TABLE))))
    yield "two objects of 100,000 members, all different", (members("a", lambda i: i), members("b", lambda i: -i))
    yield "an object of 100,000 members, all renamed", tuple(members(letter, lambda i: {"number": i, "text": "x" * 10}) for letter in "ab")
    yield "two objects of 100,000 members, one more in one", (members("a", lambda i: i), members("a", lambda i: i) | {"b": 1})
    yield "120 levels of objects, of 100 members each, the bottom differs", tuple(nested_objects(120, bottom) for bottom in (1, 2))
    yield "120 levels of arrays, the bottom differs", (nested(120, [*range(10_000)]), nested(120, [*range(9_999), 1]))


def merge_pairs():
    """Pairs for `merge` and `both`, each with how what is said of it begins."""
    for count in (LARGE // 2, LARGE, 2 * LARGE):
        numbers = members("a", lambda i: i, count)
        yield f"two objects of {count:,} members, all different", (numbers, members("b", lambda i: -i, count)), "ok "
        yield f"two objects of {count:,} members, one more in one", (numbers, numbers | {"b": 1}), "ok "
        yield f"two arrays of {count:,} numbers, the last differs", ([*range(count)], [*range(count - 1), "x"]), "ok "
    for levels in (30, 60, 120):
        what = f"{levels} levels of objects, of 100 members each"
        yield f"{what}, the bottom differs", tuple(nested_objects(levels, bottom) for bottom in (1, 2)), "ok "
        # no merge patch makes a null, and none makes an object anew where a number was set
        yield f"{what}, and none serves", tuple(nested_objects(levels, bottom) for bottom in (1, {"x": None})), "none"


def processor_time():
    """That of the programs that have ended."""
    usage = resource.getrusage(resource.RUSAGE_CHILDREN)
    return usage.ru_utime + usage.ru_stime


def spent(program, mode, line, begins="ok "):
    before = processor_time()
    said = subprocess.run([program, mode], input=line, capture_output=True, check=True).stdout
    assert said.startswith(begins.encode()), f"{mode} says {said[:20]}"
    return processor_time() - before


def tell(program, modes, rounds, name, pair, begins="ok "):
    line = (json.dumps(pair) + "\n").encode()
    least = lambda mode: min(spent(program, mode, line, begins) for _ in range(rounds))
    times = ", ".join(f"{mode} {least(mode):.3f} s" for mode in modes)
    print(f"{name}, {len(line):,} bytes: {times}", flush=True)


def main():
    words = argparse.ArgumentParser(description=__doc__, formatter_class=argparse.RawDescriptionHelpFormatter)
    words.add_argument("--ours", required=True)
    program = words.parse_args().ours
    for case in pairs(random.Random(5)):
        tell(program, ("diff", "guarded", "moving"), 1, *case)
    for case in merge_pairs():
        tell(program, ("merge", "both"), 3, *case)


if __name__ == "__main__":
    main()
