#!/usr/bin/env python3
"""Measures how many levels of nesting each call reaches before the stack ends.

    bench/depths.py --ours PROGRAM [--stack MIB] [--rows CALLS..]

PROGRAM is that of bench/depths.rt.txt, which `diff/build FOLDER json_patch_depths bench/depths.rt.txt
json_patch_diff` proves and builds. For each call it prints the most levels at which it returned, with a
stack of 8 MiB, and the bytes that a level takes, by what half the stack reaches. Where a few levels more
ended the process before the call was made, the line says so: the call itself may go deeper."""
import argparse
import resource
import signal
import subprocess

MIB = 1 << 20
MOST = 1 << 22
# near enough: a stack's beginning moves from run to run, and each try of `diff` takes seconds
NEAR = 16
CALLS = ("merge", "diff", "guarded_diff", "copy", "clone", "replace", "drop", "same", "to_string", "is_whole")
# a merge of lists is a clone
SHAPES = {call: ("objects",) if call == "merge" else ("lists", "objects") for call in CALLS}


def limited(stack):
    resource.setrlimit(resource.RLIMIT_STACK, (stack, stack))
    resource.setrlimit(resource.RLIMIT_CORE, (0, 0))


def last_word(program, call, shape, levels, stack):
    """The last word of the program, which comes to its end or to that of the stack."""
    done = subprocess.run(
        [program, call, shape, str(levels)], capture_output=True, text=True, preexec_fn=lambda: limited(stack)
    )
    word = "".join(done.stdout.split()[-1:])
    ended = word == "returned" or done.returncode == -signal.SIGSEGV
    assert ended, f"{call} of {shape}, {levels} levels: {done.returncode} {word} {done.stderr}"
    return word


def reached(program, call, shape, stack):
    """How many levels are reached, and the last word that came with more."""
    low, high, last = 0, None, None
    while high is None or high - low > NEAR:
        levels = (low + high) // 2 if high else max(1024, 2 * low)
        assert levels < MOST, f"{call} of {shape} has no end"
        word = last_word(program, call, shape, levels, stack)
        if word == "returned":
            low = levels
        else:
            high, last = levels, word
    return low, last


def main():
    words = argparse.ArgumentParser(description=__doc__, formatter_class=argparse.RawDescriptionHelpFormatter)
    words.add_argument("--ours", required=True)
    words.add_argument("--stack", type=int, default=8)
    words.add_argument("--rows", nargs="+", choices=CALLS, default=CALLS)
    asked = words.parse_args()
    stack = asked.stack * MIB
    for call in asked.rows:
        for shape in SHAPES[call]:
            levels, last = reached(asked.ours, call, shape, stack)
            fewer, _ = reached(asked.ours, call, shape, stack // 2)
            each = stack // 2 / (levels - fewer)
            before = "" if last == "ready" else ", but the process ended before the call"
            print(f"{call} of {shape}: {levels:,} levels, {each:.0f} bytes a level{before}", flush=True)


if __name__ == "__main__":
    main()
