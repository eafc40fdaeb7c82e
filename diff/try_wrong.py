#!/usr/bin/env python3
"""Asks that diff/run.py and diff/apart.py pass a driver that is right, and find out each that is wrong
in one way (diff/wrong_driver.py), by each comparison that has to see it; and that the tables find each
fault of the model (diff/try_model.py). It takes a minute and a half, and half a minute with programs.

    diff/try_wrong.py [--seed S] [--cases N] [--ours PROGRAM] [--rust PROGRAM]

The answers that are spoilt are those of the program that `--ours` names, else of diff/model.py. The
other implementation is the program that `--rust` names; else the model, which is right, and then a
driver that loses the value of a refused move, as the Rust crate does.
"""
import argparse
import itertools
import os
import sys

import apart
import classes
import run
import tables
import try_model
from model import Model

WRONG = os.path.join(run.HERE, "wrong_driver.py")
MODEL, TWIN, OTHER = run.MODEL, run.PATCH_HERE, classes.RUST
LOSES = "a refused move loses its value, in patch too"

# What is wrong with the driver, and the comparisons that have to fail. Where the other loses values
# too, the model alone tells that they are lost.
RECORDED = {(MODEL, "record"), (TWIN, "record"), (OTHER, "record")}
JUDGED = {(MODEL, mode) for mode in ("patch", "unsafe", "record")}
TRIALS = [
    ("none", set()),
    ("records_nothing", RECORDED),
    ("forgets_inverse", {(OTHER, "inverse")}),
    ("refuses_all", RECORDED | {(OTHER, "inverse")}),
    ("leaves_null", JUDGED | {(OTHER, mode) for mode in ("patch", "unsafe", "record")}),
    ("loses_value", JUDGED),
]
# The same for diff/apart.py.
PAIR_TRIALS = [
    ("none", set()),
    ("all_apart", {apart.DEFINITION, TWIN, OTHER}),
    ("none_apart", {apart.DEFINITION, "all"}),
]


class WrongModel(Model):
    """It removes a value before it looks for the place to move it to."""

    def moved(self, document, source, target):
        value = self.source(document, source)
        return self.added(self.removed(document, source), target, value)


def driver(fault, program):
    return [sys.executable, WRONG, fault, *program]


def tried(asked, fault, failing, other):
    """What is wrong with the trial."""
    ours = driver(fault, [asked.ours] if asked.ours else [])
    tally = run.compared(asked.seed, asked.cases, None, ours, [run.rust_peer(other)])
    found = set(tally.faults())
    if not failing and found:
        return f"not passed: {found}"
    if failing - found:
        return f"not found out by {failing - found}"
    if not failing and "none" not in other and not tally.classes[OTHER, "patch", LOSES]:
        return "no case in which the other loses a value"
    return None


def tried_on_pairs(asked, fault, failing, other):
    """The same of a trial of diff/apart.py."""
    ours = driver(fault, [asked.ours] if asked.ours else [])
    found = set(apart.compared(asked.seed, asked.cases, ours, [apart.here(ours), apart.rust(other)]).faults())
    return None if found == failing else f"found out by {found}"


def nothing_compared():
    """What is wrong with runs in which nothing is compared."""
    other = run.rust_peer(driver("none", []))
    for count, others in ((0, [other]), (10, [])):
        if not run.compared(1, count, None, driver("none", []), others).faults():
            yield f"{count} cases, {len(others)} others: passed"


def main():
    words = argparse.ArgumentParser()
    words.add_argument("--seed", type=int, default=1)
    words.add_argument("--cases", type=int, default=1_000)
    words.add_argument("--ours")
    words.add_argument("--rust")
    asked = words.parse_args()
    wrong = [*tables.faults(), *try_model.unseen()]
    if not tables.faults(WrongModel()):
        wrong.append("the tables find no fault in a model that is wrong")
    others = [[asked.rust]] if asked.rust else [driver("none", []), driver("loses_value", [])]
    trials = [(tried, *trial) for trial in TRIALS] + [(tried_on_pairs, *trial) for trial in PAIR_TRIALS]
    for other, (trial, fault, failing) in itertools.product(others, trials):
        why = trial(asked, fault, failing, other)
        told = f"{fault}, the other {os.path.basename(other[-1])}"
        print(f"{told}: {why or ('found out' if failing else 'passed')}")
        wrong += [f"{told}: {why}"] if why else []
    wrong += nothing_compared()
    for line in wrong:
        print(f"WRONG: {line}")
    sys.exit(1 if wrong else 0)


if __name__ == "__main__":
    main()
