#!/usr/bin/env python3
"""Random pairs of lists, and what follows where `are_apart` says that they are apart.

    diff/apart.py [--seed S] [--pairs N] --ours PROGRAM --rust PROGRAM

The programs are those of diff/run.py. What `are_apart` answers has to be what diff/model.py answers by
the definition. Of each pair that is apart, the two lists and both orders in which they are joined are
run on one document, by `patch` here and by the Rust crate: where both lists are accepted, both orders
have to lead to one end; else a joined list has to be refused where and as its first list is, or its
second, counted on from the first. The crate's `patch_unsafe` is asked, since its `patch` may panic
where it undoes what a refused list made (docs/FINDINGS.md). The run fails where an answer is another,
and where nothing was compared.
"""
import argparse
import sys
from collections import Counter

import classes
from cases import Cases
from model import Model
from run import BATCH, PATCH_HERE, answers, meaning, text

DEFINITION = "the definition"
# how often a list is written to make a longer one
MANY = 20


class Orders:
    """How one implementation answers pairs that are apart."""

    def __init__(self, name, command, mode):
        self.name, self.command, self.mode = name, command, mode

    def faults(self, triples):
        """Each triple of a document and two lists on which the orders disagree, with the answers; and
        of how many pairs both lists, one or none were accepted."""
        lists = [[d, ops] for d, xs, ys in triples for ops in (xs, ys, xs + ys, ys + xs)]
        told = list(map(meaning, answers([*self.command, self.mode], list(map(text, lists)))))
        wrong, accepted = [], Counter()
        for place, triple in enumerate(triples):
            four = told[4 * place : 4 * place + 4]
            accepted[sum(answer[0] == "ok" for answer in four[:2])] += 1
            if not agree(triple, four):
                wrong.append((triple, four))
        return wrong, accepted


def agree(triple, four):
    """Whether the joined lists are answered as each list alone says."""
    _, xs, ys = triple
    x, y, xy, yx = four
    if x[0] == "ok" == y[0]:
        return xy[0] == "ok" and classes.alike(xy, yx)
    return joined(x, y, len(xs)) == xy[:4] and joined(y, x, len(ys)) == yx[:4]


def joined(first, second, count):
    """The refusal of a joined list, where the first part has so many operations."""
    if first[0] == "refused":
        return first[:4]
    word, number, *told = second
    return (word, count + number, *told[:2])


class Tally:
    def __init__(self, names):
        self.pairs = self.apart = 0
        self.wrong = {name: [] for name in (DEFINITION, *names)}
        self.accepted = {name: Counter() for name in names}

    def faults(self):
        """The comparisons that failed, each with why."""
        found = {name: f"{len(wrong)} wrong" for name, wrong in self.wrong.items() if wrong}
        if not self.apart or len(self.accepted) < 2:
            found["all"] = "nothing was compared"
        return found

    def report(self):
        share = 100 * self.apart / max(self.pairs, 1)
        print(f"{self.pairs} pairs, {self.apart} apart: {share:.1f} in 100")
        for name, counts in self.accepted.items():
            both, one, none = (counts[number] for number in (2, 1, 0))
            print(f"{name}: of {both} pairs both lists are accepted, of {one} one, of {none} none")
        for name, wrong in self.wrong.items():
            if wrong:
                smallest = min(wrong, key=lambda found: len(text(found[0])))
                print(f"WRONG: {name}: {len(wrong)}, the smallest {text(smallest[0])}: {smallest[1]}")
        if "all" in self.faults():
            print("WRONG: nothing was compared")


def compared(seed, count, ours, all_orders):
    """The tally of that many pairs."""
    cases, model = Cases(seed), Model()
    tally = Tally([orders.name for orders in all_orders])
    while tally.pairs < count:
        triples = [cases.pair_case() for _ in range(min(BATCH, count - tally.pairs))]
        told = answers([*ours, "apart"], [text([xs, ys]) for _, xs, ys in triples])
        # the same of longer lists, which are compared by a filter
        longer = answers([*ours, "apart"], [text([MANY * xs, MANY * ys]) for _, xs, ys in triples])
        for triple, said in [*zip(triples, map(meaning, told)), *zip(triples, map(meaning, longer))]:
            if said != ("ok", model.are_apart(*triple[1:])):
                tally.wrong[DEFINITION].append((triple, said))
        apart = [triple for triple, said in zip(triples, map(meaning, told)) if said == ("ok", True)]
        tally.pairs += len(triples)
        tally.apart += len(apart)
        for orders in all_orders:
            wrong, accepted = orders.faults(apart)
            tally.wrong[orders.name] += wrong
            tally.accepted[orders.name] += accepted
    return tally


def here(command):
    return Orders(PATCH_HERE, command, "patch")


def rust(command):
    return Orders(classes.RUST, command, "unsafe")


def main():
    words = argparse.ArgumentParser()
    words.add_argument("--seed", type=int, default=1)
    words.add_argument("--pairs", type=int, default=2_000)
    words.add_argument("--ours", required=True)
    words.add_argument("--rust", required=True)
    asked = words.parse_args()
    tally = compared(asked.seed, asked.pairs, [asked.ours], [here([asked.ours]), rust([asked.rust])])
    tally.report()
    sys.exit(1 if tally.faults() else 0)


if __name__ == "__main__":
    main()
