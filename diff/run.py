#!/usr/bin/env python3
"""Random cases, answered by the crates here and by others, and compared.

    diff/run.py [--seed S] [--cases N] [--others N] --ours PROGRAM [--modes MODE,..] [--rust PROGRAM]

`--ours` is the program of diff/driver.rt.txt, built by diff/build, or diff/c_peer.py, which calls
the library for C and has the modes patch, record and merge, of which `--modes` needs the first two;
`--others` how many cases the peers get that aren't the Rust crate; `--rust` a program round the Rust crate
json-patch 5.0.0 that answers lines as that driver does (diff/rust/main.rs). nlohmann/json
(Debian's nlohmann-json3-dev, with g++) and Python's jsonpatch (Debian's python3-jsonpatch) are
taken where they are installed.

Each answer here, and what it leaves of the document, has to be that of diff/model.py, which is held
against the tables of cases first. A recorded list is held against `patch` here and against `patch` of
the others. What its inverse leads back to is asked of the others, not of the crates here. Each
disagreement is put into a class of diff/classes.py. The run fails where one has no class, and where
nothing was compared: each line of the report counts one comparison.
"""
import argparse
import json
import os
import shutil
import subprocess
import sys
import tempfile
from collections import Counter

import classes
import tables
from cases import Cases
from model import Model

HERE = os.path.dirname(os.path.abspath(__file__))
BATCH = 20_000
MODES = ("patch", "unsafe", "record", "merge")
MODEL, PATCH_HERE = "diff/model.py", "patch here"


def text(value):
    return json.dumps(value, ensure_ascii=False, separators=(",", ":"))


def answers(command, lines):
    """The line that a program answers for each line."""
    sent = "".join(line + "\n" for line in lines)
    done = subprocess.run(command, input=sent.encode(), capture_output=True)
    said = done.stdout.decode().split("\n")[:-1]
    if done.returncode or len(said) != len(lines):
        told = f"status {done.returncode}, {len(said)} answers to {len(lines)} cases"
        sys.exit(f"{' '.join(command)}: {told}\n{done.stderr.decode()[-500:]}")
    return said


def meaning(line):
    """An answer with its documents as values, so that the order of members is none of it."""
    word, _, rest = line.partition(" ")
    if word == "ok":
        return ("ok", json.loads(rest))
    if word != "refused":
        return tuple(line.split(" "))
    number, _, rest = rest.partition(" ")
    if not rest:
        return ("refused", int(number))
    path, end = json.JSONDecoder().raw_decode(rest)
    kind, _, left = rest[end + 1 :].partition(" ")
    told = ("refused", int(number), path, kind)
    return told + (json.loads(left),) if left else told


class Peer:
    """Another implementation: how it is called, and how much of an answer it tells."""

    def __init__(self, name, command, modes, tells):
        self.name, self.command, self.modes, self.tells = name, command, modes, tells

    def agrees(self, ours, theirs):
        if ours[0] == "refused" and theirs[0] == "refused":
            return classes.alike(ours[1 : 1 + self.tells], theirs[1 : 1 + self.tells])
        return classes.alike(ours, theirs)


# The model, and `patch` here, to which a recorded list is held: each tells a whole answer.
JUDGE = Peer(MODEL, [], (), 4)
TWIN = Peer(PATCH_HERE, [], (), 4)


def rust_peer(command):
    return Peer(classes.RUST, command, ("patch", "unsafe", "merge"), 4)


def peers(rust, folder):
    found = []
    if rust:
        found.append(rust_peer([rust]))
    if shutil.which("g++") and os.path.isdir("/usr/include/nlohmann"):
        program = os.path.join(folder, "nlohmann")
        source = os.path.join(HERE, "nlohmann.cpp")
        subprocess.run(["g++", "-O2", "-w", "-std=c++17", "-o", program, source], check=True)
        found.append(Peer(classes.NLOHMANN, [program], ("patch", "merge"), 1))
    python = ["/usr/bin/python3", os.path.join(HERE, "python_peer.py")]
    if subprocess.run([python[0], "-c", "import jsonpatch"], capture_output=True).returncode == 0:
        found.append(Peer(classes.PYTHON, python, ("patch",), 1))
    return found


class Tally:
    """How many cases were compared, and the disagreements by class with the smallest case of each."""

    def __init__(self):
        self.compared = Counter()
        self.classes = Counter()
        self.smallest = {}

    def compare(self, peer, mode, cases, ours, theirs):
        self.compared[peer.name, mode] += len(cases)
        for case, mine, other in zip(cases, ours, theirs):
            if not peer.agrees(mine, other):
                self.disagree(peer.name, mode, case, mine, other)

    def disagree(self, peer, mode, case, ours, theirs):
        name = classes.of(peer, mode, case, ours, theirs)
        key = (peer, mode, name)
        self.classes[key] += 1
        told = (len(text(case)), text(case), ours, theirs)
        if key not in self.smallest or told[0] < self.smallest[key][0]:
            self.smallest[key] = told

    def faults(self):
        """The comparisons that failed, each with why."""
        found = {key[:2]: f"{count} disagree: NO CLASS" for key, count in self.classes.items() if not key[2]}
        found.update({key: "nothing was compared" for key, count in self.compared.items() if not count})
        if all(peer in (MODEL, PATCH_HERE) for peer, _ in self.compared):
            found["others", "all"] = "nothing was compared"
        return found

    def report(self):
        for (peer, mode), count in sorted(self.compared.items()):
            print(f"{peer}, {mode}: {count} cases")
        for key, count in sorted(self.classes.items(), key=str):
            _, case, ours, theirs = self.smallest[key]
            print(f"  {key[0]}, {key[1]}: {count} disagree: {key[2] or 'NO CLASS'}")
            print(f"    smallest: {case}\n    here: {ours}\n    there: {theirs}")
        for (peer, mode), why in sorted(self.faults().items()):
            print(f"WRONG: {peer}, {mode}: {why}")


class Batch:
    """Cases, and what the crates here answer to them in each mode. A recorded list has two answers:
    that of `record` is the document or the refusal, and `inverses` has, for each list that was
    accepted, the first document with the pair that is to lead back to it."""

    def __init__(self, ours, modes, patches, merges):
        self.cases = {mode: merges if mode == "merge" else patches for mode in modes}
        self.lines = {mode: list(map(text, cases)) for mode, cases in self.cases.items()}
        self.told = {mode: list(map(meaning, answers([*ours, mode], lines))) for mode, lines in self.lines.items()}
        self.inverses = []
        for place, (first, _) in enumerate(patches):
            match self.told["record"][place]:
                case ("ok", [after, [*inverse]]):
                    self.told["record"][place] = ("ok", after)
                    self.inverses.append((first, [after, inverse]))


def judge(tally, batch):
    """Every answer here has to be the model's, and that of `record` that of `patch`."""
    model = Model()
    for mode, cases in batch.cases.items():
        by_mode = "patch" if mode == "record" else mode
        right = [model.answer(by_mode, *case) for case in cases]
        tally.compare(JUDGE, mode, cases, batch.told[mode], right)
    tally.compare(TWIN, "record", batch.cases["record"], batch.told["record"], batch.told["patch"])


def compare(tally, batch, peer):
    for mode in (mode for mode in peer.modes if mode in batch.cases):
        theirs = list(map(meaning, answers([*peer.command, mode], batch.lines[mode])))
        for ours in ("patch", "record") if mode == "patch" else (mode,):
            tally.compare(peer, ours, batch.cases[ours], batch.told[ours], theirs)


def compare_inverses(tally, batch, peer):
    """What `record` answers is run by the other: its document is to be the first one."""
    pairs = [pair for _, pair in batch.inverses]
    first = [("ok", document) for document, _ in batch.inverses]
    theirs = list(map(meaning, answers([*peer.command, "patch"], list(map(text, pairs)))))
    tally.compare(peer, "inverse", pairs, first, theirs)


def compared(seed, count, others, ours, all_peers, modes=MODES):
    """The tally of that many cases; `others` is how many the peers get that don't tell a whole answer."""
    cases, tally, done = Cases(seed), Tally(), 0
    while done < count:
        size = min(BATCH, count - done)
        # half of the lists are dense
        patches = [cases.dense_case() if place % 2 else cases.patch_case() for place in range(size)]
        batch = Batch(ours, modes, patches, [cases.merge_case() for _ in range(size)])
        judge(tally, batch)
        for peer in all_peers:
            if peer.tells == 4 or others is None or done < others:
                compare(tally, batch, peer)
                compare_inverses(tally, batch, peer)
        done += size
    return tally


def main():
    words = argparse.ArgumentParser()
    words.add_argument("--seed", type=int, default=1)
    words.add_argument("--cases", type=int, default=2_000)
    words.add_argument("--others", type=int, default=None, help="cases for the peers that are not the Rust crate")
    words.add_argument("--ours", required=True)
    words.add_argument("--modes", default=",".join(MODES))
    words.add_argument("--rust")
    asked = words.parse_args()
    wrong = tables.faults()
    if wrong:
        sys.exit("\n".join(wrong))
    with tempfile.TemporaryDirectory() as folder:
        others, modes = peers(asked.rust, folder), asked.modes.split(",")
        tally = compared(asked.seed, asked.cases, asked.others, [asked.ours], others, modes)
    tally.report()
    sys.exit(1 if tally.faults() else 0)


if __name__ == "__main__":
    main()
