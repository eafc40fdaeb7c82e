#!/usr/bin/env python3
"""Random JSON texts, patched in place, against a model of the bytes.

    diff/texts.py [--seed S] [--cases N] --ours PROGRAM [--rust PROGRAM] [--wide | --deep] [--spoil] [--record]

PROGRAM is that of diff/texts.rt.txt, which `diff/build FOLDER json_patch_texts diff/texts.rt.txt
json_patch_text` proves and builds. The texts have whitespace of all kinds anywhere, names and strings with
escapes, names that come twice, decimals and exponents of any size, and empty objects and arrays. Each
answer has to be the model's (`texts_model`), byte by byte, and each refusal its number, path and kind.
In one case of eight a byte of the text or of the patch is changed or cut off: then there has to be an answer
or a named refusal. With `--rust`, the program of diff/run.py round the Rust crate, each case whose numbers are
all 64-bit integers is also given to that, as values: it has to leave the value that the new text says, or
refuse the same operation for the same path and kind, unless it panics. The run fails where one of this
doesn't hold, and where a kind of operation was never accepted or a kind of refusal never came.

With `--wide` each text has an object of some fifty members, and each patch some twenty-five operations, a
fifth of which take a member out: so its names are looked up in an index, which is kept over them. There a
kind of refusal needn't come. With `--deep` a long value stands below nine to thirty objects and arrays, and four
or more operations go there and to what stands beside the way: so what is on it is opened at once. With `--record` the undo has to be the model's, too, and to lead back to what
the text says (not with `--rust` or `--spoil`). With `--spoil` a byte of each new text is changed before it is compared: then it
fails where one isn't found out, and where none is by the Rust crate's answer."""
import argparse
import json
import random
import subprocess
import sys
from collections import Counter

import run
from classes import alike
from reasons import KINDS, REFUSAL
from texts_model import at_tokens, patched, plain, read, recorded, stretch, tokens_of

NAMES = ("a", "b", "", "a/b", "m~n", "\u00e9", "\n", "\U0001f600", "-", "0", "1")
OPERATIONS = ("add", "add", "remove", "replace", "move", "copy", "test")
MANY_OPERATIONS = ("add", "replace", "test", "copy") * 3 + ("remove", "remove", "remove", "move")
NUMBERS = ("0", "-0", "1", "1.0", "1.50", "15e-1", "1.5", "-1", "-0.0e5", "1e400", "10E+399", "1e-400", "100", "1e2",
           "18446744073709551616", "9007199254740993", "0.1", "0.10000000000000001")
BATCH = 2000
OTHERWISE = "otherwise by the Rust crate"


class Texts:
    """Texts and patches, the same for one seed."""

    def __init__(self, seed):
        self.random = random.Random(seed)
        self.style = 0

    def whitespace(self):
        if self.style == 0:
            return ""
        return "".join(self.random.choice(" \t\n\r ") for _ in range(self.random.choice((0, 0, 1, 2))))

    def string(self, said):
        """A string, with escapes in the place of some of its characters."""
        written = json.dumps(said, ensure_ascii=self.random.random() < 0.5)
        if said and self.random.random() < 0.3:
            first = ord(said[0])
            if first < 0x10000:
                return f'"\\u{first:04{self.random.choice("xX")}}' + json.dumps(said[1:])[1:]
        return written.replace("/", "\\/") if self.random.random() < 0.3 else written

    def value(self, depth):
        kind = self.random.randrange(8 if depth else 5)
        if kind < 2:
            return self.random.choice(NUMBERS)
        if kind == 2:
            return self.random.choice(("true", "false", "null"))
        if kind < 5:
            return self.string(self.random.choice(NAMES + ("x" * 5,)))
        count = self.random.choice((0, 1, 2, 3, 4))
        if kind == 5:
            return self.row("[]", [self.value(depth - 1) for _ in range(count)])
        members = []
        for _ in range(count):
            name = self.string(self.random.choice(NAMES))
            members.append(name + self.whitespace() + ":" + self.whitespace() + self.value(depth - 1))
        return self.row("{}", members)

    def row(self, brackets, parts):
        inside = ",".join(self.whitespace() + part + self.whitespace() for part in parts) if parts else self.whitespace()
        return brackets[0] + inside + brackets[1]

    def text(self, depth):
        self.style = self.random.randrange(3)
        return self.whitespace() + self.value(depth) + self.whitespace()

    def pointer(self, text):
        """One that leads somewhere, mostly."""
        node, tokens = read(text), []
        while node.parts and self.random.random() < 0.8:
            number = self.random.randrange(len(node.parts))
            part = node.parts[number]
            tokens.append(part[1] if node.kind == "object" else str(number))
            node = part[3]
        if self.random.random() < 0.3:
            tokens.append(self.random.choice(NAMES + ("01", "2")))
        return "".join("/" + token.replace("~", "~0").replace("/", "~1") for token in tokens)

    def wide(self):
        """An object of many members, some of one name, by itself or in another."""
        self.style = self.random.randrange(3)
        members = []
        for _ in range(self.random.randrange(30, 70)):
            name = self.random.choice(NAMES) if self.random.random() < 0.2 else f"n{self.random.randrange(60)}/\u00e9"
            members.append(self.string(name) + self.whitespace() + ":" + self.whitespace() + self.value(1))
        row = self.row("{}", members)
        return self.row("{}", ['"w":' + row]) if self.random.random() < 0.3 else row

    def deep(self):
        """A long value below many objects and arrays, in which other values stand beside it, some under its name."""
        self.style = self.random.randrange(3)
        text = self.row("[]", [self.value(2) for _ in range(6)] + [json.dumps("x" * 2100)])
        for _ in range(self.random.randrange(9, 31)):
            before, behind = ([self.value(1) for _ in range(self.random.choice((0, 0, 1, 2)))] for _ in range(2))
            if self.random.random() < 0.5:
                text = self.row("[]", [*before, text, *behind])
                continue
            name = self.random.choice(NAMES)
            names = [self.random.choice((name, *NAMES)) for _ in before], [self.random.choice(NAMES) for _ in behind]
            parts = [*zip(names[0], before), (name, text), *((it, part) for it, part in zip(names[1], behind) if it != name)]
            text = self.row("{}", [self.string(it) + self.whitespace() + ":" + self.whitespace() + part for it, part in parts])
        return text

    def deep_pointer(self, text):
        """One that leads far along the longest values, and then perhaps beside them."""
        node, tokens, left = read(text), [], self.random.choice((5, 60, 60, 60))
        while node.parts and left:
            longest = max(range(len(node.parts)), key=lambda n: node.parts[n][3].end - node.parts[n][3].start)
            number, left = longest, left - 1
            if node.parts[longest][3].kind == "string" or not left or self.random.random() < 0.03:
                number, left = self.random.randrange(len(node.parts)), min(left, 1)
            part = node.parts[number]
            tokens.append(part[1] if node.kind == "object" else str(number))
            node = part[3]
        return "".join("/" + token.replace("~", "~0").replace("/", "~1") for token in tokens)

    def operation(self, text, kinds=OPERATIONS):
        op, pointer = self.random.choice(kinds), self.deep_pointer if len(text) > 2100 else self.pointer
        operation, put = {"op": op, "path": pointer(text)}, None
        if op in ("move", "copy"):
            operation["from"] = pointer(text)
        if op in ("add", "replace", "test"):
            put = self.value(self.random.choice((0, 0, 1, 2)))
            if op == "test" and self.random.random() < 0.6:
                put = self.there(text, operation["path"]) or put
        return operation, put

    @staticmethod
    def there(text, path):
        node = at_tokens(read(text), tokens_of(path))
        return node and text[node.start:node.end]

    def operations(self, text):
        made = []
        for _ in range(self.random.choice((0, 1, 1, 1, 2, 3))):
            made.append(self.operation(text))
            after, _ = patched(text, made[-1:])
            text = text if after is None else after
        return made

    def many_operations(self, text, most=70):
        """Some twenty-five, of which each but a few is accepted."""
        made = []
        for _ in range(self.random.randrange(most * 4 // 7, most)):
            operation = self.operation(text, MANY_OPERATIONS)
            if operation[0]["path"] in ("", "/w"):
                continue
            after, _ = patched(text, [operation])
            if after is not None or self.random.random() < 0.02:
                made.append(operation)
                text = text if after is None else after
        return made

    def written(self, operations):
        """The patch as a text."""
        elements = []
        for operation, put in operations:
            members = [self.string(name) + ":" + self.whitespace() + self.string(said) for name, said in operation.items()]
            if put is not None:
                members.append('"value":' + self.whitespace() + put + self.whitespace())
            self.random.shuffle(members)
            elements.append("{" + ",".join(members) + "}")
        return self.row("[]", elements)

    def broken(self, text):
        """With a byte of it changed, or its end cut off."""
        at = self.random.randrange(len(text))
        if self.random.random() < 0.5:
            return text[:at]
        return text[:at] + self.random.choice('{}[]:,"\\0e.- \x00') + text[at + 1:]


def answers(program, pairs):
    lines = "".join(json.dumps(pair) + "\n" for pair in pairs).encode()
    said = subprocess.run([program], input=lines, capture_output=True, check=True).stdout.decode().splitlines()
    assert len(said) == len(pairs), f"{len(said)} lines for {len(pairs)} cases"
    return said


def told(line):
    """The new text and why there is none, of a line."""
    kind, _, said = line.partition(" ")
    return (json.loads(said), None) if kind == "ok" else (None, json.loads(said) if kind == "no" else kind)


def integer(digits):
    number = int(digits)
    if digits == "-0" or not -(2**63) <= number < 2**64:
        raise ValueError(digits)
    return number


def refused(word):
    raise ValueError(word)


def values(pair):
    """What the texts of a document and a patch say, if all their numbers are 64-bit integers."""
    try:
        return [json.loads(text, parse_int=integer, parse_float=refused, parse_constant=refused) for text in pair]
    except ValueError:
        return None


def agrees(got, said):
    """Whether an answer here says what the Rust crate answered to the values."""
    if said[0] == "panicked":
        return got[0] is None
    if got[0] is None:
        parts = REFUSAL.fullmatch(got[1])
        return bool(parts) and said == ("refused", int(parts[1]), parts[2], KINDS.get(parts[3]))
    try:
        return said[0] == "ok" and alike(json.loads(got[0]), said[1])
    except ValueError:
        return False


def by_rust(program, batch):
    """What the Rust crate answers, for each case that it can be given, and else None."""
    said = [values(pair) if wanted else None for pair, _, wanted in batch]
    asked = [json.dumps(pair) for pair in said if pair]
    answered = iter(map(run.meaning, run.answers([program, "patch"], asked)))
    return [next(answered) if pair else None for pair in said]


def case_of(texts, asked):
    """A text and a patch, its operations, and what is wanted: None where a byte is changed or cut off."""
    record = asked.record
    text = texts.wide() if asked.wide else texts.deep() if asked.deep else texts.text(4)
    operations = texts.many_operations(text, 14 if asked.deep else 70) if asked.wide or asked.deep else texts.operations(text)
    patch = texts.written(operations)
    wanted = recorded(text, operations) if record else patched(text, operations)
    if texts.random.random() < 0.125:
        text, patch = (texts.broken(text), patch) if texts.random.random() < 0.5 else (text, texts.broken(patch))
        wanted = None
    return (text, patch, *(("record",) if record else ())), operations, wanted


def leads_back(text, new, undo):
    """Whether the undo leads from the new text back to what the text says, up to the order of members."""
    operations = []
    for operation, (*_, node) in zip(json.loads(undo), read(undo).parts):
        puts = [part[3] for part in node.parts if part[1] == "value"]
        operations.append((operation, stretch(undo, puts[0]) if puts else None))
    back, _ = patched(new, operations)
    return back is not None and plain(read(back)) == plain(read(text))


def spoilt(texts, got):
    """An answer with a byte of the new text changed, if there is one."""
    if not got[0]:
        return got
    at = texts.random.randrange(len(got[0]))
    return got[0][:at] + ("x" if got[0][at] != "x" else "y") + got[0][at + 1:], None


def is_wrong(got, operations, wanted, said, came):
    """Whether the answer is another than it has to be; it is counted by what came."""
    if wanted is None:
        came["changed or cut off"] += 1
        return got[1] in ("memory", "unreadable", "")
    came.update([operation["op"] for operation, _ in operations] if wanted[0] is not None else [wanted[1].rpartition("': ")[2]])
    if not said:
        return got != wanted
    came[f"by the Rust crate {said[0]}"] += 1
    differs = not agrees(got, said)
    came[OTHERWISE] += differs
    return got != wanted or differs


def asked_for():
    words = argparse.ArgumentParser(description=__doc__, formatter_class=argparse.RawDescriptionHelpFormatter)
    words.add_argument("--seed", type=int, default=1)
    words.add_argument("--cases", type=int, default=10000)
    words.add_argument("--ours", required=True)
    words.add_argument("--rust")
    words.add_argument("--wide", action="store_true")
    words.add_argument("--deep", action="store_true")
    words.add_argument("--spoil", action="store_true")
    words.add_argument("--record", action="store_true")
    asked = words.parse_args()
    if asked.record and (asked.rust or asked.spoil):
        words.error("--record goes with neither --rust nor --spoil")
    return asked


def main():
    asked = asked_for()
    texts, came, wrong, done = Texts(asked.seed), Counter(), 0, 0
    while done < asked.cases:
        batch = [case_of(texts, asked) for _ in range(min(BATCH, asked.cases - done))]
        theirs = by_rust(asked.rust, batch) if asked.rust else [None] * len(batch)
        ours = answers(asked.ours, [pair for pair, *_ in batch])
        for (pair, operations, wanted), line, said in zip(batch, ours, theirs):
            got = told(line)
            if asked.spoil and wanted:
                got = spoilt(texts, got)
            other = is_wrong(got, operations, wanted, said, came)
            other |= asked.record and wanted is not None and got[0] is not None and not leads_back(pair[0], *got[0])
            if asked.spoil:
                wrong += wanted is not None and wanted[0] is not None and not other
            elif other:
                wrong += 1
                if wrong <= 5:
                    print(f"WRONG: {pair}\n  wanted {wanted}\n  got    {got}")
        done += len(batch)
    kinds = (*OPERATIONS, *(() if asked.wide or asked.deep else KINDS), *((OTHERWISE,) if asked.rust and asked.spoil else ()))
    missing = [kind for kind in kinds if not came[kind]]
    print(f"{done} texts, seed {asked.seed}: {wrong} " + ("spoilt ones not found out" if asked.spoil else "wrong"))
    print(", ".join(f"{count} {kind}" for kind, count in sorted(came.items())))
    if missing:
        print("never: " + ", ".join(missing))
    return 1 if wrong or missing else 0


if __name__ == "__main__":
    sys.exit(main())
