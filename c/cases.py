#!/usr/bin/env python3
"""The tables of cases of crates/json_patch_vectors, the rows of crates/json_patch_memory that make the patch
between two documents, and those of crates/json_text_vectors that make merge patches, as rows that C and Python
read.

    c/cases.py           writes c/cases.json anew
    c/cases.py --check   ends with 1 where the file isn't what the tables say

A row is a call, its two texts, its status, the operation and the kind that are told, and what is
written: of `record` an array of the new text and of the inverse. The tables say what the documents are;
which bytes say so, the models of diff/ do, and a row on which both differ ends this with 1."""
import json
import re
import sys
from pathlib import Path

HERE = Path(__file__).resolve().parent
sys.path.append(str(HERE.parent / "diff"))
import merges_model  # noqa: E402
import tables  # noqa: E402
import texts_model  # noqa: E402

ROWS = HERE / "cases.json"
READING = HERE.parent / "crates/json_patch_vectors/src/reading.rt"
HEADER = HERE / "json_patch.h"
OK, REFUSED, NO_DOCUMENT, NO_PATCH, IMPOSSIBLE = 0, 1, 2, 3, 11


class Pairs(tables.Source):
    """A constant that is a list of pairs of texts."""

    def value(self):
        return self.until(")", super().value) if self.takes("(") else super().value()


def numbers():
    """The header's numbers, by names in the words of Rust: NotAList for JSON_PATCH_NOT_A_LIST."""
    found = re.findall(r"JSON_PATCH_(\w+) = (\d+)", HEADER.read_text(encoding="utf-8"))
    return {"".join(word.capitalize() for word in name.split("_")): int(number) for name, number in found}


def agreed(written, told):
    """A text that says what a table tells, of which None tells nothing."""
    if told is not None and json.loads(written) != json.loads(told):
        sys.exit(f"the models write {written}, and the tables say {told}")
    return written


def of_case(case, kinds):
    texts = document, patch = [case["document"], case["patch"]]
    if "merged" in case:
        written = agreed(merges_model.made(document, json.loads(patch)), case["merged"])
        if not merges_model.is_merged(document, patch, written):
            sys.exit(f"{patch} doesn't merge {document} to {written}")
        yield ["merge", *texts, OK, 0, 0, written]
        return
    expected = case["expected"]
    if "kind" in expected:
        told = [REFUSED, expected["operation"], kinds[expected["kind"]], expected["path"]]
        yield ["apply", *texts, *told]
        yield ["record", *texts, *told]
        return
    operations = [(operation, tables.compact(operation.get("value"))) for operation in json.loads(patch)]
    (written, inverse), _ = texts_model.recorded(document, operations)
    yield ["apply", *texts, OK, 0, 0, agreed(written, expected["document"])]
    yield ["record", *texts, OK, 0, 0, f"[{written},{agreed(inverse, expected['inverse'])}]"]


def of_faults(kinds):
    """Texts that are no patch, and the operation and the kind of the fault."""
    text = READING.read_text(encoding="utf-8")
    start = re.search(r"^const FAULTS: &\[\(&str, &str\)\] = ", text, re.MULTILINE).end()
    for patch, fault in Pairs(text[start:], {}).value():
        operation, name = re.fullmatch(r"(?:(\d+) )?(\w+)(?:\(.*\))?", fault).groups()
        if name == "ValueNotWhole":  # in a text a number may be any
            continue
        told = [NO_PATCH, int(operation or 0), kinds[name], ""]
        yield ["apply", "null", patch, *told]
        yield ["record", "null", patch, *told]


def of_differences():
    """Two documents, and the patch that leads from the one to the other, as it is, with moves and with tests."""
    for call in ("diff", "moving_diff", "guarded_diff"):
        for (_, first, second), answer in tables.calls(call):
            texts = (it if isinstance(it, str) else tables.compact(it) for it in (first, second))
            # of a text the members of each operation are in byte order, too
            yield [call, *texts, OK, 0, 0, tables.compact(json.loads(answer.split(" leaves ")[0]))]


def of_merge_patches():
    """Two texts and the merge patch between them, or two merge patches and the one that does both. (Those with
    faults, or of more levels than C takes, stand in test.c.)"""
    for call, name in (("merge_diff", "merge_diff_text"), ("merge_join", "merge_both_text")):
        for (_, *texts), answer in tables.calls(name, crate="json_text_vectors"):
            if answer == "nothing":
                yield [call, *texts, IMPOSSIBLE, 0, 0, ""]
            elif answer.startswith('"') and all(isinstance(text, str) for text in texts):
                yield [call, *texts, OK, 0, 0, json.loads(answer)]


def rows():
    kinds = numbers()
    for case in tables.vectors():
        yield from of_case(case, kinds)
    yield from of_faults(kinds)
    yield from of_differences()
    yield from of_merge_patches()


def text():
    lines = (json.dumps(row, ensure_ascii=False, separators=(",", ":")) for row in rows())
    return "[\n" + ",\n".join(lines) + "\n]\n"


if __name__ == "__main__":
    if sys.argv[1:] != ["--check"]:
        ROWS.write_text(text(), encoding="utf-8")
    elif ROWS.read_text(encoding="utf-8") != text():
        sys.exit(f"{ROWS.name} isn't what the tables say: c/cases.py writes it anew")
    print(f"c: {text().count(chr(10)) - 2} cases of the tables")
