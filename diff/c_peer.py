#!/usr/bin/env python3
"""Answers lines as the driver of diff/driver.rt.txt does, by the calls of json_patch.h, through
the package in python/: c/package has to have built it. One argument: patch, record or merge.

Each case is answered twice, from text to text and on a document that is kept; where the two aren't
alike, the line says so, which is no answer. A refusal is told with the document as it was: on one
that is kept that is looked at, and the program fails where it isn't so."""
import json
import sys
from pathlib import Path

TOP = Path(__file__).resolve().parent.parent
sys.path.append(str(TOP / "c/out/python"))
import json_patch  # noqa: E402
from json_patch._calls import applied, merged, recorded  # noqa: E402
from json_patch.limits import DEFAULT  # noqa: E402

CALLS = {"patch": applied, "record": recorded, "merge": merged}


def text(value):
    """A text in which the members are in one order: which is no part of what an answer says."""
    return json.dumps(value, ensure_ascii=False, separators=(",", ":"), sort_keys=True)


def from_texts(mode, document, patch):
    made = CALLS[mode](document.encode(), patch.encode(), DEFAULT)
    return list(map(json.loads, made)) if mode == "record" else json.loads(made)


def changed(mode, kept, patch):
    if mode == "merge":
        kept.merge(json.loads(patch))
        return kept.get()
    if mode == "patch":
        kept.apply(patch)
        return kept.get()
    inverse = kept.record(patch)
    return [kept.get(), inverse.patch]


def on_kept(mode, document, patch):
    with json_patch.Document.from_string(document) as kept:
        before = kept.to_string()
        try:
            return changed(mode, kept, patch)
        except json_patch.JsonPatchException:
            if kept.to_string() != before:
                raise ValueError(f"{before} is {kept}") from None
            raise


def told(call, mode, document, patch):
    try:
        return "ok " + text(call(mode, document, patch))
    except (json_patch.JsonPatchConflict, json_patch.JsonPatchTestFailed) as error:
        return f"refused {error.operation} {text(error.path)} {error.kind} {document}"
    except json_patch.JsonPatchException:
        return "unreadable"
    except MemoryError:
        return "memory"


def answer(mode, line):
    document, patch = map(text, json.loads(line))
    answers = [told(call, mode, document, patch) for call in (from_texts, on_kept)]
    return answers[0] if answers[0] == answers[1] else f"from text {answers[0]}, kept {answers[1]}"


for each in sys.stdin:
    print(answer(sys.argv[1], each))
