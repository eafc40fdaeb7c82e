#!/usr/bin/env python3
"""A driver that is wrong in one way, for diff/try_wrong.py: it passes on the answers of PROGRAM, a
driver, or those of diff/model.py where none is named, spoilt as FAULT says.

    diff/wrong_driver.py FAULT [PROGRAM] MODE

From the model, the inverse of a recorded list is one operation, which puts the first document back.
"""
import json
import sys

from model import Model, Refused, copied, tokens_of
from run import answers, meaning, text


def by_model(mode, document, changes):
    answer = Model().answer(mode, document, changes)
    if mode == "record" and answer[0] == "ok":
        return ("ok", [answer[1], [{"op": "replace", "path": "", "value": document}]])
    return answer


def records_nothing(mode, case, answer):
    """An accepted list is recorded by doing nothing."""
    return ("ok", [case[0], []]) if mode == "record" and answer[0] == "ok" else answer


def forgets_inverse(mode, case, answer):
    """The inverse of each list is empty."""
    return ("ok", [answer[1][0], []]) if mode == "record" and answer[0] == "ok" else answer


def refuses_all(mode, case, answer):
    """No list is recorded."""
    return ("refused", 0, "", "InvalidPointer", case[0]) if mode == "record" else answer


def leaves_null(mode, case, answer):
    """Where a move is refused, null stands at its `from`."""
    return without_moved(case, answer, lambda left, source: Model().replaced(left, source, None))


def loses_value(mode, case, answer):
    """Where a move is refused for its target, nothing stands at its `from` any more, as in the Rust crate."""
    if "InvalidPointer" not in answer:
        return answer
    return without_moved(case, answer, lambda left, source: Model().removed(left, source))


def without_moved(case, answer, change):
    if answer[0] != "refused" or case[1][answer[1]]["op"] != "move":
        return answer
    *told, left = answer
    try:
        return (*told, change(copied(left), tokens_of(case[1][answer[1]]["from"])))
    except Refused:
        return answer


def all_apart(mode, case, answer):
    """Any two lists are apart."""
    return ("ok", True) if mode == "apart" else answer


def none_apart(mode, case, answer):
    """No two lists are apart."""
    return ("ok", False) if mode == "apart" else answer


def none(mode, case, answer):
    return answer


FAULTS = [none, records_nothing, forgets_inverse, refuses_all, leaves_null, loses_value, all_apart, none_apart]


def line_of(answer):
    word, *rest = answer
    if word == "ok":
        return f"ok {text(rest[0])}"
    if word != "refused":
        return " ".join(answer)
    number, path, kind, left = rest
    return f"refused {number} {text(path)} {kind} {text(left)}"


def main():
    fault, *program, mode = sys.argv[1:]
    spoil = {each.__name__: each for each in FAULTS}[fault]
    lines = sys.stdin.read().splitlines()
    cases = list(map(json.loads, lines))
    if program:
        honest = list(map(meaning, answers([*program, mode], lines)))
    else:
        honest = [by_model(mode, *case) for case in cases]
    for case, answer in zip(cases, honest):
        print(line_of(answer if mode == "merge" else spoil(mode, case, answer)))


if __name__ == "__main__":
    main()
