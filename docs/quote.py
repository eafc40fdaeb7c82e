#!/usr/bin/env python3
"""Prints a crate's contracts and laws as the pages CALLING.md quote them, to be put there by hand:

    docs/quote.py CRATE [laws]"""
import importlib.machinery
import importlib.util
import sys
import textwrap
from pathlib import Path

HERE = Path(__file__).resolve().parent


def loaded_check():
    """docs/check, which has no ending."""
    loader = importlib.machinery.SourceFileLoader("check", str(HERE / "check"))
    module = importlib.util.module_from_spec(importlib.util.spec_from_loader("check", loader))
    loader.exec_module(module)
    return module


def contract(function):
    lines = [f"fn {function.name}{function.signature[function.signature.index('('):]}"]
    for kind, label, said in function.clauses:
        line = f"{kind}{' ' + label if label else ''}: {said}"
        lines += textwrap.wrap(line, 98, initial_indent="  ", subsequent_indent="    ", break_long_words=False, break_on_hyphens=False)
    return lines


def laws(functions):
    return [f"{label or function.name} : {said}" for function in functions for _, label, said in function.clauses]


def main():
    check = loaded_check()
    contracts = check.contracts_of(check.CRATES / sys.argv[1])
    if sys.argv[2:] == ["laws"]:
        lines = laws([function for path, function in contracts if path.name == "laws.rt"])
    else:
        asked = [f for path, f in contracts if path.name != "laws.rt" and not f.of_trait and f.clauses]
        lines = [line for function in asked for line in contract(function)]
    print("\n".join(lines))


if __name__ == "__main__":
    main()
