"""Runs the examples of the package's comments, on the package that is installed."""
import doctest
import importlib
import sys
from pathlib import Path

import json_patch


def main():
    names = sorted(path.stem for path in Path(json_patch.__file__).parent.glob("[!_]*.py"))
    modules = [json_patch, *(importlib.import_module(f"json_patch.{name}") for name in names)]
    failed, tried = map(sum, zip(*(doctest.testmod(module) for module in modules)))
    print(f"doctests: {tried} examples, {failed} wrong")
    return 1 if failed or not tried else 0


if __name__ == "__main__":
    sys.exit(main())
