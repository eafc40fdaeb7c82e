"""What the tests share."""
import json
import threading
from pathlib import Path

from json_patch import apply_patch, make_patch, merge_patch, record_patch

C = Path(__file__).resolve().parents[2] / "c"
CALLS = {"apply": apply_patch, "record": record_patch, "merge": merge_patch, "diff": lambda src, dst: make_patch(src, dst).patch}
CALLS["moving_diff"] = lambda src, dst: make_patch(src, dst, moves=True).patch
CALLS["guarded_diff"] = lambda src, dst: make_patch(src, dst, guarded=True).patch
ALL_ROWS = json.loads((C / "cases.json").read_text(encoding="utf-8"))
# those of merge patches that are made are in test_merge_patches.py
ROWS = [row for row in ALL_ROWS if row[0] in CALLS]
OK, REFUSED, IMPOSSIBLE = 0, 1, 11
# what messages say of these kinds
SAYS = {
    "NotJson": "is not JSON", "UnpairedSurrogate": "holds an unpaired surrogate", "TooDeep": "nests too deep", "TooMuch": "takes too much",
    "TooMany": "exceeds the number of operations", "NumberOutOfRange": "holds a number that is out of range",
}
# what the package asks a thread to have
SMALL_STACK = 256 * 1024

# numbers that are no 64-bit integers, those past a float's range, and those that no text says
NOT_WHOLE = (1.5, 1.0, -0.0, 1e-400, 2**64, -(2**63) - 1, 10**308)
PAST_FLOATS = (10**309, 10**400, -(10**400))
NO_NUMBERS = (float("nan"), float("inf"), -1e400)


def nested(levels):
    """A list in a list and so on."""
    made = []
    for _ in range(levels - 1):
        made = [made]
    return made


def holding_itself():
    items = []
    items.append(items)
    return items


def on_each_stack(call):
    """Makes a call here, and on a thread with as little stack as one may have."""
    call()
    before = threading.stack_size(SMALL_STACK)
    try:
        error = on_another_thread(call)
    finally:
        threading.stack_size(before)
    if isinstance(error, Exception):
        raise error


def on_another_thread(call):
    """What a call raises there, or what it answers."""
    told = []

    def run():
        try:
            told.append(call())
        except Exception as error:
            # without the frames, which hold what the call was made on
            told.append(error.with_traceback(None))

    thread = threading.Thread(target=run)
    thread.start()
    thread.join()
    return told[0]
