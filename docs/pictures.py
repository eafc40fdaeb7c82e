#!/usr/bin/env python3
"""Draws the pictures of docs/pictures: the crates, the life of a mark, the way of a patch from bytes
to bytes. With no argument it writes them; docs/check asks whether they are as it would write them.

Each picture has its own light ground, so that it is read on a dark page too."""
import sys
from pathlib import Path
from xml.sax.saxutils import escape

TOP = Path(__file__).resolve().parent.parent
GROUND, INK, FAINT, EDGE = "#fbfbf8", "#1f2933", "#5b6770", "#8a97a3"
KINDS = {"library": "#dbe9f6", "program": "#e3f1dc", "test": "#f6ead4", "fault": "#f8e0dd", "mark": "#e9dff2"}

# what stands under a crate's name, and what it is
CAPTIONS = {
    "jsonptr": ("pointers: strings, tokens, indexes", "library"),
    "long_vec": ("a list in blocks", "library"),
    "json_number": ("numbers compared exactly", "library"),
    "json_lexemes": ("a text's lexemes by their places", "library"),
    "json_text": ("one place of a text, read or replaced", "library"),
    "json_pieces": ("a text in pieces, for many changes", "library"),
    "json_reading": ("numbers as documents have them", "library"),
    "json_patch_text": ("a text patched in place", "library"),
    "json_merge_text": ("a text merged in place", "library"),
    "json_patch_document": ("what a document is, equality", "library"),
    "json_patch_operation": ("operations: read, written, printed", "library"),
    "json_patch_edit": ("one edit, and what undoes it", "library"),
    "json_patch_limits": ("how deep, and how much", "library"),
    "json_patch_merge": ("merge patches", "library"),
    "json_merge_diff": ("merge patches that are made", "library"),
    "json_patch_laws": ("laws of the definitions", "library"),
    "json_patch_apart": ("lists that may change order", "library"),
    "json_patch": ("patch, inverse; what users name", "library"),
    "json_patch_editor": ("undo and redo", "library"),
    "json_patch_diff": ("the patch between two documents", "library"),
    "json_patch_moves": ("the patch with moves", "library"),
    "json_diff_text": ("patches between two texts", "library"),
    "json_kept_text": ("a text that is kept, with undo", "library"),
    "json_patch_bytes": ("limits, and why no text is made", "library"),
    "json_patch_text_bytes": ("texts in place, bytes to bytes", "library"),
    "json_patch_c": ("the calls for C and Python", "library"),
    "json_patch_answers": ("what the program answers to bytes", "library"),
    "json_patch_tool": ("the program, bytes to bytes", "program"),
    "json_patch_uses": ("proved examples of use", "library"),
    "json_patch_examples": ("the examples, by rows", "test"),
    "json_patch_vectors": ("tables of cases", "test"),
    "long_vec_vectors": ("lists in blocks, by rows", "test"),
    "json_text_vectors": ("calls on texts, by rows", "test"),
    "json_patch_memory": ("one call, or rows of calls", "test"),
}


def text(x, y, said, size=13, anchor="middle", fill=INK, weight="normal", family="sans-serif"):
    style = f'font-size="{size}" text-anchor="{anchor}" fill="{fill}" font-weight="{weight}" font-family="{family}"'
    return f'<text x="{x:g}" y="{y:g}" {style}>{escape(said)}</text>'


def mono(x, y, said, size=12, anchor="middle", fill=INK):
    return text(x, y, said, size, anchor, fill, family="monospace")


def box(x, y, width, height, kind):
    return f'<rect x="{x:g}" y="{y:g}" width="{width:g}" height="{height:g}" rx="6" fill="{KINDS[kind]}" stroke="{EDGE}"/>'


def arrow(points, dashed=False):
    path = " ".join(f"{x:g},{y:g}" for x, y in points)
    dash = ' stroke-dasharray="4 3"' if dashed else ""
    return f'<polyline points="{path}" fill="none" stroke="{EDGE}" stroke-width="1.3"{dash} marker-end="url(#head)"/>'


def picture(width, height, title, drawn):
    head = (
        '<defs><marker id="head" markerWidth="9" markerHeight="8" refX="8" refY="4" orient="auto">'
        f'<path d="M0,0 L9,4 L0,8 z" fill="{EDGE}"/></marker></defs>'
    )
    lines = [
        f'<svg xmlns="http://www.w3.org/2000/svg" viewBox="0 0 {width} {height}" role="img">',
        f"<title>{escape(title)}</title>",
        head,
        f'<rect width="{width}" height="{height}" rx="8" fill="{GROUND}"/>',
        *drawn,
        "</svg>",
    ]
    return "\n".join(lines) + "\n"


# ---- the crates


def dependencies(top):
    """The crates of crates.txt, each with those that it uses."""
    lines = (top / "crates.txt").read_text(encoding="utf-8").splitlines()
    named = [line.split("#")[0].partition(":") for line in lines if ":" in line.split("#")[0]]
    used = {name.split()[0]: names.split() for name, _, names in named}
    return {name: [crate for crate in names if crate in used] for name, names in used.items()}


def levels(used):
    """Each crate's level: one above the highest that it uses, and where others use it, raised to one
    below the lowest of these."""
    level = {}
    while len(level) < len(used):
        for crate, below in used.items():
            if crate not in level and all(name in level for name in below):
                level[crate] = 1 + max((level[name] for name in below), default=-1)
    for crate in sorted(used, key=level.get, reverse=True):
        above = [level[user] for user, below in used.items() if crate in below]
        level[crate] = min(above, default=level[crate] + 1) - 1
    return level


def direct(used):
    """What each crate uses and doesn't reach through another."""

    def reached(crate):
        return {name for below in used[crate] for name in {below} | reached(below)}

    return {crate: [name for name in below if not any(name in reached(other) for other in below)] for crate, below in used.items()}


def way_down(x, to_x, past, wide):
    """Where an arrow goes down from one box to another, behind none of those that it passes."""
    ends = x + wide / 2, to_x + wide / 2
    beside = [left + aside for left in past for aside in (-8, wide + 8)]
    free = [at for at in (*ends, *beside) if not any(-8 < at - left < wide + 8 for left in past)]
    return min(free, key=lambda at: sum(abs(at - end) for end in ends), default=ends[0])


def crates(top):
    used = dependencies(top)
    level, wide, tall, gap_x, gap_y = levels(used), 212, 50, 22, 44
    rows = [sorted(crate for crate in used if level[crate] == at) for at in range(max(level.values()) + 1)]
    width = max(len(row) for row in rows) * (wide + gap_x) + gap_x
    height = len(rows) * (tall + gap_y) + 30
    place = {}
    for at, row in enumerate(rows):
        left = (width - len(row) * (wide + gap_x) + gap_x) / 2
        for number, crate in enumerate(row):
            place[crate] = left + number * (wide + gap_x), height - (at + 1) * (tall + gap_y) - 4
    arrows, boxes = [], []
    for crate, below in direct(used).items():
        x, y = place[crate]
        for name in below:
            to_x, to_y = place[name]
            middle = to_y - gap_y / 2
            past = [place[other][0] for other in used if to_y > place[other][1] > y]
            down = way_down(x, to_x, past, wide)
            arrows.append(arrow([(x + wide / 2, y + tall), (down, min(y + tall + gap_y, middle)), (down, middle), (to_x + wide / 2, to_y)]))
        caption, kind = CAPTIONS.get(crate, ("", "library"))
        boxes += [box(x, y, wide, tall, kind), mono(x + wide / 2, y + 21, crate, 13), text(x + wide / 2, y + 39, caption, 11, fill=FAINT)]
    legend = [text(width / 2, height - 14, "An arrow goes to what a crate uses. Blue: libraries. Green: programs. Yellow: tests alone.", 11, fill=FAINT)]
    return picture(width, height, "The crates, and what each uses", arrows + boxes + legend)


# ---- the life of a mark


def cells(x, y, parts):
    """The members of a row, each a text and whether it is a mark."""
    drawn = []
    for said, is_mark in parts:
        wide = 14 + 8 * len(said)
        kind = "mark" if is_mark else "library"
        drawn += [box(x, y, wide, 28, kind), mono(x + wide / 2, y + 19, said)]
        x += wide + 6
    return drawn


STATES = [
    ("the document", [('"a": 1', False), ('"l": [2, 3]', False)], '{"a":1,"l":[2,3]}', ""),
    ("after remove /a", [('"a": mark', True), ('"l": [2, 3]', False)], '{"l":[2,3]}', "/a took 1"),
    ("after remove /l/0", [('"a": mark', True), ('"l": [3, mark]', True)], '{"l":[3]}', "/l/0 took 2"),
    ("after add /a 9", [('"a": 9', False), ('"l": [3, mark]', True)], '{"a":9,"l":[3]}', "/a found the mark"),
]
ENDS = [
    ("all accepted: the marks are taken out", [('"a": 9', False), ('"l": [3]', False)], '{"a":9,"l":[3]}'),
    ("one refused: the log is undone, last first", [('"a": 1', False), ('"l": [2, 3]', False)], '{"a":1,"l":[2,3]}'),
]


def marks(_top):
    wide, left, drawn = 900, 34, []
    for x, said in ((left, "operation"), (290, "in memory"), (520, "what is seen"), (720, "the log gets")):
        drawn.append(text(x, 32, said, 12, "start", FAINT, "bold"))
    for number, (name, parts, seen, log) in enumerate(STATES):
        y = 50 + 48 * number
        drawn += [text(left, y + 19, name, 13, "start"), *cells(290, y, parts)]
        drawn += [mono(520, y + 19, seen, 12, "start"), mono(720, y + 19, log, 12, "start")]
        if number:
            drawn.append(arrow([(280, y - 22), (280, y + 12)]))
    y = 50 + 48 * len(STATES) + 14
    for number, (name, parts, seen) in enumerate(ENDS):
        at = y + 48 * number
        drawn += [text(left, at + 4, name.split(":")[0], 13, "start", weight="bold"), text(left, at + 22, name.split(": ")[1], 12, "start", FAINT)]
        drawn += [*cells(290, at - 6, parts), mono(520, at + 13, seen, 12, "start")]
    below = y + 48 * len(ENDS) + 8
    drawn.append(text(left, below, "A mark keeps the room of what was taken away, so that it goes back without memory.", 12, "start", FAINT))
    return picture(wide, below + 22, "The life of a mark: removed values leave a mark until the list's end", drawn)


# ---- from bytes to bytes


STEPS = [
    ("bytes", "standard input", "TooLarge: 2\nReadFailed: 4"),
    ("a pair", "UTF-8, JSON,\nan array of two", "Syntax: 2\nNotAPair: 2"),
    ("a document", "64-bit integers\nalone", "NotWhole: 2"),
    ("operations", "read, each with\nits pointers", "Unreadable: 2"),
    ("a new document", "run in place,\nlogged, undone", "Refused: 1"),
    ("a line", "compact JSON,\ncomplete", "Memory: 3"),
    ("bytes", "standard output", "WriteFailed: 4"),
]


def way(_top):
    wide, gap, left, top_y, drawn = 132, 24, 22, 46, []
    for number, (name, said, faults) in enumerate(STEPS):
        x = left + number * (wide + gap)
        drawn += [box(x, top_y, wide, 70, "library"), text(x + wide / 2, top_y + 20, name, 13, weight="bold")]
        drawn += [text(x + wide / 2, top_y + 40 + 16 * line, part, 11, fill=FAINT) for line, part in enumerate(said.split("\n"))]
        lines = faults.split("\n")
        drawn += [box(x, top_y + 104, wide, 20 + 16 * len(lines), "fault")]
        drawn += [mono(x + wide / 2, top_y + 122 + 16 * line, part, 11) for line, part in enumerate(lines)]
        drawn.append(arrow([(x + wide / 2, top_y + 70), (x + wide / 2, top_y + 104)], dashed=True))
        if number:
            drawn.append(arrow([(x - gap, top_y + 35), (x, top_y + 35)]))
    width = left * 2 + len(STEPS) * (wide + gap) - gap
    drawn.append(text(left, 28, "The program in mode patch. Below each step: the fault that can end it, and the exit status.", 12, "start", FAINT))
    drawn.append(text(left, top_y + 190, "Memory can run out from the reading on. Nothing is written before the line is complete.", 12, "start", FAINT))
    return picture(width, top_y + 206, "The way of a patch from bytes to bytes", drawn)


PICTURES = {"crates.svg": crates, "marks.svg": marks, "bytes.svg": way}


def held(top):
    """How many pictures there are, and what is wrong with them."""
    wrong = [f"{crate} has no caption" for crate in dependencies(top) if crate not in CAPTIONS]
    for name, draw in PICTURES.items():
        path = top / "docs/pictures" / name
        there = path.read_text(encoding="utf-8") if path.exists() else ""
        if name == "crates.svg":
            wrong += [f"{name} lacks {crate}" for crate in dependencies(top) if f">{crate}</text>" not in there]
        if there != draw(top):
            wrong.append(f"{name} isn't as docs/pictures.py draws it")
    return len(PICTURES), wrong


def main():
    for name, draw in PICTURES.items():
        (TOP / "docs/pictures" / name).write_text(draw(TOP), encoding="utf-8")
    return 0


if __name__ == "__main__":
    sys.exit(main())
