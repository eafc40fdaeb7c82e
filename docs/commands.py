#!/usr/bin/env python3
"""Runs the commands and the programs that the texts show, and compares what they print.

    docs/commands.py          those that take seconds, as docs/check does
    docs/commands.py --all    all, which takes minutes

A block `sh` is lines of a shell; a line that begins with `# ` is what the lines before it print on
standard output, and lines that none follows have only to succeed. Without --all the calls of the
program are run, on the program that `rt ci` or `rt run` left; where there is none, this is told. With
--all everything is run as it stands there, in this repository: but the project that the README makes
beside it is made elsewhere, and what c/check and python/check do is left to those, with the examples in C and
Python."""
import re
import shlex
import subprocess
import sys
import tempfile
import time
from pathlib import Path

TOP = Path(__file__).resolve().parent.parent
README = TOP / "README.md"
PAGES = [README, TOP / "docs/PROGRAM.md"]
TOOL = TOP / "crates/json_patch_tool"
BUILT = TOOL / "out/json_patch_tool"
CALL = re.compile(r"\brt try -- |\bout/json_patch_tool ")
# what the gate does before c/check and python/check
ELSEWHERE = re.compile(r"^(c/package|python3 -m pip install c/out/\S+)$")


def blocks(page, language):
    return blocks_in(page.read_text(encoding="utf-8"), language)


def blocks_in(text, language):
    return re.findall(rf"^```{language}\n(.*?)^```", text, re.MULTILINE | re.DOTALL)


def steps(block):
    """The commands of a block, each with the lines that it prints, or None where none are shown."""
    found, commands, printed = [], [], []
    for line in [*block.splitlines(), ""]:
        if line.startswith("# "):
            printed.append(line[2:])
            continue
        if printed:
            found.append(("\n".join(commands), printed))
            commands, printed = [], []
        commands.append(line)
    rest = "\n".join(commands).strip()
    return [*found, (rest, None)] if rest else found


def differs(command, printed, folder):
    """What is wrong with what shell lines print, or None."""
    # what is compared runs as at a terminal, where a command that fails ends nothing
    options = "-ec" if printed is None else "-c"
    done = subprocess.run(["bash", options, command], cwd=folder, capture_output=True, text=True)
    if printed is None:
        return None if done.returncode == 0 else f"{command}: status {done.returncode}: {done.stderr[-500:]}"
    if done.returncode == 0 and done.stdout.splitlines() == printed:
        return None
    return f"{command}: it prints {done.stdout!r}, status {done.returncode}, and not {printed}"


# ---- the calls of the program


def calls_of_program(page):
    """The calls of the program that a page shows, each with what it prints."""
    shown = [step for block in blocks(page, "sh") for step in steps(block)]
    return [(lines.strip().splitlines()[-1], printed) for lines, printed in shown if printed and CALL.search(lines)]


def without_folder(command):
    """A command in parentheses without its change of folder."""
    inside = re.fullmatch(r"\(cd crates/json_patch_tool && (.*)\)", command)
    return inside[1] if inside else command


def held(page):
    """How many calls of the program a page shows, and what is wrong with what it says they print."""
    calls = calls_of_program(page)
    if not BUILT.exists():
        print(f"{page.relative_to(TOP)}: {len(calls)} commands aren't run, since the program isn't built")
        return len(calls), []
    run = [(CALL.sub(lambda _: f"{shlex.quote(str(BUILT))} ", without_folder(command)), printed) for command, printed in calls]
    wrong = [differs(command, printed, TOOL) for command, printed in run]
    return len(calls), [said for said in wrong if said]


# ---- all, as it stands there


def block_run(block, folder, beside):
    """What is wrong with the lines of a block, run in a folder; a change of folder holds for what
    follows in the block. `beside` stands for the folder in which the repository stands."""
    lines = [line for line in block.replace("../mine", shlex.quote(f"{beside}/mine")).splitlines() if not ELSEWHERE.match(line)]
    moved, wrong = [], []
    for command, printed in steps("\n".join(lines)):
        begun = time.monotonic()
        wrong.append(differs("\n".join([*moved, command]), printed, folder))
        print(f"commands: {time.monotonic() - begun:.0f} s: {command.strip().splitlines()[-1]}", flush=True)
        moved += [line for line in command.splitlines() if line.startswith("cd ")]
    return [said for said in wrong if said]


def program_run(block, crate):
    """A whole program prints what its last line says."""
    said = re.search(r"^// (.*)\n\Z", block, re.MULTILINE)
    (crate / "src/main.rt").write_text(block, encoding="utf-8")
    return [wrong for wrong in [differs("rt try", [said[1]], crate)] if wrong]


def everything():
    programs = [block for block in blocks(README, "rust") if "\nfn main(" in block]
    with tempfile.TemporaryDirectory() as beside:
        wrong = [said for block in blocks(README, "sh") for said in block_run(block, TOP, beside)]
        wrong += [said for block in programs for said in program_run(block, Path(beside) / "mine/crates/hello")]
    count, of_page = held(PAGES[1])
    wrong += of_page if BUILT.exists() else [f"{BUILT} isn't built, so the calls of {PAGES[1].name} aren't run"]
    for said in wrong:
        print(f"commands: WRONG: {said}")
    shown = len(blocks(README, "sh"))
    print(f"commands: {shown} blocks, {len(programs)} programs, {count} calls of the program, {len(wrong)} wrong")
    return 1 if wrong or not programs else 0


def quickly():
    wrong = [said for page in PAGES for said in held(page)[1]]
    for said in wrong:
        print(f"commands: WRONG: {said}")
    return 1 if wrong else 0


if __name__ == "__main__":
    sys.exit(everything() if sys.argv[1:] == ["--all"] else quickly())
