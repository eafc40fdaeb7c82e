"""A program run with each of its requests for memory refused in turn, and the rule for how each run
has to end.

The rule: a request was refused exactly where the run answers out of memory, and then it leaves what it
may leave; otherwise the answer is the one with ample memory. Whether a request was refused is what the
library says that refuses it (refuse.c), and never what the answer says.
"""
import os
import subprocess
import tempfile
from collections import namedtuple
from pathlib import Path

HERE = Path(__file__).resolve().parent
MEMORY = "out of memory"

# How a run ended: the number of the request that was to be refused (0 for none), whether all after it
# were too, how many requests there were, how many of them were refused, and the outcome.
Run = namedtuple("Run", "number rest requests refused outcome")

# What came of a run: its status, and what it wrote to standard output and to standard error.
Outcome = namedtuple("Outcome", "status out err")


class Rule:
    """How the runs of a call on an input have to end: with the outcome that it has with ample memory
    or, where a request was refused, with one of those that say out of memory."""

    def __init__(self, ample, short):
        self.ample, self.short = ample, set(short)

    def fault(self, run):
        """What is wrong with how a run ended, or None."""
        if bool(run.refused) != bool(run.number):
            return f"{run.refused} requests were refused"
        if run.refused:
            return self.fault_where_refused(run.outcome)
        return self.fault_with_ample(run.outcome)

    def fault_where_refused(self, outcome):
        if not says_out_of_memory(outcome):
            named = "the ordinary one" if outcome == self.ample else "another"
            return f"a request was refused, and the answer is {named}"
        return None if outcome in self.short else "what is left isn't what may be left"

    def fault_with_ample(self, outcome):
        if says_out_of_memory(outcome):
            return "out of memory, and no request was refused"
        return None if outcome == self.ample else "another answer with ample memory"


def says_out_of_memory(outcome):
    """Of both programs: one writes the answer and what is left, the other a line and its status."""
    if outcome.status == 0:
        return outcome.out.startswith(f"{MEMORY} leaves ")
    return outcome.status == 3 and outcome.err == MEMORY


def first_fault(rule, runs):
    """The first run that doesn't end as it has to, and why; or None."""
    for run in runs:
        fault = rule.fault(run)
        if fault:
            after = ", and all after it" if run.rest else ", alone"
            told = f"request {run.number} of {runs[0].requests} refused{after}" if run.number else "none refused"
            return f"{told}: {fault}: {shown(run.outcome)}"
    return None


def shown(outcome):
    return str(outcome)[:300]


# ---- the rule, tried


def spoilt_runs(rule, runs):
    """Runs that end wrongly, each in one way, by what the way is."""
    short = min(filter(says_out_of_memory, rule.short), default=Outcome(0, f"{MEMORY} leaves ", ""))
    left_otherwise = short._replace(out=short.out + "?")
    other = rule.ample._replace(out=rule.ample.out + "?")
    yield "a request refused, and the ordinary answer", Run(1, 0, 1, 1, rule.ample)
    yield "a request refused, and another answer", Run(1, 0, 1, 1, other)
    yield "a request refused, and another thing left", Run(1, 1, 1, 1, left_otherwise)
    yield "no request refused, and out of memory", Run(0, 0, 1, 0, short)
    yield "no request refused, and another answer", Run(0, 0, 1, 0, other)
    yield "a request that was to be refused, and wasn't", Run(1, 0, 1, 0, rule.ample)


def lets_past(judge, rule, runs):
    """The wrong ends that the judge lets past among runs that are otherwise right; or None."""
    ways = [way for way, run in spoilt_runs(rule, runs) if not judge(rule, [*runs, run])]
    return f"the rule lets past: {'; '.join(ways)}" if ways else None


# ---- the runs


def compiled(folder, source, *flags):
    program = str(Path(folder) / Path(source).stem)
    command = [os.environ.get("CC", "cc"), "-O2", "-Wall", "-Wextra", "-Werror", *flags]
    subprocess.run([*command, "-o", program, HERE / source], check=True)
    return program


def build_library(folder):
    return compiled(folder, "refuse.c", "-shared", "-fPIC")


def runs_of(library, command, text):
    """Every run of the command on this input, with none refused first."""
    with tempfile.TemporaryFile() as given:
        given.write(text.encode())
        given.seek(0)
        environment = {"LD_PRELOAD": library}
        done = subprocess.run(command, stdin=given, env=environment, capture_output=True, timeout=600)
    if done.returncode or not done.stdout:
        told = (done.stdout + done.stderr).decode(errors="replace")[:300]
        raise ValueError(f"status {done.returncode}, and not the library's report: {told}")
    return list(read_runs(done.stdout))


def read_runs(report):
    at = 0
    while at < len(report):
        end = report.index(b"\n", at) + 1
        number, rest, requests, refused, status, out, err = map(int, report[at:end].split())
        texts = report[end : end + out], report[end + out : end + out + err]
        # The driver's mark, where the call ends, is the line feed.
        told, said = (text.decode() for text in texts)
        yield Run(number, rest, requests, refused, Outcome(status, told, said.removesuffix("\n")))
        at = end + out + err
