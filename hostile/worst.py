#!/usr/bin/env python3
"""Times calls that are meant to take long (worst_cases.py), each on two texts of a megabyte, through the library
for C: what a stranger's texts can take of the processor in one call, which nothing interrupts.

    hostile/worst.py [--bytes N] [--only WORD] [--seconds N]

c/build has to have built the library, or JSON_PATCH_LIBRARY says where it is. Each call is made with the usual
limits, and with none on bytes; its row tells the processor's seconds, what came of it, with the bytes that are left
or the operation that is over, and the bytes of memory that the process held. Twice the N of `--bytes` shows which
take twice the time, and which four times. A call that takes longer than `--seconds` (900) is ended, and so is one
that wants more than 16 GB. The script ends with 1 where one is answered in another way."""
import argparse
import os
import resource
import signal
import sys
import time
from pathlib import Path

sys.path.append(str(Path(__file__).resolve().parent.parent / "diff"))
import library  # noqa: E402
from worst_cases import cases  # noqa: E402

ROOM = 16 << 30


def called(call, document, patch, most):
    """What comes of one call, which is given no room for its texts: they are put together, and not copied."""
    report = library.Report()
    limits = library.Limits(library.MOST_LEVELS, most)
    flags = library.FLAGS.get(call, ())
    rooms = (None, 0) * (1 + (call == "record"))
    status = library.CALLS[call](document, len(document), patch, len(patch), limits, *flags, *rooms, report)
    told = {library.NO_ROOM: f"{report.size:,} bytes are left", library.NO_MEMORY: "no memory"}
    told[library.OVER] = f"operation {report.operation:,} {library.kind_of(report)}"
    return told[status]


def timed(call, texts, most, seconds):
    """The call in a process of its own, which prints its row."""
    child = os.fork()
    if child:
        return os.waitpid(child, 0)[1]
    resource.setrlimit(resource.RLIMIT_AS, (ROOM, ROOM))
    resource.setrlimit(resource.RLIMIT_CPU, (seconds, seconds))
    given = [text.encode() for text in texts]
    before = time.process_time()
    told = called(call, *given, most)
    print(f"{time.process_time() - before:9.3f} s  {told}, {resource.getrusage(resource.RUSAGE_SELF).ru_maxrss >> 10:,} MB held", flush=True)
    os._exit(0)


def main():
    words = argparse.ArgumentParser(description=__doc__, formatter_class=argparse.RawDescriptionHelpFormatter)
    words.add_argument("--bytes", type=int, default=1_000_000)
    words.add_argument("--only", default="")
    words.add_argument("--seconds", type=int, default=900)
    asked, wrong = words.parse_args(), 0
    for call, name, *texts in cases(asked.bytes):
        if asked.only not in f"{call}: {name}":
            continue
        print(f"{call}: {name}", flush=True)
        for what, most in (("usual limits", library.MOST_BYTES), ("no limit", sys.maxsize)):
            print(f"    {what:12}", end="", flush=True)
            ended = timed(call, texts, most, asked.seconds)
            if os.WIFSIGNALED(ended) and os.WTERMSIG(ended) in (signal.SIGXCPU, signal.SIGKILL):
                print(f"more than {asked.seconds} s", flush=True)
            elif ended:
                wrong = 1
    return wrong


if __name__ == "__main__":
    sys.exit(main())
