#!/usr/bin/env python3
"""soak.py [PROGRAM] [--messages N] [--frames N] [--minutes N] [--short] [--c LONG_RUN]: runs loops for long, and fails where their memory grows.

PROGRAM is the program of crates/soak: its looper always has a message due, of a handler that posts to itself and of four threads, and
its frames each run a callback that posts itself; each stands over a queue without a record, and over one that keeps it until it is let go. Beside it stand removals that match nothing, and posts that are refused. Each part is
run for 10,000 messages or frames, and then for many: the most resident memory of the long run (VmHWM, the most that VmRSS was) may be
1 MB above that of the short one. --minutes runs the parts again and again for so long;
--short is for a gate, and takes seconds. LONG_RUN is the program of c/tests/long_run.c, which is judged likewise.
"""
import argparse
import os
import pathlib
import re
import subprocess
import sys
import time

FIRST = 10_000
# as much more memory may a long run hold, in kilobytes
ABOVE = 1024
ROOT = pathlib.Path(__file__).resolve().parent.parent
SOAK = ROOT / "crates" / "soak" / "out" / "soak"


def most_resident(number):
    """The most kilobytes that were resident of a process, 0 where it has ended."""
    try:
        found = re.search(r"^VmHWM:\s+(\d+)", pathlib.Path(f"/proc/{number}/status").read_text(), re.M)
    except OSError:
        found = None
    return int(found[1]) if found else 0


def run(words):
    """The most kilobytes of a run, the seconds that it took, and what it wrote. It fails where the program fails."""
    began, most = time.monotonic(), 0
    child = subprocess.Popen(words, stdout=subprocess.PIPE)
    while child.poll() is None:
        most = max(most, most_resident(child.pid))
        time.sleep(min((time.monotonic() - began) / 20, 0.1))
    said = child.stdout.read().decode().strip()
    if child.returncode != 0 or most == 0:
        raise SystemExit(f"soak: {' '.join(words)} ended with status {child.returncode} after {most} KB: {said}")
    return most, time.monotonic() - began, said


def judge(name, first, words):
    """Runs a part for long, tells what it held, and answers whether that is too much."""
    most, seconds, said = run(words)
    print(f"{name}: {said}")
    print(f"{name}: at most {most} KB resident in {seconds:.1f} s, {first} KB at most in a run of {FIRST}", flush=True)
    return most > first + ABOVE


def main():
    words = argparse.ArgumentParser(description="runs loops for long, and fails where their memory grows")
    words.add_argument("program", nargs="?", default=str(SOAK))
    words.add_argument("--messages", type=int, default=2_000_000)
    words.add_argument("--frames", type=int, default=1_000_000)
    words.add_argument("--minutes", type=float, default=0)
    words.add_argument("--short", action="store_true")
    words.add_argument("--c", metavar="LONG_RUN")
    asked = words.parse_args()
    counts = {"messages": 100_000, "frames": 100_000} if asked.short else {"messages": asked.messages, "frames": asked.frames}
    counts |= {"kept-" + name: count for name, count in counts.items()}
    parts = [(name, lambda count, name=name: [asked.program, name, str(count)], count) for name, count in counts.items()]
    if asked.c:
        parts.append(("C messages", lambda count: [asked.c, str(count), "0"], counts["messages"]))
        parts.append(("C frames", lambda count: [asked.c, "0", str(count)], counts["frames"]))
    firsts = [run(of(FIRST))[0] for _, of, _ in parts]
    grown, end = 0, time.monotonic() + 60 * asked.minutes
    while True:
        for (name, of, count), first in zip(parts, firsts):
            grown += judge(name, first, of(count))
        if time.monotonic() >= end:
            break
    print(f"soak: {grown} runs held more than {ABOVE} KB above a short one, at a load of {os.getloadavg()[0]:.0f}")
    sys.exit(1 if grown else 0)


if __name__ == "__main__":
    main()
