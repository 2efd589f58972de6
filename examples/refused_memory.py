#!/usr/bin/env python3
"""refused_memory.py PROGRAM [--plain] [--first]: runs worked examples again and again, and refuses one request for memory or for a thread in
each run: the first, the second, and so on, until a run has fewer.

Each run must write a lawful report and end with status 0, or write nothing and end with status 6 and its line. Two random scripts run
by the real clock too, and their reports are judged as free.py judges them. refuse.c does the refusing: it is compiled by cc and laid before the program, and behind it the address sanitizer of that compiler, which finds
what is not freed, freed twice or freed wrongly, and then ends the program with status 99. Of a program that it didn't build it sees
no more: `rt try` builds one with reads and writes watched too. --plain leaves it away. --first runs one example in lockstep and a short script
by the clock alone, and where there is no C compiler it skips them with a line. A run that takes ten seconds counts as
a hang, and so does one of the short script that is refused what it asks for at its beginning, and goes on to the script's end to say so. The last line tells how many runs there were, how they ended, and how many faults.
"""
import argparse
import collections
import os
import pathlib
import shutil
import subprocess
import sys
import tempfile
import time

sys.dont_write_bytecode = True
from free import Script

HERE = pathlib.Path(__file__).resolve().parent
FREE = (27, 38)
FIRST = ("post_after_quit_refused",)
EXAMPLES = ("posts_by_delay", "post_after_quit_refused", "post_races_quit", "gauge_runs_to_its_target", "inbox_keeps_each_senders_order")


# A side looper gets a message by the clock, and both wait then for the end.
SHORT = b"dashboard 1\nloopers 2\nthreads 1\nhandler 0 0\nhandler 1 1\nvsync 16666667\nat 0\n0 post 1 5 0\nend 1500\n"
# A thread that couldn't be started posts late, and then its message may be dropped, or refused.
FATES = tuple(
    b"\nfates accepted %d dispatched %d removed 0 dropped %d stranded 0 queued 0\nend\n" % counts for counts in ((1, 1, 0), (1, 0, 1), (0, 0, 0))
)
# A run that is given up at its beginning ends within these seconds.
EARLY = 1.3


def examples(first):
    """Of each example its name, its words, what it reads and what tells whether a report is lawful."""
    index = dict(line.split("\t")[:2] for line in (HERE / "INDEX.txt").read_text().splitlines())
    for name in FIRST if first else EXAMPLES:
        one, many = HERE / f"{name}.report", HERE / f"{name}.reports"
        lawful = [one.read_text()] if one.exists() else many.read_text().split("%%\n")
        yield name, index[name].split(), (HERE / f"{name}.script").read_bytes(), [text.encode() for text in lawful].__contains__
    yield "a short script by the clock", ["run", "--free"], SHORT, lambda report: report.endswith(FATES)
    for seed in () if first else FREE:
        script = Script(seed)
        yield f"random script {seed} by the clock", ["run", "--free"], script.text.encode(), lambda report, of=script: not list(of.faults(report.decode()))


def laid(folder, plain):
    """The libraries that are laid before the program, and whether the sanitizer is one of them."""
    own = f"{folder}/refuse.so"
    found = subprocess.run(["cc", "-print-file-name=libasan.so"], capture_output=True, text=True, check=True).stdout.strip()
    watched = not plain and os.path.isabs(found)
    # What refuses stands on the sanitizer, so that this one begins first.
    below = ["-Wl,--no-as-needed", found] if watched else []
    subprocess.run(["cc", "-O2", "-shared", "-fPIC", "-o", own, HERE / "refuse.c", "-ldl", *below], check=True)
    return (f"{own}:{found}" if watched else own), watched


def run(program, words, given, before, number, count):
    how = {"LD_PRELOAD": before, "REFUSE": str(number), "COUNT": count, "ASAN_OPTIONS": "exitcode=99:allocator_may_return_null=1:verify_asan_link_order=0"}
    try:
        return subprocess.run([program, *words], input=given, capture_output=True, timeout=10, env={**os.environ, **how}, check=False)
    except subprocess.TimeoutExpired:
        return None


def fault(got, lawful):
    """What is wrong with a run, and else how it ended."""
    if got is None:
        return "it hangs", None
    if got.returncode == 0 and lawful(got.stdout):
        return None, "with its report"
    if got.returncode == 6 and not got.stdout and got.stderr in (b"dashboard: no memory\n", b""):
        return None, "without memory"
    return f"status {got.returncode}, output {got.stdout[:200]!r}, standard error {got.stderr[:2000]!r}", None


def main():
    words = argparse.ArgumentParser(description="refuses each request of worked examples for memory or a thread in turn")
    words.add_argument("program")
    words.add_argument("--plain", action="store_true", help="without the address sanitizer")
    words.add_argument("--first", action="store_true", help="two examples alone")
    asked = words.parse_args()
    if asked.first and not shutil.which("cc"):
        print("refused memory: skipped, there is no C compiler")
        return
    program = str(pathlib.Path(asked.program).resolve())
    ends, faults = collections.Counter(), 0
    with tempfile.TemporaryDirectory() as folder:
        before, watched = laid(folder, asked.plain)
        count = f"{folder}/count"
        for name, words, given, lawful in examples(asked.first):
            number, most, early = 0, None, given is SHORT
            while most is None or number <= most:
                began = time.monotonic()
                got = run(program, words, given, before, number, count)
                wrong, end = fault(got, lawful)
                if early and end == "without memory" and time.monotonic() - began > EARLY:
                    wrong = "it is given up at its end alone"
                if wrong:
                    faults += 1
                    print(f"FAILED {name}, request {number} refused: {wrong}")
                ends[end] += 1
                asked_for, soon = map(int, pathlib.Path(count).read_text().split())
                if early and number == 0:
                    most = soon
                elif not early and number and asked_for < number:
                    break
                number += 1
            print(f"{name}: {number} runs")
    runs = sum(ends.values())
    how = "with the address sanitizer" if watched else "without the address sanitizer"
    print(f"refused memory: {runs} runs {how}, {ends['with its report']} with a report, {ends['without memory']} without memory, {faults} faults")
    sys.exit(1 if faults else 0)


if __name__ == "__main__":
    main()
