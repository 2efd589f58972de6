#!/usr/bin/env python3
"""stress.py PROGRAM [--scripts N] [--runs N] [--seed N] [--gate N]: runs scripts whose threads race, again and again, on one processor,
on two and on all, and judges each report.

With --gate the program is shaken_dashboard, in which threads and loopers let others run at random passes: N is the seed of the first run,
and each run has the next one.

The racing examples must write one of their lawful reports. Random scripts are judged by what holds of every schedule: times
never fall in a looper's lines, no message is dispatched twice, the fates add up, every post of a line is accepted or refused,
each thread's posts to one handler without delay come in its order (but for those at time 0, which go to the front), and what
`trace` writes is legal. The last line tells how many scripts and runs there were, how many different reports were seen, and how
many faults.
"""
import argparse
import collections
import os
import pathlib
import random
import re
import subprocess
import sys

HERE = pathlib.Path(__file__).resolve().parent


def script(seed):
    """A random script of one to four loopers and two to four threads, in which the threads of each block race, and how many posts it has.
    Half of the posts without delay behind time 0, where they go to the front, have a `what` of their own: 1000 * (p + 1) and up for thread p."""
    dice = random.Random(seed)
    loopers, threads, handlers = dice.randint(1, 4), dice.randint(2, 4), dice.randint(1, 6)
    lines = ["dashboard 1", f"loopers {loopers}", f"threads {threads}"]
    lines += [f"handler {h} {dice.randrange(loopers)}{dice.choice(['', '', ' async'])}" for h in range(handlers)]
    lines += ["vsync 16666667"]
    time, posts, label = 0, 0, 0
    made = [0] * threads
    for _ in range(dice.randint(1, 6)):
        lines.append(f"at {time}")
        for _ in range(dice.randint(1, 12)):
            thread, handler = dice.randrange(threads), dice.randrange(handlers)
            kind = dice.randrange(12)
            if kind < 3 and time > 0:
                made[thread] += 1
                lines.append(f"{thread} post {handler} {1000 * (thread + 1) + made[thread]} 0")
                posts += 1
            elif kind < 6:
                lines.append(f"{thread} post {handler} {dice.randrange(1, 4)} {dice.choice([0, 3, 20])}")
                posts += 1
            elif kind == 6:
                lines.append(f"{thread} front {handler} 9")
                posts += 1
            elif kind == 7:
                lines.append(f"{thread} callback {handler} {dice.randrange(5)} 0")
                posts += 1
            elif kind == 8:
                lines.append(f"{thread} remove {handler} {dice.randrange(1, 4)}")
            elif kind == 9 and label < 900:
                looper = dice.randrange(loopers)
                lines += [f"{thread} barrier {looper} {label}", f"{thread} unbarrier {label}"]
                label += 1
            elif kind == 10 and loopers > 1:
                lines.append(f"{thread} {dice.choice(['quit', 'quit-safely'])} {dice.randrange(1, loopers)}")
            else:
                lines.append(f"{thread} post-async {handler} {dice.randrange(1, 4)} {dice.choice([0, 7])}")
                posts += 1
        time += dice.randint(1, 40)
    return "\n".join([*lines, f"end {time + 50}", ""]).encode(), posts


class Program:
    """The program, and the seed of its next run where it takes one."""

    def __init__(self, path, gate):
        self.path, self.gate = str(pathlib.Path(path).resolve()), gate

    def run(self, words, given, processors):
        seeds = []
        if self.gate is not None:
            seeds = [str(self.gate)]
            self.gate += 1
        place = (lambda: os.sched_setaffinity(0, processors)) if processors else None
        return subprocess.run([self.path, *seeds, *words], input=given, capture_output=True, timeout=120, preexec_fn=place, check=False)


def faults(report, posts):
    """What is wrong with a report of a script without reactions, gauges and frames, which has so many posts."""
    met = collections.Counter()
    for looper in re.split(r"^looper ", report, flags=re.M)[1:]:
        name = looper.split("\n", 1)[0]
        dispatched = [(int(time), int(number)) for time, number in re.findall(r"^(\d+) dispatch (\d+) ", looper, re.M)]
        plain = collections.defaultdict(list)
        for handler, what in re.findall(r"^\d+ dispatch \d+ (\d+) (\d{4})$", looper, re.M):
            plain[handler, what[0]].append(what)
        refused = len(re.findall(r"^refused ", looper, re.M))
        fates = re.search(r"^fates accepted (\d+) dispatched (\d+) removed (\d+) dropped (\d+) stranded (\d+) queued (\d+)$", looper, re.M)
        if not fates:
            yield f"looper {name} has no fates"
            continue
        accepted, *ends = map(int, fates.groups())
        if [time for time, _ in dispatched] != sorted(time for time, _ in dispatched):
            yield f"looper {name}: times fall"
        if len({number for _, number in dispatched}) != len(dispatched) or any(number >= accepted for _, number in dispatched):
            yield f"looper {name}: a message is dispatched twice, or was never accepted"
        if sum(ends) != accepted or ends[0] != len(dispatched):
            yield f"looper {name}: fates don't add up"
        if any(whats != sorted(whats) for whats in plain.values()):
            yield f"looper {name}: a thread's posts without delay to one handler come in another order"
        met["accepted"] += accepted
        met["refused"] += refused
    if met["accepted"] + met["refused"] != posts:
        yield f"{met['accepted']} accepted and {met['refused']} refused of {posts} posts"
    if not report.endswith("end\n"):
        yield "the report has no end"


def main():
    words = argparse.ArgumentParser(description="runs racing scripts on one, two and all processors, with --gate through a shaken gate")
    words.add_argument("program")
    words.add_argument("--scripts", type=int, default=100)
    words.add_argument("--runs", type=int, default=10)
    words.add_argument("--seed", type=int, default=1)
    words.add_argument("--gate", type=int)
    asked = words.parse_args()
    program = Program(asked.program, asked.gate)
    every = sorted(os.sched_getaffinity(0))
    places = [set(every[:1]), set(every[:2]), set(every)]
    runs = found = 0
    seen = set()
    words_of = {line.split("\t")[0]: line.split("\t")[1].split() for line in (HERE / "INDEX.txt").read_text().splitlines()}
    for number in range(asked.seed, asked.seed + asked.scripts):
        given, posts = script(number)
        for turn in range(asked.runs):
            got = program.run(["run"], given, places[turn % 3])
            runs += 1
            wrong = [*faults(got.stdout.decode(), posts)] if got.returncode == 0 else [f"status {got.returncode}: {got.stderr!r}"]
            seen.add((number, got.stdout))
            for it in wrong:
                found += 1
                print(f"FAILED script of seed {number}: {it}")
        verdict = program.run(["check"], program.run(["trace"], given, places[2]).stdout, None).stdout
        if verdict != b"legal\n":
            found += 1
            print(f"FAILED trace of seed {number}: {verdict!r}")
    for file in sorted(HERE.glob("*.reports")):
        lawful = [text.lstrip("\n") for text in file.read_text().split("%%\n")]
        for turn in range(asked.runs * 10):
            got = program.run(words_of[file.stem], file.with_suffix(".script").read_bytes(), places[turn % 3]).stdout.decode()
            runs += 1
            seen.add((file.stem, got))
            if got not in lawful:
                found += 1
                print(f"FAILED {file.stem}: {got!r}")
    print(f"stress: {asked.scripts} random scripts, {runs} runs, {len(seen)} different reports, {found} faults")
    sys.exit(1 if found else 0)


if __name__ == "__main__":
    main()
