#!/usr/bin/env python3
"""free.py PROGRAM [--scripts N] [--seed N] [--jobs N]: runs random short scripts by the real clock (run --free) and judges each report by
what holds of every such run. With --sleep it runs one script of two seconds with ten messages, and tells what that cost and how late they came.

Each post has a `what` of its own, so a dispatch tells of which line it comes. Of each report it is judged:
- each looper's dispatches stand by rising time, no message is dispatched twice, and none before its block's time and its delay;
- a thread's posts without delay to one handler come in their order, and so do its asynchronous ones, which may pass the others at a barrier; but for those of a block
  at 0: a post for time 0 goes before all others, as one at the front does;
- each post was accepted or refused, and the fates of what was accepted add up;
- frame times of a looper rise, each frame runs its callbacks by phase, and none runs more often than posted;
- a gauge never moves by more than its step between two paints, nor past its targets;
- the run ends within a second of the script's end.
"""
import argparse
import collections
import concurrent.futures
import pathlib
import random
import re
import resource
import subprocess
import sys
import time

PERIOD = 16_666_667
SECONDS = 1.0


class Script:
    """A random script of at most a quarter of a second, and what its lines ask for."""

    def __init__(self, seed):
        dice = random.Random(seed)
        self.loopers, self.threads, self.handlers = dice.randint(1, 3), dice.randint(1, 3), dice.randint(1, 4)
        self.homes = [dice.randrange(self.loopers) for _ in range(self.handlers)]
        self.lines = [f"dashboard {dice.choice([1, 1, 2])}", f"loopers {self.loopers}", f"threads {self.threads}"]
        self.lines += [f"handler {h} {home}{dice.choice(['', '', ' async'])}" for h, home in enumerate(self.homes)]
        self.gauges = [(dice.randrange(self.handlers), dice.randint(1, 40)) for _ in range(dice.randint(0, 2))]
        self.lines += [f"gauge {g} {handler} {step}" for g, (handler, step) in enumerate(self.gauges)]
        self.lines.append(f"vsync {PERIOD}")
        # by `what`: thread, handler, the earliest time, and, where its order is known, among which of the thread's posts
        self.posts, self.frames, self.targets = {}, [], collections.defaultdict(set)
        self.quits = set()
        at, label, bars = 0, 0, []
        for _ in range(dice.randint(1, 4)):
            self.lines.append(f"at {at}")
            for _ in range(dice.randint(1, 6)):
                self.line(dice, at, bars)
            at += dice.randint(1, 60)
        for thread, label in bars:
            self.lines.append(f"at {at}")
            self.lines.append(f"{thread} unbarrier {label}")
            at += 1
        self.end = at + dice.randint(0, 60)
        self.text = "\n".join([*self.lines, f"end {self.end}", ""])

    def line(self, dice, at, bars):
        thread, handler, kind = dice.randrange(self.threads), dice.randrange(self.handlers), dice.randrange(12)
        what = 100 + len(self.posts)
        if kind < 6:
            delay = dice.choice([0, 0, 3, 25])
            self.posts[what] = (thread, handler, at + delay, (delay == 0 and at > 0) and ("post", "post-async")[kind == 5])
            self.lines.append(f"{thread} {'post-async' if kind == 5 else 'post'} {handler} {what} {delay}")
        elif kind == 6:
            self.posts[what] = (thread, handler, 0, False)
            self.lines.append(f"{thread} front {handler} {what}")
        elif kind == 7 and self.loopers > 1:
            looper = dice.randrange(1, self.loopers)
            self.quits.add(looper)
            self.lines.append(f"{thread} {dice.choice(['quit', 'quit-safely'])} {looper}")
        elif kind == 8:
            bars.append((thread, len(bars)))
            self.lines.append(f"{thread} barrier {self.homes[handler]} {len(bars) - 1}")
        elif kind in (9, 10) and self.gauges:
            gauge, target = dice.randrange(len(self.gauges)), dice.randrange(200)
            self.targets[gauge].add(target)
            self.lines.append(f"{thread} set {gauge} {target}")
        else:
            looper, phase, delay = dice.randrange(self.loopers), dice.randrange(2), dice.choice([0, 0, 20])
            self.frames.append((looper, phase, 1000 + len(self.frames), at + delay))
            self.lines.append(f"{thread} frame {looper} {phase} {1000 + len(self.frames) - 1} {delay}")

    def faults(self, report):
        """What is wrong with a report of a free run of this script."""
        if not report.endswith("end\n"):
            yield "the report has no end"
        met, heads = 0, re.findall(r"^looper (\d+)$", report, re.M)
        if heads != [str(q) for q in range(self.loopers)]:
            yield f"it has the loopers {heads}"
        for looper in re.split(r"^looper ", report, flags=re.M)[1:]:
            number, *lines = looper.rstrip("\n").split("\n")
            for fault in self.faults_of(int(number), lines):
                yield f"looper {number}: {fault}"
            fates = next((line.split() for line in lines if line.startswith("fates ")), None)
            met += sum(line.startswith("refused ") for line in lines) + (int(fates[2]) if fates else 0)
        sets = sum(" set " in line for line in self.lines)
        if met < len(self.posts) + sets:
            yield f"{met} messages accepted or refused of {len(self.posts)} posts and {sets} settings"

    def faults_of(self, looper, lines):
        dispatched, order = [], collections.defaultdict(list)
        for line in lines:
            part = line.split()
            if len(part) > 4 and part[1] == "dispatch":
                now, number, handler, what = int(part[0]), int(part[2]), int(part[3]), int(part[4])
                dispatched.append((now, number))
                if what in self.posts:
                    thread, of, earliest, plain = self.posts[what]
                    if handler != of or self.homes[of] != looper:
                        yield f"message {what} comes to handler {handler}"
                    if now < earliest:
                        yield f"message {what} is dispatched at {now}, before {earliest}"
                    if plain:
                        order[thread, handler, plain].append(what)
        whats = [int(line.split()[4]) for line in lines if re.match(r"\d+ dispatch \d+ \d+ 1\d\d", line)]
        if len(whats) != len(set(whats)):
            yield "a message is dispatched twice"
        if [now for now, _ in dispatched] != sorted(now for now, _ in dispatched):
            yield "times fall"
        if len({number for _, number in dispatched}) != len(dispatched):
            yield "a number is dispatched twice"
        for whats in order.values():
            if whats != sorted(whats):
                yield f"a thread's posts to one handler come as {whats}"
        fates = [line for line in lines if line.startswith("fates ")]
        match = re.fullmatch(r"fates accepted (\d+) dispatched (\d+) removed (\d+) dropped (\d+) stranded (\d+) queued (\d+)", "".join(fates))
        if not match:
            yield "it has no fates"
            return
        accepted, *ends = map(int, match.groups())
        if sum(ends) != accepted or ends[0] != len(dispatched):
            yield "the fates don't add up"
        if any(number >= accepted for _, number in dispatched):
            yield "a message is dispatched that was never accepted"
        yield from self.frame_faults(looper, lines)

    def frame_faults(self, looper, lines):
        frame, phase, last, runs, values = None, 0, -1, collections.Counter(), {}
        for line in lines:
            part = line.split()
            if part[0] == "frame":
                if int(part[1]) <= last:
                    yield f"a frame of {part[1]} comes behind one of {last}"
                frame, phase, last = int(part[1]), 0, int(part[1])
            elif part[0] == "run":
                if int(part[1]) < phase:
                    yield f"phase {part[1]} comes behind phase {phase}"
                phase = int(part[1])
                runs[int(part[2])] += 1
                for of, at, code, earliest in self.frames:
                    if code == int(part[2]) and (of != looper or at != phase):
                        yield f"callback {code} runs in phase {phase} of looper {looper}"
            elif "paint" in part:
                gauge, value = int(part[-2]), int(part[-1])
                moved = abs(value - values.get(gauge, 0))
                if moved > self.gauges[gauge][1]:
                    yield f"gauge {gauge} moves by {moved}"
                if value > max(self.targets[gauge], default=0):
                    yield f"gauge {gauge} stands at {value}, past its targets"
                values[gauge] = value
        for code, count in runs.items():
            if code in {code for _, _, code, _ in self.frames} and count > 1:
                yield f"callback {code} runs {count} times"


def judge(program, seed):
    """What is wrong with a run of the script of this seed, and how many seconds it took."""
    script = Script(seed)
    began = time.monotonic()
    got = subprocess.run([program, "run", "--free"], input=script.text.encode(), capture_output=True, timeout=60, check=False)
    took = time.monotonic() - began
    wrong = [] if got.returncode == 0 else [f"status {got.returncode}: {got.stderr!r}"]
    wrong += script.faults(got.stdout.decode()) if got.returncode == 0 else []
    if took > script.end / 1000 + SECONDS:
        wrong.append(f"it took {took:.2f} seconds for a script of {script.end} milliseconds")
    return seed, wrong, took - script.end / 1000, script.text, got.stdout.decode()


def sleeps(program):
    """Runs two seconds with ten messages, each 50 milliseconds behind its block: the processor time, and how late each came."""
    lines = ["dashboard 1", "loopers 1", "threads 1", "handler 0 0", f"vsync {PERIOD}"]
    for k in range(10):
        lines += [f"at {200 * k}", f"0 post 0 {100 + k} 50"]
    text = "\n".join([*lines, "end 2000", ""])
    before = resource.getrusage(resource.RUSAGE_CHILDREN)
    got = subprocess.run([program, "run", "--free"], input=text.encode(), capture_output=True, timeout=60, check=True)
    after = resource.getrusage(resource.RUSAGE_CHILDREN)
    spent = after.ru_utime + after.ru_stime - before.ru_utime - before.ru_stime
    came = {int(what): int(now) for now, what in re.findall(r"^(\d+) dispatch \d+ 0 (\d+)$", got.stdout.decode(), re.M)}
    late = [came[100 + k] - 200 * k - 50 for k in range(10)]
    print(f"free: two seconds with ten messages took {spent * 1000:.0f} ms of a processor; they came {min(late)} to {max(late)} ms behind their times")
    sys.exit(0 if min(late) >= 0 else 1)


def main():
    words = argparse.ArgumentParser(description="runs random short scripts by the real clock, and judges their reports")
    words.add_argument("program")
    words.add_argument("--scripts", type=int, default=100)
    words.add_argument("--seed", type=int, default=1)
    words.add_argument("--jobs", type=int, default=4)
    words.add_argument("--sleep", action="store_true")
    asked = words.parse_args()
    program = str(pathlib.Path(asked.program).resolve())
    if asked.sleep:
        sleeps(program)
    found, late, seen = 0, 0.0, 0
    with concurrent.futures.ThreadPoolExecutor(asked.jobs) as pool:
        for seed, wrong, behind, text, report in pool.map(lambda it: judge(program, it), range(asked.seed, asked.seed + asked.scripts)):
            late = max(late, behind)
            seen += report.count(" dispatch ")
            for it in wrong:
                found += 1
                print(f"FAILED script of seed {seed}: {it}")
            if wrong:
                print(text, report, sep="\n")
    print(f"free: {asked.scripts} random scripts by the clock, {seen} dispatches, at most {late * 1000:.0f} ms behind their end, {found} faults")
    sys.exit(1 if found else 0)


if __name__ == "__main__":
    main()
