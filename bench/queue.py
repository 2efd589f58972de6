#!/usr/bin/env python3
"""Measures builds of loop_bench side by side, and prints a table.

    bench/queue.py ROUNDS NAME=PROGRAM NAME=PROGRAM ..

Each round runs each mode on each program in turn. What counts is the processor time of the program's process, system and user
together, and the least of all rounds. Where a mode begins with what another mode does alone, the least of that one is taken off.
The ratios are the first program's time by each other's: above 1 means faster than the first.
"""
import os
import sys

# mode, count, the mode whose time is taken off, what it is
CASES = [
    ("chain", 200_000, None, "each message posted for now and taken"),
    ("burst", 100_000, None, "all posted, then all taken"),
    ("rising", 20_000, None, "10,000 late posts, then 10,000 for earlier times, rising"),
    ("scatter", 20_000, None, "20,000 posts for scattered times"),
    ("barrier", 20_000, "fenced", "behind a barrier with 20,000 posts: 1,000 looks that wait, 1,000 that take"),
    ("removals", 10_000, "late", "10,000 removals that match nothing of 10,000 posts"),
    ("remove_all", 100_000, "late", "one removal of 100,000 messages (with their drop)"),
    ("safe_quit", 100_000, "late", "a safe quit of 100,000, half of them later (with their drop)"),
]


def processor_time(program, mode, count):
    """The processor seconds of one run. It fails where the program fails."""
    child = os.posix_spawn(
        program,
        [program, mode, str(count)],
        os.environ,
        file_actions=[(os.POSIX_SPAWN_OPEN, 1, os.devnull, os.O_WRONLY, 0)],
    )
    _, status, usage = os.wait4(child, 0)
    if os.waitstatus_to_exitcode(status) != 0:
        raise SystemExit(f"{program} {mode} {count} failed")
    return usage.ru_utime + usage.ru_stime


def measure(programs, rounds):
    """The least time of each program at each mode and count."""
    wanted = {(mode, count) for mode, count, _, _ in CASES}
    wanted |= {(base, count) for _, count, base, _ in CASES if base}
    least = {}
    for _ in range(rounds):
        for mode, count in sorted(wanted):
            for name, program in programs:
                time = processor_time(program, mode, count)
                key = (name, mode, count)
                least[key] = min(least.get(key, time), time)
    return least


def table(programs, least):
    """The table as lines of Markdown."""
    names = [name for name, _ in programs]
    yield "| What | " + " | ".join(f"{name}, ms" for name in names) + " | " + " | ".join(
        f"{names[0]} / {name}" for name in names[1:]
    ) + " |"
    yield "|---" * (2 * len(names)) + "|"
    for mode, count, base, what in CASES:
        times = []
        for name in names:
            time = least[name, mode, count] - (least[name, base, count] if base else 0)
            times.append(max(time, 0.0) * 1000)
        ratios = [f"{times[0] / time:.2g}" if time > 0 else "-" for time in times[1:]]
        yield f"| `{mode}`: {what} | " + " | ".join(f"{time:.3g}" for time in times) + " | " + " | ".join(ratios) + " |"


def main():
    if len(sys.argv) < 3:
        raise SystemExit(__doc__)
    rounds = int(sys.argv[1])
    programs = [tuple(word.split("=", 1)) for word in sys.argv[2:]]
    for line in table(programs, measure(programs, rounds)):
        print(line)


main()
