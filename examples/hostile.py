#!/usr/bin/env python3
"""hostile.py PROGRAM [--rounds N]: times the refusal of inputs that are hostile to the reader, at half and at full length.

Each input has a megabyte, or as much as its limits allow. It must be refused with the status and the line that are told here; the time
is the least of some rounds, in processor milliseconds, less what an empty input takes. The last line tells the greatest ratio
of full to half length among those that take half a millisecond at half length; a reader that is linear in the length comes to about 2.
"""
import argparse
import pathlib
import resource
import subprocess
import sys

MEGABYTE = 1_048_576
HEAD = b"dashboard 1\nloopers 1\nthreads 16\nhandler 0 0\nvsync 16666667\nat 0\n"


def labels(count):
    """So many barriers, each thread's with labels of its own, and then one whose label its thread has used."""
    lines = [b"%d barrier 0 %d\n" % (number % 16, number // 16) for number in range(count)]
    return HEAD + b"".join(lines) + b"0 barrier 0 0\nend 0\n", count + 7


def unbarriers(count):
    """So many barriers, each removed at once, and then a removal without its barrier."""
    lines = [b"%d barrier 0 %d\n%d unbarrier %d\n" % (number % 16, number // 16, number % 16, number // 16) for number in range(count // 2)]
    return HEAD + b"".join(lines) + b"0 unbarrier 999\nend 0\n", 2 * (count // 2) + 7


def posts(size):
    """Good lines up to the most, and one too many."""
    count = size * 19_994 // MEGABYTE
    return HEAD + b"0 post 0 999999 0\n" * count, (count + 7 if count < 19_994 else 20_001)


def inputs(part):
    """Of each input what it is called, its words, its bytes, and the status and line with which it is refused."""
    size = MEGABYTE // part
    digits = b"1" * 1_000
    yield "one line without end", "run", b"x" * size, 3, 1
    yield "one word of a line", "run", b"dashboard " + b"1" * (size - 10), 3, 1
    yield "single spaces", "run", b" " * size, 3, 1
    yield "line feeds alone", "run", b"\n" * size, 3, 1
    yield "bytes above 127", "run", b"\xff" * size, 3, 1
    yield "numbers of a thousand digits", "run", HEAD + (b"0 post 0 1 " + digits + b"\n") * (size // 1_012 - 1), 3, 7
    yield "a line of numbers", "run", HEAD + b"0 post" + b" 1" * (size // 2 - 40) + b"\n", 3, 7
    text, line = labels(16_000 // part)
    yield "16,000 labels", "run", text, 3, line
    text, line = unbarriers(16_000 // part)
    yield "8,000 barriers removed", "run", text, 3, line
    text, line = posts(size)
    yield "20,000 good lines and one", "run", text, 3, line
    yield "one line without end", "animate", b"x" * size, 3, 1
    yield "bytes above 127", "animate", b"\xff" * size, 3, 1
    yield "numbers of a thousand digits", "animate", b"animate 1\nperiod " + digits + b"\n" * (size - 1_017), 3, 2
    yield "one line without end", "check", b"x" * size, 8, 1
    yield "line feeds alone", "check", b"\n" * size, 8, 1
    yield "bytes above 127", "check", b"trace 1\n" + b"\xff" * (size - 8), 8, 2
    yield "numbers of a thousand digits", "check", b"trace 1\nqueue 0 main lockstep 3 " + digits + b"\n" * (size - 1_032), 8, 2
    yield "queues without entries", "check", b"trace 1\n" + b"queue 0 main lockstep 3 0\n" * ((size - 8) // 26), 8, (size - 8) // 26 + 2


def time(program, word, given, code, line, rounds):
    """The least processor time of some runs, in milliseconds; None where one is not refused as it must be."""
    times = []
    for _ in range(rounds):
        before = resource.getrusage(resource.RUSAGE_CHILDREN)
        got = subprocess.run([program, word], input=given, capture_output=True, timeout=120, check=False)
        after = resource.getrusage(resource.RUSAGE_CHILDREN)
        times.append(1_000 * (after.ru_utime - before.ru_utime + after.ru_stime - before.ru_stime))
        told = got.stderr.split(b":")[1].split()
        if got.returncode != code or got.stdout or told[-2:] != [b"line", b"%d" % line]:
            print(f"FAILED: status {got.returncode}, wanted {code}; {got.stderr!r}, wanted line {line}")
            return None
    return min(times)


def main():
    words = argparse.ArgumentParser(description="times the refusal of hostile inputs")
    words.add_argument("program")
    words.add_argument("--rounds", type=int, default=5)
    asked = words.parse_args()
    program = str(pathlib.Path(asked.program).resolve())
    failed, most = 0, 0.0
    print("| Word | Input | Bytes | half, ms | full, ms | full / half |")
    print("|---|---|---|---|---|---|")
    for half, full in zip(inputs(2), inputs(1)):
        name, word, given, code, line = full
        nothing = time(program, word, b"", code, 1, asked.rounds)
        times = [time(program, *one[1:], asked.rounds) for one in (half, full)]
        if None in (nothing, *times):
            failed += 1
            print(f"FAILED {word}, {name}")
            continue
        part, whole = (max(it - nothing, 0.0) for it in times)
        ratio = whole / part if part >= 0.5 else 0.0
        most = max(most, ratio)
        print(f"| `{word}` | {name} | {len(given):,} | {part:.1f} | {whole:.1f} | {f'{ratio:.1f}' if ratio else 'too short'} |")
    print(f"hostile: the greatest ratio is {most:.1f}, {failed} failed")
    sys.exit(1 if failed or most > 3 else 0)


if __name__ == "__main__":
    main()
