#!/usr/bin/env python3
"""explain.py PROGRAM: what `explain` says of each refused input, and of good ones, is what explained/ holds.

explained/INDEX.txt names each group, with the word that the program gets (`-`: none), where the inputs stand, and what they show.
NAME.out is what the program must write: with `-` for the place, of each input of NAME.in, both parted by lines %%. Else the place
is a file of this folder, or `made NAME` for an input that is made here. What begins with `good` ends with status 0, all else with 3.

Each example that `dashboard` refuses by a line, and each history that it finds illegal, has its explanation here, and that
begins with the line and the cause, or with the entry, that the example tells.
"""
import difflib
import pathlib
import re
import subprocess
import sys

import check

HERE = pathlib.Path(__file__).resolve().parent
EXPLAINED = HERE / "explained"
MADE = {**check.MADE, "no_end_in_20000": lambda: (check.HEAD + "at 0\n" + "0 post 0 1 0\n" * 19_994).encode()}


def listed():
    """The lines of INDEX.txt: name, word, where the inputs stand, and what they show."""
    return [line.split("\t") for line in (EXPLAINED / "INDEX.txt").read_text().splitlines()]


def inputs(name, place):
    if place == "-":
        return (EXPLAINED / f"{name}.in").read_bytes().split(b"%%\n")
    return [MADE[place[5:]]() if place.startswith("made ") else (HERE / place).read_bytes()]


def wanted(name):
    return (EXPLAINED / f"{name}.out").read_text().split("%%\n")


def faults(program, word, given, expected):
    got = subprocess.run([program, *([] if word == "-" else [word])], input=given, capture_output=True, timeout=60)
    code = 0 if expected.startswith("good ") else 3
    if got.returncode != code:
        yield f"status {got.returncode}, wanted {code}"
    if got.stderr:
        yield f"standard error {got.stderr[:200]!r}"
    texts = [expected.splitlines(), got.stdout.decode("latin-1").splitlines()]
    yield from difflib.unified_diff(*texts, "wanted", "got", "", "", 2, "")


def told(name):
    """How the explanation of an example has to begin, where `dashboard` refuses it by a line or finds it illegal."""
    error, report = check.read(name, "error").decode(), check.read(name, "report").decode()
    if line := re.fullmatch(r"dashboard: script (line \d+: \w+)\n", error):
        return line[1]
    if line := re.fullmatch(r"dashboard: (trace line \d+)\n", error):
        return line[1]
    return report.strip() if report.startswith("illegal ") else None


def unexplained():
    """The examples that need an explanation and have none that begins so. What `inbox` alone refuses is a good script."""
    for name, words, *_ in check.listed():
        begins = told(name)
        if begins and not begins.endswith(": inbox"):
            file = EXPLAINED / f"{name}.out"
            first = file.read_text().splitlines()[0] if file.exists() else "nothing"
            if not re.fullmatch(rf"((script|plan) )?{re.escape(begins)}(, line \d+)?", first):
                yield f"FAILED {name}: `dashboard {words}` tells {begins}, and explained is {first}"


def main():
    if len(sys.argv) != 2:
        sys.exit("usage: explain.py PROGRAM")
    program = str(pathlib.Path(sys.argv[1]).resolve())
    passed, failed = 0, list(unexplained())
    for name, word, place, shows in listed():
        for number, (given, expected) in enumerate(zip(inputs(name, place), wanted(name), strict=True), 1):
            if found := list(faults(program, word, given, expected)):
                failed += ["\n".join([f"FAILED {name}, input {number}: {shows}", *found])]
            else:
                passed += 1
    files = {it.stem for it in EXPLAINED.glob("*.out")} | {it.stem for it in EXPLAINED.glob("*.in")}
    failed += [f"FAILED {name}: not in INDEX.txt" for name in sorted(files - {name for name, *_ in listed()})]
    print("\n".join([*failed, f"explained: {passed} passed, {len(failed)} failed"]))
    sys.exit(1 if failed else 0)


if __name__ == "__main__":
    main()
