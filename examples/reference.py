#!/usr/bin/env python3
"""reference.py PROGRAM: runs what the Android API reference promises, as scripts in examples/reference, on the built program.

    reference.py --script NAME    prints the script of one promise

Each file there is of one class. A promise is a name, a sentence (says), where it comes from (from), a script without its head
(on one looper, on a side looper, on frames) and what comes of it (comes): the whole report but for what follows here.
The head: `on one looper` has the main looper with the handlers 0, 1 and the asynchronous 2; `on a side looper` has these three on looper 1, which
may quit, and handler 3 on looper 0; `on frames` is as the first, in edition 2, with five phases. All have two threads and a pulse
each ten milliseconds. Lines `gauge` go before the line `vsync`. A fates line names only the counts that are not 0; `accepted` is their sum.
Where `comes` names no looper it tells of the one under test, and on any other nothing happens."""
import difflib
import pathlib
import subprocess
import sys

HERE = pathlib.Path(__file__).resolve().parent / "reference"
HANDLERS = ["handler 0 0", "handler 1 0", "handler 2 0 async"]
ASIDE = ["handler 0 1", "handler 1 1", "handler 2 1 async", "handler 3 0"]
# the edition, the loopers and the handlers
HEADS = {
    "on one looper": (1, 1, HANDLERS),
    "on a side looper": (1, 2, ASIDE),
    "on frames": (2, 1, HANDLERS),
}
FATES = ("dispatched", "removed", "dropped", "stranded", "queued")


def promises():
    """Each promise: its file, its name, its fields, and the lines of its script and of what comes of it."""
    for file in sorted(HERE.glob("*.txt")):
        for part in file.read_text().strip().split("\n\n"):
            fields, lines = {}, None
            for line in part.splitlines():
                if line.startswith("    "):
                    lines.append(line.strip())
                elif line.endswith(":"):
                    lines = fields[line[:-1]] = []
                else:
                    word, _, rest = line.partition(": ")
                    fields[word] = rest
            head = next(it for it in HEADS if it in fields)
            yield file.stem, fields, head


def script(fields, head):
    edition, loopers, handlers = HEADS[head]
    gauges = [it for it in fields[head] if it.startswith("gauge ")]
    rest = [it for it in fields[head] if not it.startswith("gauge ")]
    lines = [f"dashboard {edition}", f"loopers {loopers}", "threads 2", *handlers, *gauges, "vsync 10000000", *rest]
    return "\n".join([*lines, ""])


def whole_fates(line):
    words = line.split()
    counts = {words[at]: int(words[at + 1]) for at in range(1, len(words), 2)}
    return " ".join([f"fates accepted {sum(counts.values())}", *(f"{fate} {counts.get(fate, 0)}" for fate in FATES)])


def report(fields, head):
    edition, loopers, _ = HEADS[head]
    lines = [whole_fates(it) if it.startswith("fates") else it for it in fields["comes"]]
    if not any(it.startswith("looper ") for it in lines):
        before = ["looper 0", whole_fates("fates"), "looper 1"] if loopers == 2 else ["looper 0"]
        lines = before + lines
    return "\n".join([f"report {edition}", *lines, "end", ""])


def faults(program, fields, head):
    got = subprocess.run([program, "run"], input=script(fields, head), capture_output=True, text=True, timeout=120)
    if got.returncode != 0:
        return [f"status {got.returncode}: {got.stderr}"]
    wanted = report(fields, head)
    return list(difflib.unified_diff(wanted.splitlines(), got.stdout.splitlines(), "promised", "got", "", "", 2, ""))


def main():
    words = sys.argv[1:]
    if len(words) == 2 and words[0] == "--script":
        print("".join(script(fields, head) for _, fields, head in promises() if fields["name"] == words[1]), end="")
        return
    if len(words) != 1:
        sys.exit("usage: reference.py PROGRAM, or reference.py --script NAME")
    program = str(pathlib.Path(words[0]).resolve())
    counts, failed, names = {}, 0, set()
    for subject, fields, head in promises():
        counts[subject] = counts.get(subject, 0) + 1
        found = faults(program, fields, head)
        if fields["name"] in names:
            found.append("the name stands twice")
        names.add(fields["name"])
        if found:
            failed += 1
            print("\n".join([f"FAILED {subject}, {fields['name']}: {fields['says']}", f"  from {fields['from']}", *found]))
    told = ", ".join(f"{subject} {count}" for subject, count in counts.items())
    print(f"reference: {sum(counts.values()) - failed} promises kept, {failed} not ({told})")
    sys.exit(1 if failed else 0)


if __name__ == "__main__":
    main()
