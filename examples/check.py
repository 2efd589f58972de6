#!/usr/bin/env python3
"""check.py PROGRAM: runs the worked examples of this folder against the built program.

INDEX.txt names each example, with its words, its exit status and what it shows. NAME.script, NAME.plan (of values) or
NAME.trace (of histories) is what the program reads, NAME.report what it must write, and NAME.error what standard error must
get; a file that is not there stands for nothing.
Where threads race, NAME.reports holds the lawful reports, parted by lines %%: each run must write one of them, and it is
told how many of them were seen.
Inputs that are too large to be kept are made here, and so is what `make N` and the longest script must write. What `trace` writes
of each script must be legal, and no longer where a dispatch is told of another message. Three scripts are also run by the real clock, and of two
it is judged that no looper sleeps past what is to wake it.
At the end it prints how long a run of each script takes; no time is a failure.
"""
import difflib
import os
import pathlib
import re
import subprocess
import sys
import time

HERE = pathlib.Path(__file__).resolve().parent
RUNS = 200
# on a free machine a run of an example script is to take less, in milliseconds
AIM = 20
HEAD = "dashboard 1\nloopers 1\nthreads 1\nhandler 0 0\nvsync 16666667\n"
MADE = {
    "input_too_long": lambda: b"x" * 1_048_577,
    "trace_too_long": lambda: b"x" * 67_108_865,
    "longest_script": lambda: (HEAD + "at 0\n" + "0 post 0 1 0\n" * 19_993 + "end 0\n").encode(),
    "line_20001": lambda: (HEAD + "at 0\n" + "0 post 0 1 0\n" * 19_994 + "end 0\n").encode(),
}


def generated(number):
    """The script that the generator makes from a number, written down from its rules."""
    lines = ["dashboard 1", "loopers 4", "threads 4"]
    lines += [f"handler {h} {h % 4}" for h in range(8)]
    lines += [f"gauge {p} {p} 50" for p in range(4)]
    lines += ["vsync 16666667"]
    lines += [f"on {h} 2 times 1000 post {(h + 1) % 8} 3 1" for h in range(8)]
    x = number
    for block in range(500):
        lines.append(f"at {10 * block}")
        for p in range(4):
            x = (x * 69069 + 1) % 2**32
            r = x // 65536
            handler, what, delay = r // 8 % 8, 2 + r // 64 % 4, r // 256 % 50
            if r % 8 < 4:
                lines.append(f"{p} post {handler} {what} {delay}")
            elif r % 8 == 4:
                lines.append(f"{p} post-async {handler} {what} {delay}")
            elif r % 8 == 5:
                lines.append(f"{p} front {handler} {what}")
            elif r % 8 == 6:
                lines.append(f"{p} callback {handler} {r // 64 % 100} {delay}")
            else:
                lines.append(f"{p} set {p} {r // 8 % 1001}")
    return "\n".join([*lines, "end 6000", ""]).encode()


def longest():
    """What the script of 20,000 lines writes: its messages of time 0 go from the last to the first."""
    lines = [f"0 dispatch {number} 0 1" for number in range(19_992, -1, -1)]
    fates = "fates accepted 19993 dispatched 19993 removed 0 dropped 0 stranded 0 queued 0"
    return "\n".join(["report 1", "looper 0", *lines, fates, "end", ""]).encode()


def quit_race(posts):
    """A thread quits a looper safely while another posts to it so often, and the lawful reports: the first posts are accepted and
    dispatched, the others refused by the quit."""
    head = ["dashboard 1", "loopers 2", "threads 2", "handler 0 0", "handler 1 1", "vsync 16666667"]
    script = "\n".join([*head, "at 10", "0 quit-safely 1", *["1 post 1 5 0"] * posts, "end 10", ""]).encode()
    idle = "fates accepted 0 dispatched 0 removed 0 dropped 0 stranded 0 queued 0"
    lawful = set()
    for accepted in range(posts + 1):
        lines = ["report 1", "looper 0", idle, "looper 1", *[f"refused 1 5 quit {accepted + 1}"] * (posts - accepted)]
        lines += [f"10 dispatch {number} 1 5" for number in range(accepted)]
        lines += [f"fates accepted {accepted} dispatched {accepted} removed 0 dropped 0 stranded 0 queued 0", "end", ""]
        lawful.add("\n".join(lines))
    return script, lawful


def quit_races(program):
    """A safe quit among two hundred posts refuses those behind it, and no other."""
    script, lawful = quit_race(200)
    seen = {run(program, ["run"], script) for _ in range(RUNS // 4)}
    print(f"a safe quit among 200 posts: {len(seen)} lawful reports seen in {RUNS // 4} runs")
    if seen - lawful:
        yield "quit_race", f"a report that is not lawful: {sorted(seen - lawful)[0]!r}"


def read(name, kind):
    file = HERE / f"{name}.{kind}"
    return file.read_bytes() if file.exists() else b""


def given_to(name):
    """What the program reads in an example: a script, a plan of values or a trace."""
    return MADE[name]() if name in MADE else b"".join(read(name, kind) for kind in ("script", "plan", "trace"))


def listed():
    """The lines of INDEX.txt: name, words, exit status and what is shown."""
    return [line.split("\t") for line in (HERE / "INDEX.txt").read_text().splitlines()]


def examples():
    for name, words, code, shows in listed():
        if (HERE / f"{name}.reports").exists():
            continue
        report = longest() if name == "longest_script" else read(name, "report")
        yield name, words.split(), given_to(name), int(code), report, read(name, "error"), shows
    for number in (0, 1, 4_294_967_295):
        yield f"make_{number}", ["make", str(number)], b"", 0, generated(number), b"", "the generated script"


def races(program):
    """Each run writes one of the lawful reports."""
    for name, words, *_ in listed():
        lawful = [text.lstrip("\n") for text in read(name, "reports").decode().split("%%\n")]
        if lawful == [""]:
            continue
        given, seen = given_to(name), set()
        for _ in range(RUNS):
            got = run(program, words.split(), given)
            if got not in lawful:
                yield name, f"a report that is not lawful: {got!r}"
                break
            seen.add(got)
        print(f"{name}: {len(seen)} of {len(lawful)} lawful reports seen in {RUNS} runs")


def run(program, words, given=b""):
    return subprocess.run([program, *words], input=given, capture_output=True, timeout=120).stdout.decode()


def summaries(program):
    """Of a generated script every accepted message is dispatched, and each gauge's last paint is its last set value."""
    for number in range(4):
        summary = run(program, ["make", str(number), "--run"])
        counts = dict(re.findall(r"^(\w+) (\d+)$", summary, re.M))
        if counts.get("summary") != str(number) or counts.get("accepted") != counts.get("dispatched"):
            yield f"make_{number}_run", summary
        if number == 0 and run(program, ["make", "0", "--run"]) != summary:
            yield "make_0_run", "a second run has other counts"
        script = generated(number)
        last_set = dict(re.findall(r"^\d+ set (\d+) (\d+)$", script.decode(), re.M))
        last_paint = dict(re.findall(r"paint (\d+) (\d+)$", run(program, ["run"], script), re.M))
        if last_set != last_paint:
            yield f"make_{number}", f"last paints {last_paint}, last sets {last_set}"


def by_clock(program):
    """By the real clock the script of two posts hands out both, none before its time: the second at 10 or later, the first 5 later. One may
    still be queued where its time lies past the end."""
    first = 0
    for _ in range(RUNS // 10):
        got = run(program, ["run", "--free"], given_to("posts_by_delay"))
        came = {int(number): int(now) for now, number in re.findall(r"^(\d+) dispatch (\d) 0 [78]$", got, re.M)}
        fates = re.search(r"^fates accepted 2 dispatched (\d) removed 0 dropped 0 stranded 0 queued (\d)$", got, re.M)
        if not fates or int(fates[1]) != len(came) or int(fates[2]) != 2 - len(came) or came.get(0, 15) < 15 or came.get(1, 10) < 10:
            yield "posts_by_delay by the clock", got
        first += list(came) == [1, 0]
    print(f"posts_by_delay by the clock: {first} of {RUNS // 10} runs hand out the post without delay, and then the other")


BELLS = """dashboard 1
loopers 2
threads 1
handler 0 0
handler 1 1
gauge 0 1 10
vsync 16666667
at 200
0 frame 0 0 5 0
0 frame 1 0 6 0
0 set 0 10
end 2500
"""


# Side loopers without frames, which sleep without end; each is woken by one thing alone.
WAKES = """dashboard 1
loopers 8
threads 3
handler 0 0
handler 1 1
handler 2 2
handler 3 3
handler 4 4
handler 5 5
vsync 16666667
on 1 11 times 1 post 5 15 0
at 0
2 watch 7 5 3 0
at 300
0 post 0 10 0
0 post 1 11 0
1 barrier 2 0
1 post 2 12 0
0 front 3 13
2 quit 4
2 frame 6 0 6 0
2 event 7 5 1
at 600
1 unbarrier 0
at 1500
2 event 7 5 2
end 2500
"""
# Of each dispatch its handler, its `what`, when it may come, and what wakes its looper.
WOKEN = (
    (0, 10, 300, "a post to main"),
    (1, 11, 300, "a post"),
    (2, 12, 600, "a barrier that is removed"),
    (3, 13, 300, "a post at the front"),
    (5, 15, 300, "a post by another looper"),
    (70, 0, 300, "a frame that is asked for"),
)
# A run that takes so many seconds hangs: one whose looper doesn't hear that it is quit never ends.
HANGS = 20


def run_together(program, scripts):
    """What runs of these scripts by the real clock write, side by side: None where a run hangs."""
    runs = [subprocess.Popen([program, "run", "--free"], stdin=subprocess.PIPE, stdout=subprocess.PIPE) for _ in scripts]
    for it, script in zip(runs, scripts):
        it.stdin.write(script.encode())
        it.stdin.close()
        it.stdin = None
    end = time.monotonic() + HANGS
    for it in runs:
        try:
            yield it.communicate(timeout=max(end - time.monotonic(), 0))[0].decode()
        except subprocess.TimeoutExpired:
            it.kill()
            it.communicate()
            yield None


def bells(got):
    """A looper that waits is woken where a frame is asked for: what is asked at 200 comes long before the end at 2500."""
    came = [int(now) for now in re.findall(r"^(\d+) dispatch \d+ 6[45] 0$", got, re.M)]
    ran = [got.count(line) for line in ("\nrun 0 5\n", "\nrun 0 6\n", "\npaint 0 10\n")]
    if len(came) < 2 or max(came) > 2000 or ran != [1, 1, 1]:
        yield f"a frame that is asked for comes late: {got}"


def wakes(got):
    """A looper that sleeps without end is woken by a post, a barrier's removal, a quit, a frame that is asked for and an event: each
    dispatch comes within a second of its time. The listener ends its watch at its first event, so the second comes to it only where
    the first didn't wake its looper."""
    for handler, what, due, means in WOKEN:
        came = [int(now) for now in re.findall(rf"^(\d+) dispatch \d+ {handler} {what}$", got, re.M)]
        if len(came) != 1 or abs(came[0] - due) >= 1000:
            yield f"{means} at {due} is heard at {came}"
    if (events := re.findall(r"^event .*", got, re.M)) != ["event 5 1"]:
        yield f"an event at 300 is heard as {events}"


def hearing(program):
    """By the real clock no looper sleeps past what is to wake it."""
    for judge, got in zip((bells, wakes), run_together(program, (BELLS, WAKES))):
        for wrong in [f"it takes {HANGS} seconds"] if got is None else judge(got):
            yield f"{judge.__name__} by the clock", wrong


def scripts():
    """The examples' scripts that are run, and some larger ones."""
    for file in sorted(HERE.glob("*.script")):
        yield file.stem, file.read_bytes()
    yield "busy", busy()
    yield "whole", WHOLE.encode()
    yield from ((f"make_{number}", generated(number)) for number in range(4))


def spoiled(trace):
    """The trace with its first dispatch told of the next message, and the verdict on it; None without a dispatch."""
    queue = place = None
    lines = trace.splitlines()
    for at, line in enumerate(lines):
        words = line.split()
        if words[0] == "queue":
            queue, place = words[1], -1
        place = None if place is None else place + 1
        if words[-2:-1] == ["dispatched"]:
            lines[at] = " ".join([*words[:-1], str(int(words[-1]) + 1)])
            return "\n".join([*lines, ""]), f"illegal queue {queue} entry {place - 1}\n"
    return None


def traces(program):
    """What `trace` writes of each script is legal, and with another message dispatched it is not."""
    for name, script in scripts():
        trace = run(program, ["trace"], script)
        if not trace:
            continue
        if (verdict := run(program, ["check"], trace.encode())) != "legal\n":
            yield f"trace of {name}", verdict
        if changed := spoiled(trace):
            if (verdict := run(program, ["check"], changed[0].encode())) != changed[1]:
                yield f"trace of {name} with another dispatch", f"{verdict!r}, wanted {changed[1]!r}"


def busy():
    """A script with three loopers, four threads and six gauges, each gauge set by one thread alone."""
    lines = ["dashboard 1", "loopers 3", "threads 4"]
    lines += [f"handler {h} {h % 3}" for h in range(6)]
    lines += [f"gauge {g} {g} {100 + 50 * g}" for g in range(6)]
    lines += ["vsync 16666667", "on 1 7 times 20 post 2 8 3"]
    for block in range(10):
        lines.append(f"at {20 * block}")
        lines += [f"{g % 4} set {g} {(37 * block + 101 * g) % 1001}" for g in range(6)]
        lines += [f"{p} post {p} 7 {5 * p}" for p in range(4)]
    return "\n".join([*lines, "end 2000", ""]).encode()


WHOLE = """dashboard 1
loopers 3
threads 4
handler 0 0
handler 1 1
handler 2 2
gauge 0 0 100
gauge 1 0 100
gauge 2 1 100
gauge 3 1 100
gauge 4 2 100
gauge 5 2 100
vsync 16666667
on 1 2 times 10 post 0 3 5
on 0 3 times 10 post 2 4 5
at 0
0 set 0 500
1 set 2 1000
2 post 1 2 10
3 post 2 9 1500
at 500
0 post-async 0 6 0
3 remove 2 9
at 1000
1 set 4 300
2 frame 0 0 77 0
at 1900
0 quit-safely 2
1 post 1 2 50
end 2000
"""


def whole(program):
    """A script of two seconds with three loopers, four threads and six gauges has the counts that its rules give, in each
    of many runs."""
    for _ in range(RUNS // 2):
        report = run(program, ["run"], WHOLE.encode())
        fates = re.findall(r"^fates accepted (\d+) dispatched (\d+) removed (\d+)", report, re.M)
        refused = re.findall(r"^refused .*", report, re.M)
        if fates != [("11", "11", "0"), ("14", "14", "0"), ("7", "6", "1")] or [it.startswith("refused 2 4 quit") for it in refused] != [True]:
            yield "whole", f"other counts: {report}"
            break


def counts_stay(program):
    """The counts of a busy script are the same in each of many runs."""
    seen = set()
    for _ in range(RUNS // 2):
        report = run(program, ["run"], busy())
        fates = re.findall(r"^fates accepted (\d+) dispatched (\d+)", report, re.M)
        seen.add((tuple(fates), len(re.findall(r"paint", report))))
    if len(seen) != 1:
        yield "busy", f"counts differ from run to run: {seen}"


def faults(program, words, given, code, report, error):
    try:
        got = subprocess.run([program, *words], input=given, capture_output=True, timeout=60)
    except subprocess.TimeoutExpired:
        return ["no answer in 60 seconds"]
    except OSError as failed:
        return [f"the program does not start: {failed}"]
    found = []
    if got.returncode != code:
        found.append(f"status {got.returncode}, wanted {code}")
    if got.stderr != error:
        found.append(f"standard error {got.stderr[:200]!r}, wanted {error!r}")
    if got.stdout != report:
        texts = [it.decode("latin-1").splitlines() for it in (report, got.stdout)]
        found += list(difflib.unified_diff(*texts, "wanted", "got", "", "", 2, ""))[:30]
    return found


def wall_times(program):
    """The wall time of each example script's run, with the program's start, and its name, the longest first: the least of up to
    five rounds, which end after a second, but for the first."""
    names = [name for name, words, *_ in listed() if words == "run" and (HERE / f"{name}.script").exists()]
    least, end = dict.fromkeys(names, float("inf")), time.perf_counter() + 1
    for number in range(5):
        for name in names:
            script, start = given_to(name), time.perf_counter()
            if number == 0 or start < end:
                run(program, ["run"], script)
                least[name] = min(least[name], time.perf_counter() - start)
    return sorted(((taken * 1000, name) for name, taken in least.items()), reverse=True)


def print_times(program):
    """The wall times in a table of three columns, the longest, and how many are above what is aimed at."""
    times = wall_times(program)
    print("milliseconds of a run of each script:")
    for at in range(0, len(times), 3):
        print("".join(f"{taken:7.1f} {name:33}" for taken, name in times[at : at + 3]).rstrip())
    above, load = sum(taken > AIM for taken, _ in times), os.getloadavg()[0]
    print(f"the longest takes {times[0][0]:.1f} ms; above {AIM} ms: {above} of {len(times)} scripts, at a load of {load:.0f}")


def main():
    if len(sys.argv) != 2:
        sys.exit("usage: check.py PROGRAM")
    program = str(pathlib.Path(sys.argv[1]).resolve())
    passed = failed = 0
    for name, words, given, code, report, error, shows in examples():
        found = faults(program, words, given, code, report, error)
        if found:
            failed += 1
            print("\n".join([f"FAILED {name}: {shows}", *found]))
        else:
            passed += 1
    for name, found in [*races(program), *quit_races(program), *by_clock(program), *hearing(program), *summaries(program), *whole(program), *counts_stay(program), *traces(program)]:
        failed += 1
        print(f"FAILED {name}: {found}")
    print_times(program)
    print(f"examples: {passed} passed, {failed} failed")
    sys.exit(1 if failed else 0)


if __name__ == "__main__":
    main()
