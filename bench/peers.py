#!/usr/bin/env python3
"""Measures the queue for C beside other queues and loops, and prints a table of nanoseconds of processor time a message, and one of ratios.
In the cases `pair` and `quad` each thread has a processor of its own, and the nanoseconds are those that pass; they want a free machine.

    bench/peers.py [ROUNDS] [--seconds SECONDS] [--only NAME;NAME..]

It builds what is in bench/peers over crates/message_queue_c/out/libmessage_queue_c.a (rt lib in crates/message_queue_c makes it), and
skips with a line what isn't installed. Each round runs every case once on each program in turn, so that all meet the same machine;
what counts is the least of all rounds. A case that takes a program too long is left out. With --only it runs ours and the programs of
these names. A handler with a pool and a shared queue takes
part by crates/loop_bench/out/loop_bench (rt run in crates/loop_bench makes it), by the processor time of the whole process; its other
modes are measured by bench/queue.py."""
import os
import pathlib
import shutil
import subprocess
import sys
import tempfile
import time

HERE = pathlib.Path(__file__).resolve().parent
PEERS = HERE / "peers"
CRATE = HERE.parent / "crates" / "message_queue_c"
LIBRARY = CRATE / "out" / "libmessage_queue_c.a"
HEAP = HERE.parent / "examples" / "embed" / "heap.c"
FLAGS = ["-O2", f"-I{CRATE / 'include'}", "-I" + str(PEERS)]
C = ["-std=c11", "-D_GNU_SOURCE"]

# AOSP's own libraries as Debian has them: no pkg-config tells of them
AOSP = "AOSP Looper"
ANDROID = pathlib.Path("/usr/include/android")
LIBRARIES = pathlib.Path(f"/usr/lib/{os.uname().machine}-linux-gnu/android")
ANDROID_FLAGS = ["-w", "-isystem", str(ANDROID), f"-L{LIBRARIES}", "-lutils", "-llog", "-lcutils", "-lbase", f"-Wl,-rpath,{LIBRARIES}"]

# takes part where each thread has a processor alone
SPINNING = "ours, spinning"

# name, sources, flags, the package of pkg-config, what to install
PROGRAMS = [
    ("ours", ["ours.c", HEAP, LIBRARY], [], None, None),
    ("ours, nodes kept", ["ours.c", "heap_kept.c", LIBRARY], [], None, None),
    ("ours, nodes and moment kept", ["ours_moment.c", "heap_kept.c", LIBRARY], [], None, None),
    (SPINNING, ["ours_spinning.c", HEAP, LIBRARY], [], None, None),
    ("no queue", ["no_queue.c"], [], None, None),
    ("plain C list", ["plain_list.c"], [], None, None),
    ("GLib", ["glib.c"], [], "glib-2.0", "libglib2.0-dev"),
    ("Qt", ["qt.cpp"], ["-fPIC"], "Qt5Core", "qtbase5-dev"),
    ("libuv", ["libuv.c"], [], "libuv", "libuv1-dev"),
    ("libevent", ["libevent.c"], [], "libevent_pthreads", "libevent-dev"),
    (AOSP, ["aosp.cpp"], [], AOSP, "android-libutils-dev"),
]
JAVA = "Java"

# the queue of the library for threads, through a handler with messages of a pool: its cases as modes of loop_bench
HANDLER = "handler and pool"
BENCH = HERE.parent / "crates" / "loop_bench" / "out" / "loop_bench"
HANDLED = {("chain", 200_000): "handled", ("burst", 1_000): "handled_burst"}

# so many seconds a run may take
LIMIT = 20

# these walk their list from the head at each post, so they take no part where it is long (nor do Qt's timers)
WALKS = {"plain C list", JAVA, AOSP}

# these have no threads of their own for posts, or no lock of their own
NO_POSTERS = {"libuv", AOSP}
NOT_APART = NO_POSTERS | WALKS | {"Qt", "no queue"}

# so many processors a case takes, each with one thread
APART = {"pair": 2, "quad": 4}

# mode, messages at once, rounds, those that don't take part
CASES = [
    ("chain", 200_000, 1, set()),
    ("burst", 1_000, 50, set()),
    ("burst", 20_000, 5, WALKS),
    ("burst", 200_000, 1, WALKS),
    ("rising", 1_000, 20, set()),
    ("rising", 20_000, 5, WALKS | {"Qt"}),
    ("rising", 200_000, 1, WALKS | {"Qt"}),
    ("posters", 100_000, 1, NO_POSTERS),
    ("pair", 300_000, 1, NOT_APART),
    ("quad", 300_000, 1, NOT_APART),
    ("scatter", 52, 40, set()),
    ("scatter", 1_000, 20, set()),
    ("scatter", 20_000, 1, WALKS | {"Qt"}),
    ("scatter", 100_000, 1, WALKS | {"Qt"}),
]


def skipped(name, why):
    print(f"bench: {name} skipped, {why}", file=sys.stderr)


def flags_of(package):
    """What pkg-config says of the package, or None."""
    if package is None:
        return []
    if package == AOSP:
        return ANDROID_FLAGS if (ANDROID / "utils" / "Looper.h").is_file() else None
    if shutil.which("pkg-config") is None:
        return None
    asked = subprocess.run(["pkg-config", "--cflags", "--libs", package], capture_output=True, text=True)
    return asked.stdout.split() if asked.returncode == 0 else None


def build(room, number, sources, flags, package):
    """Builds a program, and answers its command."""
    compiler = ["g++", "-std=c++17"] if sources[0].endswith(".cpp") else ["gcc", *C]
    program = f"{room}/{number}"
    files = [str(PEERS / it) for it in sources]
    subprocess.run([*compiler, *FLAGS, *flags, *files, "-o", program, *flags_of(package), "-lpthread"], check=True)
    return [program]


def commands(room):
    """The command of each program that can be built."""
    if shutil.which("gcc") is None:
        skipped("all in C", "there is no gcc")
    for number, (name, sources, flags, package, wanted) in enumerate(PROGRAMS):
        if shutil.which("g++" if sources[0].endswith(".cpp") else "gcc") is None:
            continue
        if LIBRARY in sources and not LIBRARY.is_file():
            skipped(name, f"there is no {LIBRARY}: run rt lib in {CRATE}")
        elif flags_of(package) is None:
            skipped(name, f"install {wanted} and pkg-config")
        else:
            yield name, build(room, number, sources, flags, package)
    if BENCH.is_file():
        yield HANDLER, [str(BENCH)]
    else:
        skipped(HANDLER, f"there is no {BENCH}: run rt run in {BENCH.parent.parent}")
    if shutil.which("javac") is None:
        skipped(JAVA, "install a JDK")
    else:
        subprocess.run(["javac", "-d", room, str(PEERS / "JavaQueue.java")], check=True)
        yield JAVA, ["java", "-cp", room, "JavaQueue"]


def processor_time(words):
    """The processor seconds of one run, system and user together."""
    child = os.posix_spawn(words[0], words, os.environ, file_actions=[(os.POSIX_SPAWN_OPEN, 1, os.devnull, os.O_WRONLY, 0)])
    _, status, usage = os.wait4(child, 0)
    if os.waitstatus_to_exitcode(status) != 0:
        raise SystemExit(f"{words} failed")
    return usage.ru_utime + usage.ru_stime


def measured(command, mode, count, rounds):
    """The nanoseconds a message of one run, or None where it takes longer than LIMIT."""
    if command[0] == str(BENCH):
        messages = count * rounds
        return processor_time([*command, HANDLED[mode, count], str(messages)]) / messages * 1e9
    try:
        ran = subprocess.run([*command, mode, str(count), str(rounds)], capture_output=True, text=True, timeout=LIMIT)
    except subprocess.TimeoutExpired:
        return None
    if ran.returncode != 0:
        raise SystemExit(f"{command} {mode} {count} {rounds} failed with status {ran.returncode}: {ran.stderr}")
    return float(ran.stdout)


def measure(programs, rounds, end):
    """The least time of each program in each case."""
    least, slow = {}, set()
    for number in range(rounds):
        for mode, count, times, absent in CASES:
            for name, command in programs:
                key = (mode, count, name)
                if name == HANDLER and (mode, count) not in HANDLED:
                    continue
                if APART.get(mode, 1) > len(os.sched_getaffinity(0)) or (name == SPINNING and mode not in APART):
                    continue
                if name in absent or key in slow or (number > 0 and time.time() > end):
                    continue
                value = measured(command, mode, count, times)
                if value is None:
                    slow.add(key)
                    skipped(f"{mode} {count} of {name}", f"it takes more than {LIMIT} seconds")
                    continue
                least[key] = min(least.get(key, value), value)
        print(f"bench: round {number + 1}, load {os.getloadavg()[0]:.1f}", file=sys.stderr)
    return least


def table(programs, least, show):
    names = [name for name, _ in programs]
    yield "| What | " + " | ".join(names) + " |"
    yield "|---" * (len(names) + 1) + "|"
    for mode, count, _, _ in CASES:
        cells = [show(least, (mode, count), name) for name in names]
        yield f"| {mode} {count:,} | " + " | ".join(cells) + " |"


def nanoseconds(least, case, name):
    time = least.get((*case, name))
    return "" if time is None else f"{time:,.0f}"


def ratio(least, case, name):
    """By how much the program takes longer than ours."""
    time, ours = least.get((*case, name)), least.get((*case, "ours"))
    return "" if time is None or ours is None else f"{time / ours:.2g}"


def main():
    words = sys.argv[1:]
    seconds = float(words[words.index("--seconds") + 1]) if "--seconds" in words else 3600.0
    rounds = int(words[0]) if words and words[0].isdigit() else 5
    only = {"ours", *words[words.index("--only") + 1].split(";")} if "--only" in words else None
    with tempfile.TemporaryDirectory() as room:
        programs = [it for it in commands(room) if only is None or it[0] in only]
        least = measure(programs, rounds, time.time() + seconds)
    for show in (nanoseconds, ratio):
        print("\n".join(table(programs, least, show)), end="\n\n")


main()
