#!/usr/bin/env python3
"""picture.py PROGRAM [--write]: the pictures of SHOWN are what `timeline` makes of their reports; with --write they are made anew.

The report of all kinds has a mark and a note of each kind, in edition 2: two loopers, two gauges in one lane, two marks at one place, more notes than
are shown. It is drawn whole, and in a window of time where frames are too narrow for parts. A run in which nothing happens has a picture that says so.

The trace of SHOWN has two queues: a message is removed, one refused, and one comes from the other looper. Of it, and of each
trace of this folder, `timeline flows` draws just the arrows that its lines tell.

Every report of this folder becomes an SVG that an XML parser takes, with an element for each mark, and a trace that a JSON
parser takes, with an event for each mark. Where Chromium is installed, it opens the pictures too, with as many elements. It opens
pages, zooms with the wheel and points at a mark: fewer marks are shown then, and the page tells that mark.
"""
import html
import json
import pathlib
import re
import shutil
import subprocess
import sys
import tempfile
import xml.etree.ElementTree as tree

HERE = pathlib.Path(__file__).resolve().parent
ALL_KINDS = HERE / "picture" / "all_kinds.report"
NOTHING = b"report 1\nlooper 0\nfates accepted 0 dispatched 0 removed 0 dropped 0 stranded 0 queued 0\nend\n"
SHOWN = [
    ((HERE / "gauge_runs_to_its_target.report").read_bytes(), ["svg"], HERE.parent / "docs" / "gauge.svg"),
    (ALL_KINDS.read_bytes(), ["svg"], HERE / "picture" / "all_kinds.svg"),
    (ALL_KINDS.read_bytes(), ["svg", "21", "2000", "--width", "700", "--title", 'A window of "all" <kinds>'], HERE / "picture" / "window.svg"),
    (NOTHING, ["svg", "--title", "Nothing"], HERE / "picture" / "nothing.svg"),
    ((HERE / "picture" / "flows.trace").read_bytes(), ["flows"], HERE / "picture" / "flows.json"),
]
# Words that are none of the forms.
REFUSED = [
    [], ["gif"], ["svg", "1"], ["svg", "5", "5"], ["svg", "7", "5"], ["svg", "x", "5"], ["svg", "1", "2", "3"], ["svg", "--width", "699"],
    ["svg", "--width", "30001"], ["svg", "--width"], ["svg", "--width", "700", "--width", "700"], ["svg", "--title"], ["svg", "--title", "a", "--title", "b"],
    ["svg", "--width", "700", "1", "2"], ["svg", "01", "5"], ["html", "1", "2"], ["html", "--width", "700"], ["perfetto", "1", "2"], ["perfetto", "--title", "a"],
    ["flows", "1", "2"], ["flows", "--title", "a"],
]
# Zooms in and points at the first mark that is shown then; writes what the page told.
POINTING = b"""<script>
const box = canvas.getBoundingClientRect();
const at = (kind, left, top, more) => {
  const event = new (kind === 'wheel' ? WheelEvent : PointerEvent)(kind, {clientX: box.left + left, clientY: box.top + top, bubbles: true, cancelable: true, ...more});
  canvas.dispatchEvent(event);
};
const all = document.body.dataset.shown;
at('wheel', LEFT - 5, 40, {deltaY: -1500});
const hit = hits[0];
at('pointermove', (hit.left + hit.right) / 2, (hit.top + hit.bottom) / 2, {});
document.body.dataset.all = all;
document.body.dataset.told = told.textContent.split(String.fromCharCode(10))[0];
document.body.dataset.wanted = textOf(hit.event);
</script>
"""
SVG = "{http://www.w3.org/2000/svg}"


def run(program, words, text):
    return subprocess.run([program, *words], input=text, capture_output=True, check=False)


def marks_of(text):
    """How many marks the lines of a report have."""
    return len(re.findall(rb"^(?:\d+ dispatch|frame|run|paint) ", text, re.M))


def drawn_marks(svg):
    """How many marks the elements of an SVG stand for."""
    count = 0
    for group in tree.fromstring(svg).iter(SVG + "g"):
        if group.get("class") == "mark":
            more = re.search(r"\((\d+) marks here\)$", group.find(SVG + "title").text)
            count += int(more.group(1)) if more else 1
    return count


def longest():
    """A report with as many loopers, handlers and gauges as the dashboard takes, and marks all along its rows."""
    lines = ["report 2"]
    for looper in range(8):
        dispatches = [f"{2 * n} dispatch {n} {8 * looper + n % 8} {n % 1000}" for n in range(2000)]
        paints = [f"paint {2 * looper + n % 2} {n * 37 % 1001}" for n in range(480)]
        fates = "fates accepted 2000 dispatched 2000 removed 0 dropped 0 stranded 0 queued 0"
        lines += [f"looper {looper}", *dispatches, fates, *paints]
        for frame in range(1, 241):
            lines += [f"frame {16_666_667 * frame}", "run 0 77", "run 1 1000000", "run 3 1000016"]
    return ("\n".join([*lines, "end"]) + "\n").encode()


def look(program, name, text):
    svg = run(program, ["svg"], text)
    trace = run(program, ["perfetto"], text)
    page = run(program, ["html", "--title", "<&>"], text)
    assert svg.returncode == 0 and trace.returncode == 0 and page.returncode == 0, name
    assert trace.stdout in page.stdout and page.stdout.count(b"&lt;&amp;&gt;") == 2, name
    for event in json.loads(trace.stdout):
        assert event["ph"] != "X" or event["dur"] > 0, name
    assert len(svg.stdout) < 1_000_000, name
    assert drawn_marks(svg.stdout) == marks_of(text), name
    assert sum(event["ph"] != "M" for event in json.loads(trace.stdout)) == marks_of(text), name


def queue_arrows(looper, entries):
    """The arrows that the entries of a queue tell: the poster with its time, the taker with its, the message and its number."""
    posts, dispatches, time = [], [], 0
    for words in entries:
        sender, call = int(words[0]), words[2]
        if call == "post" and words[-2] == "accepted":
            message = f"handler {words[3]} " + (f"what {words[4]}" if words[7] == "-" else f"callback {words[7]}")
            posts.append((sender, time, f"post to looper {looper} {message}", message))
        if call == "next" and words[-2] == "dispatched":
            dispatches.append((sender, int(words[3]), int(words[-1])))
        if call in ("barrier", "quit", "next", "advance", "halt"):
            time = max(time, int(words[4 if call == "quit" else 3]))
    for sender, moment, number in dispatches:
        if number < len(posts):
            poster, posted, post, message = posts[number]
            yield (poster, posted, post, number), (sender, moment, message, number)


def arrows_of(trace):
    """The arrows of a trace, queue by queue."""
    queues = []
    for words in (line.split(" ") for line in trace.decode().splitlines()[1:-1]):
        if words[0] == "queue":
            queues.append((words[1], []))
        else:
            queues[-1][1].append(words)
    return [arrow for looper, entries in queues for arrow in queue_arrows(looper, entries)]


def drawn_arrows(events):
    """The arrows of trace events: both ends with the same number, and nothing else but the name of the process."""
    assert events[0] == {"name": "process_name", "ph": "M", "pid": 1, "args": {"name": "senders"}}
    ends = events[1:]
    for place, event in enumerate(ends):
        way = "flow_in" if place % 2 else "flow_out"
        assert event["bind_id"] == place // 2 and event[way] is True and len(event) == 9, event
        assert (event["ph"], event["dur"], event["pid"], event["ts"] % 1000) == ("X", 1000, 1, 0), event
    told = [(event["tid"], event["ts"] // 1000, event["name"], event["args"]["number"]) for event in ends]
    return list(zip(told[::2], told[1::2], strict=True))


def flows(program):
    """Each trace of this folder has just the arrows of its lines, and a text that is none is refused. Answers how many traces there are."""
    count = 0
    for file in sorted(HERE.rglob("*.trace")):
        found = run(program, ["flows"], file.read_bytes())
        if file.name.startswith("check_") and file.with_suffix(".error").exists():
            assert (found.returncode, found.stdout) == (3, b"") and found.stderr.startswith(b"timeline: line "), file.name
            continue
        assert found.returncode == 0 and drawn_arrows(json.loads(found.stdout)) == arrows_of(file.read_bytes()), file.name
        count += 1
    bad = run(program, ["flows"], b"trace 1\nend\nend\n")
    assert (bad.returncode, bad.stdout, bad.stderr) == (3, b"", b"timeline: line 3\n"), bad
    return count


def halves(program, text):
    """Two windows that share an edge have each mark of the report in one of them."""
    middle = 1000
    parts = [run(program, ["svg", *window], text) for window in (["0", str(middle)], [str(middle), str(2**64 - 1)])]
    assert sum(drawn_marks(part.stdout) for part in parts) == marks_of(text)
    wide = run(program, ["svg", "--width", "3000"], text).stdout
    assert drawn_marks(wide) == marks_of(text) and b'width="3000"' in wide


def opened(browser, text, ending):
    """What the browser makes of a picture or a page, as text."""
    with tempfile.TemporaryDirectory() as folder:
        file = pathlib.Path(folder, "picture" + ending)
        file.write_bytes(text)
        words = [browser, "--headless", "--no-sandbox", "--disable-gpu", "--window-size=1200,900", f"--user-data-dir={folder}/user", "--dump-dom", file.as_uri()]
        return subprocess.run(words, capture_output=True, check=True, timeout=120).stdout


def told(shown, name):
    """What the page's body tells under a name."""
    return html.unescape(re.search(rf'data-{name}="([^"]*)"', shown.decode()).group(1))


def look_at_page(shown, text):
    """The page has all marks of the report; behind the zoom fewer are shown, and the one under the pointer is told."""
    assert int(told(shown, "marks")) == int(told(shown, "all")) == marks_of(text), (told(shown, "marks"), told(shown, "all"))
    assert 0 < int(told(shown, "shown")) < marks_of(text)
    assert told(shown, "told") == told(shown, "wanted") != ""


def open_in_browser(program, pictures, pages):
    browser = shutil.which("chromium") or shutil.which("chromium-browser") or shutil.which("google-chrome")
    if browser is None:
        print("no browser is installed: neither the pictures nor the pages were opened in one")
        return
    try:
        for svg in pictures:
            shown = opened(browser, svg, ".svg")
            assert shown.startswith(b"<svg") and b"parsererror" not in shown
            assert shown.count(b'class="mark"') == svg.count(b'class="mark"')
        for text in pages:
            page = run(program, ["html"], text).stdout
            look_at_page(opened(browser, page.replace(b"</body>", POINTING + b"</body>"), ".html"), text)
        empty = opened(browser, run(program, ["html"], NOTHING).stdout, ".html")
        assert told(empty, "marks") == "0" and b"no frame began" in empty
    except subprocess.SubprocessError as fault:
        print(f"the browser didn't open a picture here: {fault}"[:200])
        return
    print(f"{len(pictures)} pictures and {len(pages) + 1} pages opened in a browser")


def main():
    program = sys.argv[1]
    reports = [file for file in sorted(HERE.rglob("*.report")) if file.read_bytes().startswith(b"report ")]
    for file in reports:
        look(program, file.name, file.read_bytes())
    look(program, "the longest", longest())
    halves(program, longest())
    bad = run(program, ["svg"], b"report 1\nend\nend\n")
    assert (bad.returncode, bad.stdout, bad.stderr) == (3, b"", b"timeline: line 3\n"), bad
    for words in REFUSED:
        refused = run(program, words, b"report 1\nend\n")
        assert (refused.returncode, refused.stdout) == (2, b"") and refused.stderr.startswith(b"timeline: usage: "), words
    pictures = [run(program, words, text).stdout for text, words, _ in SHOWN]
    for (_, _, kept), drawn in zip(SHOWN, pictures):
        if "--write" in sys.argv:
            kept.write_bytes(drawn)
        assert kept.read_bytes() == drawn, f"{kept.name} is another one"
    traces = flows(program)
    open_in_browser(program, [*(drawn for drawn in pictures if drawn.startswith(b"<svg")), run(program, ["svg"], longest()).stdout], [SHOWN[0][0], ALL_KINDS.read_bytes(), longest()])
    print(f"{len(reports)} reports drawn, {len(pictures)} pictures compared, the arrows of {traces} traces")


main()
