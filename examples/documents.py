#!/usr/bin/env python3
"""documents.py: checks of README.md and docs/ against the repository. Run it anywhere.

--first also runs README's first command; --believe first writes the figures of docs/PROMISE.md anew, and --calls docs/CALLS.md.

- no sentence of the pages in WHOLE has more than 30 words, and in each a verb is found (sentences.py);
- each piece of Rust in README.md, docs/USING.md and the READMEs of countdown and animator stands in a source that SHOWN names for it (a line '// ..' stands before a piece);
- README.md names every crate of crates.txt, and each has its README.md; it names the logic by which it was proved, where `rt` tells it, and each of
  the toolchain's libraries on which a crate stands;
- docs/EDITS.md has each edit once;
- each link leads to a file of the repository, and to a heading of it where it names one; each file that a command names is there;
- each command that begins with `dashboard` has words that the program takes, and man/dashboard.1 has just these;
- each sentence of docs/PROMISE.md under 'What each word promises', 'What a run is' and 'What a run by a clock is' names a clause by a link;
- each point under 'What is not claimed' names the definition that leaves it open, or says that it is no clause;
- each such link leads to a file that has a clause, a field, a definition or a public function with a contract of that name; a definition is on a way from
  the contract of `dashboard`, and in the row of a word from that contract as it is for the word;
- each function that a walk of docs/ARCHITECTURE.md names stands in the file that it names;
- the figures of docs/PROMISE.md are those of believe.py, and its definition files those on which the contract of `dashboard` rests;
- docs/CALLS.md is what calls.py makes of the sources;
- README's first command prints the report that README shows."""
import os
import pathlib
import re
import shutil
import subprocess
import sys

sys.dont_write_bytecode = True
from believe import files_below, module, reached, spelled
from calls import page as page_of_calls
from sentences import faults_in

TOP = pathlib.Path(__file__).resolve().parent.parent
WHOLE = ["README.md", *(f"docs/{name}.md" for name in ("PROMISE", "USING", "SCRIPT", "PICTURE", "ANIMATE", "GATE", "NEXT", "PROVING", "DECISIONS", "ARCHITECTURE"))]
SHOWN = {
    "README.md": ["uses", "plain_loop"],
    "docs/USING.md": ["uses", "plain_loop", "loop_tests"],
    "crates/countdown/README.md": ["script_tests"],
    "crates/animator/README.md": ["script_tests"],
}
CLAIMS = ["What each word promises", "What a run is", "What a run by a clock is"]
CLAUSE = re.compile(r"\[`([^`]+)`\]\[([^\]]+)\]")
TOP_CALL = "crates/dashboard_cli/src/top_call.rt"
faults = []


def text_of(name):
    return (TOP / name).read_text()


def pages():
    """All pages of the repository, by name."""
    paths = [TOP / "README.md", *(TOP / "docs").glob("*.md"), *TOP.glob("crates/*/README.md"), *TOP.glob("c/*.md"), *TOP.glob("examples/*/*.md")]
    return {str(path.relative_to(TOP)): path.read_text() for path in sorted(paths)}


# ---- sentences and code

def check_sentences():
    for name in WHOLE:
        faults.extend(faults_in(name, text_of(name)))


def lines_of(text):
    """The lines without their indentation."""
    return [line.strip() for line in text.splitlines() if line.strip()]


def pieces(text):
    """The pieces of Rust code in a page."""
    for block in re.findall(r"```rust\n(.*?)```", text, re.S):
        yield from re.split(r"^ *// \.\..*$", block, flags=re.M)


def stands_in(piece, lines):
    return any(lines[k : k + len(piece)] == piece for k in range(len(lines)))


def check_code(page, crates):
    sources = [lines_of(path.read_text()) for crate in crates for path in (TOP / "crates" / crate / "src").glob("*.rt")]
    for piece in pieces(text_of(page)):
        if not any(stands_in(lines_of(piece), lines) for lines in sources):
            faults.append(f"{page}: this stands in no source of {', '.join(crates)}:\n{piece}")


# ---- crates, links, commands

def check_crates():
    readme = text_of("README.md")
    for line in text_of("crates.txt").splitlines():
        if line.strip() and not line.startswith("#"):
            name = re.split(r"[ :]", line)[0]
            if f"](crates/{name}/README.md)" not in readme:
                faults.append(f"README.md doesn't name {name}")


def check_edits():
    """docs/EDITS.md has each edit that the prover must refuse, once."""
    told = re.findall(r"\]\(\.\./(crates/[^)]+\.edit)\)", text_of("docs/EDITS.md"))
    there = [str(path.relative_to(TOP)) for path in TOP.glob("crates/*/must-fail/*.edit")]
    for name in sorted(set(told) ^ set(there)) + sorted({it for it in told if told.count(it) > 1}):
        faults.append(f"docs/EDITS.md: {name} stands there, or among the edits, but not in both once")
    if f"There are {len(there)}." not in text_of("docs/EDITS.md"):
        faults.append(f"docs/EDITS.md doesn't say that there are {len(there)}")


def check_rests():
    """README.md names each library of the toolchain on which a crate stands."""
    lines = [re.split(r"[ :]+", line) for line in text_of("crates.txt").splitlines() if line.strip() and not line.startswith("#")]
    ours = {words[0] for words in lines}
    part = re.search(r"^## What the proofs rest on\n(.*?)(?=^## )", text_of("README.md"), re.S | re.M).group(1)
    theirs = {word for words in lines for word in words[1:] if word and "=" not in word and word != "staticlib"} - ours
    for name in sorted(theirs):
        if f"`{name}`" not in part:
            faults.append(f"README.md doesn't say that the proofs rest on {name}")


def check_toolchain():
    if shutil.which("rt"):
        logic = subprocess.run(["rt", "version"], capture_output=True, text=True).stdout.split()[-1]
        if f"`{logic}`" not in text_of("README.md"):
            faults.append(f"README.md doesn't name the logic {logic}")


def anchors(text):
    """The places of a page that a link may name."""
    heads = re.findall(r"^#+ (.*)$", re.sub(r"```.*?```", "", text, flags=re.S), re.M)
    words = [re.sub(r"\[([^\]]*)\]\([^)]*\)", r"\1", head) for head in heads]
    return {re.sub(r"[^\w\- ]", "", head.lower()).replace(" ", "-") for head in words}


def check_links():
    for name, text in pages().items():
        here = (TOP / name).parent
        links = re.findall(r"\]\(([^)\s:]*)\)", text) + re.findall(r"^\[[^\]]+\]: (\S+)$", text, re.M)
        for link in links:
            file, _, anchor = link.partition("#")
            path = here / file if file else TOP / name
            if not path.exists():
                faults.append(f"{name}: no file {file}")
            elif anchor and path.suffix == ".md" and anchor not in anchors(path.read_text()):
                faults.append(f"{name}: no heading {link}")


def check_commands():
    """The files that commands name, and the words of `dashboard`."""
    known = {re.sub(r"\b(N|\d+)\b", "N", words) for words in [*spelled_out()]}
    for name, text in pages().items():
        commands = re.findall(r"^ {4}(\S.*)$", text, re.M) + re.findall(r"`([^`\n]+)`", text)
        for command in commands:
            for word in re.findall(r"(?<![\w./-])(?:examples|crates|docs|bench|man|c)/[\w./-]*\w", command):
                if "/out/" not in word and not re.search(r"[A-Z]{3,}(?!\w*\.md|\w*\.txt)", word) and not any(TOP.glob(word + "*")):
                    faults.append(f"{name}: no file {word} in: {command}")
            found = re.match(r"dashboard ((?:[a-z]|--)[\w -]*?)\s*(?:<|>|\||$)", command)
            if found and re.sub(r"\b(N|\d+)\b", "N", found.group(1)) not in known and not command.startswith("dashboard E"):
                faults.append(f"{name}: no words of dashboard: {command}")


def spelled_out():
    """The words of each command, with their numbers as N."""
    os.chdir(TOP)
    for words in spelled():
        if words.startswith("make"):
            yield words.replace("make", "make N")
        else:
            yield words
    yield "make --run N"


def check_manual():
    """The words of the manual page of dashboard are those that it takes, and all pages are well formed."""
    told = set()
    for item in re.findall(r"^\.It (Cm .*)$", text_of("man/dashboard.1"), re.M):
        for words in item.split(" , "):
            told.add(re.sub(r"\b(?:Cm|Ar) ", "", words.replace("Fl -", "--")).strip())
    for words in sorted(told ^ {*spelled_out()}):
        faults.append(f"man/dashboard.1: {words} is told there, or is taken by dashboard, and not both")
    if shutil.which("mandoc"):
        for path in sorted((TOP / "man").glob("*.1")):
            done = subprocess.run(["mandoc", "-T", "lint", "-W", "warning", path], capture_output=True, text=True)
            faults.extend(done.stdout.splitlines())


def check_walks():
    text = text_of("docs/ARCHITECTURE.md")
    for names, *files in re.findall(r"^\| (`.*?) \| `(.*?)`(?:, `(.*?)`)? \|", text, re.M):
        paths = [TOP / "crates" / files[0]]
        paths += [paths[0].parent / name for name in files[1:] if name]
        code = "".join(path.read_text() for path in paths if path.exists())
        for name in re.findall(r"`(?:\w+::)*(\w+)`", names):
            if not re.search(rf"fn {name}\b", code):
                faults.append(f"docs/ARCHITECTURE.md: no function {name} in crates/{files[0]}")


# ---- the promise

def holds_name(text, name):
    """A line of definitions gives this name to a definition, a field or a constructor."""
    return re.search(rf"^\s*(?:(?:pattern|unfoldable|abbrev|pub|record|data) )*{re.escape(name)}(?:\s*[({{].*)? :(?:\s|$)", text, re.M)


def has_name(path, name):
    """The file has a clause, a field, a definition or a function of that name; a function is public and has a contract."""
    text = path.read_text()
    if path.suffix == ".antt":
        return holds_name(text, name)
    name = re.escape(name)
    called = re.search(rf"^pub fn {name}\b.*?^\{{", text, re.S | re.M)
    return called and "ensures" in called.group() or re.search(rf"\bensures\*? {name} |\b(?:struct|enum|trait) {name}\b", text)


def is_believed(path, name, found):
    """Among these definitions one of the file has that name, or holds a field or a constructor of that name."""
    file = str(path.resolve().relative_to(TOP))
    here = module(file.split("/")[1], file.split("/specs/")[1][:-5].replace("/", "."))
    return any(home == file and holds_name("\n".join(here.lines[slice(*here.items[definition])]), name) for home, definition in found)


def check_clauses():
    """Each sentence of the claims names a clause by a link, and each such link leads to one that the contract of `dashboard` names."""
    page = TOP / "docs/PROMISE.md"
    text = page.read_text()
    files = dict(re.findall(r"^\[([^\]]+)\]: (\S+)$", text, re.M))
    os.chdir(TOP)
    below = reached([TOP_CALL])[0]
    for name, mark in CLAUSE.findall(text):
        path = page.parent / files.get(mark, "nowhere")
        if not path.exists():
            faults.append(f"docs/PROMISE.md: no file for [{mark}]")
        elif not has_name(path, name):
            faults.append(f"docs/PROMISE.md: {name} stands nowhere in {files[mark]}")
        elif path.suffix == ".antt" and not is_believed(path, name, below):
            faults.append(f"docs/PROMISE.md: {name} of {files[mark]} is on no way from the contract of dashboard")
    for title in CLAIMS:
        part = re.search(rf"^## {title}\n(.*?)(?=^## |\Z)", text, re.S | re.M)
        if not part:
            faults.append(f"docs/PROMISE.md has no part '{title}'")
            continue
        for sentence in claims_in(part.group(1)):
            if not CLAUSE.search(sentence):
                faults.append(f"docs/PROMISE.md: no clause is named by: {sentence[:100]}")
    check_open(text)
    check_rows(text, page, files)


def check_open(text):
    """What is open names the definition that leaves it open, or says that no clause speaks of it."""
    part = re.search(r"^## What is not claimed\n(.*?)(?=^## |\Z)", text, re.S | re.M).group(1)
    for item in re.findall(r"^- .*(?:\n  .*)*", part, re.M):
        if not CLAUSE.search(item) and not re.search(r"\bno clause\b", item, re.I):
            faults.append(f"docs/PROMISE.md: neither a clause nor that there is none: {item[:100]}")


def check_rows(text, page, files):
    """What the row of a word names is on a way from the contract as it is for that word."""
    commands = {words.replace("make", "make N"): command for words, command in spelled().items()}
    for words, row in re.findall(r"^\| `([^`]+)` (\|.*\]\[.*)$", text, re.M):
        if words not in commands:
            faults.append(f"docs/PROMISE.md: no words of dashboard: {words}")
            continue
        below = reached([TOP_CALL], wanted=commands[words])[0]
        for name, mark in CLAUSE.findall(row):
            path = page.parent / files.get(mark, "nowhere")
            if path.suffix == ".antt" and not is_believed(path, name, below):
                faults.append(f"docs/PROMISE.md: {name} is on no way from the contract for `{words}`")


def claims_in(part):
    """The sentences of a part, tables' rows too; what ends with a colon leads to the sentences behind it."""
    blocks = re.split(r"\n\s*\n|\n(?=- |\| |\d+\. )", part)
    for block in blocks:
        block = " ".join(block.split())
        if not block or block.startswith(("#", "**")) or re.match(r"\|[ -]*-|\| ?(?:Word|Status|On) ", block):
            continue
        rows = [block] if block.startswith("|") else re.split(r"(?<=[.])\s+(?=[A-Z`])", block)
        for row in rows:
            if not row.endswith(":"):
                yield row


def check_api():
    """Each call that docs/API.md sets beside Android's is one of ours."""
    ours = (TOP / "docs/API.md").read_text().partition("\n## What Android has")[0]
    code = "".join(path.read_text() for path in TOP.glob("crates/*/src/*.rt"))
    for cell in re.findall(r"^\| (`.*?) \| ", ours, re.M):
        for name in re.findall(r"`(?:\w+(?:::|\.))?(\w+)\(", cell):
            if not re.search(rf"fn {name}\b", code):
                faults.append(f"docs/API.md: no call {name}")


def believed(without=()):
    """The definitions on which the contract of `dashboard` rests, with their lines."""
    os.chdir(TOP)
    return files_below([TOP_CALL], without)


def told_by_word(words):
    """What believe.py tells of a word of the program: definitions, files, lines, comments, types, their lines."""
    done = subprocess.run([sys.executable, "examples/believe.py", TOP_CALL, "--word", *words.split()], cwd=TOP, capture_output=True, text=True)
    defs = re.search(r"(\d+) definitions are reached in (\d+) files: (\d+) lines, and (\d+) of comments", done.stdout)
    types = re.search(r"(\d+) types of src/ with those of their fields and the traits: (\d+) lines", done.stdout)
    if not defs or not types:
        faults.append(f"believe.py --word {words}: {done.stdout[-200:]}{done.stderr[-200:]}")
        return [""] * 6
    return [f"{int(number):,}" for number in (*defs.groups(), *types.groups())]


def row_of(words):
    """The row of a word in PROMISE.md's table, behind the word."""
    definitions, files, lines, comments, types, code = told_by_word(words)
    return f"| {definitions} in {files} files | {lines} | {comments} | {types}, {code} lines |"


def total_of(below):
    return f"{len(below)} files with {sum(below.values()):,} lines"


def check_believed():
    """PROMISE.md's figures against believe.py; with --believe they are written anew first."""
    page = TOP / "docs/PROMISE.md"
    os.chdir(TOP)
    rows = {words: row_of(words) for words in spelled()}
    below = believed()
    if "--believe" in sys.argv[1:]:
        text = page.read_text()
        for words, row in rows.items():
            text = re.sub(rf"^(\| `{re.escape(words)}`) \|.*\d lines \|$", lambda found: f"{found.group(1)} {row}", text, flags=re.M)
        text = re.sub(r"`(\w+)/specs`: ([\w ,]+\d)", lambda found: files_of(found, below), text)
        page.write_text(re.sub(r"\d+ files with [\d,]+ lines(?= in all)", total_of(below), text))
    text = page.read_text()
    for words, row in rows.items():
        if f"| `{words}` {row}" not in text:
            faults.append(f"docs/PROMISE.md doesn't say: | `{words}` {row}")
    named = {f"crates/{crate}/specs/{name}.antt": int(count)
             for crate, files in re.findall(r"`(\w+)/specs`: ([\w ,]+)", text) for name, count in re.findall(r"(\w+) (\d+)", files)}
    for name in sorted(named.keys() | below.keys()):
        if named.get(name) != below.get(name):
            faults.append(f"docs/PROMISE.md: {name} has {below.get(name)} lines, and is told with {named.get(name)}")
    if total_of(below) not in text:
        faults.append(f"docs/PROMISE.md doesn't say: {total_of(below)}")


def files_of(found, below):
    """A crate's definition files with their lines: those known first, then new ones, none that is no more."""
    crate = found.group(1)
    known = re.findall(r"(\w+) \d+", found.group(2))
    there = [pathlib.Path(name).stem for name in below if name.startswith(f"crates/{crate}/specs/")]
    names = [name for name in known if name in there] + sorted(set(there) - set(known))
    return f"`{crate}/specs`: " + ", ".join(f"{n} {below[f'crates/{crate}/specs/{n}.antt']}" for n in names)


# ---- the calls, and the first command

def check_calls():
    page, wanted = TOP / "docs/CALLS.md", page_of_calls()
    if "--calls" in sys.argv[1:]:
        page.write_text(wanted)
    if not page.exists() or page.read_text() != wanted:
        faults.append("docs/CALLS.md isn't what examples/calls.py makes: run examples/documents.py --calls")


def shown():
    """README's script and its report, which stand side by side there: the report's lines."""
    rows = re.search(r"\n((?: {4}dashboard 1 .*\n)(?: {4}.*\n)+)", text_of("README.md")).group(1).splitlines()
    return [row[39:].rstrip() for row in rows if row[39:].strip()]


def run_first():
    command = re.search(r"## Run it\n.*?\n    (.*?)\n", text_of("README.md"), re.S).group(1)
    done = subprocess.run(["bash", "-c", command], cwd=TOP, capture_output=True, text=True, timeout=900)
    if done.returncode != 0 or done.stdout.splitlines() != shown():
        faults.append(f"{command}\nprints with status {done.returncode}:\n{done.stdout}{done.stderr[-2000:]}")


def main():
    check_sentences()
    for page, crates in SHOWN.items():
        check_code(page, crates)
    check_crates()
    check_rests()
    check_edits()
    check_toolchain()
    check_links()
    check_commands()
    check_manual()
    check_walks()
    check_clauses()
    check_api()
    check_believed()
    check_calls()
    if "--first" in sys.argv[1:]:
        run_first()
    for fault in faults:
        print(fault)
    print(f"documents: {len(faults)} faults")
    sys.exit(1 if faults else 0)


main()
