#!/usr/bin/env python3
"""calls.py: prints docs/CALLS.md, a page of all public calls of the libraries, made from their sources.

It reads each crate of crates.txt that is no program, lowest first: the functions and types that its lib.rt hands on, and their
methods. Android's name is what the comment above a call says of AOSP or the API reference. `examples/documents.py --calls` writes the page."""
import pathlib
import re

TOP = pathlib.Path(__file__).resolve().parent.parent
# Android's names of one word.
PLAIN = ("`post`", "`quit`", "`recycle`", "`loop`", "`prepare`", "`obtain`", "`next`", "`start`")
HEAD = """# All public calls

This page is made from the sources by `examples/calls.py`: `python3 examples/documents.py --calls` writes it anew. It has each crate that is a library, lowest first.
What a call promises stands under it in the source, as its `requires` and `ensures`. The crate's README says it in words.
What an app calls stands under [plain_loop](#plain_loop), [frame_loop](#frame_loop) and [handler_post](#handler_post).

Where a call names no answer, it has none. The parameters `rt` and `alloc` are the runtime and the allocator. The column Android has the name in AOSP or in Android's API reference.
"""


def libraries():
    """The crates that are libraries, lowest first."""
    for line in (TOP / "crates.txt").read_text().splitlines():
        if line.strip() and not line.startswith("#"):
            name = re.split(r"[ :]", line)[0]
            if (TOP / "crates" / name / "src/lib.rt").exists():
                yield name


def handed_on(crate):
    """The names that lib.rt hands on, and the files that are public as a whole."""
    text = (TOP / "crates" / crate / "src/lib.rt").read_text()
    names, files = set(), set(re.findall(r"^pub mod (\w+);", text, re.M))
    for found in re.findall(r"^pub use ([^;]+);", text, re.M):
        inner = re.search(r"\{(.*)\}", found, re.S)
        for item in (inner.group(1) if inner else found.split("::")[-1]).split(","):
            names.add(item.split(" as ")[-1].strip())
    return names, files


def signature(text, at):
    """The head of the function that begins at a place, up to its clauses or its body, in one line."""
    depth, end = 0, at
    while end < len(text):
        if text[end] in "([":
            depth += 1
        elif text[end] in ")]":
            depth -= 1
        elif depth == 0 and (text[end] in "{;" or re.match(r"\n\s*(?:requires|ensures|ghost|decreases)\b", text[end:end + 40])):
            break
        end += 1
    return " ".join(re.sub(r"//.*", "", text[at:end]).split())


def parted(head):
    """A function's head as name, parameters and answer."""
    name = re.match(r"(\w+)", head).group(1)
    rest, depth, at = head[len(name):], 0, 0
    if rest.startswith("<"):
        for at, mark in enumerate(rest):
            depth += (mark == "<") - (mark == ">" and rest[at - 1] != "-")
            if depth == 0:
                break
        rest = rest[at + 1:]
    depth = 0
    for at, mark in enumerate(rest):
        depth += (mark == "(") - (mark == ")")
        if depth == 0:
            break
    inside = rest[1:at].strip().rstrip(",")
    answer = re.search(r"->\s*(.*?)(?: where .*)?$", rest[at + 1:])
    inside = re.sub(r"\bmut (?=\w+:)", "", inside)
    return name, re.sub(r"\b(rt|alloc): [^,]+(?:<[^>]*>)?", r"\1", inside), answer.group(1).strip() if answer else ""


def is_theirs(name):
    """A name as Android has them: `sendMessage`, `Looper.quit`, or one of one word."""
    return re.fullmatch(r"`(?:[A-Z]\w+\.)?[a-z]+[A-Z]\w*`|`[A-Z]\w+\.[a-z]\w+`", name) or name in PLAIN


def android(comment):
    """The names in AOSP or in the API reference that a comment tells."""
    found = re.findall(r"(`[^`]+`(?:(?:,| and|, and| or) `[^`]+`)*)(?: of)? (?:AOSP's|the Android API reference's|Android's|the reference's) (`\w+`)", comment)
    names = [f"{calls} of {home}" for calls, home in found]
    for inside in re.findall(r"\((?:as )?(`[^);]*)[);]", comment):
        told = " ".join(names)
        names += [it for it in re.findall(r"`[^`]+`", inside) if is_theirs(it) and it not in told]
    return ", ".join(dict.fromkeys(names))


def calls_of(crate):
    """The public calls of a crate: (type or trait, name, parameters, answer, Android's name)."""
    names, files = handed_on(crate)
    src = TOP / "crates" / crate / "src"
    for path in sorted(src.rglob("*.rt")):
        if "tests" in path.relative_to(src).parts or path.name == "tests.rt":
            continue
        text = re.split(r"\n#\[cfg\(test\)\]\nmod \w+ \{", path.read_text())[0]
        whole = path.name == "lib.rt" or path.stem in files
        owner, of_trait = "", False
        for found in re.finditer(r"^(?:(?:unsafe )?(impl|pub trait)\b([^{;]*?)(?:\{|\n)|( *)(pub )?(?:unsafe )?(?:extern \"C\" )?fn (?=\w))|^\}", text, re.M):
            if found.group(0) == "}":
                owner, of_trait = "", False
                continue
            if found.group(1):
                of_trait = found.group(1) == "pub trait"
                head = re.sub(r"^\s*<(?:[^<>]|<[^<>]*>)*>", "", found.group(2)).strip()
                owner = "" if " for " in head else re.match(r"\w*", head).group(0)
                owner = owner if owner in names or whole else ""
                continue
            inner, public = bool(found.group(3)), bool(found.group(4))
            if inner and not (owner and (public or of_trait)) or not inner and not public:
                continue
            name, inside, answer = parted(signature(text, found.end()))
            if not inner and not (whole or name in names):
                continue
            above = text[:found.start()].rstrip("\n").split("\n")
            comment = []
            while above and re.match(r"\s*(///|#\[)", above[-1]):
                comment.insert(0, re.sub(r"\s*///? ?", "", above.pop()))
            yield owner if inner else "", name, inside, answer, android(" ".join(comment))


def shown(text):
    return "`" + text.replace("|", "\\|") + "`" if text else ""


def page():
    """The page as text."""
    out = [HEAD]
    for crate in libraries():
        rows = list(dict.fromkeys(calls_of(crate)))
        laws = [row for row in rows if not row[0] and not row[2] and not row[3]]
        calls = [row for row in rows if row not in laws]
        if rows:
            out.append(f"\n## [{crate}](../crates/{crate}/README.md)\n")
        if calls:
            out.append("\n| Call | Answer | Android |\n|---|---|---|\n")
        for owner, name, inside, answer, theirs in calls:
            call = f"{owner}::{name}" if owner else name
            out.append(f"| {shown(f'{call}({inside})')} | {shown(answer)} | {theirs} |\n")
        if laws:
            names = ", ".join(f"`{name}`" for _, name, *_ in laws)
            out.append(f"\nLaws, each the contract of a function that does nothing: {names}.\n")
    return "".join(out)


if __name__ == "__main__":
    print(page(), end="")
