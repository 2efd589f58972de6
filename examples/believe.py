#!/usr/bin/env python3
"""believe.py FILE.. [--word WORD] [--without FILE..] [--all]: what a reader of the contracts in these source files has to believe.

Run it at the top of the repository, as `examples/believe.py crates/dashboard_cli/src/top_call.rt`. It follows each name that the
contracts use to the definition that it stands for, through whatever passes it on (`pub use`), and from there on. It prints
the definition files with their lines, by crate; how many of these lines belong to definitions that are reached; the types
of src/ that those speak of, and with them the types of their fields; and the ghost members of traits that the contracts use, whose
traits count with the types. With `--word run` it takes of each table by commands the rows of that word of the program alone (`run --free`
is a word too). With `--without FILE` that definition file is left out, and so is what it alone leads to. `--all` lists the definitions that aren't
reached, and the types. `--table` prints a table by word.
What it leaves out: words of std and of the proof language, and a token in a text that is spelled like an imported name counts as a use."""
import functools
import glob
import os
import re
import sys

USE = re.compile(r"^\s*((?:pub |unfoldable |ghost )*)use (\S+?)(\.\{(.*)\}|\.\*| as (\S+?))?;?\s*$")
HEAD = re.compile(r"^(\s*)(?:(?:pattern|unfoldable|abbrev|axiom|pub) )*(?:(record|data) )?([^\s({:]+)(?:\s*[({].*)? :(?:\s|$)")
TOKEN = re.compile(r"[^\s()\[\]{},;λ.×→=∷]+(?:\.[^\s()\[\]{},;λ.×→=∷]+)*")
COMMANDS = "crates/dashboard_cli/specs/Words.antt"


def module_of(path):
    """'Rattle.loop_model.specs.Live' as ('loop_model', 'Live'), and None of anything but a crate's own definitions."""
    found = re.match(r"^(?:package\.)?Rattle\.([a-z_]\w*)\.specs(?:\.(.+))?$", path)
    return (found.group(1), found.group(2) or "Lib") if found and os.path.isdir(f"crates/{found.group(1)}/src") else None


class Module:
    """A file of imports and definitions: what each name in it stands for, and the lines of each definition."""

    def __init__(self, name, crate):
        self.name, self.crate = name, crate
        with open(name, encoding="utf-8") as file:
            self.lines = file.read().splitlines()
        self.uses, self.passed, self.aliases, self.globs, self.items, self.made_in = {}, {}, {}, [], {}, {}
        for line in self.lines:
            found = USE.match(line)
            if found:
                self.read_use("pub " in found.group(1), found.group(2), found.group(3) or "", found.group(4), found.group(5))
        if name.endswith(".antt"):
            self.read_items()

    def read_use(self, passes, path, rest, names, alias):
        home = module_of(path) or (self.name.endswith("specs/Lib.antt") and not path.startswith(("Rattle.", "mathlib.")) and (self.crate, path))
        if not home:
            return
        if names is not None:
            for item in names.split(","):
                there, _, here = item.strip().partition(" as ")
                self.uses[here or there] = (*home, there)
                if passes:
                    self.passed[here or there] = (*home, there)
        elif rest == ".*":
            self.globs.append(home)
        else:
            self.aliases[alias or path.split(".")[-1]] = home

    def read_items(self):
        """Each definition of the file: its first line (with the comment above it), the line behind its last, and its text."""
        at = 0
        while at < len(self.lines):
            found = HEAD.match(self.lines[at])
            if not found or self.lines[at].lstrip().startswith("--"):
                at += 1
                continue
            depth, kind, name = len(found.group(1)), found.group(2), found.group(3)
            first, last = at, at + 1
            while first > 0 and self.lines[first - 1].lstrip().startswith("--") and "----" not in self.lines[first - 1]:
                first -= 1
            while last < len(self.lines) and self.lines[last].strip() and not self.begins(last, depth, name):
                last += 1
            self.items[name] = (first, last)
            if kind == "data":
                for line in self.lines[at + 1:last]:
                    made = re.match(r"^\s+([^\s:]+) :", line)
                    if made:
                        self.made_in[made.group(1)] = name
            at = last

    def begins(self, at, depth, name):
        """Another definition than this one begins on the line."""
        found = HEAD.match(self.lines[at])
        return found and len(found.group(1)) == depth and found.group(3) != name


@functools.lru_cache(None)
def module(crate, path):
    """The file of a crate's definitions that a path names, or that holds what the path names; None for types and contracts."""
    parts = path.split(".")
    for k in range(len(parts), 0, -1):
        for name in (f"crates/{crate}/specs/{'/'.join(parts[:k])}.antt", f"crates/{crate}/specs/{'/'.join(parts[:k])}/Lib.antt"):
            if os.path.exists(name):
                return Module(name, crate)
    return None


def home_of(crate, path, name, seen=()):
    """Where a name that a module gives is defined: a file and the name there, or a type of src/ as ('type', crate, path)."""
    if path.startswith("declared."):
        return ("type", crate, path)
    there = module(crate, path)
    if there is None or (crate, path, name) in seen:
        return None
    name = there.made_in.get(name, name)
    if name in there.items:
        return (there.name, name)
    if name in there.passed:
        return home_of(*there.passed[name], seen + ((crate, path, name),))
    for glob in there.globs:
        found = home_of(*glob, name, seen + ((crate, path, name),))
        if found:
            return found
    return None


def files_below(sources, without=()):
    """The definition files on which these rest, each with its lines, and none that only these left out lead to."""
    seen, waiting = {}, list(sources)
    while waiting:
        name = waiting.pop()
        here = Module(name, name.split("/")[1])
        homes = [home_of(*use) for use in here.uses.values()] + [(m.name, "") for a in here.aliases.values() if (m := module(*a))]
        for home in homes:
            if home and home[0] != "type" and home[0] not in seen and home[0] not in without:
                seen[home[0]] = len(open(home[0], encoding="utf-8").read().splitlines())
                waiting.append(home[0])
    return seen


# ---- by definition

def spelled():
    """The commands by the words that they are spelled with, as definitions say it: {'run --free': 'RunFree', ..}."""
    text = open(COMMANDS, encoding="utf-8").read()
    return {" ".join(re.findall(r'codes "([^"]+)"', row)): command
            for command, row in re.findall(r"^IsSpelled \(?(?:command\.)?(\w+).*? = (.*)$", text, re.M)}


def rows_of(text, wanted, commands):
    """The text without the rows of other commands than the wanted one."""
    if not wanted:
        return text
    others = [c for c in commands if c != wanted]
    row = re.compile(r"^\s*\S+ (?:\S+ )*?\(?command\.(?:%s)\b.* =" % "|".join(others))
    kept, drop = [], False
    for line in text.split("\n"):
        if re.match(r"^\s*[^\s(]+ .*=", line):
            drop = bool(row.match(line))
        if not drop:
            kept.append(line)
    return "\n".join(kept)


def reached(sources, without=(), wanted=None):
    """The definitions that are reached, as {(file, name)}, and the types, as {(crate, path)}."""
    commands = set(spelled().values()) if wanted else ()
    found, types, waiting = set(), set(), []

    def take(home):
        if home and home[0] == "type":
            types.add(home[1:])
        elif home and home[0] not in without and home not in found:
            found.add(home)
            waiting.append(home)

    def take_from(here, text):
        for token in set(TOKEN.findall(re.sub(r"--.*|//.*", "", text))):
            first, _, rest = token.partition(".")
            first = here.made_in.get(first, first)
            if first in here.items:
                take((here.name, first))
            elif first in here.uses:
                take(home_of(*here.uses[first]))
            elif first in here.aliases and rest:
                take(home_of(*here.aliases[first], rest.split(".")[0]))

    for name in sources:
        here = Module(name, name.split("/")[1])
        clauses = [line for line in here.lines if not USE.match(line)]
        take_from(here, "\n".join(clauses))
    while waiting:
        name, definition = waiting.pop()
        here = module(name.split("/")[1], name.split("/specs/")[1][:-5].replace("/", "."))
        first, last = here.items[definition]
        take_from(here, rows_of("\n".join(here.lines[first:last]), wanted, commands))
    return found, types


@functools.lru_cache(None)
def source_lines(name):
    with open(name, encoding="utf-8") as file:
        return file.read().splitlines()


def block_of(source, name):
    """The lines of a type or trait of a source file, with what stands above it; None where it has none of the name."""
    lines = source_lines(source)
    for at, line in enumerate(lines):
        if re.match(rf"pub(\([\w ]+\))? (struct|enum|trait) {name}\b", line):
            last, first = at, at
            while not lines[last].startswith("}") and not lines[last].endswith((");", f" {name};")):
                last += 1
            while first > 0 and lines[first - 1].startswith(("///", "#")):
                first -= 1
            return lines[first:last + 1]
    return None


def type_of(crate, path):
    """The source file and the name of a type, a trait or a variant's type; None for what is none, as a constant."""
    parts = path.split(".")[1:]
    for file, name in ((parts[0], parts[1] if len(parts) > 1 else parts[0]), ("lib", parts[0])):
        source = f"crates/{crate}/src/{file}.rt"
        if os.path.exists(source) and block_of(source, name):
            return source, name
    return None


@functools.lru_cache(None)
def rust_uses(source):
    """What the `use` lines of a source file bring in: {name: (crate, its module or '')}, of this repository's crates alone."""
    found, own = {}, source.split("/")[1]
    for path, names, name in re.findall(r"^(?:pub )?use ([\w:]+)::(?:\{([^}]*)\}|(\w+));", "\n".join(source_lines(source)), re.M):
        crate, _, inside = path.partition("::")
        crate = own if crate == "crate" else crate
        if os.path.isdir(f"crates/{crate}/src"):
            for item in re.findall(r"\w+", names or name):
                found[item] = (crate, inside.replace("::", "/"))
    return found


def named_in(source, name):
    """Where a type or trait stands that a source file calls by this name; None for a parameter or a type of std."""
    if block_of(source, name):
        return source, name
    crate, inside = rust_uses(source).get(name, (None, None))
    if crate is None:
        return None
    files = [f"crates/{crate}/src/{inside}.rt"] if inside else sorted(glob.glob(f"crates/{crate}/src/**/*.rt", recursive=True))
    return next(((file, name) for file in files if os.path.exists(file) and block_of(file, name)), None)


def code_of(block):
    return [row for row in block if not row.strip().startswith("//")]


def with_fields(known):
    """These types, and those of their fields, and of the fields of those."""
    seen, waiting = set(), list(known)
    while waiting:
        it = waiting.pop()
        if it in seen:
            continue
        seen.add(it)
        for name in set(re.findall(r"\b[A-Z]\w*", "\n".join(code_of(block_of(*it))))):
            there = named_in(it[0], name)
            if there:
                waiting.append(there)
    return seen


def ghosts_of(source):
    """The ghost members of traits that the contracts of a source file use: {(file, trait, member)}. `S: Source` there makes `S.left`
    one of `Source`."""
    text = "\n".join(line for line in source_lines(source) if not USE.match(line))
    bounds = {}
    for name, bound in re.findall(r"\b([A-Z]\w*): ([A-Z][\w:]*(?: \+ [\w:]+)*)", text):
        bounds.setdefault(name, set()).update(re.findall(r"[A-Z]\w*", bound))
    found = set()
    for name, member in re.findall(r"\b([A-Z]\w*)\.(\w+)", re.sub(r"//.*", "", text)):
        for bound in bounds.get(name, ()):
            there = named_in(source, bound)
            if there and re.search(rf"^ *ghost {member}:", "\n".join(block_of(*there)), re.M):
                found.add((*there, member))
    return found


def sums_of(types):
    """The lines of code of these types, and those of their comments."""
    blocks = [block_of(*it) for it in types]
    code = sum(len(code_of(block)) for block in blocks)
    return code, sum(map(len, blocks)) - code


class Figures:
    """What a reader has to believe: the definitions, their files, and the types."""

    def __init__(self, sources, without=(), wanted=None):
        self.found, named = reached(sources, without, wanted)
        self.files = {name: module(name.split("/")[1], name.split("/specs/")[1][:-5].replace("/", ".")) for name, _ in self.found}
        self.types = {it for crate, path in named if (it := type_of(crate, path))}
        self.ghosts = set().union(*map(ghosts_of, sources))
        self.fields = with_fields(self.types | {it[:2] for it in self.ghosts})
        self.said = self.comments = 0
        for name, it in self.files.items():
            lines = set()
            for home, definition in self.found:
                if home == name:
                    lines |= set(range(*it.items[definition]))
            said = sum(1 for at in lines if not it.lines[at].lstrip().startswith("--"))
            self.said, self.comments = self.said + said, self.comments + len(lines) - said

    def row(self, name):
        """A row of the table by word."""
        lines = sum(len(it.lines) for it in self.files.values())
        return f"| {name} | {len(self.files)} | {lines:,} | {len(self.found)} | {self.said:,} | {len(self.fields)} | {sums_of(self.fields)[0]:,} |"


def table(sources, without=()):
    """The table by word, of which each row is a line."""
    yield "| Word | Files | Their lines | Definitions | Their lines | Types | Their lines |"
    yield "|---|---|---|---|---|---|---|"
    yield Figures(sources, without).row("all")
    for word, command in spelled().items():
        yield Figures(sources, without, command).row(f"`{word}`")


def options(words):
    """FILE.. and what stands behind --word, --without, --all and --table."""
    sources, given, where = [], {"--without": [], "--word": []}, None
    for word in words:
        if word in given:
            where = given[word]
        elif word in ("--all", "--table"):
            where = None
        else:
            (sources if where is None else where).append(word)
    return sources, given["--without"], " ".join(given["--word"]), {"--all", "--table"} & set(words)


def main():
    sources, without, word, asked = options(sys.argv[1:])
    if "--table" in asked:
        print("\n".join(table(sources, without)))
        return
    wanted = None
    if word:
        wanted = spelled().get(word) or sys.exit(f"believe.py: no word {word!r} of {', '.join(spelled())}")
    it = Figures(sources, without, wanted)
    below = files_below(sources, without) if not word else {}
    crates = {}
    for name in sorted(set(it.files) | set(below)):
        crates.setdefault(name.split("/")[1], []).append((os.path.basename(name)[:-5], below.get(name) or len(it.files[name].lines)))
    for crate, files in crates.items():
        print(f"{crate}: {sum(n for _, n in files)} lines: " + ", ".join(f"{f} {n}" for f, n in files))
    files = [n for f in crates.values() for _, n in f]
    print(f"{len(files)} files, {sum(files)} lines")
    print(f"{len(it.found)} definitions are reached in {len(it.files)} files: {it.said} lines, and {it.comments} of comments")
    for what, types in (("that they speak of", it.types), ("with those of their fields and the traits", it.fields)):
        code, comments = sums_of(types)
        print(f"{len(types)} types of src/ {what}: {code} lines, and {comments} of comments")
    print(f"{len(it.ghosts)} ghost members of traits: " + ", ".join(sorted(f"{trait}.{member}" for _, trait, member in it.ghosts)))
    if "--all" in asked:
        for name in sorted(it.files):
            spans = {it.files[name].items[d] for home, d in it.found if home == name}
            idle = sorted(d for d, span in it.files[name].items.items() if span not in spans)
            if idle:
                print(f"not reached in {name}: {' '.join(idle)}")
        for source, name in sorted(it.fields):
            code, comments = sums_of([(source, name)])
            by = "" if (source, name) in it.types else ", by a field or a bound"
            print(f"type {name} of {source}: {code} lines, {comments} of comments{by}")


if __name__ == "__main__":
    main()
