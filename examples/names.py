#!/usr/bin/env python3
"""names.py: each definition that is imported stands where it is imported from, and no name of a file to believe stands in two.

Run it at the top of the repository. It takes some seconds and asks no prover, so it finds what a renaming or a merge left behind.
A file to believe is a definition file on which the contract of `dashboard` rests, as believe.py finds them. Another definition file may
not have a name that one of them has, whatever crate it is of: then a name met there has one meaning. The exit status is 1 where
something is found."""
import collections
import glob
import os
import re
import sys

from believe import Module, files_below, home_of, module, module_of

TOP = os.path.dirname(os.path.dirname(os.path.abspath(__file__)))
TOP_CALL = "crates/dashboard_cli/src/top_call.rt"
IMPORT = re.compile(r"^\s*(?:(?:pub|unfoldable|ghost) )*use (Rattle\.\w+\.specs\.[\w.]+?)\.\{(.*)\};?\s*$")


def gives(crate, path, name):
    """Whether a file of definitions has this name: as a definition, a constructor, a field, or one that it passes on."""
    if path.startswith(("declared.", "contracts.")) or home_of(crate, path, name):
        return True
    there = module(crate, path)
    return there is not None and any(re.match(rf"^\s+(?:pub )?{re.escape(name)} :", line) for line in there.lines)


def missing():
    """The imports of definitions that their files don't have, each by file and line."""
    for kind in ("specs/**/*.antt", "proofs/**/*.antt", "src/**/*.rt"):
        for name in sorted(glob.glob(f"crates/*/{kind}", recursive=True)):
            with open(name, encoding="utf-8") as file:
                for at, line in enumerate(file, 1):
                    found = IMPORT.match(line)
                    home = module_of(found.group(1)) if found else None
                    for item in found.group(2).split(",") if home else ():
                        there = item.strip().partition(" as ")[0].strip()
                        if there and not gives(*home, there):
                            yield f"{name}:{at}: {there} is not in {found.group(1)}"


def doubles():
    """The names of files to believe that another definition file has too."""
    believed = set(files_below([TOP_CALL]))
    where = collections.defaultdict(set)
    for name in sorted(glob.glob("crates/*/specs/**/*.antt", recursive=True)):
        for item in Module(name, name.split("/")[1]).items:
            where[item].add(name)
    for item, files in sorted(where.items()):
        if len(files) > 1 and files & believed:
            yield f"{item} is defined in {' and in '.join(sorted(files))}"


def main():
    os.chdir(TOP)
    faults = [*missing(), *doubles()]
    for fault in faults:
        print(fault)
    print(f"names: {len(faults)} faults")
    sys.exit(1 if faults else 0)


if __name__ == "__main__":
    main()
