#!/usr/bin/env python3
"""check_time.py CRATE [MOST]: where the last check of a crate spent its time, function by function, the dearest MOST of them (default 30).

CRATE is the crate's folder, in which `rt check --jobs 1` has ended. A check saves each module as it is done with it, in out/incremental, so
the time between two files is about what the later one took. The modules of a function are summed up: `Lts` is the borrow checker's part,
about a second for each megabyte of its file; `Proof` are the goals, with what is searched; `Tie`, `Code`, `Layout`, `Reads` and others are made
for each function; `lemmas` are files of proofs/, and `specs` those of specs/. Take a check from nothing (remove out/incremental first): files of an
earlier one stand beside the new ones, and count where they were made. A check that was paused shows the pause at one function."""
import collections, os, re, sys

OF_FUNCTION = {
    "Lts", "Proof", "Tie", "Code", "Mir", "Statement", "Met", "Answers", "Invariants", "Kinds", "Ends", "Layout", "Reads", "Named", "Symbol", "Key",
    "Given", "Goals", "TheLink",
}
PAUSE = 60  # seconds between two files that are no work of the check


def saved(folder):
    """The modules that stand in the folder, as pairs of the time at which each was saved and its name, in that order."""
    found = []
    for at, _, names in os.walk(os.path.join(folder, "out", "incremental")):
        found += [(os.stat(os.path.join(at, name)).st_mtime, re.sub(r"(\.decls)?\.oantt$", "", name)) for name in names if name.endswith(".oantt")]
    return sorted(found)


def owner(module):
    """The function that a module is made for, or else the file itself, and the kind of the module."""
    parts = re.match(r"Rattle-\w+?-(proofs|specs)\.(.*)$", module)
    if not parts:
        return module, "other"
    if parts[1] == "specs":
        return parts[2], "specs"
    # (a function's modules may have modules of their own, as Lts has Given)
    path, kind = parts[2].split("."), "lemmas"
    while len(path) > 1 and path[-1] in OF_FUNCTION:
        kind = path.pop()
    return ".".join(path), kind


def main():
    folder, most = (sys.argv[1], int(sys.argv[2]) if len(sys.argv) > 2 else 30) if len(sys.argv) > 1 else sys.exit(__doc__)
    modules = saved(folder)
    if not modules:
        sys.exit(f"{folder} has no kept work: run rt check --jobs 1 there first")
    kinds, functions = collections.Counter(), collections.defaultdict(collections.Counter)
    for (before, _), (time, module) in zip(modules, modules[1:]):
        name, kind = owner(module)
        took = time - before if time - before < PAUSE else 0
        kinds[kind] += took
        functions[name][kind] += took
    print(f"{sum(kinds.values()):7.1f} s in all: " + ", ".join(f"{kind} {took:.1f}" for kind, took in kinds.most_common()))
    for name, of in sorted(functions.items(), key=lambda it: -it[1].total())[:most]:
        print(f"{of.total():7.1f} s {name}: " + ", ".join(f"{kind} {took:.1f}" for kind, took in of.most_common(4)))


main()
