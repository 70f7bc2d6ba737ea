#!/usr/bin/env python3
"""unused_imports.py [--mend] [CRATE ..]: the names that a file imports and does not use, in the specs, proofs and sources of these crates
(by default of all). With --mend they are taken out of their lines; run `rt fmt` then, and prove the crates again.

A name counts as used where it stands outside the import lines, an operator where all its parts do: so a name that stands in a comment
alone is not found. Of sources the ghost imports alone are looked at, since a trait is used where its methods are called, and no `pub use`."""
import glob, os, re, sys

HERE = os.path.dirname(os.path.dirname(os.path.abspath(__file__)))
IMPORT = re.compile(r"^([ \t]*(?:ghost )?use )([\w:.\-]+?)(\.)\{([^}]*)\}(;?)\n", re.M)
LINE = re.compile(r"^[ \t]*(?:ghost )?use [^\n]*$", re.M)


def is_used(name, text):
    """Whether the text has the name; an operator is written with ◌ for each operand, and a `do` block stands for those of steps."""
    if name.startswith("◌>>") and re.search(r"(?<!\w)do\b", text):
        return True
    if "◌" in name:
        return all(part in text for part in name.split("◌") if part)
    if not re.search(r"\w", name):
        return name in text
    return re.search(rf"(?<![\w\-']){re.escape(name)}(?![\w\-'])", text) is not None


def split(items, text):
    """The items of an import that the text uses, and those that it doesn't."""
    used, unused = [], []
    for item in filter(None, (it.strip() for it in items.split(","))):
        (used if is_used(item.split(" as ")[-1], text) else unused).append(item)
    return used, unused


def mended(text, found):
    """The text with no import that it doesn't use; what those are goes into `found`."""
    rest = LINE.sub("", IMPORT.sub("", text))

    def kept(line):
        used, unused = split(line[4], rest)
        if not unused:
            return line[0]
        found.append(f"{line[2]}: {', '.join(unused)}")
        return f"{line[1]}{line[2]}{line[3]}{{{', '.join(used)}}}{line[5]}\n" if used else ""

    return IMPORT.sub(kept, text)


def main():
    mend, crates = "--mend" in sys.argv, [it for it in sys.argv[1:] if it != "--mend"]
    for crate in crates or sorted(os.listdir(f"{HERE}/crates")):
        for part in ("specs", "proofs", "src"):
            for path in sorted(glob.glob(f"{HERE}/crates/{crate}/{part}/**/*.*t", recursive=True)):
                with open(path) as file:
                    text = file.read()
                found = []
                better = mended(text, found)
                for line in found:
                    print(f"{os.path.relpath(path, HERE)}: {line}")
                if mend and better != text:
                    with open(path, "w") as file:
                        file.write(better)


if __name__ == "__main__":
    main()
