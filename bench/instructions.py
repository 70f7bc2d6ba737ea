#!/usr/bin/env python3
"""instructions.py PROGRAM OTHER: how many instructions two built programs with the same texts take for the same work, as a table.

They are counted by valgrind's callgrind, begin and end of the program included, so they do not depend on the machine's load. `run` is left
out, since its work depends on the race. The inputs are `gen 1` and those of growth.py with COMMANDS commands (default 8192)."""
import os, re, subprocess, sys, tempfile

import growth

COMMANDS = int(os.environ.get("COMMANDS", 8192))


def counted(program, words, source, out):
    """Instructions in millions of one run, whose output is `out`."""
    with open(source, "rb") as stdin, open(out, "wb") as stdout:
        run = subprocess.run(["valgrind", "--tool=callgrind", f"--callgrind-out-file={os.devnull}", program, *words], stdin=stdin,
                             stdout=stdout, stderr=subprocess.PIPE, text=True)
    assert run.returncode == 0, (program, words, run.returncode)
    return int(re.search(r"Collected : (\d+)", run.stderr)[1]) / 1e6


def main():
    programs = sys.argv[1:3]
    if len(programs) != 2:
        sys.exit(__doc__)
    with tempfile.TemporaryDirectory() as folder:
        at = lambda name: os.path.join(folder, name)
        open(at("nothing"), "wb").close()
        rows = [("`gen 1`", ["gen", "1"], "nothing"), ("`soak 1`", ["soak", "1"], "nothing"), ("`steps` of `gen 1`", ["steps"], "script"),
                ("`check` of its report", ["check"], "report")]
        for made in (growth.kq, growth.sleep, growth.itimer, growth.event):
            name = made.__name__
            with open(at(name), "w") as text:
                text.write("\n".join(made(COMMANDS)) + "\n")
            rows.append((f"`{name}`, {COMMANDS} commands", [name], name))
        for words, source, target in ((["gen", "1"], "nothing", "script"), (["steps"], "script", "report")):
            with open(at(source), "rb") as stdin, open(at(target), "wb") as stdout:
                subprocess.run([programs[1], *words], stdin=stdin, stdout=stdout, check=True)
        print("| Millions of instructions | Native | `callout` | Ratio |\n|---|---|---|---|")
        for title, words, source in rows:
            ours, others = (counted(program, words, at(source), at("out")) for program in programs)
            print(f"| {title} | {others:.1f} | {ours:.1f} | {ours / others:.2f} |", flush=True)


if __name__ == "__main__":
    main()
