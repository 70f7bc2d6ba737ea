#!/usr/bin/env python3
"""refused_steps.py PROGRAM [INPUT]: a world that is refused memory in a step goes on with the very same step.

PROGRAM is the built callout_bench. Run number n of its word `world` refuses allocation n, counted from 0, until a run refuses
none. Each has to end with status 5 and nothing written, where the memory was not a step's, or with as many notes as the run that
met no refusal, and one step refused. INPUT is a script; without it, a callout moves to the other CPU after its service."""
import sys
from refused_allocations import refusals

DEFERRED_MOVE = b"""callout 1
cpus 2
funcs 1
timer 0 mpsafe
client 0
reset 0 =1 f0 a0
reset 0 =2 f0 a1 cpu 1
stop 0
cpu 0
tick 1
cpu 1
tick 2
turns c0 p0*2 c0*2
"""


def main():
    given = DEFERRED_MOVE
    if len(sys.argv) > 2:
        with open(sys.argv[2], "rb") as script:
            given = script.read()
    runs = list(refusals(sys.argv[1], ["world"], given))
    whole = runs.pop()
    notes, _, rest = whole.stdout.partition(b" ")
    assert whole.returncode == 0 and rest == b"notes, 0 steps refused\n", whole
    again = notes + b" notes, 1 steps refused\n"
    outside, inside = 0, 0
    for refused, run in enumerate(runs):
        if (run.returncode, run.stdout) == (5, b""):
            outside += 1
        elif (run.returncode, run.stdout) == (0, again):
            inside += 1
        else:
            sys.exit(f"allocation {refused} refused: status {run.returncode}, {run.stdout!r}")
    print(f"{len(runs)} allocations refused in turn: {inside} in a step, which was made again, each with {notes.decode()} notes;"
          f" {outside} elsewhere, each with status 5 and nothing written")


if __name__ == "__main__":
    main()
