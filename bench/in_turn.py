#!/usr/bin/env python3
"""in_turn.py PROGRAM OTHER WORD .. < INPUT: what a command takes of the processors, of PROGRAM and of OTHER with the same texts, as cells of a
table: of each the least time of RUNS (default 21) and the median, and its peak of memory; and the ratios of PROGRAM's times to OTHER's.

The two take turns, so that a machine that gets slower meets both. INPUT is a file; what is written goes to /dev/null. The peak is told by
Debian's package time, since a child of Python's would count what Python holds. WARM=1300 has so many
MiB touched and let go before each run, for large inputs (bench/warm.py)."""
import os, subprocess, sys, tempfile
from warm import warm

RUNS = int(os.environ.get("RUNS", 21))


def once(program, words, source):
    """Seconds of processors that a run takes."""
    source.seek(0)
    warm(0)
    child = subprocess.Popen([program, *words], stdin=source, stdout=subprocess.DEVNULL)
    _, status, usage = os.wait4(child.pid, 0)
    child.returncode = os.waitstatus_to_exitcode(status)
    if child.returncode:
        sys.exit(f"{program} {' '.join(words)}: status {child.returncode}")
    return usage.ru_utime + usage.ru_stime


def peak_of(program, words, source):
    """The peak of a run in MiB."""
    source.seek(0)
    with tempfile.NamedTemporaryFile("r") as told:
        subprocess.run(["/usr/bin/time", "-q", "-f", "%M", "-o", told.name, program, *words], stdin=source, stdout=subprocess.DEVNULL)
        return int(told.read().split()[-1]) / 1024


def shown(seconds):
    return f"{seconds * 1000:.1f} ms" if seconds < 0.1 else f"{seconds * 1000:.0f} ms" if seconds < 1 else f"{seconds:.2f} s"


def main():
    program, other, *words = sys.argv[1:] if len(sys.argv) > 3 else sys.exit(__doc__)
    times = {program: [], other: []}
    for _ in range(RUNS):
        for one in times:
            times[one].append(once(one, words, sys.stdin.buffer))
    ends = {one: (min(found), sorted(found)[RUNS // 2]) for one, found in times.items()}
    cells = [str(RUNS)]
    for one in (other, program):
        cells += [", ".join(shown(seconds) for seconds in ends[one]), f"{peak_of(one, words, sys.stdin.buffer):.0f} MiB"]
    cells.append(", ".join(f"{mine / its:.2f}" for mine, its in zip(ends[program], ends[other])))
    print("| " + " | ".join(cells) + " |")


main()
