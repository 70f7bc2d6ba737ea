#!/usr/bin/env python3
"""service.py [PROGRAM]: how many calls a second threads make on one running service, beside locks round counters, as two tables.

PROGRAM is the built callout_bench (default crates/callout_bench/out/callout_bench, which `rt run` in crates/callout_bench
makes). It prints counts alone; the times are those of whole runs by the clock, the least of RUNS (default 5). The last row has the
instructions of one call by one thread, as valgrind's callgrind counts them; without valgrind it is left out."""
import os, re, shutil, subprocess, sys, time

HERE = os.path.dirname(os.path.abspath(__file__))
PROGRAM = sys.argv[1] if len(sys.argv) > 1 else os.path.join(HERE, "../crates/callout_bench/out/callout_bench")
RUNS = int(os.environ.get("RUNS", 5))
CALLS = {"service": 500_000, "notes": 500_000, "moves": 200_000, "shared": 100_000, "mutex": 5_000_000}


def words_of(what, where, threads, calls):
    return [PROGRAM, "service", what, where, str(threads), str(calls)]


def rate(what, where, threads):
    """Millions of calls a second, of all threads together: each makes CALLS resets and as many stops, or additions."""
    calls = CALLS[what]
    words = words_of(what, where, threads, calls)
    times = []
    for _ in range(RUNS):
        start = time.perf_counter()
        text = subprocess.run(words, stdout=subprocess.PIPE, text=True, check=True).stdout
        times.append(time.perf_counter() - start)
        # Of shared callouts another thread may have stopped the arming.
        counted = text.split()[4] if what == "shared" else threads * calls
        assert text == f"{what} {where}: {threads} threads, {counted} counted\n", text
    return 2 * threads * calls / min(times) / 1e6


def instructions(what, where):
    """Those of one call by one thread: of 60000 resets and stops less those of 20000."""
    counts = []
    for calls in (20_000, 60_000):
        words = ["valgrind", "--tool=callgrind", f"--callgrind-out-file={os.devnull}", *words_of(what, where, 1, calls)]
        told = subprocess.run(words, stdout=subprocess.DEVNULL, stderr=subprocess.PIPE, text=True, check=True).stderr
        counts.append(int(re.search(r"Collected : (\d+)", told)[1]))
    return (counts[1] - counts[0]) / 80_000


def main():
    columns = [(what, where) for what in ("service", "mutex") for where in ("apart", "one")]
    print("| Threads | Service, a CPU each | Service, one CPU | A lock each | One lock |")
    print("|---|---|---|---|---|")
    for threads in (1, 2, 4):
        print(f"| {threads} | " + " | ".join(f"{rate(what, where, threads):.2f}" for what, where in columns) + " |")
    if shutil.which("valgrind"):
        print("| Instructions a call | " + " | ".join(f"{instructions(*column):.0f}" for column in columns) + " |")
    others = ("notes", "moves", "shared")
    print("\n| Threads | With notes | Each reset a move | Callouts of all threads |")
    print("|---|---|---|---|")
    for threads in (1, 2, 4):
        print(f"| {threads} | " + " | ".join(f"{rate(what, 'apart', threads):.2f}" for what in others) + " |")


if __name__ == "__main__":
    main()
