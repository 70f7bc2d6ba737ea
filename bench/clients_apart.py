#!/usr/bin/env python3
"""clients_apart.py PROGRAM ..: what `run` takes where four clients are each at a CPU of their own, where all are at one, and where each is at
its own but the machine gives the program one processor alone, as a table.

PROGRAM is the built callout; of further programs with the same texts the same is measured. Where callouts fire, a client arms 256 of
its own, each of which arms itself again as it fires, and each CPU ticks TICKS times (default 100). How many fire depends on the race, a
little on several processors; on one a CPU may have ticked before a client has armed anything, so that is left out. Else a client calls 16
callouts of its own in turn, ACTS acts in all (default 60000): it resets and stops them, or stops them alone, or asks whether they are
pending. The script is read from a file, and the report goes to /dev/null. Programs and places take turns. The times are by the clock, the
least of RUNS (default 9) and the median; the ratios are those of the times at one CPU, and of those on one processor, to those at CPUs of
their own."""
import os, subprocess, sys, tempfile, time

RUNS, ACTS, TICKS, CPUS = int(os.environ.get("RUNS", 9)), int(os.environ.get("ACTS", 60_000)), int(os.environ.get("TICKS", 100)), 4
KINDS = {"firings": None, "resets and stops": ("reset {i} =1000 f0 a0 cpu {cpu}", "stop {i}"), "stops": ("stop {i}",), "queries": ("pending {i}",)}


def client(acts, first, callouts, cpu):
    """The acts of a client, whose callouts are these from the first on: they are armed, and then called in turn, if they are."""
    lines = [f"reset {i} ={1000 if acts else 1} f0 a0 cpu {cpu}" for i in range(first, first + callouts)]
    for at in range((ACTS - callouts) // len(acts) if acts else 0):
        lines += [act.format(i=first + at % callouts, cpu=cpu) for act in acts]
    return lines


def script(acts, apart):
    """The script of four clients, each at CPU 0 or, apart, at a CPU of its own. With no acts, their callouts fire at each tick."""
    callouts, ticks = (16, 0) if acts else (256, TICKS)
    lines = ["callout 1", f"cpus {CPUS}", "wheel 256", "funcs 1"]
    lines += [f"timer {i} mpsafe" for i in range(CPUS * callouts)] + ["func 0"] + ([] if acts else ["schedule me +1"])
    for number in range(CPUS):
        lines += [f"client {number}"] + client(acts, number * callouts, callouts, number if apart else 0)
    for cpu in range(CPUS):
        lines += [f"cpu {cpu}"] + [f"tick {second + 1}" for second in range(ticks)]
    return "\n".join(lines + [""]).encode()


def once(program, text, processors):
    """Seconds by the clock of a run of the script that stands in this file, on these processors."""
    text.seek(0)
    start = time.perf_counter()
    subprocess.run([program, "run"], stdin=text, stdout=subprocess.DEVNULL, check=True, preexec_fn=lambda: os.sched_setaffinity(0, processors))
    return time.perf_counter() - start


def file_of(text):
    """A file of this text, which goes with the process."""
    file = tempfile.TemporaryFile()
    file.write(text)
    file.flush()
    return file


def main():
    programs = sys.argv[1:] or sys.exit(__doc__)
    print("| Program, acts | A CPU each: least | median | One CPU: least | median | One processor: least | median | Ratios |\n|---|---|---|---|---|---|---|---|")
    every = os.sched_getaffinity(0)
    for name, acts in KINDS.items():
        apart, together = (file_of(script(acts, at)) for at in (True, False))
        ways = [(apart, every), (together, every)] + ([(apart, {max(every)})] if acts else [])
        times = {(program, way): [] for program in programs for way in range(len(ways))}
        for _ in range(RUNS):
            for program, way in times:
                times[program, way].append(once(program, *ways[way]))
        for program in programs:
            found = [sorted(times[program, way]) for way in range(len(ways))]
            ends = [(one[0], one[RUNS // 2]) for one in found]
            cells = ([f"{seconds:.3f} s" for pair in ends for seconds in pair] + ["–", "–"])[:6]
            ratios = "; ".join(f"{least / ends[0][0]:.1f}, {median / ends[0][1]:.1f}" for least, median in ends[1:])
            print(f"| {os.path.basename(program)}, {name} | " + " | ".join(cells) + f" | {ratios} |", flush=True)


if __name__ == "__main__":
    main()
