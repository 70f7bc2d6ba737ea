#!/usr/bin/env python3
"""growth.py [PROGRAM [COMMAND ..]]: how time and memory of `steps`, `check`, `run`, `kq`, `sleep`, `itimer` and `event`, or of these
commands alone, grow from one size of input to its double, as a table.

PROGRAM is the built callout (default crates/callout_cli/out/callout_cli, which `rt run` in crates/callout_cli makes). Each command gets
inputs of a quarter, a half and the whole of a size; the largest is close to the format's limits. SHRINK divides all sizes (default 1).
Times are processor times of whole runs, the least of RUNS (default 7), of `run`, whose work depends on the race, the medians; peaks are of
resident memory, the highest. The three sizes take turns, so that a machine that gets slower meets all, and before each run memory is
touched and let go (bench/warm.py). How much `run` writes depends on the race too, by a half in a small script, so its ratio is that of the
times for a byte of its report, doubled. time(1) is needed."""
import os, subprocess, sys, tempfile
from warm import warm

HERE = os.path.dirname(os.path.abspath(__file__))
PROGRAM = sys.argv[1] if len(sys.argv) > 1 else os.path.join(HERE, "../crates/callout_cli/out/callout_cli")
RUNS, SHRINK = int(os.environ.get("RUNS", 7)), int(os.environ.get("SHRINK", 1))
COMMANDS, WANTED = 262_144, sys.argv[2:]


def draws():
    """The draws of a linear congruence."""
    seed = 1
    while True:
        seed = (seed * 6364136223846793005 + 1442695040888963407) % 2**64
        yield seed >> 33


def rearming(timers, ticks):
    """A script of timers that arm themselves again at each of the ticks of 16 CPUs, a hundred a second."""
    lines = ["callout 1", "cpus 16", "wheel 256", "funcs 4", *(f"timer {i} mpsafe" for i in range(timers)), "func 0", "schedule me +0.01"]
    for cpu in range(16):
        lines += [f"client {cpu}", *(f"reset {i} +0.01 f0 a{i} cpu {cpu}" for i in range(cpu, timers, 16))]
    for cpu in range(16):
        lines += [f"cpu {cpu}", *(f"tick {t // 100}.{t % 100:02}" for t in range(1, ticks + 1))]
    return lines


def crowd_script(ticks):
    """1024 timers: the tables are full, the history is long."""
    return rearming(1024, ticks)


def tick_script(ticks):
    """48 timers and many ticks."""
    return rearming(48, ticks)


def kq(commands):
    """Kevents of 1 to 1024 ms, a tick each ms, and up to 16 events taken after it."""
    lines = ["kq 1", "knotes 1024", *(f"add {n} {n + 1} ms" for n in range(1024))]
    for n in range((commands - 1024) // 2):
        lines += [f"tick {n // 1000}.{n % 1000:03}", "events 16"]
    return lines


def sleep(commands):
    """Sleepers at 64 channels, woken one by one, all at once, or by time."""
    lines, draw = ["sleep 1", "sleepers 1024"], draws()
    for n in range(commands):
        d = next(draw)
        who, channel = d % 1024, d // 1024 % 64
        begin = f"sleep {who} {channel} {d % 2000}"
        wake = (f"wakeup {channel}", f"wakeup1 {channel}", f"awake {who}", f"tick {n // 1000}.{n % 1000:03}")
        lines.append((begin, begin, begin, begin, *wake)[d // 65536 % 8])
    return lines


def itimer(commands):
    """Interval timers of 0.1 to 102.4 ms, and a tick each 10 ms."""
    lines = ["itimer 1", "processes 1024", *(f"set {n} 0.{n + 1:04} 0.{n + 1:04}" for n in range(1024))]
    for n in range((commands - 1024) // 3):
        lines += [f"tick {n // 100}.{n % 100:02}", f"get {n % 1024}", f"alarm {n % 1024}"]
    return lines


def event(commands):
    """Timers that are armed within two seconds, now and then stopped, and a clock that goes on."""
    lines, draw = ["event 1", "timers 1024"], draws()
    for n in range(commands):
        d = next(draw)
        arm = f"arm {d % 1024} +{d % 2}.{d % 1000:03} pr 0.{d % 100:02}"
        lines.append((f"stop {d % 1024}", f"until {n // 1000}.{n % 1000:03}", arm)[min(d // 1024 % 8, 2)])
    return lines


# command, what it reads, the whole size and what makes an input of a size; of `check` it is the report of `steps`
ROWS = [("steps", "ticks of 1024 timers", 760, crowd_script), ("check", "the reports of those", 760, crowd_script),
        ("steps", "ticks of 48 timers", 13_500, tick_script), ("check", "the reports of those", 13_500, tick_script),
        ("run", "ticks of 48 timers", 13_500, tick_script)]
ROWS += [(made.__name__, "commands", COMMANDS, made) for made in (kq, sleep, itimer, event)]


def once(command, source, folder):
    """Seconds of processor time, KiB at the peak and bytes that are written of one run."""
    out, report = os.path.join(folder, "out"), os.path.join(folder, "peak")
    warm(1300)
    with open(source, "rb") as stdin, open(out, "wb") as stdout:
        child = subprocess.Popen(["time", "-q", "-f", "%M", "-o", report, PROGRAM, command], stdin=stdin, stdout=stdout)
        _, status, usage = os.wait4(child.pid, 0)
    child.returncode = os.waitstatus_to_exitcode(status)
    assert child.returncode == 0, (command, child.returncode)
    with open(report) as text:
        return usage.ru_utime + usage.ru_stime, int(text.read().split()[-1]), os.path.getsize(out)


def middle(values):
    return sorted(values)[len(values) // 2]


def measured(command, sources, folder):
    """Of each input the least time, the highest peak, and what a double of the time is to be judged by: the same time, or of `run` the
    median time and that for a byte of the report."""
    runs = [[once(command, source, folder) for source in sources] for _ in range(RUNS)]
    for of_one in zip(*runs):
        seconds, peaks, sizes = zip(*of_one)
        least = min(seconds)
        each = [of / size for of, size in zip(seconds, sizes)]
        yield (middle(seconds), max(peaks), middle(each)) if command == "run" else (least, max(peaks), least)


def make_input(command, lines, source, folder):
    """A file with these lines, or for `check` with their report."""
    with open(source, "w") as text:
        text.write("\n".join(lines) + "\n")
    if command == "check":
        once("steps", source, folder)
        os.replace(os.path.join(folder, "out"), source)
    return source


def ratios(values, of_each=1):
    return ", ".join(f"{of_each * more / less:.2f}" for less, more in zip(values, values[1:]))


def main():
    print("| Command | Sizes | CPU | Ratios | Peak | Ratios |\n|---|---|---|---|---|---|")
    with tempfile.TemporaryDirectory() as folder:
        for command, what, whole, made in [row for row in ROWS if not WANTED or row[0] in WANTED]:
            least = whole // SHRINK // 4
            sizes = [least, 2 * least, 4 * least]
            sources = [make_input(command, made(size), os.path.join(folder, f"in-{size}"), folder) for size in sizes]
            seconds, peaks, judged = zip(*measured(command, sources, folder))
            print(f"| `{command}` | {', '.join(map(str, sizes))} {what} | {', '.join(f'{s:.3g}' for s in seconds)} s | {ratios(judged, 2 if command == 'run' else 1)} | "
                  f"{', '.join(f'{p / 1024:.0f}' for p in peaks)} MiB | {ratios(peaks)} |", flush=True)


if __name__ == "__main__":
    main()
