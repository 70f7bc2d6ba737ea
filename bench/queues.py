#!/usr/bin/env python3
"""queues.py [PROGRAM]: what an operation of the two timer queues costs, as tables.

PROGRAM is the built callout_bench (default crates/callout_bench/out/callout_bench, which `rt run` in crates/callout_bench
makes). It prints counts alone; the times are the processor times of its processes, the least of RUNS (default 5)."""
import os, re, subprocess, sys

HERE = os.path.dirname(os.path.abspath(__file__))
PROGRAM = sys.argv[1] if len(sys.argv) > 1 else os.path.join(HERE, "../crates/callout_bench/out/callout_bench")
RUNS = int(os.environ.get("RUNS", 5))
ARMINGS = {"list": 1_000_000, "wheel": 10_000_000}
STEP, SECOND = 1 << 16, 1 << 32


def run(queue, callouts, buckets, armings, step=STEP):
    """The least processor time in seconds, and the counts by their names."""
    words = [PROGRAM, "queues", queue, str(callouts), str(buckets), str(armings), str(step)]
    times = []
    for _ in range(RUNS):
        child = subprocess.Popen(words, stdout=subprocess.PIPE, text=True)
        text = child.stdout.read()
        _, status, usage = os.wait4(child.pid, 0)
        child.returncode = os.waitstatus_to_exitcode(status)
        assert child.returncode == 0, (words, child.returncode)
        times.append(usage.ru_utime + usage.ru_stime)
    counts = {name: int(number) for number, name in re.findall(r"(\d+) (\w+)", text)}
    return min(times), counts


def operation(queue, callouts, buckets):
    """Nanoseconds an operation, and looks a scan. An arming is a remove and an insert, and every fourth comes with a stop;
    each callout that fires is popped."""
    armings = ARMINGS[queue]
    seconds, counts = run(queue, callouts, buckets, armings)
    operations = 2 * armings + armings // 4 + counts["scans"] + counts["fired"]
    return seconds / operations * 1e9, counts["looks"] / counts["scans"]


def table():
    print("| Callouts | Buckets | List: ns an operation | Looks a scan | Wheel: ns an operation | Looks a scan |")
    print("|---|---|---|---|---|---|")
    for callouts in 64, 256, 1024:
        for buckets in 256, 4096, 65536:
            cells = [operation(queue, callouts, buckets) for queue in ("list", "wheel")]
            print(f"| {callouts} | {buckets} | " + " | ".join(f"{ns:.1f} | {looks:.1f}" for ns, looks in cells) + " |")


def sweeps():
    """A second from one arming to the next, so that each scan visits the whole wheel."""
    print("| Buckets | A scan of the whole wheel | A bucket of it |")
    print("|---|---|---|")
    for buckets in 256, 4096, 65536:
        seconds, counts = run("wheel", 64, buckets, 1_000_000, SECOND)
        rest, _ = run("wheel", 64, buckets, 1_000_000, 0)
        scan = (seconds - rest) / counts["scans"]
        print(f"| {buckets} | {scan * 1e6:.1f} µs | {scan / buckets * 1e9:.2f} ns |")


table()
print()
sweeps()
