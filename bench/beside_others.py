#!/usr/bin/env python3
"""beside_others.py [FOLDER [PROGRAM]]: what an operation of the wheel costs beside the timers that others use, as two tables: instructions
and times.

FOLDER has what embed/build.sh made (default embed/out), and PROGRAM is the built callout_bench (default
crates/callout_bench/out/callout_bench, which `rt run` in crates/callout_bench makes). The programs of bench/beside_others are built in a
temporary folder, each over one library: on Debian these are the packages libev-dev, libevent-dev, libuv1-dev, libdpdk-dev,
librust-tokio-util+time-dev and librust-tokio+full-dev. What is not there has no row; CC, CFLAGS, LDFLAGS and pkg-config's variables say
where else to look. bench/beside_others/workload.h says what an operation is.

TIMERS has the numbers of timers (default "64 1024 65536 1000000"). Instructions are those that valgrind's callgrind counts: they do not
depend on the machine's load. A time is the thread's processor time, of each run the median of its rounds, and the least of RUNS runs (default 3),
in which the programs take turns. `COUNT=no` leaves out the instructions, `TIME=no` the times; ONLY names the programs that are wanted. BUILT is a folder
in which the built programs are kept, and looked for first."""
import os, re, shlex, shutil, subprocess, sys, tempfile

HERE = os.path.dirname(os.path.abspath(__file__))
SOURCES = os.path.join(HERE, "beside_others")
FOLDER = sys.argv[1] if len(sys.argv) > 1 else os.path.join(HERE, "../embed/out")
PROGRAM = sys.argv[2] if len(sys.argv) > 2 else os.path.join(HERE, "../crates/callout_bench/out/callout_bench")
TIMERS = [int(word) for word in os.environ.get("TIMERS", "64 1024 65536 1000000").split()]
RUNS = int(os.environ.get("RUNS", 3))
PARTS = ("arm", "rearm", "stop", "expire")
ROWS = {"callout": "callout, one wheel through C", "libev": "libev", "libevent": "libevent", "libuv": "libuv",
        "rte_timer": "DPDK `rte_timer`", "delay_queue": "tokio-util `DelayQueue`"}
QUEUE = "`WheelQueue` alone"
MOST_CALLOUTS = 1024  # of callout_bench's queues
DEBIAN_CRATES = "/usr/share/cargo/registry"


def package(*words):
    """What pkg-config says, as words; none where it knows no such package."""
    told = subprocess.run(["pkg-config", *words], capture_output=True, text=True)
    return told.stdout.split() if told.returncode == 0 else []


def flags(name):
    """The compiler's words for the library of a program."""
    return {"callout": [f"-I{FOLDER}/include", f"-L{FOLDER}/lib", "-lcallout"],
            "libev": ["-lev"],
            "libevent": package("--cflags", "--libs", "libevent_core") or ["-levent_core"],
            "libuv": package("--cflags", "--libs", "libuv") or ["-luv"],
            "rte_timer": package("--cflags", "--libs-only-L", "libdpdk") + ["-lrte_timer", "-lrte_eal"]}[name]


def build_c(name, work):
    """The words that compile one program of C."""
    compiler, more = os.environ.get("CC", "cc"), [shlex.split(os.environ.get(of, "")) for of in ("CFLAGS", "LDFLAGS")]
    return [compiler, "-std=gnu11", "-O2", *more[0], os.path.join(SOURCES, name + ".c"), *more[1], *flags(name), "-o",
            os.path.join(work, name)]


def build_rust(name, work):
    """The words that compile the program of Rust, from Debian's crates alone."""
    shutil.copytree(os.path.join(SOURCES, name), os.path.join(work, "crate"), dirs_exist_ok=True)
    return ["cargo", "build", "--release", "--offline", "--manifest-path", os.path.join(work, "crate/Cargo.toml"),
            "--target-dir", os.path.join(work, "made"), "--config", 'source.crates-io.replace-with="debian"',
            "--config", f'source.debian.directory="{DEBIAN_CRATES}"']


def build(name, work):
    """The built program, or None where its library is not there."""
    rust = os.path.isdir(os.path.join(SOURCES, name))
    built = os.path.join(work, "made/release" if rust else "", name)
    if os.access(built, os.X_OK) and os.path.isfile(built):
        return built
    words = (build_rust if rust else build_c)(name, work)
    if not shutil.which(words[0]) or subprocess.run(words, capture_output=True).returncode != 0:
        print(f"{name} cannot be built here", file=sys.stderr)
        return None
    return built


def counted(words, out):
    """Runs under callgrind: the program's whole count."""
    run = subprocess.run(["valgrind", "--tool=callgrind", f"--callgrind-out-file={out}", *words], capture_output=True, text=True)
    assert run.returncode == 0, (words, run.stderr)
    return int(re.search(r"Collected : (\d+)", run.stderr)[1])


def instructions(program, timers, work):
    """Instructions of each operation: what callgrind counts below the function that is round it."""
    rounds, out = max(1, 20_000 // timers), os.path.join(work, "counts")
    counted([program, str(timers), str(rounds)], out)
    text = subprocess.run(["callgrind_annotate", "--inclusive=yes", "--threshold=100", out], capture_output=True, text=True, check=True).stdout
    below = {part: int(count.replace(",", "")) for count, part in re.findall(r"([\d,]+) \(.*?measured_(\w+)", text)}
    return [below[part] / timers / rounds for part in PARTS]


def times(program, timers):
    """Nanoseconds of each operation, of one run."""
    rounds = max(2, 2_000_000 // timers)
    text = subprocess.run([program, str(timers), str(rounds)], stdout=subprocess.PIPE, text=True, check=True).stdout
    return [float(ns) for ns in re.findall(r"[\d.]+", text)]


def queue_words(timers, armings):
    return [PROGRAM, "queues", "wheel", str(timers), "4096", str(armings), "0"]


def queue_instructions(timers, work):
    """Instructions of an arming of the queue alone, without those of the program's begin and end."""
    few, many = (counted(queue_words(timers, armings), os.path.join(work, "counts")) for armings in (100_000, 300_000))
    return (many - few) / 200_000


def queue_time(timers):
    """Nanoseconds of an arming of the queue alone, of one run."""
    armings = 5_000_000
    child = subprocess.Popen(queue_words(timers, armings), stdout=subprocess.DEVNULL)
    _, status, usage = os.wait4(child.pid, 0)
    child.returncode = os.waitstatus_to_exitcode(status)
    assert child.returncode == 0, child.returncode
    return (usage.ru_utime + usage.ru_stime) / armings * 1e9


def table(title, programs, of_program, of_queue):
    """A row for each library; a cell has the four operations of one number of timers."""
    print(f"| {title} | " + " | ".join(map(str, TIMERS)) + " |\n|---|" + "---|" * len(TIMERS))
    for name in programs:
        print(f"| {ROWS[name]} | " + " | ".join(" / ".join(f"{x:.0f}" for x in of_program(name, t)) for t in TIMERS) + " |", flush=True)
    if os.access(PROGRAM, os.X_OK):
        print(f"| {QUEUE}, an arming | " + " | ".join(f"{of_queue(t):.0f}" if t <= MOST_CALLOUTS else "-" for t in TIMERS) + " |", flush=True)


def least_times(programs):
    """Of each program and number of timers the least of all runs, in which they take turns."""
    least = {}
    for _ in range(RUNS):
        for timers in TIMERS:
            for name, program in programs.items():
                now = times(program, timers)
                least[name, timers] = [min(pair) for pair in zip(now, least.get((name, timers), now))]
    return least


def main():
    with tempfile.TemporaryDirectory() as work:
        names = os.environ.get("ONLY", " ".join(ROWS)).split()
        programs = {name: program for name in names if (program := build(name, os.environ.get("BUILT", work)))}
        if os.environ.get("COUNT") != "no":
            table("Instructions: arm / arm anew / stop / expire", programs, lambda name, t: instructions(programs[name], t, work),
                  lambda t: queue_instructions(t, work))
            print()
        if os.environ.get("TIME") != "no":
            least = least_times(programs)
            table("ns: arm / arm anew / stop / expire", programs, lambda name, t: least[name, t],
                  lambda t: min(queue_time(t) for _ in range(RUNS)))


if __name__ == "__main__":
    main()
