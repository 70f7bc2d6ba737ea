#!/usr/bin/env python3
"""contended_runs.py PROGRAM [RUNS [SEED]]: runs small contended scripts on threads, and judges each report.

PROGRAM is the built callout. Script number n is made from SEED + n (defaults: 10000 runs from seed 1). `PROGRAM run` runs it on
threads, and `PROGRAM check` has to call its report legal. The first script whose run or report is not so is printed."""
import random, subprocess, sys
from concurrent.futures import ThreadPoolExecutor

PROGRAM = sys.argv[1]
RUNS = int(sys.argv[2]) if len(sys.argv) > 2 else 10_000
SEED = int(sys.argv[3]) if len(sys.argv) > 3 else 1
FUNCS = 3


class Draw:
    """What a script is drawn from: its version, its CPUs, its locks and its timers."""

    def __init__(self, seed):
        self.random = random.Random(seed)
        self.version = self.random.choice((1, 2))
        self.cpus = self.random.randint(1, 3)
        self.locks = [self.random.choice(("mtx", "rw")) for _ in range(self.random.randint(0, 2))]
        self.timers = [self.timer() for _ in range(self.random.randint(1, 3))]

    def timer(self):
        """The words of a timer line behind its number."""
        if not self.locks or self.random.random() < 0.4:
            return "mpsafe" + (" direct" if self.version == 2 and self.random.random() < 0.5 else "")
        lock = self.random.randrange(len(self.locks))
        shared = " shared" if self.locks[lock] == "rw" and self.random.random() < 0.5 else ""
        unlocked = " returnunlocked" if self.random.random() < 0.3 else ""
        return f"{self.locks[lock]} {lock}{shared}{unlocked}"

    def arming(self):
        """The words behind the callout of a reset or a schedule: a time, and for a reset a function; the CPU comes after them."""
        return self.random.choice(("=", "+")) + str(self.random.randint(0, 3))

    def where(self):
        return self.random.choice(("", "", " cpu here", f" cpu {self.random.randrange(self.cpus)}"))

    def call(self, who):
        """An act that clients and functions make."""
        func, arg = f"f{self.random.randrange(FUNCS)}", f"a{self.random.randrange(100)}"
        acts = [f"reset {who} {self.arming()} {func} {arg}{self.where()}"] * 4
        acts += [f"ticks {who} {self.random.randint(-1, 3)} {func} {arg}{self.where()}"]
        acts += [f"schedule {who} {self.arming()}{self.where()}"]
        acts += [f"stop {who}"] * 2 + [f"adrain {who} {func}"]
        acts += [f"{word} {who}" for word in ("active", "pending", "deactivate")]
        if self.version == 2:
            acts += [f"init {who}", f"retire {who}"]
        return self.random.choice(acts)

    def function(self):
        return [self.call(self.random.choice(("me", self.number()))) for _ in range(self.random.randint(0, 2))]

    def number(self):
        return str(self.random.randrange(len(self.timers)))

    def client(self):
        acts = []
        for _ in range(self.random.randint(2, 12)):
            acts.append(self.random.choice((self.call(self.number()), self.call(self.number()), self.other())))
        return acts

    def other(self):
        """An act that clients alone make."""
        if not self.locks or self.random.random() < 0.3:
            return f"drain {self.number()}"
        lock = self.random.randrange(len(self.locks))
        words = ["lock", "lock", "rlock"] if self.locks[lock] == "rw" else ["lock"]
        return self.random.choice([f"{word} {lock}" for word in words] + ["unlock"] * 2)

    def ticks(self):
        times = sorted(self.random.randint(0, 5) for _ in range(self.random.randint(1, 4)))
        return [f"tick {time}" for time in times]

    def script(self):
        lines = [f"callout {self.version}", f"cpus {self.cpus}", "wheel 16", f"funcs {FUNCS}"]
        lines += [f"lock {number} {kind}" for number, kind in enumerate(self.locks)]
        lines += [f"timer {number} {words}" for number, words in enumerate(self.timers)]
        for word, count, acts in (
            ("func", FUNCS, self.function),
            ("client", self.random.randint(2, 4), self.client),
            ("cpu", self.cpus, self.ticks),
        ):
            for number in range(count):
                lines += [f"{word} {number}"] + acts()
        return "\n".join(lines) + "\n"


def judge(seed):
    """Runs the seed's script, and has its report judged. The answer is the script where that is not as it has to be, and how
    many bytes the report has."""
    script = Draw(seed).script().encode()
    try:
        run = subprocess.run([PROGRAM, "run"], input=script, capture_output=True, timeout=60)
        check = subprocess.run([PROGRAM, "check"], input=run.stdout, capture_output=True, timeout=60)
    except subprocess.TimeoutExpired:
        return seed, script, "no end within a minute", 0
    if (run.returncode, check.returncode, check.stdout) == (0, 0, b"legal\n"):
        return seed, None, "", len(run.stdout)
    return seed, script, f"run: {run.returncode}, check: {check.returncode}, {check.stdout.decode()}", 0


def main():
    written = 0
    with ThreadPoolExecutor(4) as pool:
        for seed, script, wrong, size in pool.map(judge, range(SEED, SEED + RUNS)):
            if script is not None:
                sys.exit(f"script {seed}: {wrong}\n{script.decode()}")
            written += size
    print(f"{RUNS} scripts from seed {SEED}: every report is legal, {written} bytes in all")


if __name__ == "__main__":
    main()
