#!/usr/bin/env python3
"""gate_time.py [NAME ..]: runs the gate at the top of the repository, and says where its time went. With names it runs these crates alone and
those below them, which is not the gate.

The gate is the toolchain's own `rt ci`: nothing is left out or changed. Each of its tasks, the proof, the tests or the edits of a crate,
is timed from its begin to its end, and each process that it starts tells when it ends what it took of the processors. A line for each
task goes to the file that GATE_TIME names (gate-time.txt in the temporary folder) as the task ends. At the end the script prints, and
writes there too, a table of minutes: for each crate and each kind of task those by the clock, with the processors that the task had, and
those of processors. The last line tells how much of the run the machine's host gave its processors to others (`steal` in /proc/stat): with
a tenth the same proofs took a third more of processors than on a quiet machine. The exit status is the gate's."""
import importlib.machinery, importlib.util, os, shutil, subprocess, sys, tempfile, threading, time

KINDS = ("proof", "tests", "edits")
HEAD = "| Crate | Proof | Tests | Edits |\n|---|---|---|---|"
OUT = os.environ.get("GATE_TIME") or os.path.join(tempfile.gettempdir(), "gate-time.txt")


def load_gate():
    """The toolchain's gate as a module: the program `rt`."""
    program = shutil.which("rt") or sys.exit("rt is not on the path")
    loader = importlib.machinery.SourceFileLoader("rt_gate", os.path.realpath(program))
    gate = importlib.util.module_from_spec(importlib.util.spec_from_loader("rt_gate", loader))
    loader.exec_module(gate)
    if not hasattr(gate, "in_lanes"):
        sys.exit("the gate of this toolchain has another shape: look at its rt, and mend this script")
    return gate


def stolen():
    """How long the host gave the processors to others so far, and how long they are up, in their own unit."""
    with open("/proc/stat") as stat:
        spent = [int(word) for word in stat.readline().split()[1:9]]
    return spent[7], sum(spent)


class Times:
    """What the gate's tasks took. A task is a crate's name and a kind."""

    def __init__(self, out):
        self.start, self.clock, self.used, self.stolen = time.time(), {}, {}, stolen()
        self.out, self.adding = out, threading.Lock()

    def add(self, task, seconds):
        """A process of this task has ended, and took so much of the processors."""
        with self.adding:
            self.used[task] = self.used.get(task, 0) + seconds

    def timed(self, task, call):
        """The call of a task, which is timed."""
        def work(given, jobs):
            began = time.time()
            try:
                return call(given, jobs)
            finally:
                took = time.time() - began
                self.clock[task] = took, jobs
                self.out.write(f"{time.time() - self.start:7.0f} s: {task[0]} {task[1]} took {took:.0f} s with {jobs} jobs, "
                               f"{self.used.get(task, 0):.0f} s of processors\n")
        return work

    def cell(self, task):
        took, jobs = self.clock.get(task, (0, 0))
        used = self.used.get(task, 0)
        return f"{took / 60:.1f} ({jobs}), {used / 60:.1f}" if used >= 1 else "–"

    def of_kind(self, kind):
        return sum(used for task, used in self.used.items() if task[1] == kind) / 60

    def table(self):
        """The crates, from the one that took most of the processors to the one that took least, and the sums."""
        of_crate = lambda name: sum(self.used.get((name, kind), 0) for kind in KINDS)
        yield HEAD
        for name in sorted({task[0] for task in self.clock}, key=of_crate, reverse=True):
            yield f"| {name} | " + " | ".join(self.cell((name, kind)) for kind in KINDS) + " |"
        for kind in KINDS:
            yield f"all {kind}: {self.of_kind(kind):.0f} processor minutes"
        yield (f"whole run: {(time.time() - self.start) / 60:.0f} minutes on {os.cpu_count()} processors, "
               f"{sum(self.used.values()) / 60:.0f} processor minutes")
        lost, ran = (now - then for now, then in zip(stolen(), self.stolen))
        yield f"given to others by the host: {100 * lost / max(ran, 1):.1f} % of the processors' time"


def counted(times):
    """A process that adds to its task what it took of the processors, once it has ended."""
    class Counted(subprocess.Popen):
        def __init__(self, args, *more, **named):
            words, folder = [str(word) for word in args], os.path.basename(str(named.get("cwd") or ""))
            name = words[words.index("--crate-name") + 1] if "--crate-name" in words else "-"
            kind = "edits" if folder.startswith("rt-edit-") else "tests" if "--test" in words else "proof"
            self.task, self.has_ended = (name, kind), False
            super().__init__(args, *more, **named)

        def _try_wait(self, flags):
            if self.has_ended:
                return super()._try_wait(flags)
            try:
                pid, status, usage = os.wait4(self.pid, flags)
            except ChildProcessError:
                return self.pid, 0
            if pid == self.pid:
                self.has_ended = True
                times.add(self.task, usage.ru_utime + usage.ru_stime)
            return pid, status
    return Counted


def main():
    gate = load_gate()
    with open(OUT, "w", buffering=1) as out:
        times, in_lanes = Times(out), gate.in_lanes
        subprocess.Popen = counted(times)
        gate.in_lanes = lambda tasks: in_lanes({
            task: (waits, lines, needs, times.timed(task, call)) for task, (waits, lines, needs, call) in tasks.items()
        })
        status = gate.main(["ci", *sys.argv[1:]])
        text = "\n".join(times.table())
        print(text)
        out.write(text + "\n")
    sys.exit(status)


main()
