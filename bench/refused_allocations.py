#!/usr/bin/env python3
"""refused_allocations.py PROGRAM INPUT WORD ..: runs the program again and again, each time with one more allocation refused.

Run number n refuses allocation n, counted from 0, until a run refuses none. A run with a refused allocation has to end with
status 5 and nothing written; where the word is `run`, also with status 0 and a report that `PROGRAM check` calls legal, where the
refused memory was a thread's. The library that refuses is compiled by gcc and loaded before the C library."""
import os, subprocess, sys, tempfile

REFUSER = r"""
#include <errno.h>
#include <stdlib.h>
#include <unistd.h>
static long made = -1;
static int refuse(void) {
  if (__atomic_add_fetch(&made, 1, __ATOMIC_SEQ_CST) != atol(getenv("REFUSED_ALLOCATION"))) return 0;
  if (write(2, "refused\n", 8) < 8) _exit(99);
  errno = ENOMEM; /* as the C library's own calls expect of a refusal */
  return 1;
}
extern void *__libc_malloc(size_t), *__libc_calloc(size_t, size_t), *__libc_realloc(void *, size_t), *__libc_memalign(size_t, size_t);
void *malloc(size_t n) { return refuse() ? NULL : __libc_malloc(n); }
void *calloc(size_t n, size_t m) { return refuse() ? NULL : __libc_calloc(n, m); }
void *realloc(void *p, size_t n) { return refuse() ? NULL : __libc_realloc(p, n); }
void *aligned_alloc(size_t a, size_t n) { return refuse() ? NULL : __libc_memalign(a, n); }
"""


def refusals(program, words, given):
    """The runs of a program on an input, in each of which one more allocation is refused, up to the first that refuses none."""
    with tempfile.TemporaryDirectory() as folder:
        code, library = os.path.join(folder, "refuser.c"), os.path.join(folder, "refuser.so")
        with open(code, "w") as out:
            out.write(REFUSER)
        subprocess.run(["gcc", "-shared", "-fPIC", "-o", library, code], check=True)
        refused = 0
        while True:
            outside = dict(os.environ, LD_PRELOAD=library, REFUSED_ALLOCATION=str(refused))
            run = subprocess.run([program] + words, input=given, capture_output=True, env=outside, timeout=60)
            yield run
            if b"refused" not in run.stderr:
                return
            refused += 1


def is_legal(program, report):
    """Whether the program calls a report legal."""
    return subprocess.run([program, "check"], input=report, capture_output=True).stdout == b"legal\n"


def main():
    program, source, words = sys.argv[1], sys.argv[2], sys.argv[3:]
    with open(source, "rb") as script:
        given = script.read()
    runs = list(refusals(program, words, given))
    last, ended = runs.pop(), 0
    for refused, run in enumerate(runs):
        if (run.returncode, run.stdout) == (5, b""):
            ended += 1
        elif words != ["run"] or run.returncode != 0 or not is_legal(program, run.stdout):
            sys.exit(f"allocation {refused} refused: status {run.returncode}, {len(run.stdout)} bytes were written")
    others = f"; {len(runs) - ended} ended with status 0 and a legal report" if ended < len(runs) else ""
    print(f"{len(runs)} allocations refused in turn: {ended} ended with status 5 and nothing written{others};"
          f" with none refused: status {last.returncode}")


if __name__ == "__main__":
    main()
