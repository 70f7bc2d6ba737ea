#!/usr/bin/env python3
"""unproved.py OUT [CHECKOUT]: builds the program callout of a checkout (by default of this one) as OUT with no proof, in a few minutes.

For counts of instructions alone, before a change is proved: `valgrind --tool=callgrind OUT steps < SCRIPT`. The program is what `rt try`
compiles, without its checks at run time, and with the hints for inlining that stand in the sources, which `rt try` leaves out. Its
counts are some 5 to 7 % above those of the proved program, by the same functions: compare two of its own. It is no program for use,
since nothing says that what would have been checked holds."""
import glob, os, re, shutil, subprocess, sys, tempfile

HERE = os.path.dirname(os.path.dirname(os.path.abspath(__file__)))
KEEPING = """#!/bin/sh
for word in "$@"; do case "$word" in *.bc) [ -n "$(find "$word" -size +99k)" ] && cp "$word" "{kept}" && exit 1 ;; esac; done
exec "{clang}" "$@"
"""
HINT = re.compile(r"#\[inline(?:\((always|never)\))?\]\s*(?:///.*\n\s*|//.*\n\s*|#\[.*\]\s*)*(?:pub(?:\([a-z]+\))? )?fn (\w+)")
IMPL = re.compile(r"^impl(?:<.*?>)? (?:.* for )?(\w+)|^\}", re.M)
KINDS = {"always": "alwaysinline", "never": "noinline", "": "inlinehint"}


def kit_that_keeps(room, kept):
    """A copy of the toolchain by links, whose compiler keeps the program's module and goes no further, but compiles the small one of
    options that comes first: its command rt, and the compiler and the C libraries of the toolchain itself."""
    kit = os.path.dirname(os.path.dirname(os.path.realpath(shutil.which("rt") or sys.exit("rt is not on the path"))))
    for part in os.listdir(kit):
        if part not in ("bin", "toolchain"):
            os.symlink(f"{kit}/{part}", f"{room}/{part}")
    for part in ("bin", "toolchain", "toolchain/bin"):
        os.mkdir(f"{room}/{part}")
    os.symlink(f"{kit}/toolchain/lib", f"{room}/toolchain/lib")
    for part in ("bin", "toolchain/bin"):
        for name in os.listdir(f"{kit}/{part}"):
            # (rt finds its toolchain by where it stands itself)
            put = shutil.copy if name in ("rt", "rtlib.py") else os.symlink
            if name != "clang":
                put(f"{kit}/{part}/{name}", f"{room}/{part}/{name}")
    clang = f"{kit}/toolchain/bin/clang"
    with open(f"{room}/toolchain/bin/clang", "w") as script:
        script.write(KEEPING.format(kept=kept, clang=clang))
    os.chmod(f"{room}/toolchain/bin/clang", 0o755)
    return f"{room}/bin/rt", clang, f"{kit}/c"


def hints_of(checkout):
    """By a function's crate and name, how it is to be inlined: for the methods of each type, or of none."""
    hints = {}
    for path in glob.glob(f"{checkout}/crates/*/src/**/*.rt", recursive=True):
        crate = os.path.relpath(path, f"{checkout}/crates").split(os.sep)[0]
        text = open(path).read()
        for found in HINT.finditer(text):
            within = [it[1] for it in IMPL.finditer(text, 0, found.start())]
            hints.setdefault((crate, found[2]), {})[within and within[-1] or ""] = found[1] or ""
    return hints


def hint_for(name, hints):
    """How the function of this name in the module is to be inlined, or None. The name of a trait's method begins with the type's."""
    parts = re.sub(r"::<#[0-9a-f]+>$", "", name).split("::")
    kinds = hints.get((parts[0], parts[-1]), {})
    is_method = len(parts) > 2 and parts[-2][:1].isupper()
    fitting = [it for it in kinds if bool(it) == is_method and parts[-2].startswith(it)]
    return kinds[max(fitting, key=len)] if fitting else None


def hinted(text, hints):
    """The module's text without its checks, and with these hints."""
    text = re.sub(r".*call void @llvm\.trap\(\).*\n", "", text.replace(" sanitize_address", ""))
    common = re.search(r"^attributes #0 = \{(.*)\}", text, re.M)[1].replace("noinline", "").replace("optnone", "")
    number = {kind: f"#99{at}" for at, kind in enumerate(KINDS)}

    def with_hint(found):
        kind = hint_for(found[2], hints)
        return found[0] if kind is None else f"{found[1]}{found[2]}{found[3]}{number[kind]} {{"

    text = re.sub(r'^(define [^\n]*@")([^"]*)("\([^\n]*\) )#0 \{', with_hint, text, flags=re.M)
    return text + "".join(f"\nattributes {number[kind]} = {{ {word} {common} }}" for kind, word in KINDS.items()) + "\n"


def main():
    if len(sys.argv) not in (2, 3):
        sys.exit(__doc__)
    out, checkout = os.path.abspath(sys.argv[1]), os.path.abspath(sys.argv[2] if len(sys.argv) == 3 else HERE)
    with tempfile.TemporaryDirectory() as room:
        os.mkdir(f"{room}/kit")
        kept = f"{room}/kept.bc"
        rt, clang, libraries = kit_that_keeps(f"{room}/kit", kept)
        said = subprocess.run([rt, "try", "--", "help"], cwd=f"{checkout}/crates/callout_cli", stdout=subprocess.PIPE, stderr=subprocess.STDOUT, text=True)
        if not os.path.exists(kept):
            sys.exit(f"rt try compiled nothing:\n{said.stdout[-2000:]}")
        text, compiled = f"{room}/kept.ll", f"{room}/kept.o"
        subprocess.run([clang, "-S", "-emit-llvm", kept, "-o", text, "-Xclang", "-disable-llvm-passes"], check=True)
        with open(text) as module:
            better = hinted(module.read(), hints_of(checkout))
        with open(text, "w") as module:
            module.write(better)
        subprocess.run([clang, "-O3", "-march=x86-64-v2", "-c", text, "-o", compiled], check=True)
        subprocess.run(["gcc", "-pie", compiled, f"{libraries}/liblibc_c.a", f"{libraries}/libos_c.a", "-lpthread", "-o", out], check=True)


if __name__ == "__main__":
    main()
