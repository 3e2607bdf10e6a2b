#!/usr/bin/env python3
"""Builds the library of the crate symnet_c, which the package in python/ and other languages call.

    tools/build_library.py              proved: as tools/build_program.py builds the program, with all crates below it
    tools/build_library.py --unproved   in some ten minutes of one processor, without any proof: for trials alone

crates/symnet_c/out/ then has libsymnet.a, to be linked into a program, and libsymnet.so, which is opened by name. With --unproved it has
libsymnet_unproved.so alone, and nothing takes that for the library by itself: a fault that the proof excludes may do anything in it. It wants `rt` on
the path, and `cc` and `ar`.

How --unproved works: `rt try` compiles a program with no proof and with checks before each operation. This compiles the crate in the same way, with a
`main` that calls it, as far as the module that goes to the kit's clang; takes the checks out; and compiles and links the module as a library.
"""

import contextlib
import fcntl
import os
import shutil
import signal
import subprocess
import sys
import tempfile
import time
from pathlib import Path

import build_plan
import build_program
from kit_module import Stop, as_text, fetch_proved, keep_unproved, kit, run, without_checks

TOP = Path(__file__).resolve().parent.parent
CRATE = TOP / "crates/symnet_c"
OUT = CRATE / "out"
CALL = "symnet_call"
# What the module of a program calls it, which is not for others there.
INNER = '@"symnet_c::call::symnet_call"'
# What is reached from `main` is compiled, and nothing else.
MAIN = """
fn main(rt: HostRuntime) {
    let mut output = [0u8; 1];
    let mut message = [0u8; 1];
    let mut sizes = Sizes {
        output: 0,
        message: 0,
    };
    let _ = call::symnet_call(rt.alloc(), b"", b"", &mut output, &mut message, &mut sizes);
}
"""


def say(text):
    print(f"symnet: {text}", file=sys.stderr, flush=True)


# ---- proved


def make(repo, crate, top, began):
    """Makes the libraries from the proved crate of the copy, and puts them into the checkout."""
    rattle = kit()
    below = build_plan.crates((repo / "crates.txt").read_text())[crate]
    fetch_proved(repo, below)
    run(["rt", "lib"], "`rt lib`", cwd=repo / "crates" / crate)
    proved = repo / "crates" / crate / "out" / f"lib{crate}.a"
    whole = proved.with_name("libsymnet.a")
    archive([proved, rattle / "c/liblibc_c.a", rattle / "c/libos_c.a"], whole)
    shared(rattle, [whole], proved.with_name("libsymnet.so"))
    return all(build_program.take(repo, crate, top, began, it) for it in ("libsymnet.a", "libsymnet.so"))


# ---- without a proof


def as_program(work):
    """The root file of the crate as a program, in a copy of its sources."""
    shutil.copytree(CRATE / "src", work / "src")
    root = work / "src/main.rt"
    (work / "src/lib.rt").rename(root)
    root.write_text(root.read_text() + MAIN)
    return root


def for_callers(lines):
    """The lines of a program's module, with the call under its name for others."""
    is_named = False
    for line in lines:
        if INNER in line:
            line = line.replace(INNER, f"@{CALL}").replace("define internal ", "define ")
            is_named = is_named or line.startswith("define ")
        yield line
    if not is_named:
        raise Stop(f"the module has no {INNER}: this kit names functions in another way")


@contextlib.contextmanager
def alone():
    """Waits until no other build without a proof is at work here, and removes what one left that was killed."""
    folder = os.open(OUT, os.O_RDONLY)
    try:
        fcntl.flock(folder, fcntl.LOCK_EX)
        for it in OUT.glob("unproved-*"):
            shutil.rmtree(it, ignore_errors=True)
        yield
    finally:
        os.close(folder)


def unproved():
    """Makes the library of a module that was made without a proof."""
    for it in (signal.SIGINT, signal.SIGTERM, signal.SIGHUP):
        signal.signal(it, build_program.interrupted)
    started, rattle = time.monotonic(), kit()
    with alone(), tempfile.TemporaryDirectory(prefix="unproved-", dir=OUT) as room:
        work = Path(room)
        module, text, ready, code = (work / it for it in ("kept.bc", "module.ll", "ready.ll", "module.o"))
        keep_unproved(rattle, CRATE, as_program(work), work, module)
        say(f"the module is made, after {time.monotonic() - started:.0f} s")
        as_text(rattle, module, text)
        with open(text, errors="surrogateescape") as lines, open(ready, "w", errors="surrogateescape") as out:
            out.writelines(for_callers(without_checks(lines)))
        words = [rattle / "toolchain/bin/clang", "--target=x86_64-unknown-linux-gnu", f"--sysroot={rattle}/toolchain", "--no-default-config", "-march=x86-64"]
        words += ["-ffunction-sections", "-fdata-sections", "-fPIC", "-O1", "-mllvm", "-trap-unreachable"]
        run([*words, "-c", "-x", "ir", ready, "-o", code], "compiling")
        shared(rattle, [code], OUT / "libsymnet_unproved.so")


# ---- linking


def archive(parts, to):
    """Joins archives into one."""
    script = "".join([f"create {to}\n", *(f"addlib {it}\n" for it in parts), "save\nend\n"])
    ran = subprocess.run(["ar", "-M"], input=script, stdout=subprocess.PIPE, stderr=subprocess.STDOUT, text=True, check=False)
    if ran.returncode:
        raise Stop(f"joining archives failed:\n{ran.stdout}")


def shared(rattle, parts, to):
    """Links a shared library that has the call and nothing else to be named."""
    with tempfile.TemporaryDirectory() as room:
        names = Path(room, "names")
        names.write_text(f"{{ global: {CALL}; local: *; }};\n")
        made = to.with_name(f"{to.name}.new")
        words = ["cc", "-shared", "-o", made, f"-Wl,--version-script={names}", "-Wl,--gc-sections", f"-Wl,-u,{CALL}", "-Wl,--no-undefined"]
        run([*words, *parts, rattle / "c/libos_c.a", rattle / "c/liblibc_c.a"], "linking")
        made.replace(to)


def main(words):
    if words not in ([], ["--unproved"]):
        print(__doc__, end="", file=sys.stderr)
        return 2
    OUT.mkdir(exist_ok=True)
    try:
        if words:
            unproved()
            say(f"{OUT}/libsymnet_unproved.so is built, and NOTHING of it is proved")
            return 0
        return 0 if build_program.build_alone("symnet_c", "library", make) else 1
    except Stop as error:
        say(str(error))
        return 1


if __name__ == "__main__":
    sys.exit(main(sys.argv[1:]))
