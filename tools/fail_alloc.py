#!/usr/bin/env python3
"""Lets each allocation of a compile, a simulation and a run fail in turn, and checks what is left.

    python3 tools/fail_alloc.py [SOURCE ..]

Each run is one of the built program (./ldmicro builds it), with tools/fail_alloc.c loaded in front of the C library. It
has to end with status 0 and all that it prints with ample memory, or with 5 (want of memory) and a front of it, or
nothing. The destination of a compile then holds what it held, or a front of the right code.
"""
import os
import pathlib
import subprocess
import sys
import tempfile

TOP = pathlib.Path(__file__).resolve().parent.parent
PROGRAM = TOP / "crates/ldmicro/out/ldmicro"


def run(shim, number, words, dest):
    """The status of the words, what the destination holds then, and what was printed."""
    dest.write_bytes(b"old")
    outside = dict(os.environ, LD_PRELOAD=str(shim), FAIL_ALLOC=str(number))
    done = subprocess.run([str(PROGRAM), *map(str, words)], env=outside, capture_output=True)
    return done.returncode, dest.read_bytes(), done.stdout


def check(shim, words, dest):
    name = f"{words[0]} {words[1].name}"
    status, code, text = run(shim, 0, words, dest)
    assert status == 0, f"{name} does not end well with ample memory"
    for number in range(1, 10**6):
        status, held, printed = run(shim, number, words, dest)
        if (status, held, printed) == (0, code, text):
            print(f"{name}: each of {number - 1} allocations failed in turn, and every run ended well")
            return True
        if status != 5 or not (held == b"old" or code.startswith(held)) or not text.startswith(printed):
            print(f"{name}: allocation {number}: status {status}, dest {held!r}, printed {printed!r}")
            return False
    return False


def main():
    sources = [pathlib.Path(word) for word in sys.argv[1:]] or sorted((TOP / "examples").glob("*.ld"))
    fine = True
    with tempfile.TemporaryDirectory() as folder:
        shim, code, dest = (pathlib.Path(folder, name) for name in ("fail_alloc.so", "code.int", "out.int"))
        subprocess.run(["cc", "-shared", "-fPIC", "-o", str(shim), str(TOP / "tools/fail_alloc.c"), "-ldl"], check=True)
        for source in sources:
            trace = source.with_suffix(".trace")
            subprocess.run([str(PROGRAM), "/c", str(source), str(code)], check=True, capture_output=True)
            for words in (["/c", source, dest], ["/s", source, trace], ["/r", source, code, trace]):
                fine = check(shim, words, dest) and fine
    return 0 if fine else 1


if __name__ == "__main__":
    sys.exit(main())
