#!/usr/bin/env python3
"""Runs each example as C, and compares what it shows with `/s`.

    python3 tools/c_runs.py PROGRAM

The C text of each ladder is compiled as C89 with every warning an error, and then, with examples/host/host.c, run over the ladder's
trace. The interpretable text runs over the same trace by examples/host/ldint.c. The lines of both are those of `/s`, and the
sanitizer of undefined behaviour finds nothing. Nothing is tried where there is no `cc`. The last line printed is 'N passed, M failed'.
"""
import pathlib
import re
import shutil
import subprocess
import sys
import tempfile

EXAMPLES = pathlib.Path(__file__).resolve().parent.parent / "examples"
HOST = EXAMPLES / "host"
# A line of a C text may hold a guarded statement and the one behind it, and a text may have variables and functions that no element uses.
ALLOWED = ["-Wno-unused-variable", "-Wno-unused-function", "-Wno-misleading-indentation"]
STRICT = ["-std=c89", "-pedantic", "-Wall", "-Wextra", *ALLOWED, "-Werror"]
CHECKED = ["-std=c99", "-pedantic", "-Wall", "-Wextra", "-Werror", "-O1", "-fsanitize=undefined", "-fno-sanitize-recover=all"]


def run(words, **more):
    return subprocess.run([str(word) for word in words], capture_output=True, text=True, timeout=60, check=True, **more).stdout


def shown(program, trace):
    """What a program prints over a trace."""
    with open(trace, encoding="ascii") as given:
        return run(program, stdin=given)


def run_c_text(ldmicro, source, trace, folder):
    """The lines of the ladder's C text."""
    text = re.sub("(?m)^MICRO=.*", "MICRO=ANSI C Code", source.read_text())
    (folder / "c.ld").write_text(text)
    run([ldmicro, "/c", folder / "c.ld", folder / "ladder.c"])
    run(["cc", *STRICT, "-c", folder / "ladder.c", "-o", folder / "ladder.o"])
    (folder / "ladder.names").write_text(run(["sh", HOST / "names.sh", folder / "ladder.c"]))
    run(["cc", *CHECKED, *ALLOWED, "-I", folder, "-o", folder / "c_run", HOST / "host.c", HOST / "ctext.c"])
    return shown([folder / "c_run"], trace)


def run_interpretable(ldmicro, interpreter, source, trace, folder):
    """The lines of the ladder's interpretable text."""
    run([ldmicro, "/c", source, folder / "ladder.int"])
    return shown([interpreter, folder / "ladder.int"], trace)


def compare(ldmicro, interpreter, source, folder):
    """What is wrong with an example, or None."""
    trace = source.with_suffix(".trace")
    wanted = run([ldmicro, "/s", source, trace])
    if not wanted:
        return "no lines"
    if run_c_text(ldmicro, source, trace, folder) != wanted:
        return "the C text shows other lines"
    if run_interpretable(ldmicro, interpreter, source, trace, folder) != wanted:
        return "the interpretable text shows other lines"
    return None


def main():
    if shutil.which("cc") is None:
        print("no cc: C texts are not tried")
        return 0
    ldmicro = pathlib.Path(sys.argv[1]).resolve()
    sources = sorted([*EXAMPLES.glob("*.ld"), *HOST.glob("*.ld")])
    failed = 0
    with tempfile.TemporaryDirectory() as name:
        folder = pathlib.Path(name)
        interpreter = folder / "interpreter"
        run(["cc", *CHECKED, "-o", interpreter, HOST / "host.c", HOST / "ldint.c"])
        for source in sources:
            try:
                fault = compare(ldmicro, interpreter, source, folder)
            except subprocess.CalledProcessError as error:
                fault = f"{' '.join(map(str, error.cmd[:2]))} failed: {error.stdout}{error.stderr}"
            failed += fault is not None
            print(f"{source.name}: {fault or 'agrees'}")
    print(f"{len(sources) - failed} passed, {failed} failed")
    return 1 if failed else 0


if __name__ == "__main__":
    sys.exit(main())
