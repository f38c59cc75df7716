#!/usr/bin/env python3
"""Runs each example that has no device on simavr, from the HEX file that `/c` writes for the ATmega16, and compares the levels at the outputs' pins.

    python3 tools/simavr_runs.py PROGRAM

The levels of NAME.trace are put at the inputs' pins cycle by cycle, and those of NAME.shown have to stand at the outputs' before the next cycle. Where
simavr or a C compiler is not installed, a line says so and nothing is compared. The last line printed is 'N passed, M failed'.
"""
import pathlib
import subprocess
import sys
import tempfile

HERE = pathlib.Path(__file__).resolve().parent
sys.path.insert(0, str(HERE.parent / "examples"))
from check import for_avr, printed, steps_of  # noqa: E402


def bit_of(pin):
    """The port and the bit at a pin of the ATmega16 in its 40-pin case."""
    if pin <= 8:
        return "B", pin - 1
    if pin <= 21:
        return "D", pin - 14
    return ("C", pin - 22) if pin <= 29 else ("A", 40 - pin)


def runner(folder):
    """The program that runs HEX files on simavr, or None where it cannot be built."""
    path = pathlib.Path(folder, "simavr_pins")
    words = ["cc", "-O2", "-o", path, HERE / "simavr_pins.c", "-lsimavr"]
    try:
        done = subprocess.run(words, capture_output=True)
    except OSError:
        return None
    return path if done.returncode == 0 else None


def settings_of(text):
    return {key: int(value) for key, value in (line.split("=") for line in text.splitlines() if line[:6] in ("CYCLE=", "CRYSTA"))}


def check(program, run, source, folder):
    """What is wrong with an example on simavr, or None; a text is None where a device is used."""
    text = for_avr(source.read_text())
    if text is None:
        return "not compared: a device is not built yet"
    project, dest = pathlib.Path(folder, "avr.ld"), pathlib.Path(folder, "avr.hex")
    project.write_text(text)
    report = printed(program, "/c", project, dest)
    if not report.startswith("target ATmega16\n"):
        return f"/c prints {report}"
    pins = {words[0]: int(words[2]) for words in (line.split() for line in text.splitlines()) if words[1:2] == ["at"]}
    inputs = [name for name in pins if name[0] == "X"]
    settings = settings_of(text)
    _, readings = steps_of(source.with_suffix(".trace").read_text(), inputs)
    given = "".join(" ".join(f"{bit_of(pins[name])[0]} {bit_of(pins[name])[1]} {reading[name]}" for name in inputs) + "\n" for reading in readings)
    period = settings["CYCLE"] * settings["CRYSTAL"] // 1_000_000
    done = subprocess.run([run, dest, str(settings["CRYSTAL"]), str(period)], input=given, capture_output=True, text=True)
    if done.returncode != 0:
        return f"simavr ended with {done.returncode}"
    shown = source.with_suffix(".shown").read_text().splitlines()
    for line, levels in zip(shown, done.stdout.splitlines(), strict=True):
        ports = dict(zip("ABCD", (int(level, 16) for level in levels.split())))
        for name, value in (part.split("=") for part in line.split()[1:] if part[0] == "Y"):
            port, bit = bit_of(pins[name])
            if ports[port] >> bit & 1 != int(value):
                return f"in cycle {line.split()[0]} simavr has {name} the other way"
    return None


def main():
    program = str(pathlib.Path(sys.argv[1]).resolve())
    sources, failed, passed = sorted((HERE.parent / "examples").glob("*.ld")), 0, 0
    with tempfile.TemporaryDirectory() as folder:
        run = runner(folder)
        if run is None:
            print("simavr is not installed: no HEX file was run on it")
            return 0
        for source in sources:
            fault = check(program, run, source, folder)
            skipped = fault is not None and fault.startswith("not compared")
            failed += fault is not None and not skipped
            passed += fault is None
            print(f"{source.name}: {fault or 'agrees'}")
    print(f"{passed} passed, {failed} failed")
    return 1 if failed else 0


if __name__ == "__main__":
    sys.exit(main())
