#!/usr/bin/env python3
"""Compiles each example, runs what was written over its trace, and compares what it shows.

    python3 examples/check.py PROGRAM

NAME.trace has the readings, and NAME.shown a line a cycle, written by hand. The program's own commands `/s` and `/r` have
to print these lines, and the runner below, an independent reading of docs/FORMATS.md, has to show them. An example
without a device is compiled for the ATmega16 too, and its HEX file has to print the same by `/r`. The last line printed is 'N passed, M failed'.
"""
import pathlib
import subprocess
import sys
import tempfile

KINDS = ["input", "output", "analog", "var", "relay", "persist"]
WRITES = {"set", "clr", "cpy", "not"}


def wrap(n):
    return (n + 32768) % 65536 - 32768


def quotient(a, b):
    return 0 if b == 0 else wrap(abs(a) // abs(b) * (1 if (a < 0) == (b < 0) else -1))


class Program:
    """An interpretable text, and the state that its cycles keep."""

    def __init__(self, text, eeprom):
        lines = text.split("\n")
        assert lines[0] == "LDint 1" and lines[-2:] == ["end", ""], "not an interpretable text"
        self.names, place = {kind: [] for kind in KINDS}, 2
        self.numbers = []
        while lines[place].split(" ")[0] in KINDS:
            kind, name, *start = lines[place].split(" ")
            self.names[kind].append(name)
            self.numbers += map(int, start)
            place += 1
        assert lines[place].startswith("bits ") and lines[place + 1] == "code"
        self.bits = {"b": [0] * int(lines[place][5:]), "y": [0] * len(self.names["output"])}
        self.ops = [line.split(" ") for line in lines[place + 2 : -2]]
        self.eeprom, self.pending, self.duty = bytearray(eeprom), None, 0

    def bit(self, word):
        return self.inputs[int(word[1:])] if word[0] == "x" else self.bits[word[0]][int(word[1:])]

    def set_bit(self, word, level):
        self.bits[word[0]][int(word[1:])] = int(level)

    def number(self, word):
        return self.numbers[int(word[1:])] if word[0] == "v" else int(word)

    def saved(self, a):
        return int.from_bytes(self.eeprom[2 * a : 2 * a + 2], "little", signed=True)

    def holds(self, op, words):
        if op in ("ifs", "ifc"):
            return bool(self.bit(words[0])) == (op == "ifs")
        if op == "ifee":
            return self.number(words[0]) == self.saved(int(words[1]))
        a, b = map(self.number, words)
        return a < b if op == "iflt" else a == b

    def computed(self, op, words):
        values = [self.number(word) for word in words if word[0] in "v-0123456789"]
        results = {
            "lit": lambda n: n,
            "mov": lambda n: n,
            "add": lambda a, b: wrap(a + b),
            "sub": lambda a, b: wrap(a - b),
            "mul": lambda a, b: wrap(a * b),
            "div": quotient,
        }
        if op in results:
            return results[op](*values)
        return {"adc": lambda k: self.analog[k], "eerd": self.saved}[op](values[0])

    def check_eeprom(self):
        if self.writing:
            return True
        if self.pending is None:
            return False
        address, self.eeprom[address] = self.pending[0], self.pending[1]
        self.pending, self.writing = None, True
        return True

    def device(self, op, words):
        if op == "pwm":
            self.duty = max(0, min(100, self.number(words[0])))
        elif op == "rx":
            taken, self.received = self.received, None
            if taken is not None:
                self.numbers[int(words[0][1:])] = taken
            self.set_bit(words[1], taken is not None)
        elif op == "tx":
            if self.bit(words[1]) and not self.sending:
                self.sent, self.sending = self.number(words[0]) % 256, True
            self.set_bit(words[2], self.sending)
        elif op == "eebusy":
            self.set_bit(words[0], self.check_eeprom())
        elif op == "eewr":
            n, a = self.number(words[0]) % 65536, int(words[1])
            self.eeprom[2 * a], self.pending, self.writing = n % 256, (2 * a + 1, n // 256), True
        elif op == "tab":
            values, index = list(map(int, words[3:])), self.number(words[1])
            assert len(values) == int(words[2])
            if 0 <= index < len(values):
                self.numbers[int(words[0][1:])] = values[index]

    def execute(self, op, words):
        if op in WRITES:
            level = {"set": lambda: 1, "clr": lambda: 0}.get(op)
            self.set_bit(words[0], level() if level else bool(self.bit(words[1])) == (op == "cpy"))
        elif op in ("inc", "dec"):
            k = int(words[0][1:])
            self.numbers[k] = wrap(self.numbers[k] + (1 if op == "inc" else -1))
        elif op in ("lit", "mov", "add", "sub", "mul", "div", "adc", "eerd"):
            self.numbers[int(words[0][1:])] = self.computed(op, words[1:])
        else:
            self.device(op, words)

    def cycle(self, reading):
        self.inputs = [reading[name] for name in self.names["input"]]
        self.analog = [reading[name] for name in self.names["analog"]]
        self.received, self.sending, self.writing = reading.get("rx"), "tx" in reading, "ee" in reading
        self.sent, runs = None, []  # of each open if: whether its branch runs
        for op, *words in self.ops:
            if op == "fi":
                runs.pop()
            elif op == "els":
                runs[-1] = not runs[-1]
            elif op.startswith("if"):
                runs.append(all(runs) and self.holds(op, words))
            elif all(runs):
                self.execute(op, words)

    def shown(self, number):
        bits = list(zip(self.names["output"], self.bits["y"])) + list(zip(self.names["relay"], self.bits["b"]))
        parts = [str(number)] + [f"{name}={value}" for name, value in bits + list(zip(self.names["var"], self.numbers))]
        if any(op[0] == "pwm" for op in self.ops):
            parts.append(f"pwm={self.duty}")
        if self.sent is not None:
            parts.append(f"sent={self.sent}")
        if self.names["persist"]:
            parts.append("ee=" + self.eeprom[: 2 * len(self.names["persist"])].hex())
        return " ".join(parts)


def steps_of(trace, names):
    """The EEPROM, and the reading of each cycle."""
    eeprom, readings, kept = bytes([255] * 512), [], {name: 0 for name in names}
    for line in trace.splitlines():
        words = line.split()
        if not line or line[0] == "#":
            continue
        if words and words[0] == "eeprom":
            given = bytes.fromhex(words[1])
            eeprom = given + bytes([255] * (512 - len(given)))
            continue
        times = int(words.pop(0)[:-1]) if words and words[0].endswith(":") else 1
        given = {key: int(value) for key, value in (word.split("=") for word in words)}
        kept.update({name: value for name, value in given.items() if name in kept})
        readings += [kept | {key: given[key] for key in ("rx", "tx", "ee") if key in given}] * times
    return eeprom, readings


def printed(program, *words):
    """What the program prints; an exit status other than 0 stands in front."""
    done = subprocess.run([program, *map(str, words)], capture_output=True, text=True)
    return done.stdout if done.returncode == 0 else f"status {done.returncode}: {done.stdout}"


def check_text(text, trace, wanted):
    """What is wrong with the lines that an interpretable text shows, or None."""
    run = Program(text, bytes(512))
    eeprom, readings = steps_of(trace, run.names["input"] + run.names["analog"])
    run.eeprom = bytearray(eeprom)
    if len(wanted) != len(readings):
        return f"{len(readings)} cycles, and {len(wanted)} lines"
    for number, (reading, line) in enumerate(zip(readings, wanted), 1):
        run.cycle(reading)
        if run.shown(number) != line:
            return f"shows {run.shown(number)}, and not {line}"
    return None


DEVICES = {"READ_ADC", "SET_PWM", "UART_RECV", "UART_SEND", "PERSIST"}
# the pins of the ATmega16's four ports, in order
AVR_PINS = [*range(1, 9), *range(14, 30), *range(33, 41)]


def for_avr(text):
    """The project's text for the ATmega16, each input and output at a pin of its own, or None where a device is used."""
    head, rungs = text.split("\nPROGRAM\n", 1)
    words = [line.split() for line in rungs.splitlines() if line.strip()]
    if any(line[0] in DEVICES for line in words):
        return None
    names = dict.fromkeys(line[1] for line in words if line[0] in ("CONTACTS", "COIL") and line[1][0] in "XY")
    pins = "".join(f"    {name} at {pin}\n" for name, pin in zip(names, AVR_PINS))
    settings = [line for line in head.splitlines()[2:] if line.split("=")[0] in ("CYCLE", "CRYSTAL", "BAUD")]
    head = ["LDmicro0.1", "MICRO=Atmel AVR ATmega16 40-PDIP", *settings, "", "IO LIST"]
    return "\n".join(head) + "\n" + pins + "END\n\nPROGRAM\n" + rungs


def check_avr(program, source, trace, shown):
    """What is wrong with the example on the ATmega16, or None."""
    text = for_avr(source.read_text())
    if text is None:
        return None
    with tempfile.TemporaryDirectory() as folder:
        project, dest = pathlib.Path(folder, "avr.ld"), pathlib.Path(folder, "avr.hex")
        project.write_text(text)
        report = printed(program, "/c", project, dest)
        if not report.startswith("target ATmega16\n"):
            return f"/c for the ATmega16 prints {report}"
        for words in (["/s", project, trace], ["/r", project, dest, trace]):
            lines = printed(program, *words)
            if lines != shown:
                return f"{words[0]} for the ATmega16 prints {lines}"
    return None


def check(program, source):
    """What is wrong with an example, or None."""
    trace, shown = source.with_suffix(".trace"), source.with_suffix(".shown").read_text()
    with tempfile.TemporaryDirectory() as folder:
        dest = pathlib.Path(folder, "out.int")
        report = printed(program, "/c", source, dest)
        if not report.startswith("target Interpretable\n"):
            return report
        for words in (["/s", source, trace], ["/r", source, dest, trace]):
            lines = printed(program, *words)
            if lines != shown:
                return f"{words[0]} prints {lines}"
        text = dest.read_text()
    operations = text[text.index("\ncode\n") :].count("\n") - 3
    if f"operations {operations}\n" not in report:
        return "the report has another number of operations"
    return check_text(text, trace.read_text(), shown.splitlines()) or check_avr(program, source, trace, shown)


def main():
    program = str(pathlib.Path(sys.argv[1]).resolve())
    failed, sources = 0, sorted(pathlib.Path(__file__).parent.glob("*.ld"))
    for source in sources:
        fault = check(program, source)
        failed += fault is not None
        print(f"{source.name}: {fault or 'agrees'}")
    print(f"{len(sources) - failed} passed, {failed} failed")
    return 1 if failed else 0


if __name__ == "__main__":
    sys.exit(main())
