#!/usr/bin/env python3
"""Turns the lines of `/s` or `/r` into waves: a VCD file, as gtkwave and other viewers open it.

    ./ldmicro /s PROJECT TRACE | python3 tools/wave.py PROJECT - >waves.vcd
    python3 tools/wave.py PROJECT LINES >waves.vcd

The project gives the names and the time of a cycle; cycle k is drawn from k - 1 to k cycles. Of lines that are not those of the
project it says the first, and ends with 1. Outputs and relays are wires, variables signed numbers of 16 bits; the duty, the
sent byte (z where none was sent) and the EEPROM's bytes stand in a scope of their own, since a variable may have their names.
"""
import re
import sys

import ladder_text
from ladder_text import Fault


def code_of(number):
    """The short name of a signal: printing characters, shortest first."""
    code = ""
    while True:
        number, digit = divmod(number, 94)
        code += chr(33 + digit)
        if number == 0:
            return code
        number -= 1


def vector(value, bits):
    return "b" + (format(int(value) % (1 << bits), "b") if value is not None else "z") + " "


def words_of(names):
    """The keys of a line's words, with the least and greatest number of each; those of devices are told by a `*`."""
    keys = [(name, 0, 1) for name in names.outputs + names.relays] + [(name, -32768, 32767) for name in names.variables]
    return keys + ([("*pwm", 0, 100)] if names.has_pwm else [])


def read_line(at, line, keys, bytes_kept):
    """What a line shows: a number or None for each key, the sent byte, and the EEPROM's bytes."""
    first, *words = line.split(" ")
    if first != str(at):
        raise Fault(at, f"no line of cycle {at}: `{line[:60]}`")
    shown = []
    for key, least, most in keys:
        name, equals, number = words.pop(0).partition("=") if words else ("", "", "")
        if name != key.lstrip("*") or not equals or not re.fullmatch("-?[0-9]{1,5}", number) or not least <= int(number) <= most:
            raise Fault(at, f"no number of {key.lstrip('*')} where it is wanted")
        shown.append(int(number))
    sent = re.fullmatch("sent=([0-9]{1,3})", words[0]) if words else None
    if sent and int(sent[1]) < 256:
        words.pop(0)
    eeprom = re.fullmatch(f"ee=([0-9a-f]{{{2 * bytes_kept}}})", words[0]) if words and bytes_kept else None
    if words[1 if eeprom else 0:] or (bytes_kept and not eeprom):
        raise Fault(at, f"`{' '.join(words)[:60]}` is not wanted there")
    return [*shown, int(sent[1]) if sent else None, *(bytes.fromhex(eeprom[1]) if eeprom else b"")]


def signals(keys, bytes_kept):
    """The scope, the kind, the bits and the name of each signal."""
    for key, least, most in keys:
        if key == "*pwm":
            yield "devices", "integer", 7, "pwm"
        else:
            yield ("ladder", "wire", 1, key) if most == 1 else ("ladder", "integer", 16, key)
    yield "devices", "integer", 8, "sent"
    for byte in range(bytes_kept):
        yield "devices", "integer", 8, f"ee_{byte}"


def header(rows):
    lines, scope = ["$timescale 1 us $end"], None
    for number, (inside, kind, bits, name) in enumerate(rows):
        if inside != scope:
            lines += (["$upscope $end"] if scope else []) + [f"$scope module {inside} $end"]
            scope = inside
        lines.append(f"$var {kind} {bits} {code_of(number)} {name} $end")
    return lines + ["$upscope $end", "$enddefinitions $end"]


def changes(rows, shown, before):
    for number, ((_, _, bits, _), value) in enumerate(zip(rows, shown)):
        if before is None or before[number] != value:
            yield (str(value) if bits == 1 else vector(value, bits)) + code_of(number)


def waves(project, text):
    """The lines of the file."""
    names = ladder_text.Names(project)
    keys, bytes_kept, cycle = words_of(names), 2 * len(names.persistent), project.settings["CYCLE"]
    rows = list(signals(keys, bytes_kept))
    yield from header(rows)
    lines, before = text.splitlines(), None
    for at, line in enumerate(lines, 1):
        shown = read_line(at, line, keys, bytes_kept)
        yield f"#{(at - 1) * cycle}"
        yield from changes(rows, shown, before)
        before = shown
    yield f"#{len(lines) * cycle}"


def main():
    if len(sys.argv) != 3:
        print(__doc__, file=sys.stderr)
        return 2
    source, shown = sys.argv[1:]
    name = source
    try:
        with open(source, "rb") as file:
            project = ladder_text.read(file.read())
        name = shown
        with open(0 if shown == "-" else shown, encoding="ascii", errors="replace") as file:
            lines = list(waves(project, file.read()))
    except (OSError, Fault) as fault:
        print(f"wave.py: {name}: {fault}", file=sys.stderr)
        return 1
    print("\n".join(lines))
    return 0


if __name__ == "__main__":
    sys.exit(main())
