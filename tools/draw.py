#!/usr/bin/env python3
"""Draws a project as text: the rails, the contacts and coils of each rung, its branches and its boxes.

    python3 tools/draw.py PROJECT

It reads each text that `/c` reads. Of another it says the first line that it does not read, and ends with 1. Comments stand above
their rung.
"""
import sys

import ladder_text
from ladder_text import Form

MATH = {"ADD": "+", "SUB": "-", "MUL": "*", "DIV": "/"}
COMPARISONS = {"EQU": "=", "NEQ": "<>", "GRT": ">", "GEQ": ">=", "LES": "<", "LEQ": "<="}
COILS = {("0", "0", "0"): "", ("1", "0", "0"): "/", ("0", "1", "0"): "S", ("0", "0", "1"): "R"}
SHOWN_VALUES, WIDEST = 6, 100


def delay(microseconds):
    return f"{int(microseconds) / 1000:g} ms" if int(microseconds) % 10 == 0 else f"{int(microseconds)} us"


def box(element):
    """What an element is drawn as."""
    word, words = element.word, element.words
    if word == "CONTACTS":
        return f"]{'/' if words[1] == '1' else ''} {words[0]} ["
    if word == "COIL":
        return f"({COILS[tuple(words[1:])]} {words[0]} )"
    if word in COMPARISONS:
        return f"[{words[0]} {COMPARISONS[word]} {words[1]}]"
    if word in MATH:
        return f"{{{words[0]} := {words[1]} {MATH[word]} {words[2]}}}"
    if word == "MOVE":
        return f"{{{words[0]} := {words[1]}}}"
    if word in ("TON", "TOF", "RTO"):
        return f"[{word} {words[0]} {delay(words[1])}]"
    if word in ("CTU", "CTD"):
        return f"[{word} {words[0]} >= {words[1]}]"
    if word == "CTC":
        return f"{{CTC {words[0]} 0..{words[1]}}}"
    if word == "SHIFT_REGISTER":
        return f"{{SHIFT {words[0]}0..{int(words[1]) - 1}}}"
    if word == "LOOK_UP_TABLE":
        shown = words[4 : 4 + SHOWN_VALUES] + ([".."] if len(words) > 4 + SHOWN_VALUES else [])
        return f"{{{words[0]} := ({' '.join(shown)})[{words[1]}]}}"
    if word == "SET_PWM":
        return f"[SET_PWM {words[0]} {words[1]} Hz]"
    if word in ("SHORT", "OPEN"):
        return "------" if word == "SHORT" else "+    +"
    marks = "{}" if word in ladder_text.AT_THE_RIGHT else "[]"
    return marks[0] + " ".join([word, *words]) + marks[1]


def beside(blocks):
    """Blocks from left to right, joined by a wire along their first lines."""
    height = max(map(len, blocks))
    rows = []
    for row in range(height):
        joint, fill = ("--", "-") if row == 0 else ("  ", " ")
        rows.append(joint.join(block[row] if row < len(block) else fill * len(block[0]) for block in blocks))
    return rows


def ends_right(node):
    """Whether an element that belongs at the right end stands there."""
    if isinstance(node, Form):
        tails = node.nodes if node.word == "PARALLEL" else node.nodes[-1:]
        return any(map(ends_right, tails))
    return node.word in ladder_text.AT_THE_RIGHT


class Wire:
    """Nodes from left to right, drawn but not yet joined."""

    def __init__(self, nodes):
        self.blocks = [drawn for drawn in map(draw, nodes) if drawn]
        self.width = sum(len(block[0]) for block in self.blocks) + 2 * max(0, len(self.blocks) - 1)
        self.ends_right = bool(nodes) and ends_right(nodes[-1])

    def joined(self, width):
        """The lines at a width. What is missing is wire, in front of the last node where that belongs at the right end."""
        if not self.blocks:
            return ["-" * width] if width else []
        missing, last = width - self.width, []
        for at, row in enumerate(self.blocks[-1]):
            wire = ("-" if at == 0 else " ") * missing
            last.append(wire + row if self.ends_right else row + wire)
        return beside([*self.blocks[:-1], last])


def parallel(nodes):
    """Branches from top to bottom between two posts. Where there is none the wire is broken."""
    if not nodes:
        return ["+    +"]
    wires = [Wire(node.nodes if isinstance(node, Form) and node.word == "SERIES" else [node]) for node in nodes]
    width = max(2, *(wire.width for wire in wires))
    rows = []
    for wire in wires:
        first, *below = wire.joined(width)
        post = " " if wire is wires[-1] else "|"
        rows += [f"+--{first}--+"] + [f"{post}  {row}  {post}" for row in below]
    return rows


def draw(node):
    """The lines of a node, all of one length, with its wire along the first. A node that is a wire alone has none."""
    if not isinstance(node, Form):
        return [] if node.word == "COMMENT" else [box(node)]
    if node.word == "PARALLEL":
        return parallel(node.nodes)
    wire = Wire(node.nodes)
    return wire.joined(wire.width)


def comments(node):
    if isinstance(node, Form):
        return [text for inner in node.nodes for text in comments(inner)]
    return ["".join(c if c.isprintable() else "?" for c in node.words[0])] if node.word == "COMMENT" else []


def ladder(project):
    """The lines of a whole drawing."""
    wires = [Wire(rung.nodes) for rung in project.rungs]
    width = max([8, *(min(WIDEST, wire.width) for wire in wires)])
    blank, lines = f"    ||{' ' * (width + 4)}||", []
    for number, (rung, wire) in enumerate(zip(project.rungs, wires), 1):
        lines += [blank] + [f"    || ; {text}" for text in comments(rung)]
        for row, text in enumerate(wire.joined(max(width, wire.width))):
            lead = "--" if row == 0 else "  "
            lines.append(f"{number if row == 0 else '':>3} ||{lead}{text}{lead}||")
    return lines + [blank]


def main():
    if len(sys.argv) != 2:
        print(__doc__, file=sys.stderr)
        return 2
    try:
        with open(sys.argv[1], "rb") as file:
            project = ladder_text.read(file.read())
    except (OSError, ladder_text.Fault) as fault:
        print(f"draw.py: {sys.argv[1]}: {fault}", file=sys.stderr)
        return 1
    print("\n".join(line.rstrip() for line in ladder(project)))
    return 0


if __name__ == "__main__":
    sys.exit(main())
