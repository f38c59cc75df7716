#!/usr/bin/env python3
"""Checks the blocks of the manual against the program and the drawer.

    python3 tools/manual.py PROGRAM [--write]

A block of README.md, docs/LANGUAGE.md, docs/FORMATS.md or examples/README.md stands between fences, and the word behind the first says what it
has to be:

    case NAME      the drawing of NAME.ld, what stands below its PROGRAM, and each line of NAME.trace beside the lines that `/s` shows
    drawing FILE   the drawing of a project
    console        commands behind `$ `, run by a shell beside examples/, docs/ and tools/, each with what it prints
    ladder         a project, or rungs of one, that `/c` accepts
    hex            records of an Intel HEX file, each with its sum
    sh, c, text    what is typed elsewhere, C, and shapes: not checked

`--write` puts cases, drawings and consoles right. Also checked: that links lead to files, that prose has at most 120 columns, and that each element stands
in an example. The last line printed is 'N passed, M failed'.
"""
import pathlib
import re
import subprocess
import sys
import tempfile

import ladder_text

TOP = pathlib.Path(__file__).resolve().parent.parent
PAGES = ["README.md", "docs/LANGUAGE.md", "docs/FORMATS.md", "examples/README.md"]
LINKED = [*PAGES, "docs/CRATES.md", "docs/PROMISES.md"]
HEADER = "LDmicro0.1\nMICRO=Interpretable Byte Code\nPROGRAM\n"
MADE, UNCHECKED = ("case", "drawing", "console"), ("sh", "c", "text")
WIDEST = 120


def is_record(line):
    data = bytes.fromhex(line[1:])
    return line[0] == ":" and len(data) == data[0] + 5 and sum(data) % 256 == 0


class Shell:
    """A folder with the program beside examples/, docs/ and tools/."""

    def __init__(self, program, folder):
        self.folder = pathlib.Path(folder)
        for name in ("examples", "docs", "tools"):
            (self.folder / name).symlink_to(TOP / name)
        (self.folder / "ldmicro").symlink_to(program)

    def run(self, command):
        done = subprocess.run(
            ["sh", "-c", command], cwd=self.folder, stdout=subprocess.PIPE, stderr=subprocess.STDOUT, text=True, timeout=60, check=False
        )
        return done.stdout.splitlines()

    def drawing(self, source):
        return [line for line in self.run(f"python3 tools/draw.py {source}") if line.strip(" |")]

    def case(self, name):
        """A drawing, its text, and a trace beside what it shows."""
        text = (TOP / f"{name}.ld").read_text().splitlines()
        rungs = text[text.index("PROGRAM") + 1 :]
        shown = self.run(f"./ldmicro /s {name}.ld {name}.trace")
        given = []
        for line in (TOP / f"{name}.trace").read_text().splitlines():
            if not line or line.startswith(("#", "eeprom")):
                shown.insert(len(given), "")
            times = re.match("([0-9]+):", line)
            given += [line] + [""] * (int(times[1]) - 1 if times else 0)
        if len(given) != len(shown):
            raise ValueError(f"{name}: {len(given)} lines of the trace, and shown are: {shown}")
        width = max(len(left) for left, right in zip(given, shown) if right) + 4
        rows = [f"{left:{width}}{right}".rstrip() for left, right in zip(given, shown)]
        return [*self.drawing(f"{name}.ld"), "", *rungs, "", *rows]

    def console(self, lines):
        wanted = []
        for line in lines:
            if line.startswith("$ "):
                wanted += [line, *self.run(line[2:])]
        return wanted

    def is_accepted(self, lines):
        text = "\n".join(lines) + "\n"
        (self.folder / "block.ld").write_text(text if lines[0].startswith("LDmicro") else HEADER + text)
        return not any(line.startswith("refused") for line in self.run("./ldmicro /c block.ld block.out"))

    def wanted(self, kind, of, lines):
        """What a block has to be."""
        if kind == "case":
            return self.case(of)
        if kind == "drawing":
            return self.drawing(of)
        if kind == "console":
            return self.console(lines)
        if kind == "ladder":
            return lines if self.is_accepted(lines) else ["a ladder that is accepted"]
        if kind == "hex":
            return lines if all(map(is_record, lines)) else ["records whose bytes are as many as they say, with the sum 0"]
        return lines if kind in UNCHECKED else ["a block of one of the kinds"]


def pieces(text):
    """The lines of a page in order: prose as a line, and a block as its first line, what stands in it, and its last."""
    lines = iter(text.splitlines())
    for line in lines:
        if not line.startswith("```"):
            yield line, None
            continue
        inside = []
        for inner in lines:
            if inner == "```":
                break
            inside.append(inner)
        yield line, inside


def check_prose(page, line):
    if line.startswith("    "):
        return [f"{page}: a block without fences: {line.strip()}"]
    wide = len(line) > WIDEST and not line.startswith("|")
    return [f"{page}: over {WIDEST} columns: {line[:60]}.."] if wide else []


def check_page(shell, page, write):
    """What is wrong with a page, how many checked blocks are right, and the page put right."""
    faults, put, agree = [], [], 0
    for first, inside in pieces((TOP / page).read_text()):
        if inside is None:
            faults += check_prose(page, first)
            put.append(first)
            continue
        kind, _, of = first[3:].partition(" ")
        wanted = shell.wanted(kind, of, inside)
        made = wanted if write and kind in MADE else inside
        if wanted != made:
            faults.append(f"{page}: `{first[3:]}` is not\n" + "\n".join(wanted))
        agree += wanted == made and kind not in UNCHECKED
        put += [first, *made, "```"]
    return faults, agree, "\n".join(put) + "\n"


def anchors(path):
    """The names of a page's headings, as links have them."""
    headings = re.findall("(?m)^#+ (.*)$", path.read_text())
    return {re.sub("[^a-z0-9_ -]", "", heading.lower()).replace(" ", "-") for heading in headings}


def check_links(page):
    """The links of a page that lead nowhere."""
    here, faults = TOP / page, []
    for link, anchor in re.findall(r"\]\(([^)#:]*)(?:#([^)]*))?\)", here.read_text()):
        target = here.parent / link if link else here
        if not target.exists() or (anchor and anchor not in anchors(target)):
            faults.append(f"{page}: no {link}{'#' if anchor else ''}{anchor}")
    return faults


def check_examples():
    """The elements that stand in no example."""
    words = set()
    for source in sorted((TOP / "examples").glob("*.ld")):
        words |= {element.word for element in ladder_text.read(source.read_bytes()).elements()}
    missing = {*ladder_text.SHAPES, "LOOK_UP_TABLE", "COMMENT"} - {"PLACEHOLDER"} - words
    return [f"examples: none has {word}" for word in sorted(missing)]


def main():
    if len(sys.argv) < 2:
        print(__doc__, file=sys.stderr)
        return 2
    program, write = pathlib.Path(sys.argv[1]).resolve(), "--write" in sys.argv[2:]
    passed, faults = 0, check_examples()
    for page in LINKED:
        faults += check_links(page)
    for page in PAGES:
        with tempfile.TemporaryDirectory() as folder:
            wrong, agree, text = check_page(Shell(program, folder), page, write)
        faults += wrong
        passed += agree
        if write:
            (TOP / page).write_text(text)
        print(f"{page}: {agree} blocks agree" + (f", {len(wrong)} faults" if wrong else ""))
    print("\n".join(faults + [f"{passed} passed, {len(faults)} failed"]))
    return 1 if faults else 0


if __name__ == "__main__":
    sys.exit(main())
