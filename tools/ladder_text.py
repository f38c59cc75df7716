"""Reads a project text as docs/LANGUAGE.md tells it: the settings, the rungs, and the names in the order in which a line of `/s` has them.

It accepts each text that `/c` reads, and stops at the first line with a fault. Rules of the ladder, such as which element stands
at the right end, are the compiler's.
"""
import re

NAME = re.compile(r"[A-Za-z_][A-Za-z0-9_]{0,63}")
NUMBER = re.compile(r"-?[0-9]+")
SETTINGS = ("CYCLE", "CRYSTAL", "BAUD")
TARGETS = {"PIC16F628", "PIC16F877", "ATmega16", "Interpretable", "ANSI"}
WIDEST, LONGEST, DEEPEST, MOST, MOST_RUNGS = 512, 8_388_608, 16, 4000, 500
INT16, UINT30, DELAY = (-32768, 32767), (0, 999_999_999), (0, 2_147_483_647)

# What stands behind an element's word: n a name, o an operand, f a flag, and a range where a number stands.
SHAPES = {
    "CONTACTS": "nf", "COIL": "nfff", "OSR": "", "OSF": "", "SHORT": "", "OPEN": "", "MASTER_RELAY": "", "PLACEHOLDER": "",
    "TON": ("n", DELAY), "TOF": ("n", DELAY), "RTO": ("n", DELAY), "CTU": ("n", INT16), "CTD": ("n", INT16), "CTC": ("n", INT16),
    "RES": "n", "MOVE": "no", "ADD": "noo", "SUB": "noo", "MUL": "noo", "DIV": "noo",
    "EQU": "oo", "NEQ": "oo", "GRT": "oo", "GEQ": "oo", "LES": "oo", "LEQ": "oo", "SHIFT_REGISTER": ("n", (1, 60)),
    "READ_ADC": "n", "SET_PWM": ("n", UINT30), "UART_RECV": "n", "UART_SEND": "n", "PERSIST": "n",
}
AT_THE_RIGHT = {"COIL", "CTC", "RES", "MOVE", "ADD", "SUB", "MUL", "DIV", "SHIFT_REGISTER", "LOOK_UP_TABLE", "PERSIST", "MASTER_RELAY"}


class Fault(Exception):
    """A line that cannot be read, and why."""

    def __init__(self, line, why):
        super().__init__(f"line {line}: {why}")


class Element:
    """An element: its word and the words behind it. Of a COMMENT that is its text."""

    def __init__(self, line, word, words):
        self.line, self.word, self.words = line, word, words


class Form:
    """A RUNG, a SERIES or a PARALLEL, and what stands in it."""

    def __init__(self, line, word):
        self.line, self.word, self.nodes = line, word, []


class Project:
    """The settings, and the rungs from top to bottom."""

    def __init__(self):
        self.settings, self.micro, self.rungs, self.pins = {"CYCLE": 10000, "CRYSTAL": 4000000, "BAUD": 2400}, None, [], 0

    def elements(self):
        """The elements in the order of the text."""
        waiting = self.rungs[::-1]
        while waiting:
            node = waiting.pop()
            if isinstance(node, Form):
                waiting += node.nodes[::-1]
            else:
                yield node


def check_number(at, word, least, most):
    if not NUMBER.fullmatch(word):
        raise Fault(at, f"`{word}` is no number")
    if not least <= int(word) <= most:
        raise Fault(at, f"{word} is not from {least} to {most}")


def is_operand(word):
    return bool(NAME.fullmatch(word) or NUMBER.fullmatch(word) or re.fullmatch(r"'[!-~]'", word))


def check_word(at, shape, word):
    if shape == "f":
        fine = word in ("0", "1")
    elif shape == "n":
        fine = NAME.fullmatch(word)
    elif shape == "o":
        fine = is_operand(word)
    else:
        return check_number(at, word, *shape)
    if not fine:
        raise Fault(at, f"`{word}` cannot stand there")
    if shape == "o" and NUMBER.fullmatch(word):
        check_number(at, word, *INT16)


def check_table(at, words):
    if len(words) < 4:
        raise Fault(at, "words are missing")
    for shape, word in zip(["n", "o", (0, 60), "f"] + [INT16] * len(words), words):
        check_word(at, shape, word)
    if len(words) - 4 != int(words[2]):
        raise Fault(at, f"{words[2]} values are told, and {len(words) - 4} stand there")


def check_element(at, word, words):
    """Faults where a line is not the shape of an element."""
    if word == "LOOK_UP_TABLE":
        return check_table(at, words)
    if word in ("FORMATTED_STRING", "PIECEWISE_LINEAR"):
        raise Fault(at, f"{word} is not built")
    if word not in SHAPES:
        raise Fault(at, f"`{word}` cannot stand there")
    if len(words) != len(SHAPES[word]):
        raise Fault(at, f"{word} has {len(SHAPES[word])} words behind it, and here are {len(words)}")
    for shape, given in zip(SHAPES[word], words):
        check_word(at, shape, given)
    if word == "COIL" and words[1:].count("1") > 1:
        raise Fault(at, "a coil has one flag at most")
    return None


class Reader:
    """Takes a text line by line."""

    def __init__(self):
        self.project, self.open, self.section, self.elements, self.forms = Project(), [], "header", 0, 0

    def count(self, at, what, most):
        if what > most:
            raise Fault(at, "there are too many")

    def header(self, at, text, words):
        key, equals, value = text.partition("=")
        if equals and key == "MICRO":
            if not TARGETS & set(value.split(" ")):
                raise Fault(at, "no target is named")
            self.project.micro = value.strip()
        elif equals and key in SETTINGS:
            check_number(at, value, *UINT30)
            self.project.settings[key] = int(value)
        elif words == ["IO", "LIST"]:
            self.section = "pins"
        elif words == ["PROGRAM"]:
            if self.project.micro is None:
                raise Fault(at, "no MICRO line came")
            self.section = "rungs"
        elif not text.startswith("COMPILED="):
            raise Fault(at, f"`{text[:40]}` cannot stand above PROGRAM")

    def pins(self, at, text, words):
        if words == ["END"]:
            self.section = "header"
            return
        if len(words) != 3 or words[1] != "at" or not NAME.fullmatch(words[0]):
            raise Fault(at, f"`{text[:40]}` is no pin line")
        check_number(at, words[2], 0, 255)
        self.project.pins += 1
        self.count(at, self.project.pins, MOST)

    def opened(self, at, word):
        if (word == "RUNG") != (not self.open):
            raise Fault(at, f"{word} cannot stand there")
        if len(self.open) > DEEPEST:
            raise Fault(at, f"{DEEPEST} forms are open already")
        if word == "RUNG":
            self.count(at, len(self.project.rungs) + 1, MOST_RUNGS)
        else:
            self.forms += 1
            self.count(at, self.forms, MOST)
        form = Form(at, word)
        (self.open[-1].nodes if self.open else self.project.rungs).append(form)
        self.open.append(form)

    def rungs(self, at, text, words):
        if words in (["RUNG"], ["SERIES"], ["PARALLEL"]):
            return self.opened(at, words[0])
        if not self.open:
            raise Fault(at, f"`{text[:40]}` stands outside a rung")
        if words == ["END"]:
            self.open.pop()
            return None
        if words[0] == "COMMENT":
            element = Element(at, "COMMENT", [text[8:]])
        else:
            check_element(at, words[0], words[1:])
            element = Element(at, words[0], words[1:])
        self.elements += 1
        self.count(at, self.elements, MOST)
        return self.open[-1].nodes.append(element)

    def line(self, at, raw):
        """Takes a line, without its line feed."""
        if len(raw) > WIDEST:
            raise Fault(at, f"the line has over {WIDEST} bytes")
        text = raw.decode("utf-8", "replace").rstrip("\r").lstrip(" \t")
        words = [word for word in re.split("[ \t]+", text) if word]
        if at == 1:
            if words != ["LDmicro0.1"]:
                raise Fault(at, "the line is not LDmicro0.1")
        elif words:
            comment = self.section == "rungs" and words[0] == "COMMENT"
            getattr(self, self.section)(at, text if comment else text.rstrip(" \t"), words)

    def end(self, at):
        if self.open or self.section != "rungs":
            raise Fault(at, "the text ends in a form that is open" if self.open else "the text ends without PROGRAM")
        return self.project


def read(text):
    """The project that the bytes of a text say."""
    lines = text.split(b"\n")
    if lines[-1] == b"" and len(lines) > 1:
        lines.pop()
    reader, taken = Reader(), 0
    for at, raw in enumerate(lines, 1):
        reader.line(at, raw)
        taken += len(raw) + 1
        if taken > LONGEST and (taken > LONGEST + 1 or at < len(lines) or text.endswith(b"\n")):
            raise Fault(at, "the text is too long")
    return reader.end(len(lines) + 1)


class Names:
    """The names that a line of `/s` shows, each list in the order in which the ladder first uses them."""

    def __init__(self, project):
        outputs, relays, variables, persistent = {}, {}, {}, {}
        self.has_pwm = False
        for element in project.elements():
            word, words = element.word, element.words
            if word in ("CONTACTS", "COIL"):
                {"Y": outputs, "R": relays}.get(words[0][0], {})[words[0]] = True
            elif word == "SHIFT_REGISTER":
                variables.update({f"{words[0]}{place}": True for place in range(int(words[1]))})
            elif word != "COMMENT":
                operands = words[:2] if word == "LOOK_UP_TABLE" else words
                variables.update({name: True for name in operands if NAME.fullmatch(name)})
            if word == "PERSIST":
                persistent[words[0]] = True
            self.has_pwm |= word == "SET_PWM"
        self.outputs, self.relays, self.variables, self.persistent = map(list, (outputs, relays, variables, persistent))
