"""The program's texts as the tools read and write them: floats by their bits, a form a line, faults as sentences. The other files of tools/ stand on this one."""

import math
import re
import struct


class Fault(Exception):
    """What is wrong with an input, as one sentence."""


def shown(value, most=60):
    """What an input holds, for a sentence: on one line, and cut where it is long."""
    if isinstance(value, (list, dict)):
        return "a list" if isinstance(value, list) else "a table"
    if isinstance(value, int) and value.bit_length() > 64:
        return "a number of more than 64 bits"
    text = repr(value)
    return text if len(text) <= most else text[:most - 2] + ".."


def reason(fault):
    """Why a file cannot be read or written, without its name."""
    return getattr(fault, "strerror", None) or str(fault)


# ---- floats: the 64 bits in hexadecimal, top digit first. The program writes capitals, trailing zeros dropped but one digit kept, and reads 1 to 16 digits in either case

def to_hex(x):
    if math.isnan(x):
        return "7FF8"
    return struct.pack(">d", x).hex().upper().rstrip("0") or "0"


def from_hex(word):
    if not re.fullmatch("[0-9A-Fa-f]{1,16}", word):
        raise Fault(f"{shown(word)} is not a float's bits in 1 to 16 hexadecimal digits.")
    return struct.unpack(">d", bytes.fromhex(word.ljust(16, "0")))[0]


# ---- forms: a line in brackets, its first word a name

# what has one whole number, how many floats other lines have, and the lines of small forms
COUNTED = ("number", "place", "runs", "iterations", "legs")
FLOATS = {"q0": 4, "qf": 4, "inertia": 9, "limit": 3, "slew": 1, "weights": 6, "tolerance": 2, "wheel": 6, "thruster": 4, "cmg": 4, "tile": 4, "duration": 1}
LINES = {"refused": ["number", "place", "runs"], "total": ["legs", "duration", "runs"]}


def form(name, numbers, last=None):
    return "(" + " ".join([name] + [to_hex(x) for x in numbers] + ([last] if last else [])) + ")"


def words(line, at):
    """The words of one line, without blanks and brackets: as many as its name asks for."""
    text = line.strip()
    if not text.startswith("("):
        raise Fault(f"Line {at} does not begin with a bracket.")
    found = text.strip("()").split() or [""]
    if found[0] in COUNTED and (len(found) != 2 or not re.fullmatch("[0-9]{1,20}", found[1])):
        raise Fault(f"Line {at} should have '{found[0]}' and one whole number.")
    if len(found) != 1 + FLOATS.get(found[0], len(found) - 1):
        raise Fault(f"Line {at} should have '{found[0]}' and {FLOATS[found[0]]} floats, and has {len(found) - 1}.")
    return found


def read_forms(text, head):
    """The lines behind the first one, each as its words."""
    lines = text.split("\n")
    if words_of_head(lines[0]) != [head]:
        raise Fault(f"This is no ({head} ..): " + (f"its first line is {shown(lines[0])}." if text.strip() else "it is empty."))
    while lines and not lines[-1].strip():
        lines.pop()
    rows = [words(line, at) for at, line in enumerate(lines[1:], 2)]
    if [row[0] for row in rows] != LINES.get(head, [row[0] for row in rows]):
        raise Fault(f"A ({head} ..) has {', '.join(LINES[head])}, a line each: this one has not.")
    return rows


def words_of_head(line):
    return line.strip().strip("()").split() if line.lstrip().startswith("(") else None


def floats(row):
    return [from_hex(word) for word in row[1:]]


def csv(names, rows):
    return "\n".join([",".join(names)] + [",".join(repr(x) for x in row) for row in rows]) + "\n"
