#!/usr/bin/env python3
"""Damaged problems, answers and texts: slewtext gives each an answer or one sentence, never a traceback.

  python3 tools/test_damaged.py                     2,000 of them, as the gate runs it
  python3 tools/test_damaged.py --count 100000 [--seed N]
"""

import contextlib
import functools
import importlib.machinery
import importlib.util
import io
import itertools
import json
import math
import os
import random
import re
import sys
import tempfile
import traceback
import unittest
import unittest.mock
import xml.etree.ElementTree

TOOL = os.path.join(os.path.dirname(os.path.abspath(__file__)), "slewtext")
sys.dont_write_bytecode = True
loader = importlib.machinery.SourceFileLoader("slewtext", TOOL)
slewtext = importlib.util.module_from_spec(importlib.util.spec_from_loader("slewtext", loader))
loader.exec_module(slewtext)

import slewforms  # noqa: E402
import slewproblem  # noqa: E402

COUNT, SEED = 2000, 1


@functools.lru_cache(None)
def stored(*names):
    with open(os.path.join(slewtext.ROOT, *names), encoding="utf-8") as file:
        return file.read()


@functools.lru_cache(None)
def every(ending):
    return sorted(name for name in os.listdir(os.path.join(slewtext.ROOT, "examples")) if name.endswith(ending))


# ---- what is damaged: each kind of input has its good texts

def good_inputs():
    answers = {name: stored("examples", name) for name in every(".answer")}
    tables = [stored("examples", name) for name in every(".toml")]
    samples, board = stored("crates", "slew_samples", "stdout"), stored("crates", "board_samples", "stdout")
    paths = [text for text in answers.values() if text.startswith("(path")]
    wheels = [slewtext.read_path(text)["nodes"][16][14:] for text in paths]
    return {
        "problem": [text for text in tables if "[[tile]]" not in text],
        "scan": [text for text in tables if "[[tile]]" in text],
        "json": [json.dumps(slewtext.declared_in(text, "it")) for text in tables],
        "tiles": ["\n".join(re.findall(r"\[\[tile\]\][^\[]*(?:\[[^\[]*)?", text)) for text in tables if "[[tile]]" in text],
        "text": [stored("examples", name) for name in every(".slew")],
        "mosaic": [stored("examples", name) for name in every(".mosaic")],
        "path": paths,
        "legs": [text for text in answers.values() if text.startswith("(leg")],
        "refusal": [text for text in answers.values() if text.startswith("(refused")],
        "samples": [samples], "board": [board], "planes": [slewtext.planes_of(samples)],
        "record": [slewtext.record_text(momenta) for momenta in wheels],
        "times": ["0,9003,4120\n8998,0,5230\n4119,5231,0\n"],
        "region": [stored("crates", "slew_region", "stdout")],
    }


# a command's words; a kind of input stands for a file of that kind
CALLS = [
    ["problem", "problem"], ["problem", "json"], ["problem", "problem", "--after", "path"], ["problem", "problem", "--record", "record"], ["mosaic", "scan"],
    ["mosaic", "json"], ["mosaic", "tiles", "problem"], ["mosaic", "scan", "--after", "legs"], ["record", "problem"], ["start", "record", "path"], ["path", "path"], ["controls", "problem", "path"],
    ["controls", "text", "path"], ["controls", "mosaic", "legs"], ["samples", "samples"], ["samples", "samples", "path"], ["board", "board"], ["planes", "samples"], ["unplanes", "planes"],
    ["explain", "path"], ["explain", "refusal"], ["explain", "legs"], ["stops", "text", "path"], ["draw", "text", "path"], ["draw", "problem", "path"], ["draw", "mosaic", "legs"],
    ["report", "text", "path"], ["report", "problem", "refusal"], ["report", "mosaic", "legs"], ["legs", "legs"], ["order", "times"], ["order", "--tiles", "tiles", "problem"], ["region", "region"],
]
PAIRS = {("text", "path"): ".slew", ("problem", "path"): ".toml", ("mosaic", "legs"): ".mosaic"}  # a path beside its own problem
KINDS = {word for call in CALLS for word in call[1:] if not word.startswith("--")}

WORDS = ["", "0", "8", "7FF", "FFF", "7FF8", "7FE", "1", "8000000000000001", "0" * 17, "9" * 5000, "-1", "--1", "()", ")", "none", "\u00b2", "\u0663", "1e5", "3FG", "x\u2028y", "\x85", "\0", "\ud7ff"]
VALUES = ["inf", "-inf", "nan", "1e400", "-0.0", "1e308", "5e-324", "0", "0x" + "F" * 2000, "9" * 400, "true", '"text"', '"\\u0000\\n"', "[]", "{}", "[[1, 2, 3]]", "1979-05-27", "[1, 2, 3, 4]",
          "[0, 0, 0]", "{ axis = [0, 0, 1], degrees = 5 }", "{ quaternion = [0, 0, 0, 0] }", "[" * 2000, "null", "1_0", "[1, 2, 3, 4, 5, 6, 7, 8, 9]"]
JSON_VALUES = [None, True, "text", "\ud800", "a\nb", [], {}, [1, 2, 3], [[1, 2, 3]] * 3, 1e308, 5e-324, -0.0, float("inf"), float("nan"), 10 ** 400, 0, -1, {"axis": [0, 0, 1], "degrees": 1e300}, [0, 0, 0, 0]]


# ---- how it is damaged

def words_changed(draw, text):
    """One word is another one."""
    spans = [m.span() for m in re.finditer(r"[^\s()\[\]{},]+", text)]
    at, end = draw.choice(spans) if spans else (0, 0)
    return text[:at] + draw.choice(WORDS + VALUES) + text[end:]


def lines_changed(draw, text):
    """A line is gone, or stands twice, or elsewhere, or the end is cut off."""
    lines = text.split("\n")
    i, j = draw.randrange(len(lines)), draw.randrange(len(lines))
    how = draw.randrange(4)
    if how == 3:
        return text[:draw.randrange(len(text) + 1)]
    line = lines[i] if how == 1 else lines.pop(i)
    return "\n".join(lines if how == 0 else lines[:j] + [line] + lines[j:])


def letters_changed(draw, text):
    """Some letters are others."""
    letters = list(text)
    for _ in range(draw.choice((1, 1, 2, 5))):
        at = draw.randrange(len(letters) + 1)
        letters[at:at + draw.randrange(2)] = draw.choice(("", "(", ")", "\n", " ", '"', "[", "}", "=", ",", "-", ".", "9", "F", "\x00", "\x1b", "\u00e9", "\r"))
    return "".join(letters)


def table_changed(draw, text):
    """One value of a JSON text is another one, or has another key."""
    root = json.loads(text)
    places = []

    def walk(value):
        for key in value if isinstance(value, dict) else range(len(value)):
            places.append((value, key))
            if isinstance(value[key], (dict, list)):
                walk(value[key])
    walk(root)
    held, key = draw.choice(places)
    held[key] = draw.choice(JSON_VALUES)
    if isinstance(held, dict) and draw.random() < 0.2:
        held[draw.choice(("degrees", "axis", "name", "a\nb", "wheel", "normalise", "quaternion", "pyramid"))] = held.pop(key)
    return json.dumps(root)


def damaged(draw, kind, text):
    if isinstance(text, bytes):
        return bytes(draw.choice(text) if draw.random() < 0.001 else b for b in text)[:draw.choice((None, len(text), draw.randrange(len(text))))]
    if draw.random() < 0.02:
        return draw.choice((text.encode("utf-16"), b"\xff\xfe\x00", b"", text.replace("\n", "\r\n").encode(), b"\xef\xbb\xbf" + text.encode(), draw.randbytes(40)))
    how = [table_changed] if kind == "json" and draw.random() < 0.8 else [words_changed, words_changed, lines_changed, letters_changed]
    for _ in range(draw.choice((1, 1, 1, 2, 3))):
        text = draw.choice(how if kind != "json" else how[:1])(draw, text)
    return text.encode("utf-8", "surrogatepass")


# ---- what comes of it

def chosen(draw, good, call):
    """Good inputs for a call, by kind; a path mostly beside its own problem."""
    ending = PAIRS.get(tuple(call[1:]))
    if ending and draw.random() < 0.9:
        names = [name for name in every(".answer") if stored("examples", name).startswith("(leg" if ending == ".mosaic" else "(path") and name.removesuffix(".answer") + ending in every(ending)]
        name = draw.choice(names)
        return {call[1]: stored("examples", name.removesuffix(".answer") + ending), call[2]: stored("examples", name)}
    return {word: draw.choice(good[word]) for word in call[1:] if word in KINDS}


def outcome(words):
    """Exit status, standard output, standard error; or the traceback."""
    out, err = io.TextIOWrapper(io.BytesIO()), io.StringIO()
    with contextlib.redirect_stdout(out), contextlib.redirect_stderr(err):
        try:
            status = slewtext.main(words)
        except BaseException:
            return None, b"", traceback.format_exc()
    return status, out.buffer.getvalue(), err.getvalue()


def wrong(call, status, out, err):
    """What is wrong with an outcome; None where nothing is."""
    if status is None:
        return err
    if status == 1:
        one = err.startswith("slewtext: ") and err.endswith(".\n") and len(err) < 600 and (err.count("\n") == 1 or "slews have no time" in err) and err[:-1].isprintable()
        return None if one and not out else f"no single sentence: {err!r}, output {out[:80]!r}"
    if status != 0 or not out:
        return f"exit status {status}, output {out[:80]!r}"
    if call[0] in ("draw", "region"):
        text = " ".join(value for element in xml.etree.ElementTree.fromstring(out) for value in element.attrib.values())
        return "a drawing with a number that is not finite" if re.search(r"\b(nan|inf)\b", text) else None
    if call[0] == "report":
        return None if all(out.count(b"<" + tag + b">") == out.count(b"</" + tag + b">") for tag in (b"table", b"tr", b"h2", b"main")) else "a page whose tags are not closed"
    return None


def planned(program, text):
    """In place of the programs that `order` runs."""
    if program == "slew":
        slewtext.read_problem(text)
        return stored("examples", "three-wheels.answer")
    order = " ".join(str(i) for i in range(text.count("(from")))
    return f"(ordered\n (order {order})\n (cost 9500)\n (placed 4)\n (used-up no)\n (floor 9500))\n"


def faults(count, seed, most):
    """The first calls whose outcome is wrong, up to `most`: the number, the words, what is wrong, the damaged input; and how many calls were answered."""
    good, found, answered = good_inputs(), [], 0
    with tempfile.TemporaryDirectory() as folder, unittest.mock.patch.object(slewtext, "printed", planned):
        for n in itertools.takewhile(lambda n: len(found) < most, range(count)):
            draw = random.Random(f"{seed} {n}")
            call = draw.choice(CALLS)
            inputs = chosen(draw, good, call)
            hit = draw.choice(sorted(inputs))
            for kind, text in inputs.items():
                with open(os.path.join(folder, kind), "wb") as file:
                    file.write(damaged(draw, kind, text) if kind == hit else text if isinstance(text, bytes) else text.encode())
            status, out, err = outcome([os.path.join(folder, word) if word in inputs and i else word for i, word in enumerate(call)])
            answered += status == 0
            what = wrong(call, status, out, err)
            if what:
                with open(os.path.join(folder, hit), "rb") as file:
                    found.append((n, call, what, file.read()))
    return found, answered


class Damaged(unittest.TestCase):
    def test_each_gets_an_answer_or_one_sentence(self):
        found, answered = faults(COUNT, SEED, 5)
        told = "\n".join(f"number {n} of seed {SEED}, slewtext {' '.join(call)}: {what}\n{text[:400]!r}" for n, call, what, text in found)
        self.assertFalse(found, told)
        self.assertTrue(COUNT // 20 < answered < COUNT // 2, f"{answered} of {COUNT} were answered")

    def test_a_fault_is_found(self):
        """With one check taken away the same inputs find it."""
        broken = ((slewproblem, "number", lambda value, what: float(value)), (slewproblem, "angle", lambda value, what: math.radians(value)), (slewforms, "COUNTED", ()),
                  (slewtext, "problem_forms", lambda text: slewtext.read_forms(text, "problem")), (slewtext, "shown", str))
        for module, name, careless in broken:
            with unittest.mock.patch.object(module, name, careless):
                self.assertTrue(faults(20_000, SEED, 1)[0], name)


if __name__ == "__main__":
    if "--seed" in sys.argv:
        at = sys.argv.index("--seed")
        SEED = int(sys.argv[at + 1])
        del sys.argv[at:at + 2]
    if "--count" in sys.argv:
        at = sys.argv.index("--count")
        COUNT = int(sys.argv[at + 1])
        del sys.argv[at:at + 2]
    unittest.main()
