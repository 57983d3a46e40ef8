#!/usr/bin/env python3
"""Tests of slewtext: python3 tools/test_slewtext.py"""

import contextlib
import html.parser
import importlib.machinery
import importlib.util
import io
import math
import json
import os
import random
import re
import struct
import subprocess
import sys
import tempfile
import unittest
import unittest.mock
import xml.etree.ElementTree

TOOL = os.path.join(os.path.dirname(os.path.abspath(__file__)), "slewtext")
loader = importlib.machinery.SourceFileLoader("slewtext", TOOL)
sys.dont_write_bytecode = True
slewtext = importlib.util.module_from_spec(importlib.util.spec_from_loader("slewtext", loader))
loader.exec_module(slewtext)

import slewcontrols  # noqa: E402
import slewdraw  # noqa: E402
import slewforms  # noqa: E402
import slewgame  # noqa: E402
import slewplanes  # noqa: E402
import slewproblem  # noqa: E402

QUARTER = {
    "from": {"quaternion": [1, 0, 0, 0]},
    "to": {"axis": [0, 0, 2], "degrees": 90},
    "inertia_kgm2": [10, 12, 8],
    "torque_limit_nm": [0.5, 0.5, 0.5],
}


def path_text(wheels=2, row="3FE BFE"):
    nodes = [" ".join([slewforms.to_hex(k / 16), "3FF"] + ["0"] * (12 + wheels)) for k in range(17)]
    lines = ["(path", " (runs 3)", " (iterations 1)", " (duration 3FF)"] + [f" (row {row})"] * 16 + [f" (node {node})" for node in nodes]
    return "\n".join(lines) + ")\n"


def run(*words, text=""):
    """The command with these words, in this process."""
    given, out, err = io.TextIOWrapper(io.BytesIO(text.encode())), io.TextIOWrapper(io.BytesIO()), io.StringIO()
    with unittest.mock.patch("sys.stdin", given), contextlib.redirect_stdout(out), contextlib.redirect_stderr(err):
        status = slewtext.main(list(words))
    return subprocess.CompletedProcess(words, status, out.buffer.getvalue().decode(), err.getvalue())


class Floats(unittest.TestCase):
    def test_known_words(self):
        for x, word in ((0.0, "0"), (-0.0, "8"), (1.0, "3FF"), (10.0, "4024"), (0.5, "3FE"), (math.inf, "7FF"), (math.nan, "7FF8")):
            self.assertEqual(slewforms.to_hex(x), word)

    def test_every_float_comes_back(self):
        draw = random.Random(1)
        for _ in range(20000):
            x = struct.unpack(">d", draw.randbytes(8))[0]
            y = slewtext.from_hex(slewforms.to_hex(x))
            self.assertTrue(x == y and math.copysign(1, x) == math.copysign(1, y) or math.isnan(x) and math.isnan(y))

    def test_wrong_words(self):
        for word in ("", "3fg", "3FG", "0" * 17, "-1"):
            self.assertRaises(slewtext.Fault, slewtext.from_hex, word)

    def test_digits_in_either_case_and_zeros(self):
        for word in ("3FE8", "3fe8", "3Fe80", "3fe8000000000000"):
            self.assertEqual(slewtext.from_hex(word), 0.75)
        self.assertEqual(math.copysign(1, slewtext.from_hex("80")), -1)


class Problems(unittest.TestCase):
    def test_quarter_turn(self):
        lines = slewtext.problem_text(QUARTER).splitlines()
        self.assertEqual(lines[0], "(problem")
        self.assertEqual(lines[1], " (q0 3FF 0 0 0)")
        self.assertEqual(lines[3], " (inertia 4024 0 0 0 4028 0 0 0 402)")
        self.assertEqual(lines[5:7], [" (slew none)", " (weights 0 0 0 0 0 0)"])
        self.assertEqual(lines[8], " (momenta)")
        self.assertEqual(lines[-1], " (actuators))")

    def test_what_is_written_is_canonical(self):
        float_word = "(0|[0-9A-F]{0,15}[1-9A-F])"
        lines = re.compile(f"(problem| \\([a-z0-9]+( {float_word}| none)*\\)| \\(actuators|  \\((wheel|thruster|cmg)( {float_word})+( none)?\\)(\\)\\))?)")
        folder = os.path.join(slewtext.ROOT, "examples")
        for name in sorted(os.listdir(folder)):
            if name.endswith(".toml") and os.path.exists(os.path.join(folder, name.removesuffix(".toml") + ".slew")):
                text = slewtext.read(os.path.join(folder, name.removesuffix(".toml") + ".slew"))
                written = slewtext.problem_text(slewtext.declared(os.path.join(folder, name)))
                self.assertEqual(text, written)
                self.assertTrue(text.startswith("(problem\n") and text.endswith("))\n"))
                for line in text.splitlines()[1:-1]:
                    self.assertTrue(lines.fullmatch(line), line)

    def test_a_text_written_otherwise_is_the_same_problem(self):
        text = slewtext.problem_text(QUARTER | {"slew_limit_deg_s": 20, "wheel": [{"axis": [1, 0, 0], "torque_nm": 0.5, "momentum_nms": 4}]})
        other = text.replace(" 3FE)", "  3fe00)").replace(" 0 ", "   000 ")
        self.assertNotEqual(text, other)
        self.assertEqual(slewtext.read_problem(text), slewtext.read_problem(other))

    def test_actuators_in_order(self):
        wheel = {"axis": [1, 0, 0], "torque_nm": 0.5, "momentum_nms": 4}
        lines = slewtext.problem_text(QUARTER | {
            "thruster": [{"axis": [0, 1, 0], "torque_nm": 1}],
            "wheel": [wheel, wheel | {"power_w": 1, "start_nms": 1}],
            "pyramid": {"skew_deg": 54.74, "momentum_nms": 1, "rate_deg_s": 60, "singularity_eps": 0.5},
        }).splitlines()
        self.assertEqual(lines[8], " (momenta 0 3FF)")
        self.assertEqual(lines[9], " (actuators")
        self.assertEqual(lines[10], "  (wheel 3FF 0 0 3FE 401 none)")
        self.assertEqual(lines[11], "  (wheel 3FF 0 0 3FE 401 3FF)")
        self.assertEqual(lines[12], "  (thruster 0 3FF 0 3FF)")
        self.assertTrue(lines[13].startswith("  (cmg ") and lines[13].endswith("))") and lines[13].count(")") == 3)

    def test_wheels_turn_as_a_path_left_them(self):
        path = slewtext.read_path(path_text())
        path["nodes"][16][14:] = [0.25, -0.0]
        wheels = QUARTER | {"wheel": [{"axis": [1, 0, 0], "torque_nm": 0.5, "momentum_nms": 4, "start_nms": 9}] * 2}
        self.assertEqual(slewtext.problem_text(slewtext.turning_after(wheels, path)).splitlines()[8], " (momenta 3FD 8)")
        self.assertRaises(slewtext.Fault, slewtext.turning_after, QUARTER, path)
        with tempfile.NamedTemporaryFile("w", suffix=".json") as problem, tempfile.NamedTemporaryFile("w") as ended:
            json.dump(wheels, problem)
            problem.flush()
            ended.write(path_text())
            ended.flush()
            self.assertEqual(run("problem", problem.name, "--after", ended.name).stdout.splitlines()[8], " (momenta 0 0)")
            self.assertEqual(run("problem", problem.name, "--before", ended.name).returncode, 1)

    def test_bad_input_is_one_sentence(self):
        bad = (
            {"to": None}, {"inertia_kgm2": [1, 2]}, {"torque_limit_nm": "x"}, {"weights": {"speed": 1}}, {"wheel": [{"axis": [1, 0, 0]}]},
            {"from": {"axis": [0, 0, 0], "degrees": 1}}, {"slew_limit_deg_s": True}, {"colour": 1}, {"wheel": 3}, {"wheel": [{"axis": [1, 0, 0], "torque_nm": 1, "momentum_nms": 1, "start_nms": "x"}]},
        )
        for change in bad:
            with self.assertRaises(slewtext.Fault) as caught:
                slewtext.problem_text(QUARTER | change)
            self.assertTrue(str(caught.exception).endswith("."), change)

    def test_quaternions_of_few_digits(self):
        few = QUARTER | {"to": {"quaternion": [0.707, 0, 0, 0.707]}, "normalise": True}
        half = slewforms.to_hex(0.707 / math.hypot(0.707, 0.707))
        self.assertEqual(slewtext.problem_text(few).splitlines()[2], f" (qf {half} 0 0 {half})")
        self.assertEqual(slewtext.problem_text(few | {"normalise": False}).splitlines()[2], f" (qf {slewforms.to_hex(0.707)} 0 0 {slewforms.to_hex(0.707)})")
        self.assertEqual(slewtext.problem_text(QUARTER | {"normalise": True}), slewtext.problem_text(QUARTER))
        for change in ({"normalise": 1}, {"to": {"quaternion": [0, 0, 0, 0]}}, {"to": {"quaternion": [math.inf, 0, 0, 0]}}):
            self.assertRaises(slewtext.Fault, slewtext.problem_text, few | change)
        for given, notes in ((few, 0), (few | {"normalise": False}, 1), (few | {"normalise": False, "norm_tolerance": 0.1}, 0)):
            told = run("problem", "-", text=json.dumps(given))
            self.assertEqual((told.returncode, told.stderr.count("\n"), "qf 0.999849" in told.stderr), (0, notes, notes == 1))
        tiles = [{"quaternion": [2, 0, 0, 0]}, {"quaternion": [0, 0, 0, 3]}]
        self.assertIn("is not: tile 0 2, tile 1 3.", run("mosaic", "-", text=json.dumps(BODY | {"tile": tiles})).stderr)
        self.assertEqual(slewtext.mosaic_text(BODY | {"normalise": True}, tiles).splitlines()[-3:-1], [" (tile 3FF 0 0 0)", " (tile 0 0 0 3FF)"])

    def test_a_key_behind_a_table(self):
        with self.assertRaises(slewtext.Fault) as caught:
            slewtext.problem_text(QUARTER | {"wheel": [{"axis": [1, 0, 0], "torque_nm": 0.5, "momentum_nms": 4, "weights": {}}]})
        self.assertIn("stands before the first [table]", str(caught.exception))

    def test_command(self):
        with tempfile.NamedTemporaryFile("w", suffix=".toml") as file:
            file.write("from = { axis = [0, 0, 1], degrees = 0 }\nto = { axis = [0, 0, 1], degrees = 90 }\ninertia_kgm2 = [10, 12, 8]\ntorque_limit_nm = [0.5, 0.5, 0.5]\n")
            file.flush()
            self.assertTrue(run("problem", file.name).stdout.startswith("(problem\n (q0 3FF 0 0 0)\n"))
        fault = run("problem", "-", text="from = [")
        self.assertEqual((fault.returncode, fault.stdout), (1, ""))
        self.assertEqual(len(fault.stderr.splitlines()), 1)

    def test_words(self):
        told = run("--help")
        self.assertEqual((told.returncode, told.stderr), (0, ""))
        for name in {name for name, _ in slewtext.COMMANDS} | {"order", "mosaic"}:
            self.assertIn(f"  slewtext {name} ", told.stdout)
            self.assertTrue(all(line.startswith((f"  slewtext {name} ", " " * 8)) for line in slewtext.usage(name).splitlines()[1:]), name)
        for words, lines in (["fly"], 1), (["draw", "a"], 2), (["explain"], 2):
            wrong = run(*words)
            self.assertEqual((wrong.returncode, wrong.stdout, wrong.stderr.count("\n")), (2, "", lines))
        self.assertEqual(run().returncode, 2)

    def test_standard_input(self):
        twice = run("draw", "-", "-", text=stored("quarter-turn.toml"))
        self.assertEqual((twice.returncode, twice.stdout, twice.stderr.count("\n")), (1, "", 1))
        answer = os.path.join(slewtext.ROOT, "examples", "quarter-turn.answer")
        for name in ("quarter-turn.toml", "quarter-turn.slew"):
            for command in ("stops", "report"):
                self.assertEqual(run(command, "-", answer, text=stored(name)).stdout, slewtext.COMMANDS[command, 2](os.path.join(slewtext.ROOT, "examples", name), answer))
        with_mark = subprocess.run([sys.executable, TOOL, "problem", "-"], input=b"\xef\xbb\xbf" + stored("quarter-turn.toml").replace("\n", "\r\n").encode(), capture_output=True)
        self.assertEqual(with_mark.stdout.decode(), stored("quarter-turn.slew"))

    def test_a_reader_that_goes_away(self):
        with subprocess.Popen([sys.executable, TOOL, "report", "examples/nine-tiles.mosaic", "examples/nine-tiles.answer"], cwd=slewtext.ROOT, stdout=subprocess.PIPE, stderr=subprocess.PIPE) as tool:
            tool.stdout.close()
            self.assertEqual(tool.stderr.read(), b"")
        with open("/dev/full", "w") as full:
            told = subprocess.run([sys.executable, TOOL, "--help"], stdout=full, stderr=subprocess.PIPE, text=True)
        self.assertEqual((told.returncode, told.stderr), (1, "slewtext: Standard output cannot be written: No space left on device.\n"))

    def test_what_stands_in_the_wrong_place(self):
        at = lambda name: os.path.join(slewtext.ROOT, "examples", name)
        for words, said in ((["problem", at("quarter-turn.slew")], "is the program's text"), (["path", at("refused-half-turn.answer")], "the plan is refused. Refusal 7"),
                            (["path", at("nine-tiles.answer")], "slewtext legs"), (["draw", at("nine-tiles.mosaic"), at("quarter-turn.answer")], "is a mosaic"), (["path", os.devnull], "it is empty"),
                            (["path", slewtext.ROOT], "cannot be read: Is a directory."), (["problem", "nowhere"], "nowhere cannot be read: No such file or directory.")):
            told = run(*words)
            self.assertEqual((told.returncode, told.stdout, told.stderr.count("\n")), (1, "", 1))
            self.assertIn(said, told.stderr)


class Answers(unittest.TestCase):
    def test_path_as_csv(self):
        lines = slewtext.path_csv(slewtext.read_path(path_text())).splitlines()
        self.assertEqual(len(lines), 18)
        self.assertEqual(lines[0].split(",")[-1], "wheel_1_nms")
        self.assertEqual(lines[1], ",".join(["0.0", "1.0"] + ["0.0"] * 14))

    def test_samples_as_csv(self):
        text = "(samples\n (sample " + " ".join(["3FF"] * 14) + "))\n"
        self.assertEqual(slewtext.csv(slewtext.NODE, slewtext.read_samples(text)).splitlines()[1], ",".join(["1.0"] * 14))

    def test_samples_that_are_not_whole(self):
        sample = " (sample " + " ".join(["3FF"] * 14) + ")\n"
        for rest in ("", "(refused\n (number 5)\n (place 3)\n (runs 0))\n"):
            self.assertRaises(slewtext.Fault, slewtext.read_samples, "(samples\n" + sample + rest)

    def test_rates_beside_the_nodes(self):
        node = lambda t, *rate: [t, 1.0, 0.0, 0.0, 0.0, *rate] + [0.0] * 6
        path = {"nodes": [node(float(k), 0.1, -0.2 * k, 0.0) for k in range(17)]}
        above = math.nextafter(0.1, 1)
        self.assertEqual(0.1 * (1 - 0.2) + 0.1 * 0.2, above)  # a fifth of the way from 0.1 to 0.1
        told = lambda *samples: slewtext.rates_told(list(samples), path)
        good = [node(-1.0, 0.1, 0.0, 0.0), node(3.5, 0.1, -0.8, 0.0), node(4.0, -0.1, 0.8, 0.0), node(17.0, 0.1, -3.2, 0.0)]
        self.assertEqual(told(*good), "No rate of 4 samples is above the larger of its two nodes'.")
        self.assertEqual(told(*good, node(4.2, above, 0.0, 0.0)), "A rate is above the larger of its two nodes' in 1 of 5 samples, by at most 1.39e-17 rad/s (sample 4, x): a last place of rounding.")
        for near in (node(3.5, 0.1, math.nextafter(-0.8, -1), 0.0), node(4.0, 0.1, 0.0, 16 * 5e-324)):
            self.assertIn("in 1 of 1 samples", told(near))
        for far in (node(4.0, 0.1, -0.9, 0.0), node(-1.0, 0.1, -0.2, 0.0), node(4.0, 0.1, 0.0, 17 * 5e-324), node(18.0, 0.1, -3.3, 0.0)):
            self.assertIn("not the samples of that path", told(far))

    def test_rates_of_a_stored_path(self):
        with open(os.path.join(slewtext.ROOT, "examples", "gyro-pyramid.answer"), encoding="utf-8") as file:
            path = slewtext.read_path(file.read())
        times = [path["duration"] * k / 1999 for k in range(2000)]
        mean = lambda n, m, t: [a * (1 - (t - n[0]) / (m[0] - n[0])) + b * ((t - n[0]) / (m[0] - n[0])) for a, b in zip(n[5:8], m[5:8])]
        pair = lambda t: next((n, m) for n, m in zip(path["nodes"], path["nodes"][1:]) if not m[0] < t)
        samples = [[t] + [0.0] * 4 + mean(*pair(t), t) + [0.0] * 6 for t in times if t <= path["nodes"][16][0]]
        self.assertIn("above the larger of its two nodes' in 3 of", slewtext.rates_told(samples, path))

    def test_rates_beside_another_path(self):
        stored = run("samples", Planes.STORED, os.path.join(slewtext.ROOT, "examples", "quarter-turn.answer"))
        self.assertEqual((stored.returncode, stored.stdout), (0, run("samples", Planes.STORED).stdout))
        self.assertIn("not the samples of that path", stored.stderr)
        self.assertEqual(len(stored.stderr.splitlines()), 1)

    def test_a_damaged_path(self):
        self.assertRaises(slewtext.Fault, slewtext.read_path, path_text().replace(" (row 3FE BFE)\n", "", 1))
        self.assertRaises(slewtext.Fault, slewtext.read_path, "(refused\n (number 7)\n (place 0)\n (runs 0))\n")
        self.assertRaises(slewtext.Fault, slewtext.read_path, "")

    def test_every_refusal_has_a_sentence(self):
        for number in range(1, 29):
            for place in (0, 1, 2, 9, 16, 20):
                said = slewtext.explain(f"(refused\n (number {number})\n (place {place})\n (runs 5))\n")
                self.assertTrue(said.startswith(f"Refusal {number}, place {place}, after 5 forward runs. ") and said.endswith(".\n"))
                self.assertNotIn("No refusal has this number", said)

    def test_the_sentences_are_the_programs(self):
        """They are the table's that the gate holds the proved program to: here some that hang on the place, on the runs, on a sample."""
        for given, begins in {
            (2, 7, 0): "Wheel 7: ", (2, 8, 0): "Thruster 0: ", (2, 20, 0): "The pyramid: ", (21, 0, 0): "The text is too long: ", (21, 1, 0): "Line 1 of the text ",
            (5, 1, 0): "The end attitude qf ", (5, 2, 7): "An attitude in a forward run ", (5, 1, 0, True): "Sample 1: its attitude ",
            (11, 0, 1): "Step 0 of a run ", (11, 0, 0): "The slew is half a turn ", (11, 4, 0, True): "Sample 4 ", (99, 3, 0): "No refusal has this number.",
        }.items():
            self.assertTrue(slewtext.refusal(*given).startswith(begins), (given, slewtext.refusal(*given)))

    def test_a_refused_sample_is_told_as_one(self):
        told = "(board\n (sample " + " ".join(["0"] * 13) + ")\n(refused\n (number 11)\n (place 1)\n (runs 0))\n"
        self.assertIn("Sample 1 turns", slewtext.told_refusal(told))
        self.assertIn("Sample 1 turns", slewtext.explain(told))

    def test_a_path_is_explained(self):
        self.assertEqual(slewtext.explain(path_text()), "A path of 1 s, found in 1 iterations and 3 forward runs.\n")


class Records(unittest.TestCase):
    """Ask, then commit: a record file, previews of it, starts."""

    def path(self, began, ended):
        lines = path_text(len(began)).splitlines()
        node = lambda time, momenta: " (node " + " ".join([time, "3FF"] + ["0"] * 12 + momenta) + ")"
        lines[20], lines[36] = node("0", began), node("3FF", ended) + ")"
        return "\n".join(lines) + "\n"

    def start(self, record, answer):
        with tempfile.TemporaryDirectory() as folder:
            name = os.path.join(folder, "record")
            with open(name, "w", encoding="ascii") as file:
                file.write(record)
            done = run("start", name, "-", text=answer)
            self.assertEqual(os.listdir(folder), ["record"])
            with open(name, encoding="ascii") as file:
                return done, file.read()

    def test_a_start_replaces_the_record(self):
        done, after = self.start("(record\n (momenta 3FF BFE))\n", self.path(["3FF", "BFE"], ["4", "8"]))
        self.assertEqual((done.returncode, after), (0, "(record\n (momenta 4 8))\n"))
        self.assertIn("Started.", done.stdout)

    def test_a_record_that_differs(self):
        for record, began, wheel in (("3FF BFE", ["3FF", "BFE1"], 1), ("8 0", ["0", "0"], 0), ("0 8", ["0", "0"], 1), ("3FF", ["3FF", "0"], 1), ("3FF 0 0", ["3FF", "0"], 2), ("", ["0"], 0), ("7FF8", ["7FF"], 0)):
            text = f"(record\n (momenta {record})".replace(" )", ")") + ")\n"
            done, after = self.start(text, self.path(began, began))
            self.assertEqual((done.returncode, after), (1, text))
            self.assertIn(f"Refusal 26, place {wheel}.", done.stderr)

    def test_every_nan_is_one(self):
        done, after = self.start("(record\n (momenta 7FF1))\n", self.path(["FFF8"], ["0"]))
        self.assertEqual((done.returncode, after), (0, "(record\n (momenta 0))\n"))

    def test_of_starts_at_a_time_one_is_answered(self):
        with tempfile.TemporaryDirectory() as folder:
            record, answer = os.path.join(folder, "record"), os.path.join(folder, "answer")
            for name, text in ((record, "(record\n (momenta 0))\n"), (answer, self.path(["0"], ["3FF"]))):
                with open(name, "w", encoding="ascii") as file:
                    file.write(text)
            starts = [subprocess.Popen([sys.executable, TOOL, "start", record, answer], stdout=subprocess.DEVNULL, stderr=subprocess.DEVNULL) for _ in range(6)]
            self.assertEqual(sorted(each.wait() for each in starts), [0, 1, 1, 1, 1, 1])

    def test_a_refused_preview_is_not_started(self):
        record = "(record\n (momenta 0))\n"
        done, after = self.start(record, "(refused\n (number 7)\n (place 2)\n (runs 0))\n")
        self.assertEqual((done.returncode, after), (1, record))
        self.assertIn("Refusal 26, place 0.", done.stderr)

    def test_bad_records(self):
        for record in ("", "(record)\n", "(record\n (momenta 3ff))\n", "(record\n (momenta" + " 0" * 9 + "))\n", "(path)\n"):
            done, after = self.start(record, self.path(["0"], ["0"]))
            self.assertEqual((done.returncode, after), (1, record))
            self.assertEqual(len(done.stderr.splitlines()), 1)
        self.assertEqual(run("start", "/nowhere/record", "-", text=self.path(["0"], ["0"])).returncode, 1)

    def test_a_preview_of_the_record(self):
        wheel = {"axis": [1, 0, 0], "torque_nm": 1, "momentum_nms": 2}
        with tempfile.TemporaryDirectory() as folder:
            problem, record = os.path.join(folder, "problem.json"), os.path.join(folder, "record")
            with open(problem, "w", encoding="ascii") as file:
                json.dump({**QUARTER, "wheel": [{**wheel, "start_nms": 0.5}, wheel]}, file)
            first = run("record", problem).stdout
            self.assertEqual(first, "(record\n (momenta 3FE 0))\n")
            for text, line in ((first, " (momenta 3FE 0)"), ("(record\n (momenta 8 3FF))\n", " (momenta 8 3FF)")):
                with open(record, "w", encoding="ascii") as file:
                    file.write(text)
                self.assertEqual(run("problem", problem, "--record", record).stdout.splitlines()[8], line)
            with open(record, "w", encoding="ascii") as file:
                file.write("(record\n (momenta 0))\n")
            self.assertIn("Refusal 22, place 1", run("problem", problem, "--record", record).stderr)

    def test_every_word_of_the_stored_paths(self):
        with open(os.path.join(slewtext.ROOT, "examples", "turning-wheels.answer"), encoding="ascii") as file:
            answer = file.read()
        nodes = slewtext.read_path(answer)["nodes"]
        done, after = self.start(slewtext.record_text(nodes[0][14:]), answer)
        self.assertEqual((done.returncode, after), (0, slewtext.record_text(nodes[16][14:])))
        done, again = self.start(after, answer)
        self.assertEqual((done.returncode, again), (1, after))


class Board(unittest.TestCase):
    ROW = "1073741824 0 -1 1 " + " ".join(["1048576", "-524288", "0"] * 3)
    WHOLE = f"(board\n (sample {ROW})\n (sample {ROW}))\n"
    REFUSED = "(refused\n (number 24)\n (place 1)\n (runs 0))\n"

    def test_numbers_in_units(self):
        lines = slewtext.csv(slewtext.NODE[1:], slewtext.read_board(self.WHOLE)).splitlines()
        self.assertEqual(lines[0].split(",")[0], "qw")
        self.assertEqual(lines[1:], [",".join(["1.0", "0.0", repr(-(2.0 ** -30)), repr(2.0 ** -30)] + ["1.0", "-0.5", "0.0"] * 3)] * 2)

    def test_the_ends_of_the_range_are_exact(self):
        row = "(board\n (sample " + " ".join(["-2147483648", "2147483647"] * 6 + ["-2147483648"]) + "))\n"
        found = slewtext.read_board(row)[0]
        self.assertEqual(found[:2] + found[4:6], [-2.0, 2.0 - 2.0 ** -30, -2048.0, 2048.0 - 2.0 ** -20])

    def test_stored_numbers_are_those_of_the_stored_samples(self):
        folder = os.path.join(os.path.dirname(TOOL), "..", "crates")
        with open(os.path.join(folder, "board_samples", "stdout"), encoding="ascii") as file:
            board = slewtext.read_board(file.read())
        with open(os.path.join(folder, "slew_samples", "stdout"), encoding="ascii") as file:
            samples = slewtext.read_samples(file.read())
        self.assertEqual(len(board), len(samples))
        for row, sample in zip(board, samples):
            for k, (x, y) in enumerate(zip(row, sample[1:])):
                unit = 2.0 ** (-30 if k < 4 else -20)
                self.assertEqual(x, round(y / unit) * unit)

    def test_bad_lists_get_a_sentence(self):
        bad = (
            self.REFUSED, f"(board\n (sample {self.ROW})\n" + self.REFUSED, self.REFUSED.replace("24", "x"), self.REFUSED.replace(" 24", ""), f"(board\n (sample {self.ROW})\n", self.WHOLE.replace(" 0", "", 1), "(samples)\n", "", "(board)\n",
            self.WHOLE.replace("1073741824", "3FF", 1), self.WHOLE.replace("1073741824", "2147483648", 1), self.WHOLE.replace("1073741824", "--1", 1), self.WHOLE.replace("(sample", "(Sample", 1),
        )
        for text in bad:
            made = run("board", "-", text=text)
            self.assertEqual((made.returncode, made.stdout, made.stderr.count("\n")), (1, "", 1), text)
            self.assertTrue(made.stderr.startswith("slewtext: ") and made.stderr.endswith(".\n"), made.stderr)
        self.assertIn("must be below 2,048 in size", run("board", "-", text=bad[1]).stderr)


class Planes(unittest.TestCase):
    STORED = os.path.join(os.path.dirname(TOOL), "..", "crates", "slew_samples", "stdout")

    def stored(self):
        with open(self.STORED, encoding="utf-8") as file:
            return file.read()

    def test_the_proved_example(self):
        """The words and bytes of `example` in crates/byte_planes/specs/Laws.antt."""
        words = [0x3FF0_0000_0000_0000, 0x3FF8_0000_0000_0001, 0x7FF8_0000_0000_0001, 0xFFF0_0000_0000_00FF]
        planes = bytes([0x3F, 0x00, 0x40, 0x80, 0xF0, 0x08, 0x00, 0x08] + [0] * 20 + [0x00, 0x01, 0x00, 0xFE])
        self.assertEqual(slewplanes.encode_planes(words), planes)
        self.assertEqual(slewplanes.decode_planes(planes), words)

    def test_columns_and_bytes_come_back(self):
        draw = random.Random(2)
        for count in (0, 1, 2, 3, 17, 419, 4095, 4096):
            column, planes = [draw.getrandbits(64) for _ in range(count)], draw.randbytes(8 * count)
            self.assertEqual(slewplanes.decode_planes(slewplanes.encode_planes(column)), column)
            self.assertEqual(slewplanes.encode_planes(slewplanes.decode_planes(planes)), planes)

    def test_stored_samples_come_back(self):
        text = self.stored()
        made = slewtext.planes_of(text)
        self.assertEqual(len(made), 16 + 14 * 8 * 20)
        self.assertEqual(slewplanes.text_of_planes(made), text)

    def test_blocks(self):
        draw = random.Random(3)
        for count in (1, 4096, 4097, 8193):
            columns = [[draw.getrandbits(64) for _ in range(count)] for _ in range(14)]
            text = slewplanes.samples_text(columns)
            made = slewtext.planes_of(text)
            self.assertEqual(slewplanes.text_of_planes(made), text)
            first = min(count, 4096)
            self.assertEqual(made[16:16 + 8 * first], slewplanes.encode_planes(columns[0][:first]))

    def test_texts_that_would_not_come_back(self):
        text = self.stored()
        bad = (
            text.replace(" (sample 0 ", " (sample 00 ", 1), text.replace(" (sample 0 ", " (sample  0 ", 1), text[:-1], text + "\n", text.replace("(sample", "(Sample", 1),
            text[:-2] + "\n", "(samples)\n", "", "(refused\n (number 7)\n (place 0)\n (runs 0))\n", text.replace(" (sample 0 3FF", " (sample 0", 1),
        )
        for damaged in bad:
            self.assertRaises(slewtext.Fault, slewtext.planes_of, damaged)

    def test_damaged_files(self):
        made = slewtext.planes_of(self.stored())
        for damaged in (b"", made[:8], made[:-1], made + b"0", b"slewpln2" + made[8:], made[:8] + bytes(8), made[:8] + b"\xff" * 8, made[:15] + b"\x15" + made[16:]):
            with self.assertRaises(slewtext.Fault) as caught:
                slewplanes.text_of_planes(damaged)
            self.assertTrue(str(caught.exception).endswith("."))

    def test_commands(self):
        tool = lambda word, given: subprocess.run([sys.executable, TOOL, word, "-"], input=given, capture_output=True)
        text = self.stored().encode()
        made = tool("planes", text).stdout
        self.assertEqual(tool("unplanes", made).stdout, text)
        for word, given in (("planes", b"\xff\xfe"), ("planes", text.replace(b"\n", b"\r\n")), ("planes", text[:-3]), ("unplanes", text), ("unplanes", made[:-1])):
            fault = tool(word, given)
            self.assertEqual((fault.returncode, fault.stdout), (1, b""))
            self.assertEqual(len(fault.stderr.splitlines()), 1)
            self.assertNotIn(b"Traceback", fault.stderr)
ORDERED = "(ordered\n (order 0 2 1)\n (cost 9500)\n (placed 4)\n (used-up {})\n (floor {}))\n"
TILES = {"tile": [{"quaternion": [1, 0, 0, 0], "name": "first"}, {"axis": [0, 0, 1], "degrees": 30}, {"axis": [0, 0, 1], "degrees": 10}]}


def slew(seconds):
    """A program slew that answers one path of so many seconds, and a slew_order that answers one order."""
    path = path_text().replace("(duration 3FF)", f"(duration {slewforms.to_hex(seconds)})")
    return unittest.mock.patch.object(slewtext, "printed", lambda program, text: path if program == "slew" else ORDERED.format("no", 8000))


class Orders(unittest.TestCase):
    def test_a_table_as_text(self):
        times = slewtext.read_table("7,12,3\n4, 0 ,6\n\n8,9,x\n")
        self.assertEqual(slewtext.tiles_text(times, 5), "(tiles\n (budget 5)\n (from 0 12 3)\n (from 4 0 6)\n (from 8 9 0))\n")

    def test_bad_tables(self):
        for text in ("", "1,2\n", "0,1\n2\n", "0,-1\n2,0\n", "0,1.5\n2,0\n", "0,x\n2,0\n", "0,\n2,0\n", "\n".join([",".join("1" * 11)] * 11)):
            with self.assertRaises(slewtext.Fault) as caught:
                slewtext.read_table(text)
            self.assertTrue(str(caught.exception).endswith("."), text)

    def test_a_time_too_long_stays_outside(self):
        self.assertEqual(slewtext.read_table("0,99999999999999999999\n1,0\n")[0][1], 10_000_001)

    def test_what_is_told(self):
        for used_up, floor, said in (("no", 9000, "No order is faster."), ("yes", 9000, "at most 0.500 s."), ("yes", 9500, "still no order is faster")):
            with unittest.mock.patch.object(slewtext, "printed", lambda program, text: ORDERED.format(used_up, floor)):
                told = slewtext.tell_order(["a", "b", "c"], slewtext.find_order([[0] * 3] * 3, 1))
            self.assertIn("Order: a, c, b.\nIt takes 9.500 s.", told)
            self.assertIn(said, told)

    def test_durations_go_upward(self):
        for seconds, milliseconds in ((1.0, 1000), (1.0000001, 1001), (0.0001, 1)):
            with slew(seconds):
                tiles, names = slewtext.tile_list(TILES)
                self.assertEqual(slewtext.planned_table(tiles, names, QUARTER), [[0 if i == j else milliseconds for j in range(3)] for i in range(3)])

    def test_pairs_are_planned_by_the_search_or_about_one_axis(self):
        for words, wanted in (([], "slew"), (["--eigenaxis"], "slew_eigenaxis"), (["--eigenaxis", "--budget", "7"], "slew_eigenaxis"), (["--budget", "7"], "slew")):
            with unittest.mock.patch.object(slewtext, "order_tiles") as called:
                slewtext.order_command(["--tiles", "a", "b", *words])()
            called.assert_called_once_with(wanted, "a", "b", *words[-1:] * ("--budget" in words))

    def test_every_refused_pair_is_told(self):
        tiles, names = slewtext.tile_list(TILES)
        with unittest.mock.patch.object(slewtext, "printed", lambda program, text: "(refused\n (number 7)\n (place 0)\n (runs 0))\n"):
            with self.assertRaises(slewtext.Fault) as caught:
                slewtext.planned_table(tiles, names, QUARTER)
        lines = str(caught.exception).splitlines()
        self.assertEqual(len(lines), 7)
        self.assertIn("The slew from first to tile 1 is refused: ", lines[1])

    def test_tiles_in_their_order_are_read_again(self):
        with slew(1.5):
            tiles, names = slewtext.tile_list(TILES)
            found = slewtext.find_order(slewtext.planned_table(tiles, names, QUARTER), 10)
        import tomllib
        again, named = slewtext.tile_list(tomllib.loads(slewtext.tiles_toml(tiles, names, found[0])))
        self.assertEqual(named, ["first", "tile 2", "tile 1"])
        self.assertEqual([slewtext.attitude(tile, "a tile") for tile in again], [slewtext.attitude(tiles[i], "a tile") for i in (0, 2, 1)])

    def test_bad_tiles_and_words(self):
        for table in ({}, {"tile": []}, {"tile": 3}, {"tile": [{"degrees": 3}]}, {"tile": [TILES["tile"][0]] * 11}, TILES | {"colour": 1}, {"tile": [{"quaternion": [1, 0, 0, 0], "axis": [1, 0, 0]}]}):
            self.assertRaises(slewtext.Fault, slewtext.tile_list, table)
        for words in (["order"], ["order", "--tiles", "a"], ["order", "a", "b"], ["order", "a", "--budget"], ["order", "--tiles", "a", "b", "c"], ["order", "--tiles", "a", "b", "--eigenaxis", "c"]):
            self.assertEqual(run(*words).returncode, 2)
        for words in (["order", "-", "--budget", "-3"], ["order", "no-such-file"], ["order", "--tiles", "no-such-file", "none"]):
            fault = run(*words, text="0,1\n1,0\n")
            self.assertEqual((fault.returncode, fault.stdout, len(fault.stderr.splitlines())), (1, "", 1))


BODY = {"inertia_kgm2": [4, 4, 4], "torque_limit_nm": [0.2, 0.2, 0.2]}
SCAN = [{"quaternion": [1, 0, 0, 0]}, {"axis": [0, 0, 1], "degrees": 3, "name": "next"}, {"ra_deg": 10, "dec_deg": 38, "roll_deg": 5}]


def stored(name):
    with open(os.path.join(slewtext.ROOT, "examples", name), encoding="utf-8") as file:
        return file.read()


def turned(q, v):
    """The vector v of the body in the axes of the sky."""
    return slewproblem.product(slewproblem.product(q, [0.0] + v), [q[0], -q[1], -q[2], -q[3]])[1:]


class Mosaics(unittest.TestCase):
    def test_a_text(self):
        text = slewtext.mosaic_text(*slewtext.mosaic_in(BODY | {"tile": SCAN}))
        lines = text.splitlines()
        self.assertEqual((lines[0], lines[1], lines[-1]), ("(mosaic", "(problem", ")"))
        self.assertEqual(lines[2].replace("q0", "tile"), lines[-4])
        self.assertEqual(lines[3].replace("qf", "tile"), lines[-2])
        self.assertTrue(text.endswith(")\n)\n"))
        self.assertEqual(slewtext.mosaic_text(*slewtext.mosaic_of_two({"tile": SCAN}, BODY | {"from": 1, "to": 2})), text)

    def test_the_stored_examples_are_made_again(self):
        for name in ("nine-tiles", "star-field"):
            made = run("mosaic", os.path.join(slewtext.ROOT, "examples", f"{name}.toml"))
            self.assertEqual((made.returncode, made.stdout), (0, stored(f"{name}.mosaic")))

    def test_a_place_of_the_sky(self):
        for ra, dec in ((0, 0), (10, 38), (200, -70), (-30, 90)):
            a, d = math.radians(ra), math.radians(dec)
            looks = [math.cos(d) * math.cos(a), math.cos(d) * math.sin(a), math.sin(d)]
            north = [-math.sin(d) * math.cos(a), -math.sin(d) * math.sin(a), math.cos(d)]
            east = [-math.sin(a), math.cos(a), 0.0]
            for roll in (0, 5, -170):
                r, q = math.radians(roll), slewtext.attitude({"ra_deg": ra, "dec_deg": dec, "roll_deg": roll}, "tile")
                z = [math.cos(r) * n - math.sin(r) * e for n, e in zip(north, east)]
                for found, wanted in ((turned(q, [1.0, 0.0, 0.0]), looks), (turned(q, [0.0, 0.0, 1.0]), z)):
                    self.assertLess(max(abs(x - y) for x, y in zip(found, wanted)), 1e-15)

    def test_bad_mosaics_get_a_sentence(self):
        for wrong in (BODY, BODY | {"tile": SCAN[:1]}, BODY | {"tile": SCAN * 22}, QUARTER | {"tile": SCAN}, BODY | {"tile": [{"ra_deg": 1, "dec_deg": 91}] * 2},
                      BODY | {"tile": [{"ra_deg": 1}] * 2}, BODY | {"tile": [{"ra_deg": 1, "dec_deg": 2, "degrees": 3}] * 2}):
            fault = run("mosaic", "-", text=json.dumps(wrong))
            self.assertEqual((fault.returncode, fault.stdout, len(fault.stderr.splitlines())), (1, "", 1), wrong)
        self.assertEqual(run("mosaic").returncode, 2)

    def test_an_answer_as_csv(self):
        answer = slewtext.read_legs(stored("nine-tiles.answer"))
        rows = [line.split(",") for line in slewtext.legs_csv(answer).splitlines()]
        self.assertEqual((rows[0][:3], rows[0][-1], len(rows)), (["leg", "scan_time_s", "time_s"], "wheel_2_nms", 1 + 8 * 17))
        self.assertEqual((rows[17][:1], rows[18][:1], rows[17][1], rows[18][2]), (["0"], ["1"], rows[18][1], "0.0"))
        self.assertEqual(slewtext.scan_times(answer["legs"])[-1], answer["duration"])
        self.assertEqual(sum(leg["runs"] for leg in answer["legs"]), answer["runs"])
        self.assertEqual(rows[17][-3:], rows[18][-3:])

    def test_a_refused_leg_is_told(self):
        told = run("legs", "-", text=stored("refused-second-leg.answer"))
        self.assertEqual((told.returncode, len(told.stdout.splitlines())), (0, 18))
        self.assertIn("Leg 1, from tile 1 to tile 2, is refused. Refusal 7, place 0", told.stderr)
        self.assertIn("Answered before it: 1 leg of", slewtext.explain(stored("refused-second-leg.answer")))
        self.assertIn("A mosaic of 8 legs of 14.0871 s in all", slewtext.explain(stored("nine-tiles.answer")))

    def test_damaged_answers(self):
        good = stored("nine-tiles.answer")
        for wrong in ("", stored("refused-one-tile.answer"), good[:-60], good.replace("(leg 3)", "(leg 4)"), good.replace("(legs 8)", "(legs 7)"), good.replace("(leg 7)\n", "")):
            self.assertRaises(slewtext.Fault, slewtext.read_legs, wrong)

    def test_a_scan_goes_on_after_another(self):
        wheel = {"axis": [1, 0, 0], "torque_nm": 0.5, "momentum_nms": 4}
        with tempfile.TemporaryDirectory() as folder:
            name = os.path.join(folder, "first.answer")
            with open(name, "w", encoding="utf-8") as file:
                file.write(stored("nine-tiles.answer"))
            made = run("mosaic", "-", "--after", name, text=json.dumps(BODY | {"wheel": [wheel] * 3, "tile": SCAN}))
        last = stored("nine-tiles.answer").partition("\n(total")[0].splitlines()[-1].strip(" ()").split()[15:]
        self.assertEqual(made.stdout.splitlines()[9], f" (momenta {' '.join(last)})")

    def test_a_drawing_over_the_scan(self):
        root = xml.etree.ElementTree.fromstring(slewtext.scan_drawing(slewtext.read_legs(stored("nine-tiles.answer")), *slewtext.read_mosaic(stored("nine-tiles.mosaic"))))
        lines = [element.get("d") for element in root if element.get("class") == "line"]
        self.assertEqual((len(lines), {(line.count("M"), line.count(",")) for line in lines}), (1 + 4 + 3 + 3 + 3, {(8, 8 * 17), (8, 2 * 8 * 16)}))
        self.assertEqual(len([element for element in root if element.get("class") == "leg"]), 5 * 7)
        self.assertRaises(slewtext.Fault, slewtext.scan_drawing, slewtext.read_legs(stored("nine-tiles.answer")), *slewtext.read_mosaic(stored("refused-second-leg.mosaic")))


class Drawings(unittest.TestCase):
    def test_stored_drawings_are_what_is_drawn(self):
        top = os.path.dirname(os.path.dirname(TOOL))
        for example, drawing in (("quarter-turn", "docs/quarter-turn.svg"), ("star-field", "examples/star-field.svg")):
            beside = os.path.join(top, "examples", example)
            with open(os.path.join(top, drawing), encoding="utf-8") as stored:
                self.assertEqual(run("draw", beside + ".toml", beside + ".answer").stdout, stored.read(), drawing)

    def test_stored_texts_are_those_of_the_problems_in_decimal(self):
        top = os.path.join(os.path.dirname(os.path.dirname(TOOL)), "examples")
        for name in sorted(name[:-5] for name in os.listdir(top) if name.endswith(".toml")):
            for command, ending in (("problem", ".slew"), ("mosaic", ".mosaic")):
                text = os.path.join(top, name + ending)
                if os.path.exists(text):
                    with open(text, encoding="utf-8") as stored:
                        self.assertEqual(run(command, os.path.join(top, name + ".toml")).stdout, stored.read(), name)

    def test_panels(self):
        problem = slewtext.read_problem(slewtext.problem_text(QUARTER | {"slew_limit_deg_s": 5, "wheel": [{"axis": [1, 0, 0], "torque_nm": 0.5, "momentum_nms": 4}] * 3}))
        self.assertEqual(problem["wheels"], [4.0, 4.0, 4.0])
        svg = slewdraw.drawing(slewtext.read_path(path_text(3, "3FE BFE 3FDFFFFFFFFFFFFF")), problem)
        root = xml.etree.ElementTree.fromstring(svg)
        self.assertEqual(len([e for e in root if e.get("class") == "line"]), 1 + 4 + 3 + 3 + 3)
        self.assertEqual(len([e for e in root if e.tag.endswith("circle")]), 2 * 16)
        self.assertRaises(slewtext.Fault, slewdraw.drawing, slewtext.read_path(path_text(3)), problem)

    def test_controls_at_their_limits(self):
        wheel = {"axis": [1, 0, 0], "torque_nm": 0.5, "momentum_nms": 4}
        thruster = {"axis": [0, 1, 0], "torque_nm": 1}
        pyramid = {"skew_deg": 54.74, "momentum_nms": 1, "rate_deg_s": 60, "singularity_eps": 0.5}
        problem = lambda **more: slewtext.read_problem(slewtext.problem_text(QUARTER | more))
        told = lambda row, **more: slewtext.stops(slewtext.read_path(path_text(len(more.get("wheel", [])), row)), problem(**more)).splitlines()
        above, below = "3FE0000000000001", "3FDFFFFFFFFFFFFF"
        self.assertEqual(told(f"3FE {above} {below}"), [f"torque about {axis}: {n} of 16 controls at its limit of 0.5 N m." for axis, n in (("x", 16), ("y", 0), ("z", 0))])
        self.assertEqual(told("BFE 3FF", wheel=[wheel], thruster=[thruster]), ["wheel 0: 16 of 16 controls at its limit of 0.5 N m.", "thruster 0: 16 of 16 controls at its limit of 1 N m."])
        self.assertEqual(told("0 0 8 0", pyramid=pyramid)[3], "gimbal 3: 0 of 16 controls at its limit of 1.0472 rad/s.")
        self.assertRaises(slewtext.Fault, told, "3FE BFE")

    def test_round_numbers_beside_an_axis(self):
        for low, high, told in ((0.0, 10.03, ["0", "2", "4", "6", "8", "10"]), (-0.25, 0.25, ["-0.2", "-0.1", "0", "0.1", "0.2"]), (0.0, 1e-3, None), (-3e7, 3e7, None), (0.0, 1e-90, None), (-1e99, 0.0, None)):
            found = slewdraw.ticks(low, high, 6)
            self.assertTrue(2 <= len(found) <= 7 and all(low <= v <= high for v, _ in found), found)
            self.assertTrue(told is None or [text for _, text in found] == told, found)

    def test_limits_told_and_drawn(self):
        problem = slewtext.read_problem(slewtext.problem_text(QUARTER | {"slew_limit_deg_s": 5, "torque_limit_nm": [0.5, 0.5, 90]}))
        path = slewtext.read_path(path_text(0, "3FE BFE 0"))
        for node in path["nodes"]:
            node[5:11] = [0.05, 0.0, 0.0, 0.5, 0.25, 0.0]
        svg = slewdraw.drawing(path, problem)
        for text in ("limit of length", "limit of x, y", "body torque, N m (limit outside the drawing: z: 90)", "time, s"):
            self.assertIn(text, svg)
        path["nodes"][3][5] = 1e200
        self.assertRaises(slewtext.Fault, slewdraw.drawing, path, problem)

    def test_controls_as_csv(self):
        for name, heads in (("three-wheels", ["wheel_0_nm", "wheel_1_nm", "wheel_2_nm"]), ("thrusters", [f"thruster_{i}_nm" for i in range(3)]), ("gyro-pyramid", [f"gimbal_{i}_rad_s" for i in range(4)]),
                            ("quarter-turn", [f"torque_{axis}_nm" for axis in "xyz"])):
            files = [os.path.join(slewtext.ROOT, "examples", name + ending) for ending in (".toml", ".answer")]
            rows = [line.split(",") for line in run("controls", *files).stdout.splitlines()]
            path = slewtext.read_path(stored(name + ".answer"))
            self.assertEqual(rows[0], ["begins_s", "ends_s"] + heads)
            self.assertEqual([list(map(float, row)) for row in rows[1:]], [[a[0], b[0], *row] for a, b, row in zip(path["nodes"], path["nodes"][1:], path["rows"])])
        legs = slewtext.read_legs(stored("nine-tiles.answer"))
        rows = slewcontrols.scan_controls_csv(legs["legs"], slewtext.scan_times(legs["legs"]), slewtext.read_mosaic(stored("nine-tiles.mosaic"))[0]).splitlines()
        self.assertEqual((len(rows), rows[0].split(",")[:4], rows[128].split(",")[0]), (1 + 8 * 16, ["leg", "begins_s", "ends_s", "wheel_0_nm"], "7"))
        self.assertEqual(float(rows[128].split(",")[2]), legs["duration"])

    def test_angle_left(self):
        half = math.sqrt(0.5)
        self.assertAlmostEqual(slewdraw.turn_left([1, 0, 0, 0], [half, 0, 0, half]), 90.0)
        self.assertAlmostEqual(slewdraw.turn_left([-1, 0, 0, 0], [1, 0, 0, 0]), 0.0)


def minimax():
    """The fewest turns of every start by the rules alone, the choices that reach them, and whether the drive is home from a state in so many turns."""
    states = [(a, r) for a in slewgame.ANGLES for r in slewgame.RATES]
    won = [{s for s in states if slewgame.at_home(*s)}]
    sure = lambda s, u, n: all(slewgame.after(*s, u, d) in won[n] for d in (-1, 0, 1))
    while len(won) <= 64 and (len(won) == 1 or won[-1] != won[-2]):
        won.append({s for s in states if s in won[-1] or any(sure(s, u, len(won) - 1) for u in (-2, -1, 0, 1, 2))})
    turns = {s: next((n for n, w in enumerate(won) if s in w), slewgame.HELD) for s in states}
    return turns, won


TURNS, WON = minimax()


def fake_run(*words):
    """What the program prints, by the minimax."""
    if not words:
        rows = [f"\n (angle {a} " + " ".join(str(TURNS[a, r]) for r in slewgame.RATES) + ")" for a in slewgame.ANGLES]
        return "(region" + "".join(rows) + ")\n"
    if words[0] == "reply":
        a, r, left, u = words[1:]
        found = [d for d in (-1, 0, 1) if not slewgame.at_home(a, r) and slewgame.after(a, r, u, d) not in WON[min(left - 1, len(WON) - 1)]]
        return f"(reply\n (adds {found[0]}))\n" if found else "(reply\n (none))\n"
    n = TURNS[words]
    if n in (0, slewgame.HELD):
        return "(start\n (home))\n" if n == 0 else "(start\n (held-off))\n"
    u = next(u for u in (-2, -1, 0, 1, 2) if all(slewgame.after(*words, u, d) in WON[n - 1] for d in (-1, 0, 1)))
    return f"(start\n (turns {n})\n (choice {u}))\n"


class Region(unittest.TestCase):
    def setUp(self):
        self.runs = slewgame.run_region
        slewgame.run_region = fake_run

    def tearDown(self):
        slewgame.run_region = self.runs

    def play(self, side, angle, rate, lines):
        """What a game prints whose person types these lines."""
        stdin, stdout = sys.stdin, sys.stdout
        sys.stdin, sys.stdout = io.StringIO(lines), io.StringIO()
        try:
            slewgame.duel(side, angle, rate)
            return sys.stdout.getvalue()
        finally:
            sys.stdin, sys.stdout = stdin, stdout

    def test_every_start_is_drawn(self):
        turns = slewgame.read_region(fake_run())
        self.assertEqual((len(turns), sum(n != slewgame.HELD for n in turns.values()), max(n for n in turns.values() if n != slewgame.HELD)), (2193, 2025, 25))
        root = xml.etree.ElementTree.fromstring(slewgame.region_drawing(turns))
        cells = [e for e in root.iter() if e.get("class") == "start"]
        colours = [e.get("fill") for e in cells]
        self.assertEqual((len(cells), colours.count(slewgame.HOME), colours.count(slewgame.HELD_OFF)), (2193, 45, 168))
        self.assertEqual(len(set(colours)), 2 + len(slewgame.SHADES))

    def test_turns_that_share_a_colour(self):
        shared = slewgame.steps(25)
        self.assertEqual([n for low, high, _ in shared for n in range(low, high + 1)], list(range(1, 26)))

    def test_a_damaged_region(self):
        good = fake_run()
        for bad in (good.replace(" (angle 3 ", " (angle 99 ", 1), good.replace(" 255", "", 1), good.replace(" 255", " 65", 1), good.replace(" 255", " x", 1), "(start\n (home))\n", ""):
            self.assertRaises(slewtext.Fault, slewgame.read_region, bad)

    def test_the_stored_region_is_the_minimax(self):
        with open(os.path.join(os.path.dirname(TOOL), "..", "crates", "slew_region", "stdout"), encoding="utf-8") as file:
            self.assertEqual(slewgame.read_region(file.read()), TURNS)

    def test_no_draught_wins_where_home_is_forced(self):
        draw = random.Random(3)
        for start in draw.sample(sorted(s for s, n in TURNS.items() if 0 < n < slewgame.HELD), 60):
            told = self.play("draught", *start, "".join(f"{draw.choice((-1, 0, 1))}\n" for _ in range(64)))
            self.assertTrue(told.endswith("home. The drive wins.\n"))
            self.assertLessEqual(told.count("turn ") - told.count("1 turn at"), TURNS[start] * 2)

    def test_no_drive_wins_where_it_is_held_off(self):
        draw = random.Random(4)
        for start in draw.sample(sorted(s for s, n in TURNS.items() if n == slewgame.HELD), 30):
            told = self.play("drive", *start, "".join(f"{draw.choice((-2, -1, 0, 1, 2))}\n" for _ in range(64)))
            self.assertIn("the draught wins" if "64 turns, and" in told else "The draught wins", told)

    def test_bad_lines_and_the_end_of_input(self):
        told = self.play("draught", 20, 0, "two\n3\n\n")
        self.assertIn("It must be a whole number, not 'two'.", told)
        self.assertIn("It must be from -1 to 1, not 3.", told)
        self.assertNotIn("wins", told)
        self.assertIn("home. The drive wins.", self.play("drive", 0, 0, ""))

    def test_bad_words_are_one_sentence(self):
        for words in (("x", "0"), ("65", "0"), ("0", "-9"), ("--as", "wind", "0", "0"), ("--as", "drive")):
            fault = run("duel", *words)
            self.assertEqual((fault.returncode, fault.stdout, len(fault.stderr.splitlines())), (1, "", 1), words)


class Balance(html.parser.HTMLParser):
    """Every tag that is opened is closed, in order."""
    def __init__(self):
        super().__init__()
        self.open, self.wrong = [], []

    def handle_starttag(self, tag, attrs):
        if tag not in ("meta", "rect", "line", "polyline", "circle"):
            self.open.append(tag)

    def handle_startendtag(self, tag, attrs):
        pass

    def handle_endtag(self, tag):
        if not self.open or self.open.pop() != tag:
            self.wrong.append(tag)


class Reports(unittest.TestCase):
    def page(self, problem, answer):
        folder = os.path.join(slewtext.ROOT, "examples")
        text = slewtext.report(os.path.join(folder, problem), os.path.join(folder, answer))
        check = Balance()
        check.feed(text)
        self.assertEqual((check.open, check.wrong), ([], []))
        self.assertTrue(text.startswith("<!doctype html>") and "<script" not in text and "http://" not in text.replace("http://www.w3.org/2000/svg", ""))
        return text

    def test_paths(self):
        for name in ("quarter-turn", "three-wheels", "thrusters", "gyro-pyramid", "slew-limit", "turning-wheels"):
            text = self.page(name + ".toml", name + ".answer")
            self.assertEqual(text, self.page(name + ".slew", name + ".answer"))
            self.assertIn("What is proved of this path", text)
        self.assertIn("A slew of 90 degrees in 10.03 s", self.page("quarter-turn.toml", "quarter-turn.answer"))

    def test_refusals(self):
        self.assertIn("A slew that is refused", self.page("refused-half-turn.toml", "refused-half-turn.answer"))

    def test_mosaics(self):
        self.assertIn("8 of 8 legs planned", self.page("nine-tiles.toml", "nine-tiles.answer"))
        self.assertIn('class="refused"', self.page("refused-second-leg.mosaic", "refused-second-leg.answer"))

    def test_another_problems_path(self):
        self.assertRaises(slewtext.Fault, self.page, "three-wheels.toml", "gyro-pyramid.answer")


class Run(unittest.TestCase):
    """The words of ./run that need no program."""
    def run_with(self, *words):
        return subprocess.run([os.path.join(slewtext.ROOT, "run"), *words], capture_output=True, text=True)

    def test_help(self):
        told = self.run_with("--help")
        self.assertEqual((told.returncode, told.stderr), (0, ""))
        for words in ("--eigenaxis", "--samples", "--board", "--canonical", "--order", "--region", "Exit status"):
            self.assertIn(words, told.stdout)

    def test_wrong_words(self):
        text = os.path.join(slewtext.ROOT, "examples", "quarter-turn.slew")
        for words in ([], ["nowhere"], ["/"], ["--no", text], ["--samples", text], ["--samples", "x", text], ["--samples", "-1", text], ["--samples", "9", "--bord", text],
                      ["--eigenaxis"], ["--eigenaxis", "--fast", text], ["--order"], ["--canonical", "nowhere"], ["--region", "1"], ["--region", "a", "1"], [text, text]):
            told = self.run_with(*words)
            self.assertEqual((told.returncode, told.stdout), (2, ""), words)
            self.assertIn("--help", told.stderr)
        for words, said in ((["--samples", text], "./run --samples N FILE"), (["nowhere"], "there is no file nowhere"), (["--canonical", "/"], "/ is a folder"), (["--eigenaxis", "--gentle"], "no file --gentle")):
            self.assertIn(said, self.run_with(*words).stderr)

    def test_files_that_are_no_problem(self):
        with tempfile.TemporaryDirectory() as folder:
            for name, text, said in (("empty.slew", "", "is empty"), ("wrong.toml", "from = 3", "slewtext: from must be a table"), ("wrong.json", "{", "neither TOML nor JSON")):
                with open(os.path.join(folder, name), "w", encoding="ascii") as file:
                    file.write(text)
                told = self.run_with(os.path.join(folder, name))
                self.assertEqual((told.returncode, told.stdout), (2, ""))
                self.assertIn(said, told.stderr)


def is_built(*programs):
    """Whether they are built, and no source is newer."""
    made = [os.path.join(slewtext.ROOT, "target", "bin", program) for program in programs]
    sources = [os.path.join(folder, name) for folder, _, names in os.walk(os.path.join(slewtext.ROOT, "crates")) for name in names if "/out/" not in folder + "/"] + [os.path.join(slewtext.ROOT, "crates.txt")]
    return all(map(os.path.exists, made)) and min(map(os.path.getmtime, made)) > max(map(os.path.getmtime, sources))


@unittest.skipUnless(is_built("slew", "slew_mosaic", "slew_samples"), "slew, slew_mosaic and slew_samples are not built")
class Built(unittest.TestCase):
    """./run over the built programs."""
    def run_with(self, *words, text=None):
        return subprocess.run([os.path.join(slewtext.ROOT, "run"), *words], input=text, capture_output=True, text=True)

    def test_examples_in_decimal(self):
        for name in sorted(os.listdir(os.path.join(slewtext.ROOT, "examples"))):
            if name.endswith(".toml") and os.path.exists(os.path.join(slewtext.ROOT, "examples", name.removesuffix(".toml") + ".answer")):
                way = ["--eigenaxis"] if name == "star-field.toml" else []
                told = self.run_with(*way, os.path.join(slewtext.ROOT, "examples", name))
                self.assertEqual((told.stdout, told.returncode, told.stderr == ""), (stored(name.removesuffix(".toml") + ".answer"), 3 * name.startswith("refused"), not name.startswith("refused")))

    def test_standard_input(self):
        for name, answer in (("quarter-turn.slew", "quarter-turn.answer"), ("refused-second-leg.mosaic", "refused-second-leg.answer")):
            self.assertEqual(self.run_with("-", text=stored(name)).stdout, stored(answer))

    def test_from_decimal_to_a_drawing(self):
        problem = os.path.join(slewtext.ROOT, "examples", "three-wheels.toml")
        for words in ([], ["--eigenaxis"], ["--eigenaxis", "--gentle"]):
            answer = self.run_with(*words, problem).stdout
            for command in ("draw", "stops", "controls", "report"):
                self.assertEqual(run(command, problem, "-", text=answer).returncode, 0)
        samples = self.run_with("--samples", "50", problem).stdout
        self.assertEqual(run("unplanes", "-", text="").returncode, 1)
        self.assertEqual(len(run("samples", "-", text=samples).stdout.splitlines()), 1 + samples.count("(sample "))


if __name__ == "__main__":
    unittest.main()
