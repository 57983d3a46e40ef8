#!/usr/bin/env python3
"""Tests of the Python binding over target/lib/libslew.so: python3 bindings/python/test_slew.py (or `make python-test`)."""

import glob
import importlib.machinery
import importlib.util
import itertools
import math
import os
import random
import struct
import subprocess
import sys
import unittest
from dataclasses import replace

HERE = os.path.dirname(os.path.abspath(__file__))
TOP = os.path.dirname(os.path.dirname(HERE))
sys.path.insert(0, HERE)

import slew  # noqa: E402
from slew import Planner, Problem, Pyramid, Refused, Thruster, Weights, Wheel, after, turn  # noqa: E402


def tool(name: str):
    """A program of tools/ as a module."""
    sys.dont_write_bytecode = True
    loader = importlib.machinery.SourceFileLoader(name, os.path.join(TOP, "tools", name))
    module = importlib.util.module_from_spec(importlib.util.spec_from_loader(name, loader))
    loader.exec_module(module)
    return module


def bits(x: float) -> int:
    return struct.unpack("<Q", struct.pack("<d", x))[0]


def hexed(x: float) -> str:
    return struct.pack(">d", x).hex().upper().rstrip("0") or "0"


def quarter() -> Problem:
    """The problem of examples/quarter-turn.slew."""
    return Problem(q0=(1, 0, 0, 0), qf=(0.7071067811865476, 0, 0, 0.7071067811865475), inertia_kgm2=(10, 12, 8), torque_limit_nm=(0.5, 0.5, 0.5), weights=Weights(time=1))


class Plans(unittest.TestCase):
    planner = Planner()

    def test_texts(self):
        """Every example's text gives the stored answer, byte for byte."""
        texts = sorted(glob.glob(os.path.join(TOP, "examples", "*.slew")))
        self.assertGreater(len(texts), 10)
        for name in texts:
            with open(name, "rb") as text, open(name[:-5] + ".answer", "rb") as answer:
                self.assertEqual(self.planner.plan_text(text.read()), answer.read(), name)

    def test_numbers_are_the_text(self):
        """A problem in numbers gives the path that its text gives: duration, rows and nodes, bit for bit."""
        with open(os.path.join(TOP, "examples", "quarter-turn.slew"), "rb") as text:
            lines = self.planner.plan_text(text.read()).decode().split("\n")
        path = self.planner.plan(quarter())
        self.assertEqual(lines[3], f" (duration {hexed(path.duration)})")
        self.assertEqual([f" (row {' '.join(map(hexed, row))})" for row in path.rows], lines[4:20])
        for k, node in enumerate(path.nodes):
            numbers = [node.t, *node.q, *node.w, *node.tau, *node.h, *node.hw]
            self.assertEqual(f" (node {' '.join(map(hexed, numbers))})" + (")" if k == 16 else ""), lines[20 + k])

    def test_a_texts_problem(self):
        """The problem of a text is planned as the text is; a wrong text is refused."""
        for name in sorted(glob.glob(os.path.join(TOP, "examples", "*.slew"))):
            with open(name, "rb") as file:
                text = file.read()
            answer = self.planner.plan_text(text).decode().split("\n")
            try:
                path = self.planner.plan(self.planner.problem(text))
                self.assertEqual([f" (node {' '.join(map(hexed, [n.t, *n.q, *n.w, *n.tau, *n.h, *n.hw]))})" for n in path.nodes], [line.replace("))", ")") for line in answer[20:37]])
            except Refused as told:
                self.assertEqual(answer[:4], ["(refused", f" (number {told.number})", f" (place {told.place})", f" (runs {told.runs}))"])

    def test_a_seed_of_ones_own(self):
        """The seed of another path leads somewhere, and a seed of 16 nodes is refusal 10."""
        path = self.planner.plan(quarter())
        again = self.planner.plan_from(quarter(), path.duration, [n.w for n in path.nodes], [n.tau for n in path.nodes])
        self.assertLessEqual(abs(again.nodes[16].q[3] - 0.7071067811865475), 1e-4)
        with self.assertRaises(Refused) as told:
            self.planner.plan_from(quarter(), path.duration, [n.w for n in path.nodes][:16], [n.tau for n in path.nodes])
        self.assertEqual((told.exception.number, told.exception.place, told.exception.runs), (10, 0, 0))

    def test_refusals(self):
        p = quarter()
        cases = [
            (dict(qf=p.q0), 7, 0, "nothing to slew"),
            (dict(torque_limit_nm=(0.0, 1.0, 1.0)), 4, 0, "torque or slew limit"),
            (dict(wheels=(Wheel((1, 0, 0), 1, 1, start_nms=2.0),) * 3), 22, 0, "start momentum"),
            (dict(wheels=(Wheel((1, 0, 0), 1, 1),) * 9), 1, 0, "8 wheels"),
            (dict(inertia_kgm2=(1, 1, math.nan)), 6, 0, "inertia"),
        ]
        for change, number, place, words in cases:
            with self.assertRaises(Refused) as told:
                self.planner.plan(slew.replace(p, **change))
            self.assertEqual((told.exception.number, told.exception.place, told.exception.runs), (number, place, 0))
            self.assertIn(words, told.exception.sentence)

    def test_kinds(self):
        """Every kind of actuator reaches the planner: a path, or a refusal of the search, never one of its arguments."""
        axes = [(1, 0, 0), (0, 1, 0), (0, 0, 1)]
        kinds = [dict(wheels=tuple(Wheel(a, 0.6, 50.0, 100.0) for a in axes)), dict(thrusters=tuple(Thruster(a, 0.6) for a in axes)),
                 dict(pyramid=Pyramid(math.radians(54.7), 30.0, 1.0, 1e-3)), dict(slew_limit_rad_s=1.0), dict(weights=Weights(time=0))]
        for kind in kinds:
            try:
                path = self.planner.plan(slew.replace(quarter(), qf=turn((0, 0, 1), 10), **kind))
                self.assertEqual(len(path.nodes[16].hw), len(kind.get("wheels", ())))
            except Refused as told:
                self.assertGreater(told.number, 10, kind)

    def test_the_next_slew(self):
        """The next problem's wheels start with the path's last momenta, and node 0 of its path has just these bits."""
        with open(os.path.join(TOP, "examples", "three-wheels.answer")) as answer:
            self.assertTrue(answer.readline().startswith("(path"))
        wheels = tuple(Wheel(a, 0.6, 50.0) for a in [(1, 0, 0), (0, 1, 0), (0, 0, 1)])
        p = slew.replace(quarter(), qf=turn((0, 0, 1), 10), wheels=wheels, weights=Weights(time=0))
        first = self.planner.plan(p)
        second = self.planner.plan(slew.replace(after(p, first), q0=p.qf, qf=turn((0, 0, 1), 15)))
        self.assertEqual(list(map(bits, second.nodes[0].hw)), list(map(bits, first.nodes[16].hw)))

    def test_rerun(self):
        """A path's decision, run again, has its nodes; one bit of it changed has not."""
        wheels = tuple(Wheel(a, 0.6, 50.0, start_nms=s) for a, s in [((1, 0, 0), 0.0), ((0, 1, 0), -0.0), ((0, 0, 1), 0.25)])
        for problem in (quarter(), slew.replace(quarter(), qf=turn((0, 0, 1), 10), wheels=wheels, weights=Weights(time=0))):
            path = self.planner.plan(problem)
            self.assertEqual(self.planner.rerun(path), path.nodes)
            decision = list(path.decision)
            decision[3] = math.nextafter(decision[3], math.inf)
            self.assertNotEqual(self.planner.rerun(slew.replace(path, decision=tuple(decision))), path.nodes)

    def test_what_python_says(self):
        with self.assertRaises(ValueError):
            self.planner.plan(slew.replace(quarter(), q0=(1, 0, 0)))
        with self.assertRaises(OSError) as told:
            Planner("/nowhere/libslew.so")
        self.assertIn("make shared", str(told.exception))


class Requests(unittest.TestCase):
    planner = Planner()

    def test_eigenaxis(self):
        """Slews that the search refuses are planned about one axis, half turns too; gently they take longer."""
        axes = [(1, 0, 0), (0, 1, 0), (0, 0, 1)]
        hard = slew.replace(quarter(), qf=turn((1, 2, 3), 60), wheels=tuple(Wheel(a, 0.6, 50.0) for a in axes))
        with self.assertRaises(Refused):
            self.planner.plan(hard)
        fast, gentle = self.planner.plan_eigenaxis(hard), self.planner.plan_eigenaxis(hard, gentle=True)
        self.assertLess(fast.duration, gentle.duration)
        self.assertEqual(self.planner.rerun(slew.replace(fast, problem=slew.replace(hard, weights=Weights(time=0)))), fast.nodes)
        half = self.planner.plan_eigenaxis(slew.replace(quarter(), qf=turn((0, 1, 1), 180)))
        samples = list(self.planner.samples(half, 100))
        self.assertEqual((len(samples), samples[-1].q), (self.planner.sample_count(half, 100), half.nodes[16].q))
        self.assertLess(max(math.dist(a.w, b.w) for a, b in zip(samples, samples[1:])), 0.0016)

    def test_reference(self):
        """A reference is sampled at the period, begins and ends at rest, holds every limit and conserves the total angular momentum; to and fro the momenta return."""
        wheels = tuple(Wheel(a, 0.6, 50.0, start_nms=1.0) for a in [(1, 0, 0), (0, 1, 0), (0, 0, 1)])
        table = slew.replace(quarter(), q0=turn((0, 0, 1), 0), qf=turn((0, 0, 1), 60), wheels=wheels, inertia_kgm2=(10, 12, 8), torque_limit_nm=(0.5, 0.5, 0.5))
        there = self.planner.reference(table, 0.02)
        first, last = there.samples[0], there.samples[-1]
        self.assertEqual((first.q, first.hw, math.hypot(*first.w, *last.w), last.u), (table.q0, (1.0, 1.0, 1.0), 0.0, (0.0, 0.0, 0.0)))
        self.assertEqual((last.t, last.hw), (there.duration, there.end))
        self.assertLess(math.dist(last.q, table.qf), 1e-9)
        for k, s in enumerate(there.samples):
            self.assertAlmostEqual(s.t, 0.02 * k, delta=1e-12)
            self.assertLessEqual(max(map(abs, s.u)), 0.5)
            self.assertAlmostEqual(math.hypot(*(j * w + h for j, w, h in zip(table.inertia_kgm2, s.w, s.hw))), math.sqrt(3), delta=1e-9)
        slower = self.planner.reference(table, 0.02, 2 * there.duration)
        self.assertAlmostEqual(slower.duration, 2 * there.duration, delta=0.02)
        with self.assertRaises(Refused) as told:
            self.planner.reference(table, 0.02, there.duration / 2)
        self.assertIn(told.exception.number, (17, 29))
        at, back = table, slew.replace(table, q0=table.qf, qf=table.q0)
        for problem in (table, back) * 10:
            at = after(problem, self.planner.reference(slew.replace(problem, wheels=at.wheels), 0.1))
        self.assertLess(max(abs(wheel.start_nms - 1.0) for wheel in at.wheels), 1e-9)

    def test_references_of_other_actuators(self):
        """Thrusters, body torques and four wheels have references; a pyramid has none."""
        six = tuple(Thruster(a, 0.6) for a in [(1, 0, 0), (0, 1, 0), (0, 0, 1), (-1, 0, 0), (0, -1, 0), (0, 0, -1)])
        four = tuple(Wheel(a, 0.6, 50.0, start_nms=5.0) for a in [(1, 0, 0), (0, 1, 0), (0, 0, 1), (0.6, 0.8, 0)])
        for problem, controls in ((quarter(), 3), (slew.replace(quarter(), thrusters=six), 6), (slew.replace(quarter(), wheels=four), 4)):
            found = self.planner.reference(problem, 0.05)
            self.assertEqual({len(s.u) for s in found.samples}, {controls})
            self.assertLess(math.dist(found.samples[-1].q, problem.qf), 1e-9)
        with self.assertRaises(Refused) as told:
            self.planner.reference(slew.replace(quarter(), pyramid=Pyramid(0.95, 1.0, 1.0, 1e-3)), 0.05)
        self.assertEqual((told.exception.number, told.exception.place), (8, 0))

    def test_legs(self):
        """Each leg is the plan of that leg alone from the momenta that the one before it ended with; a refused leg is told with its index."""
        wheels = tuple(Wheel(a, 0.6, 50.0, start_nms=s) for a, s in [((1, 0, 0), 0.0), ((0, 1, 0), 0.0), ((0, 0, 1), 0.25)])
        table = slew.replace(quarter(), wheels=wheels, weights=Weights(time=0))
        tiles, at, paths = [turn((0, 0, 1), 5 * k) for k in range(5)], table, []
        for k, leg in enumerate(self.planner.legs(table, tiles)):
            alone = self.planner.plan(slew.replace(at, q0=tiles[k], qf=tiles[k + 1]))
            self.assertEqual((leg.nodes, leg.duration, leg.runs, leg.held), (alone.nodes, alone.duration, alone.runs, alone.held))
            at, paths = after(table, leg), paths + [leg]
        self.assertEqual(len(paths), 4)
        stood = []
        with self.assertRaises(Refused) as told:
            stood += self.planner.legs(table, tiles[:2] + [(0.5, 0, 0, 0)] + tiles[2:])
        self.assertEqual((told.exception.leg, told.exception.number, told.exception.place), (1, 5, 1))
        for count in (0, 1, 65):
            with self.assertRaises(Refused) as told:
                list(self.planner.legs(table, [tiles[0]] * count))
            self.assertEqual(told.exception.number, 23)

    def test_legs_about_one_axis(self):
        """Legs that the search refuses, with wheels that turn at the start, are planned about one axis; each is the eigenaxis plan of that leg alone."""
        wheels = tuple(Wheel(a, 0.6, 50.0, start_nms=s) for a, s in [((1, 0, 0), 5.0), ((0, 1, 0), -3.0), ((0, 0, 1), 1.0)])
        table = slew.replace(quarter(), wheels=wheels)
        tiles = [turn((0, 0, 1), 0), turn((1, 2, 3), 40), turn((0, 1, -1), 70), turn((1, 0, 0), 10)]
        with self.assertRaises(Refused):
            list(self.planner.legs(table, tiles))
        sums = {}
        for way in ("eigenaxis", "gentle"):
            at, sums[way] = table, 0.0
            for k, leg in enumerate(self.planner.legs(table, tiles, way)):
                alone = self.planner.plan_eigenaxis(slew.replace(at, q0=tiles[k], qf=tiles[k + 1]), gentle=way == "gentle")
                self.assertEqual((leg.nodes, leg.duration, leg.runs, leg.held), (alone.nodes, alone.duration, alone.runs, alone.held))
                at, sums[way] = after(table, leg), sums[way] + leg.duration
            self.assertEqual(k, 2)
        self.assertNotEqual(sums["eigenaxis"], sums["gentle"])
        with self.assertRaises(ValueError):
            list(self.planner.legs(table, tiles, "fast"))

    def test_ask_then_commit(self):
        wheels = tuple(Wheel(a, 0.6, 50.0) for a in [(1, 0, 0), (0, 1, 0), (0, 0, 1)])
        record = slew.Record((0.0, 0.0, 0.25))
        table = slew.replace(quarter(), qf=turn((0, 0, 1), 10), wheels=wheels, weights=Weights(time=0))
        one, other = self.planner.preview(record, table), self.planner.preview(record, slew.replace(table, qf=turn((0, 0, 1), 5)))
        self.assertEqual(list(map(bits, one.path.nodes[0].hw)), list(map(bits, record.momenta)))
        started = self.planner.start(record, one)
        self.assertEqual(list(map(bits, started.momenta)), list(map(bits, one.path.nodes[16].hw)))
        with self.assertRaises(Refused) as told:
            self.planner.start(started, other)
        self.assertEqual(told.exception.number, 26)
        with self.assertRaises(Refused) as told:
            self.planner.start(slew.Record((0.0, -0.0, 0.25)), other)
        self.assertEqual((told.exception.number, told.exception.place), (26, 1))
        with self.assertRaises(Refused) as told:
            self.planner.preview(slew.Record((0.0,)), table)
        self.assertEqual((told.exception.number, told.exception.place), (22, 1))

    def test_canonical(self):
        with open(os.path.join(TOP, "examples", "quarter-turn.slew"), "rb") as text, open(os.path.join(TOP, "examples", "written-otherwise.slew"), "rb") as other:
            self.assertEqual(self.planner.canonical(other.read()), text.read())
        with self.assertRaises(Refused) as told:
            self.planner.canonical("(problem\n (q0 3FF 0 0 0 )\n")
        self.assertEqual((told.exception.number, told.exception.place), (21, 2))

    def test_held(self):
        path = self.planner.plan(quarter())
        self.assertEqual(len(path.held), 3)
        at_limit = [sum(abs(row[i]) == 0.5 for row in path.rows) for i in range(3)]
        self.assertTrue(all(0 <= h <= n for h, n in zip(path.held, at_limit)) and path.held[2] > 0)


class Samples(unittest.TestCase):
    planner = Planner()

    def test_samples(self):
        """As many as are counted, evenly in time, the end nodes first and last."""
        path = self.planner.plan(quarter())
        samples = list(self.planner.samples(path, 100))
        self.assertEqual((len(samples), self.planner.sample_count(path, 100)), (419, 419))
        self.assertEqual([s.t for s in samples], [path.duration * i / 418.0 for i in range(419)])
        self.assertEqual((samples[0].q, samples[-1].q), (path.nodes[0].q, path.nodes[16].q))
        self.assertEqual(len(list(self.planner.samples(path, 100, alpha=0.0))), 100)
        self.assertEqual(self.planner.sample_list(path, 100), samples)

    def test_board(self):
        path = self.planner.plan(quarter())
        for sample, numbers in zip(self.planner.samples(path, 50), self.planner.board(path, 50), strict=True):
            floats = [*sample.q, *sample.w, *sample.tau, *sample.h]
            for i, (x, n) in enumerate(zip(floats, numbers, strict=True)):
                self.assertLessEqual(abs(x * (2.0 ** 30 if i < 4 else 2.0 ** 20) - n), 0.5)

    def test_too_many(self):
        with self.assertRaises(Refused) as told:
            list(self.planner.samples(self.planner.plan(quarter()), 100_001))
        self.assertEqual(told.exception.number, 20)


class Beside(unittest.TestCase):
    planner = Planner()

    def test_order(self):
        """The cheapest order of random tables, beside all of them."""
        rng = random.Random(1)
        for tiles in (1, 2, 4, 6):
            times = [[rng.randrange(1, 10_000) for _ in range(tiles)] for _ in range(tiles)]
            found = self.planner.order(times)
            costs = [sum(times[a][b] for a, b in itertools.pairwise((0, *rest))) for rest in itertools.permutations(range(1, tiles))]
            self.assertEqual((found.cost, found.used_up, sorted(found.tiles)), (min(costs), False, list(range(tiles))))
        for bad in ([], [[0, 0], [1, 0]], [[0, -1], [1, 0]], [[0, 2 ** 40], [1, 0]], [[0]] * 11):
            with self.assertRaises(Refused) as told:
                self.planner.order(bad)
            self.assertEqual(told.exception.number, 25)

    def test_game(self):
        self.assertEqual(self.planner.outcome(36, 8), (25, -2))
        self.assertEqual(self.planner.outcome(0, 0), (0, None))
        self.assertEqual(self.planner.outcome(64, 8), (None, None))
        self.assertEqual(len(self.planner.region()), 2_193)
        self.assertEqual(sum(n != 255 for n in self.planner.region()), 2_025)
        self.assertIsNotNone(self.planner.reply(36, 8, 24, -2))
        with self.assertRaises(Refused) as told:
            self.planner.outcome(65, 0)
        self.assertEqual(told.exception.number, 27)

    def test_planes(self):
        rng = random.Random(2)
        for count in (0, 1, 17, 4_096):
            column = [struct.unpack("<d", rng.randbytes(8))[0] for _ in range(count)]
            self.assertEqual(list(map(bits, self.planner.decode_planes(self.planner.encode_planes(column)))), list(map(bits, column)))
        for bad in (b"seven b", bytes(8 * 4_097)):
            with self.assertRaises(Refused) as told:
                self.planner.decode_planes(bad)
            self.assertEqual(told.exception.number, 28)

    def test_sentences(self):
        """The sentences are the program's: of every number up to 40, at several places, one line of plain text, and the one that tools/slewtext tells."""
        told = tool("slewtext").refusal
        for number, place, runs, sampled in itertools.product(range(41), (0, 1, 2, 7, 8, 9, 19, 20, 21, 2 ** 64 - 1), (0, 1, 2042), (False, True)):
            sentence = self.planner.explain(number, place, runs, sampled)
            self.assertTrue(sentence.endswith(".") and "\n" not in sentence and len(sentence) < 212, sentence)
            self.assertEqual(sentence, told(number, place, runs, sampled))

    def test_a_refused_sample_says_so(self):
        """Refusal 11 of a sample has the sample as its place, and a sentence of its own; of a run it names the step."""
        path = self.planner.plan(quarter())
        spoilt = list(path.numbers)
        spoilt[22 * 3 + 5] = 1e9  # the rate of node 3
        with self.assertRaises(Refused) as told:
            list(self.planner.samples(replace(path, numbers=tuple(spoilt)), 100, 0.0))
        self.assertEqual((told.exception.number, told.exception.runs), (11, 0))
        self.assertTrue(told.exception.sentence.startswith(f"Sample {told.exception.place} turns"), told.exception.sentence)
        self.assertTrue(self.planner.explain(11, 3, 1).startswith("Step 3 of a run"))


class Example(unittest.TestCase):
    def printed(self, name):
        told = subprocess.run([sys.executable, os.path.join(HERE, name)], capture_output=True, text=True)
        self.assertEqual((told.returncode, told.stderr), (0, ""))
        return told.stdout

    def test_scan(self):
        self.assertIn("leg 2", self.printed("scan.py"))

    def test_drive(self):
        problem = os.path.join(TOP, "examples", "three-wheels.toml")
        run = lambda *words: subprocess.run([sys.executable, os.path.join(HERE, "drive.py"), *words], capture_output=True, text=True)
        for words in ([problem, "100"], ["--gentle", problem, "100"]):
            told = run(*words)
            rows = [list(map(float, line.split(","))) for line in told.stdout.splitlines()[1:]]
            self.assertEqual((told.returncode, told.stderr, len(rows) >= 100, {len(row) for row in rows}, rows[0][:5]), (0, "", True, {14}, [0, 1, 0, 0, 0]))
            self.assertAlmostEqual(rows[-1][4], math.sin(math.radians(15)), 8)
        for words, status in ((["nowhere", "100"], 2), ([problem], 2), ([os.path.join(TOP, "examples", "refused-two-wheels.toml"), "9"], 3)):
            told = run(*words)
            self.assertEqual((told.returncode, told.stdout, "Traceback" in told.stderr), (status, "", False))

    def test_notebook(self):
        told = self.printed("notebook.py")
        for words in ("9.16 s, 21 forward runs", "refusal  7", "refusal 4, place 0", "slew 3: to  0 degrees", "the same nodes: True"):
            self.assertIn(words, told)


if __name__ == "__main__":
    unittest.main()
