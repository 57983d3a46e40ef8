#!/usr/bin/env python3
"""Tests of ./run over the built programs, and of what it stands on: python3 tools/test_run.py (`./run --build` builds them)"""

from __future__ import annotations

import json
import os
import shutil
import subprocess
import sys
import tempfile
import tomllib
import unittest
from typing import Optional, Tuple

sys.dont_write_bytecode = True
TOP = os.path.dirname(os.path.dirname(os.path.realpath(__file__)))
EXAMPLES = os.path.join(TOP, "examples")


def stored(name: str) -> str:
    with open(os.path.join(EXAMPLES, name), encoding="ascii") as file:
        return file.read()


def run(*words: str, text: Optional[str] = None, folder: str = TOP, command: str = os.path.join(TOP, "run")) -> Tuple[int, str, str]:
    """Exit status, standard output and standard error of ./run."""
    given = {"stdin": subprocess.DEVNULL} if text is None else {"input": text}
    done = subprocess.run([command, *words], capture_output=True, text=True, cwd=folder, **given)  # type: ignore[call-overload]
    return done.returncode, done.stdout, done.stderr


class Input(unittest.TestCase):
    """What a file is, is known by what is in it."""

    def setUp(self) -> None:
        self.folder = tempfile.mkdtemp()
        self.addCleanup(shutil.rmtree, self.folder)

    def file(self, name: str, text: str) -> str:
        path = os.path.join(self.folder, name)
        with open(path, "w", encoding="utf-8") as file:
            file.write(text)
        return path

    def plans(self, answer: str, *words: str, text: Optional[str] = None) -> None:
        self.assertEqual(run(*words, text=text, folder=self.folder), (0, stored(answer), ""), words)

    def refuses(self, said: str, *words: str, text: Optional[str] = None) -> None:
        """Status 2, nothing on standard output, a sentence."""
        status, out, err = run(*words, text=text, folder=self.folder)
        self.assertEqual((status, out), (2, ""), words)
        self.assertIn(said, err)

    def test_decimal(self) -> None:
        toml = stored("quarter-turn.toml")
        asjson = json.dumps(tomllib.loads(toml))
        for text in (toml, asjson, "\ufeff" + toml, "\n\n" + asjson, stored("quarter-turn.slew")):
            self.plans("quarter-turn.answer", "-", text=text)
            for name in ("a.TOML", "noname", "a.slew", "a b.json"):
                self.plans("quarter-turn.answer", self.file(name, text))

    def test_mosaics(self) -> None:
        toml = stored("nine-tiles.toml")
        tables = tomllib.loads(toml)
        spaced = toml.replace("[[tile]]", "[[ tile ]]")
        self.assertNotEqual(toml, spaced)
        for text in (toml, spaced, json.dumps(tables), stored("nine-tiles.mosaic")):
            self.plans("nine-tiles.answer", "-", text=text)
        inline = "tile = [" + ", ".join("{" + ", ".join(f"{key} = {json.dumps(value)}" for key, value in tile.items()) + "}" for tile in tables["tile"]) + "]\n"
        self.plans("nine-tiles.answer", self.file("inline", inline + toml[:toml.index("[[tile]]")]))

    def test_a_comment_about_tiles(self) -> None:
        self.plans("quarter-turn.answer", "-", text='# a comment: "tile" = 1\n#[[tile]]\n' + stored("quarter-turn.toml"))

    def test_names(self) -> None:
        self.file("-x", stored("quarter-turn.toml"))
        self.plans("quarter-turn.answer", "--", "-x")
        self.plans("quarter-turn.answer", "./-x")
        self.refuses("there is no -x", "-x")
        link = os.path.join(self.folder, "planner")
        os.symlink(os.path.join(TOP, "run"), link)
        self.assertEqual(run("./-x", folder=self.folder, command=link), (0, stored("quarter-turn.answer"), ""))

    def test_what_is_no_problem(self) -> None:
        self.refuses("/dev/zero has more than", "/dev/zero")
        self.refuses("standard input is empty", "-", text="")
        self.refuses("/dev/null is empty", "/dev/null")
        self.refuses("is empty", self.file("empty.slew", ""))
        self.refuses("Standard input is neither TOML nor JSON", "-", text="what?")
        self.refuses("neither TOML nor JSON", self.file("no.slew", "{"))
        self.refuses("slewtext: from must be a table", self.file("wrong", "from = 3"))

    def test_order(self) -> None:
        self.assertEqual(run("--order", "-", text=stored("six-tiles.tiles")), run("--order", os.path.join(EXAMPLES, "six-tiles.tiles")))


class Answers(unittest.TestCase):
    quarter = os.path.join(EXAMPLES, "quarter-turn.slew")

    def test_full_disk(self) -> None:
        """An answer that cannot be written whole is status 1, with a sentence."""
        for words in ([self.quarter], ["--samples", "100", self.quarter], [os.path.join(EXAMPLES, "nine-tiles.mosaic")], ["--eigenaxis", self.quarter]):
            with open("/dev/full", "w", encoding="ascii") as full:
                done = subprocess.run([os.path.join(TOP, "run"), *words], stdout=full, stderr=subprocess.PIPE, text=True)
            self.assertEqual((done.returncode, done.stderr), (1, "run: the answer could not be written whole\n"), words)

    def test_no_standard_output(self) -> None:
        done = subprocess.run(["sh", "-c", '"$@" >&-', "sh", os.path.join(TOP, "run"), self.quarter], stderr=subprocess.PIPE, text=True)
        self.assertEqual((done.returncode, done.stderr), (1, "run: there is no standard output\n"))

    def test_more_controls_than_the_programs_lend_for(self) -> None:
        """Five wheels are refused with 9, by the search and about one axis."""
        table = tomllib.loads(stored("three-wheels.toml"))
        wheels = [{**wheel, "power_w": 1e9} for wheel in (table["wheel"] + table["wheel"])[:5]]
        for words in ([], ["--eigenaxis"]):
            status, out, err = run(*words, "-", text=json.dumps({**table, "wheel": wheels}))
            self.assertEqual((status, out.split("\n")[1]), (3, " (number 9)"))
            self.assertIn("workspace", err)

    def test_options_in_any_order(self) -> None:
        one = run("--samples", "50", "--eigenaxis", "--gentle", self.quarter)
        self.assertEqual(one[0], 0)
        self.assertEqual(one, run("--eigenaxis", "--gentle", "--samples", "50", self.quarter))
        for words in (["--gentle", self.quarter], ["--board", self.quarter], ["--canonical", "--eigenaxis", self.quarter]):
            self.assertEqual(run(*words)[0], 2, words)

    def test_from_decimal_to_a_drawing(self) -> None:
        problem = os.path.join(EXAMPLES, "three-wheels.toml")
        for words in ([], ["--eigenaxis"], ["--eigenaxis", "--gentle"]):
            answer = run(*words, problem)[1]
            for tool in ("draw", "stops", "controls", "report"):
                self.assertEqual(run(tool, problem, "-", text=answer, command=os.path.join(TOP, "tools", "slewtext"))[0], 0)
        samples = run("--samples", "50", problem)[1]
        read = run("samples", "-", text=samples, command=os.path.join(TOP, "tools", "slewtext"))[1]
        self.assertEqual(len(read.splitlines()), 1 + samples.count("(sample "))

    def test_examples_in_decimal(self) -> None:
        for name in sorted(os.listdir(EXAMPLES)):
            answer = name.replace(".toml", ".answer")
            if name.endswith(".toml") and os.path.exists(os.path.join(EXAMPLES, answer)):
                status, out, err = run(*["--eigenaxis"] * (name == "star-field.toml"), os.path.join(EXAMPLES, name))
                refused = name.startswith("refused")
                self.assertEqual((status, out, err == ""), (3 * refused, stored(answer), not refused), name)


def left(lines: str, wanted: str, jobs: int = 1, cores: int = 1, past: int = 0, since: int = 0) -> str:
    """What tools/progress says of these lines."""
    names = {"wanted": wanted, "jobs": jobs, "cores": cores, "past": past, "since": since}
    words = [word for name, value in names.items() for word in ("-v", f"{name}={value}")]
    return subprocess.run(["awk", *words, "-f", os.path.join(TOP, "tools", "progress.awk")], input=lines, capture_output=True, text=True, check=True).stdout.strip()


class Progress(unittest.TestCase):
    two = "cites low\ncites high low std\ntook low 100\ntook high 200\n"

    def test_by_the_table(self) -> None:
        self.assertEqual(left(self.two, "high"), "0 of 2 crates proved, about 5 min left")
        self.assertEqual(left(self.two, "low"), "0 of 1 crates proved, about 2 min left")

    def test_by_this_run(self) -> None:
        """Where the first crate took twice as long as elsewhere, so will the next one; time that passes counts."""
        half = self.two + "done low 200\n"
        self.assertEqual(left(half, "high", past=200), "1 of 2 crates proved, the last low, about 7 min left")
        self.assertEqual(left(half, "high", past=200, since=340), "1 of 2 crates proved, the last low, about 60 s left")
        self.assertEqual(left(half, "high", past=200, since=500), "1 of 2 crates proved, the last low, later than expected")

    def test_what_was_proved_before(self) -> None:
        """It costs nothing, unless something below it is to be proved."""
        self.assertEqual(left(self.two + "kept low\n", "high"), "1 of 2 crates proved, about 3 min left")
        self.assertEqual(left(self.two + "kept high\n", "high"), "0 of 2 crates proved, about 5 min left")
        self.assertEqual(left(self.two + "done low 0\n", "high"), "1 of 2 crates proved, the last low, about 3 min left")

    def test_jobs(self) -> None:
        """Crates of one level are proved so many at a time; a handful waits for its last, and for the cores."""
        three = "cites a\ncites b\ncites c\ncites all a b c\ntook a 240\ntook b 240\ntook c 120\ntook all 0\n"
        for jobs, cores, minutes in ((1, 2, 10), (2, 2, 6), (3, 2, 5), (3, 4, 4)):
            self.assertEqual(left(three, "all", jobs, cores), f"0 of 4 crates proved, about {minutes} min left")


if __name__ == "__main__":
    unittest.main()
