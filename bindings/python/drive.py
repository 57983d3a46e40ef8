#!/usr/bin/env python3
"""The dense samples of a slew that is planned about one axis, as CSV: python3 bindings/python/drive.py [--gentle] PROBLEM COUNT

PROBLEM is in decimal (a name in .toml or .json) or the program's text; there are at least COUNT samples, and so many that no step changes the rate by more than 0.0015 rad/s. Exit status 3 where it is refused.
"""

import contextlib
import json
import os
import sys
import tomllib
from typing import List

HERE = os.path.dirname(os.path.abspath(__file__))
sys.path[:0] = [HERE, os.path.join(HERE, "..", "..", "tools")]
sys.dont_write_bytecode = True

from slew import Planner, Refused  # noqa: E402
from slewforms import Fault  # noqa: E402
from slewproblem import problem_text  # noqa: E402

HEAD = "time_s,qw,qx,qy,qz,rate_x_rad_s,rate_y_rad_s,rate_z_rad_s,torque_x_nm,torque_y_nm,torque_z_nm,momentum_x_nms,momentum_y_nms,momentum_z_nms"


def text_of(name: str) -> str:
    with open(name, encoding="utf-8-sig") as file:
        given = file.read()
    if name.endswith(".toml"):
        return problem_text(tomllib.loads(given))
    return problem_text(json.loads(given)) if name.endswith(".json") else given


def main(words: List[str]) -> int:
    gentle = words[:1] == ["--gentle"]
    names = words[1:] if gentle else words
    if len(names) != 2 or not names[1].isdecimal():
        print(__doc__, file=sys.stderr)
        return 2
    planner = Planner()
    try:
        path = planner.plan_eigenaxis(planner.problem(text_of(names[0])), gentle)
        rows = [[s.t, *s.q, *s.w, *s.tau, *s.h] for s in planner.samples(path, int(names[1]))]
    except Refused as told:
        print(f"drive: {told}", file=sys.stderr)
        return 3
    except (OSError, ValueError, Fault) as fault:
        print(f"drive: {names[0]}: {fault}", file=sys.stderr)
        return 2
    with contextlib.suppress(BrokenPipeError):  # who reads it may be gone
        os.write(sys.stdout.fileno(), "\n".join([HEAD] + [",".join(map(repr, row)) for row in rows] + [""]).encode())
    return 0


if __name__ == "__main__":
    sys.exit(main(sys.argv[1:]))
