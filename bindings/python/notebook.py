#!/usr/bin/env python3
# %% [markdown]
# # A table's slews from Python
#
# The cells of this file run one after another in an editor that knows `# %%` (Jupyter, VS Code, Spyder), or all at once: `python3 bindings/python/notebook.py`. `make shared` builds the library first.

# %% The table: three wheels along the body's axes
import math
import os
import sys
from typing import Callable, Sequence

sys.path.insert(0, os.path.dirname(os.path.abspath(__file__)))

from slew import Path, Planner, Problem, Refused, Wheel, after, replace, turn  # noqa: E402

AXES = [(1.0, 0.0, 0.0), (0.0, 1.0, 0.0), (0.0, 0.0, 1.0)]
table = Problem(
    q0=turn((0, 0, 1), 0), qf=turn((0, 0, 1), 40), inertia_kgm2=(11.0, 12.5, 9.0), torque_limit_nm=(0.4, 0.4, 0.4),
    slew_limit_rad_s=math.radians(6), wheels=tuple(Wheel(axis, torque_nm=0.45, momentum_nms=6.0, start_nms=0.2) for axis in AXES))
planner = Planner()

# %% One slew, planned about one axis, as fast as the limits allow
path = planner.plan_eigenaxis(table)
print(f"{path.duration:.2f} s, {path.runs} forward runs, at most {max(math.degrees(math.hypot(*node.w)) for node in path.nodes):.2f} degrees/s")

# %% Its dense samples, for the drive
samples = list(planner.samples(path, 100))
print(f"{len(samples)} samples, the last at {samples[-1].t:.2f} s with attitude ({', '.join(f'{x:.6f}' for x in samples[-1].q)})")
print("the drive board's numbers of the first:", next(planner.board(path, 100)))

# %% A table of figures: turns of several angles, planned by the search and about one axis
def gentle(problem: Problem) -> Path:
    return planner.plan_eigenaxis(problem, gentle=True)


WAYS: Sequence[Callable[[Problem], Path]] = (planner.plan, planner.plan_eigenaxis, gentle)


def figures(degrees: float) -> str:
    """A row: the durations, or why there is none."""
    cells = []
    for plan in WAYS:
        try:
            cells.append(f"{plan(replace(table, qf=turn((0, 0, 1), degrees), slew_limit_rad_s=None)).duration:8.2f} s")
        except Refused as told:
            cells.append(f"refusal {told.number:2d}")
    return f"{degrees:7.0f}   " + "   ".join(cells)


print("degrees       search      fastest       gentle")
for angle in (2, 10, 40, 90, 180):
    print(figures(angle))

# %% A refusal is an exception with its number, its place and a sentence
try:
    planner.plan_eigenaxis(replace(table, torque_limit_nm=(0.4, 0.4, 0.0)))
except Refused as told:
    print(f"refusal {told.number}, place {told.place}, after {told.runs} runs: {told.sentence}")

# %% Slew after slew: the wheels turn on as the one before left them
for k, degrees in enumerate((40, 80, 40, 0)):
    path = planner.plan_eigenaxis(replace(table, qf=turn((0, 0, 1), degrees)))
    table = replace(after(table, path), q0=turn((0, 0, 1), degrees))
    print(f"slew {k}: to {degrees:2d} degrees in {path.duration:.2f} s, wheels then at {', '.join(f'{x:+.4f}' for x in path.nodes[16].hw)} N m s")

# %% A path's own controls, run again by the step law, give its nodes bit for bit. It is proved; here it is seen
print("the same nodes:", planner.rerun(path) == path.nodes)
