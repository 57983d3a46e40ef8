#!/usr/bin/env python3
"""A scan of four tiles, slew after slew, in Python: python3 bindings/python/scan.py

Each slew starts where the one before ended, its wheels turning as that one left them. A slew that the search refuses is told, and planned about one axis.
"""

from slew import Path, Planner, Problem, Refused, Wheel, after, replace, turn

# ---- the table: a sensor on three wheels
wheels = tuple(Wheel(axis, torque_nm=0.6, momentum_nms=50.0) for axis in [(1, 0, 0), (0, 1, 0), (0, 0, 1)])
table = Problem(q0=turn((0, 0, 1), 0), qf=turn((0, 0, 1), 0), inertia_kgm2=(10, 12, 8), torque_limit_nm=(0.5, 0.5, 0.5), wheels=wheels)

# ---- the tiles: 5 degrees apart about the upright axis, the last one half a turn away
tiles = [turn((0, 0, 1), degrees) for degrees in (0, 5, 10, 190)]

planner = Planner()


def slew_to(problem: Problem) -> Path:
    """The path that the search finds; else that about one axis."""
    try:
        return planner.plan(problem)
    except Refused as told:
        print(f"   {told}")
        return planner.plan_eigenaxis(problem)


for leg, (start, end) in enumerate(zip(tiles, tiles[1:])):
    path = slew_to(replace(table, q0=start, qf=end))
    table = after(table, path)
    momenta = ", ".join(f"{x:.4f}" for x in path.nodes[16].hw)
    print(f"leg {leg}: {path.duration:.3f} s in {path.runs} forward runs, {planner.sample_count(path, 100)} samples, wheels then at {momenta} N m s")
