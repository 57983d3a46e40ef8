"""A path's 16 rows of controls: as CSV, and those at their limits. `slewtext controls`, `stops`, `draw` and `report` call it."""

from slewforms import Fault, csv


def unit_of(name):
    """The unit of a control, for people."""
    return "rad/s" if name.startswith("gimbal") else "N m"


def column(name):
    """A control's name and unit as the heading of a column: wheel_0_nm, gimbal_3_rad_s, torque_x_nm."""
    return name.replace(" about", "").replace(" ", "_") + ("_rad_s" if name.startswith("gimbal") else "_nm")


def at_limit(path, problem):
    """For each control of a row its name, its limit, and of the 16 controls whether each is equal to that limit in size. Those that the planner held to it are among them."""
    if len(path["rows"][0]) != len(problem["controls"]) or len(path["nodes"][0]) != 14 + len(problem["wheels"]):
        raise Fault(f"The problem has {len(problem['controls'])} controls a row and {len(problem['wheels'])} wheels, and the path has not: it is not this problem's path.")
    for name, limit in problem["controls"]:
        if not limit > 0:
            raise Fault(f"The limit of {name} is not above 0: the planner refuses this problem, so the path is not its.")
    return [(name, limit, [abs(row[i]) == limit for row in path["rows"]]) for i, (name, limit) in enumerate(problem["controls"])]


def stops(path, problem):
    told = at_limit(path, problem)
    lines = [f"{name}: {sum(marks)} of 16 controls at its limit of {limit:.6g} {unit_of(name)}." for name, limit, marks in told]
    return "\n".join(lines) + "\n"


def step_rows(path, begun=0.0):
    """A step a row: when it begins and ends, and its controls."""
    times = [begun + node[0] for node in path["nodes"]]
    return [[times[k], times[k + 1], *row] for k, row in enumerate(path["rows"])]


def controls_csv(path, problem):
    at_limit(path, problem)
    return csv(["begins_s", "ends_s"] + [column(name) for name, _ in problem["controls"]], step_rows(path))


def scan_controls_csv(legs, begins, problem):
    """The same of a mosaic's legs, each with its index, over the time in the scan."""
    for leg in legs:
        at_limit(leg, problem)
    rows = [[k, *row] for k, (leg, begun) in enumerate(zip(legs, begins)) for row in step_rows(leg, begun)]
    return csv(["leg", "begins_s", "ends_s"] + [column(name) for name, _ in problem["controls"]], rows)
