"""A problem in decimal (TOML or JSON tables) as the program's text: degrees, kg m2, N m, N m s, W. `slewtext` calls it."""

import math

from slewforms import Fault, form, shown, to_hex

KINDS = ("time", "control", "energy", "pointing", "smoothness", "momentum")
KEYS = ("from", "to", "inertia_kgm2", "torque_limit_nm", "slew_limit_deg_s", "weights", "norm_tolerance", "tie_tolerance", "normalise", "wheel", "thruster", "pyramid")
TOLERANCE = 2.0 ** -20


# ---- values and tables

def number(value, what):
    if isinstance(value, bool) or not isinstance(value, (int, float)):
        raise Fault(f"{what} must be a number, not {shown(value)}.")
    try:
        return float(value)
    except OverflowError:
        raise Fault(f"{what} is larger than any float.")


def angle(value, what):
    """An angle in degrees, as rad."""
    degrees = number(value, what)
    if not math.isfinite(degrees):
        raise Fault(f"{what} must be finite, not {degrees}.")
    return math.radians(degrees)


def vector(value, count, what):
    if not isinstance(value, list) or len(value) != count:
        raise Fault(f"{what} must be a list of {count} numbers.")
    return [number(x, what) for x in value]


def only(table, known, what):
    if not isinstance(table, dict):
        raise Fault(f"{what} must be a table of named values, not {shown(table)}.")
    for key in table:
        if key not in known:
            late = " A key of the problem stands before the first [table]." if key in KEYS else ""
            raise Fault(f"{what} has no {shown(key)}; it has {', '.join(known)}.{late}")


def needed(table, key, what):
    if not isinstance(table, dict):
        raise Fault(f"{what} must be a table of named values, not {shown(table)}.")
    if key not in table:
        raise Fault(f"{what} wants '{key}'.")
    return table[key]


def quaternion(value, what, normalise):
    """Four numbers, scalar first, as they stand; or divided by their length, where the problem asks for that."""
    q = vector(value, 4, what)
    size = math.hypot(*q)
    if normalise and not 0 < size < math.inf:
        raise Fault(f"{what} has no length to divide by.")
    return [x / size for x in q] if normalise else q


def attitude(table, what, normalise=False):
    """A quaternion, scalar first; or a turn about an axis by degrees; or a place of the sky and a roll."""
    if isinstance(table, dict) and "quaternion" in table:
        only(table, ("quaternion",), what)
        return quaternion(table["quaternion"], f"{what}.quaternion", normalise)
    if isinstance(table, dict) and "ra_deg" in table:
        return sky(table, what)
    axis = vector(needed(table, "axis", what), 3, f"{what}.axis")
    half = angle(needed(table, "degrees", what), f"{what}.degrees") / 2
    only(table, ("axis", "degrees"), what)
    size = math.hypot(*axis)
    if not 0 < size < math.inf:
        raise Fault(f"{what}.axis has no direction.")
    return [math.cos(half)] + [math.sin(half) * a / size for a in axis]


def product(a, b):
    """The product of two quaternions, scalar first."""
    return [
        a[0] * b[0] - a[1] * b[1] - a[2] * b[2] - a[3] * b[3],
        a[0] * b[1] + a[1] * b[0] + a[2] * b[3] - a[3] * b[2],
        a[0] * b[2] - a[1] * b[3] + a[2] * b[0] + a[3] * b[1],
        a[0] * b[3] + a[1] * b[2] - a[2] * b[1] + a[3] * b[0],
    ]


def sky(table, what):
    """The attitude whose x axis looks at a right ascension and a declination, rolled about it: turns about z, the new y, the new x."""
    only(table, ("ra_deg", "dec_deg", "roll_deg"), what)
    ascension, declination = [angle(needed(table, key, what), f"{what}.{key}") for key in ("ra_deg", "dec_deg")]
    if not -90 <= table["dec_deg"] <= 90:
        raise Fault(f"{what}.dec_deg must lie between -90 and 90, not {table['dec_deg']:g}.")
    z, y, x = ascension / 2, -declination / 2, angle(table.get("roll_deg", 0.0), f"{what}.roll_deg") / 2
    return product(product([math.cos(z), 0.0, 0.0, math.sin(z)], [math.cos(y), 0.0, math.sin(y), 0.0]), [math.cos(x), math.sin(x), 0.0, 0.0])


def inertia(value):
    """Three principal values, or three rows of three."""
    if isinstance(value, list) and len(value) == 3 and not any(isinstance(row, list) for row in value):
        a, b, c = vector(value, 3, "inertia_kgm2")
        return [a, 0.0, 0.0, 0.0, b, 0.0, 0.0, 0.0, c]
    if not isinstance(value, list) or len(value) != 3:
        raise Fault("inertia_kgm2 must be three numbers, or three rows of three.")
    return [x for row in value for x in vector(row, 3, "a row of inertia_kgm2")]


def wheel(table, what):
    only(table, ("axis", "torque_nm", "momentum_nms", "power_w", "start_nms"), what)
    head = vector(needed(table, "axis", what), 3, f"{what}.axis")
    head += [number(needed(table, key, what), f"{what}.{key}") for key in ("torque_nm", "momentum_nms")]
    power = to_hex(number(table["power_w"], f"{what}.power_w")) if "power_w" in table else "none"
    return form("wheel", head, power)


def momenta(problem):
    """What each wheel starts with: 0 where it is not named."""
    return [number(w.get("start_nms", 0.0), f"wheel {i}.start_nms") for i, w in enumerate(tables(problem.get("wheel", []), "wheel"))]


def turning(problem, momenta):
    """The problem, its wheels starting with these momenta, one a wheel."""
    wheels = tables(problem.get("wheel", []), "wheel")
    return {**problem, "wheel": [{**w, "start_nms": x} for w, x in zip(wheels, momenta)]} if wheels else problem


def turning_after(problem, path):
    """The problem, its wheels turning as they do at the path's end."""
    wheels, ended = tables(problem.get("wheel", []), "wheel"), path["nodes"][16][14:]
    if len(ended) != len(wheels):
        raise Fault(f"The path has {len(ended)} wheels and the problem {len(wheels)}.")
    return turning(problem, ended)


def thruster(table, what):
    only(table, ("axis", "torque_nm"), what)
    return form("thruster", vector(needed(table, "axis", what), 3, f"{what}.axis") + [number(needed(table, "torque_nm", what), f"{what}.torque_nm")])


def pyramid(table):
    only(table, ("skew_deg", "momentum_nms", "rate_deg_s", "singularity_eps"), "pyramid")
    skew, momentum, rate, eps = [number(needed(table, key, "pyramid"), f"pyramid.{key}") for key in ("skew_deg", "momentum_nms", "rate_deg_s", "singularity_eps")]
    return form("cmg", [math.radians(skew), momentum, math.radians(rate), eps])


def tables(value, what):
    if not isinstance(value, list) or not all(isinstance(x, dict) for x in value):
        raise Fault(f"{what} must be a list of tables.")
    return value


def actuators(problem):
    lines = [wheel(w, f"wheel {i}") for i, w in enumerate(tables(problem.get("wheel", []), "wheel"))]
    lines += [thruster(t, f"thruster {i}") for i, t in enumerate(tables(problem.get("thruster", []), "thruster"))]
    return lines + ([pyramid(problem["pyramid"])] if "pyramid" in problem else [])


def weights(table):
    only(table, KINDS, "weights")
    return [number(table.get(kind, 0.0), f"weights.{kind}") for kind in KINDS]


def normalised(problem):
    """Whether quaternions are divided by their length: the key `normalise`."""
    value = problem.get("normalise", False)
    if not isinstance(value, bool):
        raise Fault(f"normalise must be true or false, not {shown(value)}.")
    return value


def problem_text(problem):
    only(problem, KEYS, "a problem")
    slew, unit = problem.get("slew_limit_deg_s"), normalised(problem)
    lines = [
        "(problem",
        " " + form("q0", attitude(needed(problem, "from", "a problem"), "from", unit)),
        " " + form("qf", attitude(needed(problem, "to", "a problem"), "to", unit)),
        " " + form("inertia", inertia(needed(problem, "inertia_kgm2", "a problem"))),
        " " + form("limit", vector(needed(problem, "torque_limit_nm", "a problem"), 3, "torque_limit_nm")),
        " (slew none)" if slew is None else " " + form("slew", [math.radians(number(slew, "slew_limit_deg_s"))]),
        " " + form("weights", weights(problem.get("weights", {}))),
        " " + form("tolerance", [number(problem.get(key, TOLERANCE), key) for key in ("norm_tolerance", "tie_tolerance")]),
        " " + form("momenta", momenta(problem)),
    ]
    inner = actuators(problem)
    lines += [" (actuators"] + ["  " + line for line in inner] if inner else [" (actuators"]
    return "\n".join(lines) + "))\n"


