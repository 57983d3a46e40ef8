"""A path, or the legs of a mosaic, as an SVG drawing over time: attitude error, body rate, body torque, wheel momenta, controls. `slewtext draw` and `report` call it."""

import functools
import math
from dataclasses import dataclass, field

from slewcontrols import at_limit
from slewforms import Fault

WIDE, HIGH, LEFT, TOP, NAMES = 760, 150, 66, 34, 214  # a panel, what stands left of and above it, and the room for the lines' names
LEG = 40  # the room for a leg of a long scan
STEP = HIGH + 66
COLOURS = ("#1b6ca8", "#c1440e", "#2e7d32", "#7b1fa2", "#b8860b", "#00838f", "#5d4037", "#d81b60", "#3949ab", "#689f38", "#ff6f00", "#546e7a")
LIMIT = "#b71c1c"
# lines that coincide are told apart by dashes, by widths (the first is the widest) and by marks that stand at different times
DASHES = ("", "10 4", "4 4", "12 4 3 4")
MARKS = ("M-3,-3h6v6h-6z", "M0,-4.2L4.2,0L0,4.2L-4.2,0z", "M0,-4L4,3.4h-8z", "M0,4L4,-3.4h-8z", "M-4,0h8M0,-4v8", "M-3.2,-3.2L3.2,3.2M-3.2,3.2L3.2,-3.2", "M0,-4v8", "M-4,0h8")


@dataclass
class Line:
    """A curve: its name, its pieces (times and values; what is held over steps has a value fewer than times), and its own limit."""
    name: str
    pieces: list
    limit: float = math.inf


@dataclass
class Panel:
    title: str
    lines: list
    held: bool = False  # a value holds from its time to the next
    both: bool = True  # a limit bounds from below too
    rings: bool = False  # a ring where a value is at its limit
    limits: list = field(init=False)

    def __post_init__(self):
        """Each limit with the names of the lines that it bounds."""
        self.limits = [(value, [line.name for line in self.lines if line.limit == value]) for value in sorted({line.limit for line in self.lines if math.isfinite(line.limit)})]


@dataclass
class Frame:
    """The axis of time that all panels share: when it ends, and when the legs of a mosaic begin."""
    end: float
    begins: list = field(default_factory=list)

    @property
    def wide(self):
        return max(WIDE, LEG * len(self.begins))

    def x(self, t):
        return LEFT + self.wide * t / self.end


def turn_left(q, qf):
    """The angle in degrees from an attitude to the final one."""
    inner = abs(sum(a * b for a, b in zip(q, qf)))
    return math.degrees(2 * math.acos(min(1.0, inner)))


def panels_of(path, problem, begun=0.0):
    """The panels of one path that begins at a time."""
    at_limit(path, problem)
    nodes = path["nodes"]
    times = [begun + n[0] for n in nodes]
    part = lambda k, scale=1.0: [(times, [scale * n[k] for n in nodes])]
    steps = lambda values: [(times, values)]
    degree = math.degrees(1.0)
    rates = [Line(axis, part(5 + i, degree)) for i, axis in enumerate("xyz")]
    length = [(times, [degree * math.hypot(*n[5:8]) for n in nodes])]
    slew = math.inf if problem["slew"] is None else degree * problem["slew"]
    panels = [
        Panel("attitude error, degrees", [Line("error", [(times, [turn_left(n[1:5], problem["qf"]) for n in nodes])])]),
        Panel("body rate, degrees/s", rates + [Line("length", length, slew)], both=False),
        Panel("body torque, N m", [Line(axis, steps([n[8 + i] for n in nodes[:16]]), problem["limit"][i]) for i, axis in enumerate("xyz")], held=True),
    ]
    if problem["wheels"]:
        panels.append(Panel("wheel momenta, N m s", [Line(f"wheel {i}", part(14 + i), limit) for i, limit in enumerate(problem["wheels"])]))
    shares = [Line(with_limit(name, limit), steps([row[i] / limit for row in path["rows"]]), 1.0) for i, (name, limit) in enumerate(problem["controls"])]
    which = "controls (a wheel's torque on itself)" if problem["wheels"] else "controls"
    return panels + [Panel(f"{which}, part of their limit; a ring where one is at it", shares, held=True, rings=True)]


def with_limit(name, limit):
    """A control's name and what it is a part of."""
    return f"{name}: {math.degrees(limit):.3g} degrees/s" if name.startswith("gimbal") else f"{name}: {limit:.3g} N m"


def joined(first, other):
    """The panels of one leg and of the next one."""
    return [Panel(a.title, [Line(x.name, x.pieces + y.pieces, x.limit) for x, y in zip(a.lines, b.lines)], a.held, a.both, a.rings) for a, b in zip(first, other)]


# ---- axes

def round_step(span, about):
    """A step of 1, 2 or 5 times a power of ten, so that a span has about so many."""
    rough = span / about
    power = 10.0 ** math.floor(math.log10(rough))
    return next(m * power for m in (1, 2, 5, 10) if m * power >= rough * (1 - 1e-9))


def ticks(low, high, about):
    """Round numbers between two, each with its text."""
    step = round_step(high - low, about)
    first, last = math.ceil(low / step - 1e-9), math.floor(high / step + 1e-9)
    digits = max(0, -math.floor(math.log10(step) + 1e-9))
    text = lambda v: f"{v:.{digits}f}" if digits < 6 and abs(v) < 1e6 else f"{v:.6g}"
    return [(k * step, text(k * step) if k else "0") for k in range(first, last + 1)]


def values_range(panel):
    """The least and the greatest number to be drawn, the limits among them that are not far away; and which limits are."""
    values = [v for line in panel.lines for _, piece in line.pieces for v in piece]
    reach = max(map(abs, values))
    if not all(abs(v) < 1e100 for v in values):
        raise Fault("The path has a number of 1e100 or more, which is not drawn.")
    near = [value for value, _ in panel.limits if value <= 2 * reach]
    low, high = min(values + [0.0] + [-v for v in near if panel.both]), max(values + [0.0] + near)
    room = 0.12 * (high - low) if high - low > 1e-100 else 1.0
    return low - room, high + room, near


# ---- what is drawn

def line_of(x1, y1, x2, y2, style):
    return f'<line x1="{x1:.1f}" y1="{y1:.1f}" x2="{x2:.1f}" y2="{y2:.1f}" {style}/>'


def text_at(x, y, text, style=""):
    return f'<text x="{x:.1f}" y="{y:.1f}"{" " + style if style else ""}>{text}</text>'


def course(line, held, x, y):
    """The points of a line, piece by piece."""
    out = []
    for times, values in line.pieces:
        ends = zip(times[1:], values) if held else ()
        points = [p for begin, end in zip(zip(times, values), ends) for p in (begin, end)] if held else list(zip(times, values))
        out.append("M" + " L".join(f"{x(t):.1f},{y(v):.1f}" for t, v in points))
    return " ".join(out)


def spots(line, held, place, count):
    """Where a line's values stand: at their times, or within their steps, each of the panel's lines at a place of its own."""
    for times, values in line.pieces:
        for k, v in enumerate(values):
            yield (times[k] + (times[k + 1] - times[k]) * (place + 0.5) / count if held else times[k]), v


def marked(line, panel, place, frame, y):
    """A line, its marks, and its rings."""
    x = frame.x
    count, colour = len(panel.lines), COLOURS[place % len(COLOURS)]
    width = 1.6 + (2.0 * (count - 1 - place) / (count - 1) if count > 1 else 0.4)
    out = [f'<path class="line" d="{course(line, panel.held, x, y)}" fill="none" stroke="{colour}" stroke-width="{width:.1f}" stroke-dasharray="{DASHES[place % len(DASHES)]}"/>']
    found = list(spots(line, panel.held, place, count))
    every = max(count, math.ceil(len(found) * 76 / frame.wide))
    if count > 1:
        out += [mark(x(t), y(v), place, colour) for t, v in found[place * every // count::every]]
    if panel.rings:
        radius = max(1.2, min(4.5, 0.45 * frame.wide / len(found)))
        out += [f'<circle cx="{x(t):.1f}" cy="{y(v):.1f}" r="{radius:.1f}" fill="none" stroke="{colour}" stroke-width="1.4"/>' for t, v in found if abs(v) == 1.0]
    return out


def mark(x, y, place, colour):
    return f'<path transform="translate({x:.1f} {y:.1f})" d="{MARKS[place % len(MARKS)]}" fill="{colour}" stroke="{colour}" stroke-width="1.4"/>'


def names(panel, top, frame):
    """The lines' names beside the panel, each with a piece of its line."""
    out, left, apart = [], LEFT + frame.wide + 12, min(16.0, (HIGH - 2) / len(panel.lines))
    for i, line in enumerate(panel.lines):
        y, colour = top + 8 + apart * i, COLOURS[i % len(COLOURS)]
        out.append(line_of(left, y, left + 28, y, f'stroke="{colour}" stroke-width="2" stroke-dasharray="{DASHES[i % len(DASHES)]}"'))
        out += [mark(left + 14, y, i, colour), text_at(left + 34, y + 4, line.name)]
    return out if len(panel.lines) > 1 else []


def bounds(panel, near, frame, y):
    """Limits that are near as lines, with the names of what they bound where not all lines have it."""
    out = []
    for value, bounded in panel.limits:
        said = "limit" if len(bounded) == len(panel.lines) or panel.rings else f"limit of {', '.join(bounded)}"
        for v in [value, -value][:1 + panel.both] if value in near else []:
            out.append(line_of(LEFT, y(v), LEFT + frame.wide, y(v), f'stroke="{LIMIT}" stroke-width="1" stroke-dasharray="2 3"'))
            out.append(text_at(LEFT + frame.wide - 4, y(v) + (-3 if v > 0 else 11), said, f'fill="{LIMIT}" text-anchor="end" font-size="10"'))
    return out


def heading(panel, near):
    """The title, and the limits that are too far away to be drawn."""
    far = [(value, bounded) for value, bounded in panel.limits if value not in near]
    told = [f"{', '.join(bounded) + ': ' if len(bounded) < len(panel.lines) else ''}{value:.3g}" for value, bounded in far]
    if len(far) > 3:
        told = [f"{far[0][0]:.3g} to {far[-1][0]:.3g}"]
    return panel.title + (f" (limit{'s' * (len(far) > 1)} outside the drawing: {'; '.join(told)})" if far else "")


def drawn(panel, top, frame):
    """One panel: a grid of round numbers, its limits, its lines, their names; of a mosaic a line where a leg begins."""
    low, high, near = values_range(panel)
    x, right = frame.x, LEFT + frame.wide
    y = lambda v: top + HIGH - HIGH * (v - low) / (high - low)
    out = [text_at(LEFT, top - 9, heading(panel, near), 'font-weight="bold"')]
    for v, text in ticks(low, high, 6):
        out += [line_of(LEFT, y(v), right, y(v), f'stroke="{"#888" if text == "0" else "#e4e4e4"}"'), text_at(LEFT - 6, y(v) + 4, text, 'text-anchor="end"')]
    for t, text in ticks(0.0, frame.end, frame.wide / 95):
        out += [line_of(x(t), top + HIGH, x(t), top + HIGH + 4, 'stroke="#666"'), text_at(x(t), top + HIGH + 17, text, 'text-anchor="middle"')]
    out += [line_of(x(t), top, x(t), top + HIGH, 'class="leg" stroke="#bbb"') for t in frame.begins[1:]]
    out += [text_at(right + 14, top + HIGH + 17, "time, s"), *bounds(panel, near, frame, y)]
    for i, line in enumerate(panel.lines):
        out += marked(line, panel, i, frame, y)
    return out + [f'<rect x="{LEFT}" y="{top}" width="{frame.wide}" height="{HIGH}" fill="none" stroke="#666"/>'] + names(panel, top, frame)


def leg_numbers(frame):
    """The numbers of a mosaic's legs in the first panel."""
    return [text_at(frame.x(t) + 3, TOP + 10, f"leg {k}" if k == 0 else k, 'font-size="9" fill="#666"') for k, t in enumerate(frame.begins)]


def svg(title, panels, frame):
    head = f'<svg xmlns="http://www.w3.org/2000/svg" width="{LEFT + frame.wide + NAMES}" height="{TOP + STEP * len(panels) - 20}" font-family="sans-serif" font-size="12">'
    body = [line for i, panel in enumerate(panels) for line in drawn(panel, TOP + STEP * i, frame)]
    return "\n".join([head, f"<title>{title}</title>", '<rect width="100%" height="100%" fill="white"/>', *body, *leg_numbers(frame), "</svg>"]) + "\n"


def drawing(path, problem):
    end = path["nodes"][16][0]
    return svg(f"a slew of {end:.4g} s", panels_of(path, problem), Frame(end))


def scan_drawing(legs, begins, problem, tiles):
    """A mosaic's legs over the time in the scan: a line where a leg begins. A leg's attitude error is that to the tile it goes to."""
    if not legs or len(tiles) < len(legs) + 1:
        raise Fault(f"The answer has {len(legs)} legs and the mosaic {len(tiles)} tiles: there is nothing to draw.")
    panels = [panels_of(leg, problem | {"qf": tile}, begun) for leg, tile, begun in zip(legs, tiles[1:], begins)]
    end = begins[len(legs) - 1] + legs[-1]["nodes"][16][0]
    return svg(f"a mosaic of {len(legs)} legs, {end:.4g} s", functools.reduce(joined, panels), Frame(end, begins[:len(legs)]))
