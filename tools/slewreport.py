"""One self-contained HTML page about a planned slew: the problem, the path's figures, the drawings, what is proved of it. `slewtext report` calls it."""

import html
import math

STYLE = """
:root { --ink: #1c2330; --soft: #5b6472; --line: #d8dde5; --card: #f5f7fa; --mark: #1b6ca8; --bad: #b3261e; }
* { box-sizing: border-box; }
body { margin: 0; color: var(--ink); background: #fff; font: 16px/1.5 system-ui, -apple-system, "Segoe UI", Roboto, sans-serif; }
main { max-width: 62rem; margin: 0 auto; padding: 1.5rem 1rem 4rem; }
h1 { font-size: 1.7rem; line-height: 1.2; margin: 0 0 .3rem; }
h2 { font-size: 1.15rem; margin: 2.2rem 0 .6rem; padding-top: .6rem; border-top: 1px solid var(--line); }
p { margin: .4rem 0; }
.lead { color: var(--soft); margin-bottom: 1.2rem; }
.cards { display: grid; grid-template-columns: repeat(auto-fit, minmax(9.5rem, 1fr)); gap: .6rem; }
.card { background: var(--card); border-radius: .5rem; padding: .6rem .8rem; }
.card b { display: block; font-size: 1.25rem; font-variant-numeric: tabular-nums; }
.card span { color: var(--soft); font-size: .85rem; }
.wide { overflow-x: auto; }
table { border-collapse: collapse; width: 100%; font-size: .92rem; }
th, td { text-align: left; padding: .35rem .9rem .35rem 0; border-bottom: 1px solid var(--line); vertical-align: top; font-variant-numeric: tabular-nums; }
th { color: var(--soft); font-weight: 600; }
td.n, th.n { text-align: right; white-space: nowrap; }
svg { width: 100%; min-width: 38rem; height: auto; display: block; }
code { font-family: ui-monospace, Menlo, Consolas, monospace; font-size: .88em; overflow-wrap: anywhere; }
.refused { border-left: .3rem solid var(--bad); padding: .4rem 1rem; margin-bottom: .8rem; background: #fdf3f2; }
.at { color: var(--bad); font-weight: 600; }
.narrow { display: none; color: var(--soft); font-size: .85rem; }
@media (max-width: 44rem) { .narrow { display: block; } th, td { font-size: .84rem; padding-right: .55rem; } }
@media print { .card { border: 1px solid var(--line); } }
"""

# what holds of every answered path: the sentence, and where it is proved
PROVED = [
    ("The 16 rows of controls, run once by the step law from the start, give exactly these 17 nodes, bit for bit.", "planner Promised: rerun-nodes"),
    ("Node 0 has the wheels' start momenta as the problem gives them, bit for bit.", "planner Promised: start-momenta"),
    ("Each control is in size at most its actuator's limit.", "planner Promised: controls"),
    ("The table ends within 0.0001 rad of the final attitude, and at a rate of at most 0.0001 rad/s.", "planner Promised: end-error, end-rate"),
    ("At every node each body torque and each wheel momentum passes its limit by less than the number next above 1e-9.", "planner Promised: torques, momenta"),
    ("The forward runs told are those that were begun, by the search or by every try of an eigenaxis plan, and no more than their bound.",
     "planner Promised: runs, bound; eigenaxis Bounds.runs-bound"),
    ("Between two nodes each part of a dense sample's rate is at most that of the larger node part times 1 + 2^-50, plus 2^-1070.", "sample_laws BetweenKept.promised-between"),
]


MOSAIC_PROVED = [
    ("Each leg is what the planner gives for that leg alone, from the momenta that the leg before it ended with.", "mosaic_laws Legs.legal: leg, held"),
    ("The sums are those of the answered legs, in order.", "mosaic_laws Legs.legal: duration, runs"),
    ("Cut at any inner tile, the two parts have the same legs.", "mosaic_laws Tiles.whole-cut"),
]


SIDEWAYS = '<p class="narrow">Drawings and wide tables scroll sideways.</p>'


def esc(text):
    return html.escape(str(text), quote=True)


def num(x, digits=5):
    return f"{x:.{digits}g}" if math.isfinite(x) else str(x)


def share(part, whole):
    """A part of a limit, never shown as 100 % where it is below."""
    percent = 100 * part / whole
    return f"{math.floor(10 * percent) / 10:.1f} %" if 99 < percent < 100 else f"{percent:.0f} %"


def size(v):
    return math.sqrt(sum(x * x for x in v))


def table(heads, rows):
    """Columns whose head begins with '#' hold numbers."""
    mark = [' class="n"' if h.startswith("#") else "" for h in heads]
    out = ['<div class="wide"><table><tr>' + "".join(f"<th{m}>{esc(h.lstrip('#'))}</th>" for h, m in zip(heads, mark)) + "</tr>"]
    for row in rows:
        out.append("<tr>" + "".join(f"<td{m}>{cell if str(cell).startswith('<') else esc(cell)}</td>" for cell, m in zip(row, mark)) + "</tr>")
    return "\n".join(out + ["</table></div>"])


def cards(pairs):
    return '<div class="cards">' + "".join(f'<div class="card"><b>{esc(value)}</b><span>{esc(name)}</span></div>' for name, value in pairs) + "</div>"


# ---- the problem

def whole_problem(forms, floats):
    """Every form of a problem's text by its name; of actuators all of them."""
    found = {"wheel": [], "thruster": [], "cmg": []}
    for row in forms:
        if row[0] in ("wheel", "thruster", "cmg"):
            found[row[0]].append([None if word == "none" else floats([row[0], word])[0] for word in row[1:]])
        elif row[0] == "slew" and row[1] == "none":
            found["slew"] = []
        else:
            found[row[0]] = floats(row) if len(row) > 1 else []
    return found


def turn_between(a, b):
    """The shorter turn from one attitude to another: its axis in the body and its angle in degrees."""
    w = sum(x * y for x, y in zip(a, b))
    v = [a[0] * b[1] - b[0] * a[1] - (a[2] * b[3] - a[3] * b[2]),
         a[0] * b[2] - b[0] * a[2] - (a[3] * b[1] - a[1] * b[3]),
         a[0] * b[3] - b[0] * a[3] - (a[1] * b[2] - a[2] * b[1])]
    sign, length = (-1 if w < 0 else 1), size(v)
    axis = [sign * x / length for x in v] if length else [0.0, 0.0, 0.0]
    return axis, math.degrees(2 * math.atan2(length, abs(w)))


def problem_table(p, turned=True):
    """What was asked for; of a mosaic without the attitudes, which are its tiles."""
    axis, degrees = turn_between(p["q0"], p["qf"])
    vector = lambda v: "(" + ", ".join(num(x) for x in v) + ")"
    weights = [f"{name} {num(x)}" for name, x in zip(("time", "control", "energy", "pointing", "smoothness", "momentum"), p["weights"]) if x]
    rows = [
        ("turn", f"{num(degrees)} degrees about {vector(axis)} in the body"),
        ("from", vector(p["q0"])), ("to", vector(p["qf"])),
        ("inertia, kg\u00a0m2", " ".join(vector(p["inertia"][i:i + 3]) for i in (0, 3, 6))),
        ("torque limits, N\u00a0m", vector(p["limit"])),
        ("slew limit", f"{num(math.degrees(p['slew'][0]))} degrees/s" if p["slew"] else "none"),
        ("weights", (", ".join(weights) or "all 0") + " (an eigenaxis plan does not read them)"),
        ("tolerances", f"norm {num(p['tolerance'][0])}, tie {num(p['tolerance'][1])}"),
        ("actuators", ", ".join(f"{len(p[k])} {name}{'s' if len(p[k]) != 1 else ''}" for k, name in (("wheel", "wheel"), ("thruster", "thruster"), ("cmg", "gyro pyramid")) if p[k]) or "none: body torques"),
    ]
    return table(("", ""), rows if turned else rows[3:])


# ---- the path

def control_names(p):
    """Each place of a row: its name, unit and limit."""
    if not (p["wheel"] or p["thruster"] or p["cmg"]):
        return [(f"body torque {axis}", "N m", limit) for axis, limit in zip("xyz", p["limit"])]
    names = [(f"wheel {i}", "N m", w[3]) for i, w in enumerate(p["wheel"])] + [(f"thruster {i}", "N m", t[3]) for i, t in enumerate(p["thruster"])]
    return names + [(f"gimbal {k}", "rad/s", c[2]) for c in p["cmg"] for k in range(4)]


def controls_table(p, path):
    rows = []
    for i, (name, unit, limit) in enumerate(control_names(p)):
        values = [row[i] for row in path["rows"]]
        peak, at = max(abs(x) for x in values), sum(abs(x) == limit for x in values)
        rows.append((name, f"{num(limit, 4)} {unit}", num(peak, 3), share(peak, limit), f'<span class="at">{at} of 16</span>' if at else "none"))
    return table(("control", "#limit", "#largest", "#of limit", "#at the limit"), rows)


def wheels_table(p, path):
    nodes, rows = path["nodes"], []
    for i, wheel in enumerate(p["wheel"]):
        momenta = [n[14 + i] for n in nodes]
        peak = max(abs(x) for x in momenta)
        rows.append((f"wheel {i}", num(wheel[4], 4), num(momenta[0], 3), num(momenta[16], 3), num(peak, 3), share(peak, wheel[4])))
    return table(("N\u00a0m\u00a0s", "#limit", "#start", "#end", "#largest", "#of limit"), rows)


def figures(p, path):
    nodes = path["nodes"]
    _, degrees = turn_between(p["q0"], p["qf"])
    _, left = turn_between(nodes[16][1:5], p["qf"])
    part, limit = max(((abs(n[8 + i]), p["limit"][i]) for n in nodes for i in range(3)), key=lambda pair: pair[0] / pair[1])
    return cards([
        ("duration", f"{num(path['duration'])} s"), ("turn", f"{num(degrees)}°"),
        ("largest rate", f"{num(math.degrees(max(size(n[5:8]) for n in nodes)), 4)} °/s"), ("largest torque, of its limit", share(part, limit)),
        ("left at the end", f"{left:.1e}°"), ("rate at the end, rad/s", f"{size(nodes[16][5:8]):.1e}"),
        ("iterations", path["iterations"]), ("forward runs", path["runs"]),
    ])


def document(title, lead, parts):
    return "\n".join([
        '<!doctype html>', '<html lang="en">', '<head>', '<meta charset="utf-8">', '<meta name="viewport" content="width=device-width, initial-scale=1">',
        f"<title>{esc(title)}</title>", f"<style>{STYLE}</style>", "</head>", "<body>", "<main>", f"<h1>{esc(title)}</h1>", f'<p class="lead">{esc(lead)}</p>',
        *parts, "</main>", "</body>", "</html>", ""])


def fluid(svg):
    """A drawing that takes the page's width; a long scan's keeps its own, and scrolls."""
    head, rest = svg.split(">", 1)
    words = dict(word.split("=", 1) for word in head.split() if word.startswith(("width=", "height=")))
    wide, high = (words[key].strip('"') for key in ("width", "height"))
    kept = " ".join(word for word in head.split() if not word.startswith(("width=", "height=")))
    own = f' style="min-width: {wide}px"' if int(wide) > 1200 else ""
    return f'{kept} viewBox="0 0 {wide} {high}" role="img"{own}>{rest}'


def path_page(forms, floats, path, drawing):
    p = whole_problem(forms, floats)
    _, degrees = turn_between(p["q0"], p["qf"])
    parts = [figures(p, path), "<h2>Along the way</h2>", SIDEWAYS, f'<div class="wide">{fluid(drawing)}</div>', "<h2>Controls</h2>", controls_table(p, path)]
    parts += ["<h2>Momenta of the wheels</h2>", wheels_table(p, path)] if p["wheel"] else []
    proved = [(sentence, f"<code>{esc(where)}</code>") for sentence, where in PROVED]
    parts += ["<h2>The problem</h2>", problem_table(p), "<h2>What is proved of this path</h2>",
              "<p>Of every path that the planner answers, not of this one by measuring. docs/PROMISES.md has the theorems.</p>", table(("", "where"), proved)]
    return document(f"A slew of {num(degrees, 4)} degrees in {num(path['duration'], 4)} s", "Planned from rest to rest. Numbers are rounded for reading; the answer has every bit.", parts)


def mosaic_page(forms, floats, answered, tiles, drawing, told):
    """A mosaic's legs: their figures, and the drawing over the whole scan."""
    legs, begun, rows = answered["legs"], 0.0, []
    for k, leg in enumerate(legs):
        _, degrees = turn_between(tiles[k], tiles[k + 1])
        _, left = turn_between(leg["nodes"][16][1:5], tiles[k + 1])
        rows.append((k, num(begun), num(leg["duration"]), num(degrees), num(math.degrees(max(size(n[5:8]) for n in leg["nodes"])), 4), f"{left:.1e}", leg["runs"]))
        begun += leg["duration"]
    parts = [] if answered["refused"] is None else [f'<p class="refused">{esc(told)}</p>']
    parts += [cards([("legs answered", len(legs)), ("tiles", len(tiles)), ("duration of all legs", f"{num(answered['duration'])} s"), ("forward runs", answered["runs"])])]
    parts += ["<h2>The scan</h2>", SIDEWAYS, f'<div class="wide">{fluid(drawing)}</div>'] if drawing else []
    parts += ["<h2>Legs</h2>", table(("#leg", "#begins, s", "#duration, s", "#turn, degrees", "#largest rate, degrees/s", "#left at the end, degrees", "#forward runs"), rows)] if rows else []
    proved = [(sentence, f"<code>{esc(where)}</code>") for sentence, where in MOSAIC_PROVED + PROVED]
    parts += ["<h2>The problem of every leg</h2>", problem_table(whole_problem(forms, floats), turned=False), "<h2>What is proved of every leg</h2>", table(("", "where"), proved)]
    return document(f"A mosaic of {len(tiles)} tiles", f"{len(legs)} of {max(0, len(tiles) - 1)} legs planned, each from the wheel momenta that the one before it ended with.", parts)


def refusal_page(forms, floats, told):
    p = whole_problem(forms, floats)
    parts = [f'<p class="refused">{esc(told)}</p>', "<h2>The problem</h2>", problem_table(p)]
    return document("A slew that is refused", "The planner has no path for this problem.", parts)
