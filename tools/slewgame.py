"""Drive against draught ("Rooms with moving air"): the region drawn, and a game against the program's answers. `slewtext region` and `duel` call it."""

import os
import re
import subprocess
import sys

from slewforms import Fault, read_forms, reason, shown

LEFT, TOP = 80, 30
ANGLES, RATES, TURNS = range(-64, 65), range(-8, 9), 64
HELD = 255


def signed(n):
    return f"{n:+d}" if n else "0"


def plural(turns):
    return f"{turns} turn" + "s" * (turns != 1)


def run_region(*words):
    """What the program slew_region prints for these arguments."""
    program = os.path.join(os.path.dirname(os.path.abspath(__file__)), "..", "run")
    try:
        done = subprocess.run([program, "--region", *map(str, words)], capture_output=True, text=True)
    except OSError as fault:
        raise Fault(f"{program} cannot be run: {reason(fault)}.")
    if done.returncode or not done.stdout:
        raise Fault("The program slew_region gives no answer: " + (done.stderr.strip().splitlines() or ["it says nothing."])[-1])
    return done.stdout


def read_region(text):
    """The turns of every start by angle and rate; HELD where it is held off."""
    turns = {}
    for row in read_forms(text, "region"):
        if len(row) != 2 + len(RATES) or row[0] != "angle" or not all(re.fullmatch("-?[0-9]{1,3}", word) for word in row[1:]):
            raise Fault("A line of the region is an angle and the turns of 17 rates.")
        turns.update({(int(row[1]), rate): int(word) for rate, word in zip(RATES, row[2:])})
    if set(turns) != {(a, r) for a in ANGLES for r in RATES} or any(not 0 <= n <= TURNS and n != HELD for n in turns.values()):
        raise Fault("The region has 129 angles from -64 to 64, and at most 64 turns.")
    return turns


HOME, HELD_OFF = "#2e7d32", "#d9d9d9"
# from few turns to many: light to dark, told apart in grey too
SHADES = ("#fff3b0", "#fed976", "#feb24c", "#fd8d3c", "#f4511e", "#d32f5f", "#9c1f7a", "#5e1a86", "#2c1160")
CELL_WIDE, CELL_HIGH = 7, 22


def shade(turns, most):
    if turns in (0, HELD):
        return HOME if turns == 0 else HELD_OFF
    return SHADES[min(len(SHADES) - 1, (turns - 1) * len(SHADES) // most)]


def steps(most):
    """The turns that share a colour: first, last, colour."""
    of = [shade(n, most) for n in range(1, most + 1)]
    return [(of.index(c) + 1, most - of[::-1].index(c), c) for c in dict.fromkeys(of)]


def legend(turns, most, left, top):
    """A square of each colour, with what it means and how many starts have it."""
    count = lambda low, high: sum(low <= n <= high for n in turns.values())
    entries = [(HOME, f"home already ({count(0, 0)})")]
    entries += [(colour, (plural(low) if low == high else f"{low} to {plural(high)}") + f" ({count(low, high)})") for low, high, colour in steps(most)]
    entries.append((HELD_OFF, f"held off ({count(HELD, HELD)})"))
    out = []
    for i, (colour, text) in enumerate(entries):
        x, y = left + 170 * (i % 5), top + 22 * (i // 5)
        out.append(f'<rect x="{x}" y="{y}" width="14" height="14" fill="{colour}" stroke="#666"/>' + ('<path d="M%s %s l14 14" stroke="#888"/>' % (x, y) if colour == HELD_OFF else ""))
        out.append(f'<text x="{x + 20}" y="{y + 12}">{text}</text>')
    return out


def cell(angle, rate, turns, most, left, top):
    x, y = left + CELL_WIDE * (angle - ANGLES[0]), top + CELL_HIGH * (RATES[-1] - rate)
    rect = f'<rect class="start" x="{x}" y="{y}" width="{CELL_WIDE}" height="{CELL_HIGH}" fill="{shade(turns, most)}" stroke="white" stroke-width="0.4"><title>angle {angle}, rate {rate}: '
    rect += ("home already" if turns == 0 else "held off" if turns == HELD else plural(turns)) + "</title></rect>"
    return rect + (f'<path d="M{x} {y} l{CELL_WIDE} {CELL_HIGH}" stroke="#888"/>' if turns == HELD else "")


def region_drawing(turns):
    most = max((n for n in turns.values() if n != HELD), default=0)
    left, top = LEFT, TOP + 30
    wide, high = CELL_WIDE * len(ANGLES), CELL_HIGH * len(RATES)
    out = [f'<svg xmlns="http://www.w3.org/2000/svg" width="{left + wide + 40}" height="{top + high + 130}" font-family="sans-serif" font-size="12">', '<rect width="100%" height="100%" fill="white"/>']
    won = sum(n != HELD for n in turns.values())
    out.append(f'<text x="{left}" y="{TOP}" font-weight="bold" font-size="14">Drive against draught: {won} of {len(turns)} starts are forced home, in at most {most} turns</text>')
    out.append(f'<text x="{left}" y="{TOP + 18}">fewest turns in which the drive brings the start home, whatever the draught does</text>')
    out += [cell(a, r, n, most, left, top) for (a, r), n in sorted(turns.items())]
    out.append(f'<rect x="{left}" y="{top}" width="{wide}" height="{high}" fill="none" stroke="#333"/>')
    out += [f'<text x="{left + CELL_WIDE * (a - ANGLES[0] + 0.5):.1f}" y="{top + high + 16}" text-anchor="middle">{a}</text>' for a in range(-64, 65, 16)]
    out += [f'<text x="{left - 6}" y="{top + CELL_HIGH * (RATES[-1] - r + 0.5) + 4:.1f}" text-anchor="end">{r}</text>' for r in range(-8, 9, 2)]
    out.append(f'<text x="{left + wide / 2}" y="{top + high + 34}" text-anchor="middle">angle at the start</text>')
    middle = top + high / 2
    out.append(f'<text x="{left - 40}" y="{middle}" text-anchor="middle" transform="rotate(-90 {left - 40} {middle})">rate at the start</text>')
    return "\n".join(out + legend(turns, most, left, top + high + 52) + ["</svg>"]) + "\n"


def whole_within(word, what, low, high):
    if not re.fullmatch("[+-]?[0-9]{1,9}", word):
        raise Fault(f"{what} must be a whole number, not {shown(word)}.")
    value = int(word)
    if not low <= value <= high:
        raise Fault(f"{what} must be from {low} to {high}, not {value}.")
    return value


def outcome(angle, rate):
    """The fewest turns (HELD where it is held off) and the first choice, by the program."""
    found = {row[0]: row[1:] for row in read_forms(run_region(angle, rate), "start")}
    if "turns" in found:
        return int(found["turns"][0]), int(found["choice"][0])
    return (0 if "home" in found else HELD), None


def draught_reply(angle, rate, left, choice):
    """The draught's lowest reply that holds the drive off, by the program; None where there is none."""
    found = {row[0]: row[1:] for row in read_forms(run_region("reply", angle, rate, left, choice), "reply")}
    return int(found["adds"][0]) if "adds" in found else None


def at_home(angle, rate):
    return abs(angle) <= 4 and abs(rate) <= 2


def asked(question, low, high):
    """A number that a person gives; None at the end of input. Bad input is asked for again."""
    while True:
        print(question, end="", flush=True)
        line = sys.stdin.readline()
        if not line:
            print()
            return None
        try:
            return whole_within(line.strip(), "It", low, high)
        except Fault as fault:
            print(fault)


def after(angle, rate, choice, reply):
    return angle + rate + choice + reply, rate + choice + reply


def hopeful(angle, rate, turns):
    """Where the start is held off the program has no choice: the one that leaves the draught the most replies to go wrong with."""
    hopes = lambda choice: sum(turns.get(after(angle, rate, choice, reply), HELD) != HELD for reply in (-1, 0, 1))
    return max((0, -1, 1, -2, 2), key=hopes)


def longest_reply(angle, rate, most, choice):
    """For how many turns, up to `most`, the draught can hold off after this choice, and its reply for that; 0 and None where home comes next."""
    low, best, high = 0, None, most
    while low < high:
        middle = (low + high + 1) // 2
        reply = draught_reply(angle, rate, middle, choice)
        low, best, high = (low, best, middle - 1) if reply is None else (middle, reply, high)
    return low, best


def drive_chooses(angle, rate, side, turns):
    if side == "drive":
        return asked("  the drive adds (-2 to 2): ", -2, 2)
    fewest, choice = outcome(angle, rate)
    if fewest == HELD:
        choice = hopeful(angle, rate, turns)
    print(f"  the drive adds {signed(choice)}" + (", and is held off" if fewest == HELD else f", and is home in {plural(fewest)} at most"))
    return choice


def draught_chooses(angle, rate, side, left, choice):
    if side == "draught":
        return asked("  the draught adds (-1, 0 or 1): ", -1, 1)
    held, reply = longest_reply(angle, rate, left, choice)
    print("  the draught adds 0: nothing keeps you from home now" if reply is None else f"  the draught adds {signed(reply)}, and keeps you from home for {plural(held)} at least")
    return 0 if reply is None else reply


def duel(side, angle, rate):
    """Turn by turn; the program answers for the other side. Ends quietly at the end of input."""
    turns = read_region(run_region())
    print(f"You are the {side}. The drive adds -2 to 2 to the rate, the draught sees it and adds -1, 0 or 1, then the angle moves by the new rate.")
    print("Home is an angle within 4 and a rate within 2. Beyond an angle of 64 or a rate of 8, either way, the drive has lost.")
    print("The draught can keep this start from home for 64 turns." if turns[angle, rate] == HELD else f"The drive can bring this start home in {plural(turns[angle, rate])}, whatever the draught does.")
    for turn in range(1, TURNS + 1):
        if at_home(angle, rate):
            break
        print(f"turn {turn}: angle {angle}, rate {rate}")
        choice = drive_chooses(angle, rate, side, turns)
        reply = None if choice is None else draught_chooses(angle, rate, side, TURNS + 1 - turn, choice)
        if reply is None:
            return
        angle, rate = after(angle, rate, choice, reply)
        if (angle, rate) not in turns:
            print(f"angle {angle}, rate {rate}: outside. The draught wins in turn {turn}.")
            return
    print(f"angle {angle}, rate {rate}: home. The drive wins." if at_home(angle, rate) else "64 turns, and not home: the draught wins.")


def start_duel(*words):
    side = "draught"
    if words[:1] == ("--as",):
        side, words = (words[1:2] or ("",))[0], words[2:]
    if side not in ("draught", "drive"):
        raise Fault(f"--as wants draught or drive, not {shown(side)}.")
    if len(words) != 2:
        raise Fault("duel wants an angle and a rate.")
    try:
        duel(side, whole_within(words[0], "The angle", ANGLES[0], ANGLES[-1]), whole_within(words[1], "The rate", RATES[0], RATES[-1]))
    except KeyboardInterrupt:
        print()
    return ""
