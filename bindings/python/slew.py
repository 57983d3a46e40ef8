"""The slew planner from Python, over the shared library that `make shared` writes, or that the package has.

    from slew import Planner, Problem, turn

    planner = Planner()
    path = planner.plan(Problem(q0=turn((0, 0, 1), 0), qf=turn((0, 0, 1), 90), inertia_kgm2=(10, 12, 8), torque_limit_nm=(0.5, 0.5, 0.5)))
    for sample in planner.samples(path, 100):
        print(sample.t, sample.q)

A refusal is the exception `Refused`, with number, place, forward runs and a sentence. Units: kg m2, N m, N m s, W, rad, rad/s, s; `turn` alone takes degrees.
A `Planner` keeps one workspace and is for one thread; planners in several threads do not disturb each other. The standard library alone is used.
"""

from __future__ import annotations

import ctypes as c
import math
import os
import struct
from dataclasses import dataclass, field, replace
from typing import Any, Callable, Iterator, List, Optional, Sequence, Tuple, Union

__all__ = ["Planner", "Problem", "Record", "Preview", "Weights", "Wheel", "Thruster", "Pyramid", "Path", "Node", "Sample", "Reference", "ReferenceSample", "Order", "Refused", "turn", "after", "replace"]

Vector = Tuple[float, float, float]
Quaternion = Tuple[float, float, float, float]

WORKSPACE = 53_970  # numbers: enough for every problem
ANSWER = 16_384  # bytes of an answer's text
ANY_TEXT = 4_097  # bytes: one more than a text may have
COLUMN = 4_096  # words of a column of byte planes
STARTS = 2_193  # of drive against draught
NONE = 255  # no turns, no choice, no reply
SHORT = 99  # the buffer lent for an answer is too short
WAYS = ("search", "eigenaxis", "gentle")  # of planning a mosaic's legs, by the C interface's numbers


class Refused(Exception):
    """The planner has no answer: `number`, `place`, `runs` and `sentence` as docs/REFUSALS.md has them; of a mosaic the index of the refused `leg`."""

    def __init__(self, number: int, place: int, runs: int, sentence: str, leg: Optional[int] = None):
        super().__init__(f"refusal {number} at {place}: {sentence}" if leg is None else f"leg {leg}: refusal {number} at {place}: {sentence}")
        self.number, self.place, self.runs, self.sentence, self.leg = number, place, runs, sentence, leg


def turn(axis: Sequence[float], degrees: float) -> Quaternion:
    """The attitude that is a turn about an axis, scalar part first."""
    x, y, z = (float(a) for a in axis)
    size, half = math.sqrt(x * x + y * y + z * z), math.radians(degrees) / 2
    if not 0 < size < math.inf:
        raise ValueError("the axis of a turn has a direction")
    return (math.cos(half), math.sin(half) * x / size, math.sin(half) * y / size, math.sin(half) * z / size)


@dataclass(frozen=True)
class Weights:
    """What the search makes small. All of them 0, as where none is named: the final attitude alone, which it reaches most often."""
    time: float = 0.0
    control: float = 0.0
    energy: float = 0.0
    pointing: float = 0.0
    smoothness: float = 0.0
    momentum: float = 0.0


@dataclass(frozen=True)
class Wheel:
    """A reaction wheel; `start_nms` is the momentum that it turns with when the slew begins."""
    axis: Vector
    torque_nm: float
    momentum_nms: float
    power_w: Optional[float] = None
    start_nms: float = 0.0


@dataclass(frozen=True)
class Thruster:
    axis: Vector
    torque_nm: float


@dataclass(frozen=True)
class Pyramid:
    """Four control moment gyros."""
    skew_rad: float
    momentum_nms: float
    rate_rad_s: float
    singularity_eps: float


@dataclass(frozen=True)
class Problem:
    """A slew from rest at `q0` to rest at `qf`. The inertia is three principal values or nine numbers by rows."""
    q0: Quaternion
    qf: Quaternion
    inertia_kgm2: Sequence[float]
    torque_limit_nm: Vector
    slew_limit_rad_s: Optional[float] = None
    weights: Weights = Weights()
    norm_tolerance: float = 2.0 ** -20
    tie_tolerance: float = 2.0 ** -20
    wheels: Tuple[Wheel, ...] = ()
    thrusters: Tuple[Thruster, ...] = ()
    pyramid: Optional[Pyramid] = None


@dataclass(frozen=True)
class Sample:
    """A path at a time: attitude, body rate, body torque, body momentum."""
    t: float
    q: Quaternion
    w: Vector
    tau: Vector
    h: Vector


@dataclass(frozen=True)
class Node(Sample):
    """One of a path's 17 nodes, with each wheel's momentum."""
    hw: Tuple[float, ...] = ()


@dataclass(frozen=True)
class Path:
    """An answered path. A row of controls is for one of 16 steps: body torques, or wheel torques, thruster torques, gimbal rates."""
    problem: Problem
    duration: float
    iterations: int
    runs: int
    max_defect: float
    rows: Tuple[Tuple[float, ...], ...]
    nodes: Tuple[Node, ...]
    held: Tuple[int, ...]  # for each control of a row, how many of its 16 were larger than their limit and were held to it
    decision: Tuple[float, ...] = field(repr=False, default=())  # the duration and the rows as the C interface has them
    numbers: Tuple[float, ...] = field(repr=False, default=())  # the nodes likewise


@dataclass(frozen=True)
class ReferenceSample:
    """A reference trajectory at a time: attitude, body rate, its derivative, each wheel's momentum, and the controls from here to the next sample: wheel torques (the rates of
    their momenta), thruster torques, or body torques. The last sample's controls are zeros."""
    t: float
    q: Quaternion
    w: Vector
    a: Vector
    hw: Tuple[float, ...]
    u: Tuple[float, ...]


@dataclass(frozen=True)
class Reference:
    """A verified reference trajectory: its duration, the wheels' momenta at its end, its samples from time 0 to the duration, and how many durations were tried."""
    problem: Problem
    duration: float
    end: Tuple[float, ...]
    samples: Tuple[ReferenceSample, ...] = field(repr=False)
    trials: int = 0


@dataclass(frozen=True)
class Order:
    """An order for the tiles of a mosaic, tile 0 first. Where `used_up` is false no order is cheaper; else one may be, by at most cost - floor."""
    tiles: Tuple[int, ...]
    cost: int
    placed: int
    used_up: bool
    floor: int


@dataclass(frozen=True)
class Record:
    """The wheels' momenta on record, in N m s, in the order in which the wheels are declared."""
    momenta: Tuple[float, ...]


@dataclass(frozen=True)
class Preview:
    """A slew planned from the momenta on record, to be started later."""
    began: Record
    path: Path


def after(problem: Problem, path: Union[Path, Reference]) -> Problem:
    """The problem, its wheels turning as they do at the path's or the reference's end, bit for bit."""
    ends = path.end if isinstance(path, Reference) else path.nodes[16].hw
    if len(ends) != len(problem.wheels):
        raise ValueError(f"the path has {len(ends)} wheels, the problem {len(problem.wheels)}")
    return _turning(problem, ends)


def _turning(problem: Problem, momenta: Sequence[float]) -> Problem:
    """The problem, its wheels starting with these momenta."""
    return replace(problem, wheels=tuple(replace(wheel, start_nms=x) for wheel, x in zip(problem.wheels, momenta)))


def _library_path() -> str:
    """The library that SLEW_LIBRARY names; else the one in the package, in the repository or in the distribution; else the installed one."""
    here = os.path.dirname(os.path.abspath(__file__))
    top = os.path.dirname(os.path.dirname(here))
    own = [os.path.join(folder, "libslew.so") for folder in (here, os.path.join(top, "target", "lib"), os.path.join(top, "lib"))]
    named = os.environ.get("SLEW_LIBRARY")
    if named:
        return named
    return next((path for path in own if os.path.exists(path)), "libslew.so")


def _doubles(values: Sequence[float], count: int, what: str) -> "c.Array[c.c_double]":
    numbers = [float(x) for x in values]
    if len(numbers) != count:
        raise ValueError(f"{what}: {count} numbers, not {len(numbers)}")
    return (c.c_double * count)(*numbers)


def _nine(inertia: Sequence[float]) -> "c.Array[c.c_double]":
    if len(inertia) == 3:
        a, b, d = inertia
        inertia = (a, 0.0, 0.0, 0.0, b, 0.0, 0.0, 0.0, d)
    return _doubles(inertia, 9, "inertia_kgm2")


def _floats(words: Sequence[str]) -> Any:
    """Floats by their bits, as a text has them."""
    return tuple(struct.unpack(">d", bytes.fromhex(word.ljust(16, "0")))[0] for word in words)


def _wheel(words: Sequence[str], start: float) -> Wheel:
    torque, momentum = _floats(words[3:5])
    return Wheel(_floats(words[:3]), torque, momentum, None if words[5] == "none" else _floats(words[5:])[0], start)


def _sample(numbers: Sequence[float]) -> Sample:
    t, qw, qx, qy, qz, wx, wy, wz, tx, ty, tz, hx, hy, hz = numbers[:14]
    return Sample(t, (qw, qx, qy, qz), (wx, wy, wz), (tx, ty, tz), (hx, hy, hz))


def _reference_sample(row: Sequence[float], wheels: int, controls: int) -> ReferenceSample:
    t, qw, qx, qy, qz, wx, wy, wz, ax, ay, az = row[:11]
    return ReferenceSample(t, (qw, qx, qy, qz), (wx, wy, wz), (ax, ay, az), tuple(row[11:11 + wheels]), tuple(row[19:19 + controls]))


def _nodes(numbers: Sequence[float], wheels: int) -> Tuple[Node, ...]:
    parts = [numbers[22 * k:22 * k + 22] for k in range(17)]
    return tuple(Node(**vars(_sample(n)), hw=tuple(n[14:14 + wheels])) for n in parts)


def _declared(problem: Problem) -> Tuple[Any, ...]:
    """The problem as the C interface takes it: counts, actuators, body, whether there is a slew limit."""
    wheels, thrusters, pyramid = problem.wheels, problem.thrusters, problem.pyramid
    counts = (c.c_size_t * 11)(len(wheels), len(thrusters), int(pyramid is not None))
    numbers = [0.0] * 100
    for i, wheel in enumerate(wheels[:8]):
        numbers[3 * i:3 * i + 3] = _doubles(wheel.axis, 3, f"the axis of wheel {i}")
        numbers[24 + i], numbers[32 + i] = wheel.torque_nm, wheel.momentum_nms
        if wheel.power_w is not None:
            counts[3 + i], numbers[40 + i] = 1, wheel.power_w
    for i, thruster in enumerate(thrusters[:12]):
        numbers[48 + 3 * i:51 + 3 * i] = _doubles(thruster.axis, 3, f"the axis of thruster {i}")
        numbers[84 + i] = thruster.torque_nm
    if pyramid is not None:
        numbers[96:100] = [pyramid.skew_rad, pyramid.momentum_nms, pyramid.rate_rad_s, pyramid.singularity_eps]
    weights, limit = problem.weights, problem.slew_limit_rad_s
    starts = [wheel.start_nms for wheel in wheels[:8]]
    body = [*_doubles(problem.q0, 4, "q0"), *_doubles(problem.qf, 4, "qf"), *_nine(problem.inertia_kgm2), *_doubles(problem.torque_limit_nm, 3, "torque_limit_nm"),
            0.0 if limit is None else limit,
            weights.time, weights.control, weights.energy, weights.pointing, weights.smoothness, weights.momentum,
            problem.norm_tolerance, problem.tie_tolerance, *starts, *[0.0] * (8 - len(starts))]
    return counts, _doubles(numbers, 100, "the actuators"), _doubles(body, 37, "the body"), c.c_bool(limit is not None)


class Planner:
    """The planner, with a workspace of its own."""

    def __init__(self, library: Optional[str] = None):
        path = library or _library_path()
        try:
            self._library = c.CDLL(path)
        except OSError as fault:
            raise OSError(f"{path} cannot be loaded: run `make shared` at the top of the repository, or name the library in SLEW_LIBRARY") from fault
        for name in ("slew_plan", "slew_plan_from", "slew_plan_numbers", "slew_plan_from_numbers", "slew_reconstruct", "slew_problem_profile", "slew_sample_count",
                     "slew_sample_path", "slew_sample_list", "slew_board_sample", "slew_order", "slew_outcome", "slew_reply", "slew_encode_planes", "slew_decode_planes",
                     "slew_explain", "slew_canonical", "slew_plan_eigenaxis_numbers", "slew_mosaic_next", "slew_start",
                     "slew_plan_reference_numbers", "slew_reference_list_numbers"):
            getattr(self._library, name).restype = c.c_size_t
        self._library.slew_region.restype = None
        self._workspace = (c.c_double * WORKSPACE)()

    # ---- refusals

    def explain(self, number: int, place: int, runs: int, sampled: bool = False) -> str:
        """What a refusal means, in the sentence that the program prints; `sampled` where a dense sample was refused and not a plan."""
        out = (c.c_uint8 * 256)()
        count = self._library.slew_explain(c.c_size_t(number), c.c_size_t(place), c.c_size_t(runs), c.c_bool(sampled), out, c.c_size_t(256))
        return bytes(out[:count]).decode("ascii").strip()

    def _refuse(self, number: int, place: int, runs: int, leg: Optional[int] = None, sampled: bool = False) -> None:
        if number:
            raise Refused(number, place, runs, self.explain(number, place, runs, sampled), leg)

    # ---- plans

    def plan(self, problem: Problem) -> Path:
        """The path that the planner finds from its own seed."""
        return self._planned(problem, self._library.slew_plan_numbers, ())

    def plan_from(self, problem: Problem, duration: float, rates: Sequence[Vector], torques: Sequence[Vector]) -> Path:
        """The path that it finds from a caller's seed: 17 rates and 17 torques. Of the rates only the count matters."""
        flat = [(c.c_double * (3 * len(v)))(*[float(x) for three in v for x in three]) for v in (rates, torques)]
        seed = (c.c_double(duration), flat[0], c.c_size_t(len(flat[0])), flat[1], c.c_size_t(len(flat[1])))
        return self._planned(problem, self._library.slew_plan_from_numbers, seed)

    def plan_eigenaxis(self, problem: Problem, gentle: bool = False) -> Path:
        """The path about one axis, at the shortest duration that the search over durations finds; `gentle`: along one smooth wave. The weights are not read. Most slews that
        `plan` refuses are planned so."""
        return self._planned(problem, self._library.slew_plan_eigenaxis_numbers, (c.c_bool(gentle),))

    def reference(self, problem: Problem, period: float, duration: Optional[float] = None) -> Reference:
        """The reference trajectory about one axis, sampled every `period` seconds, at the duration named or else at the shortest found: a whole number of periods, at most
        100,000. The wheels' momenta follow from the conservation of the total angular momentum, so that they return after slews to and fro. The weights are not read."""
        if not 0 < period < math.inf or not 0 < (1.0 if duration is None else duration) < math.inf:
            raise ValueError("a period and a duration are finite and above 0")
        trials, shortest = (0, duration) if duration is not None else self._shortest(problem)
        steps = max(1, round(shortest / period) if duration is not None else math.ceil(shortest / period))
        number, place, found = self._sampled(problem, steps * period, steps)
        for _ in range(32 if duration is None else 0):  # what lies between the samples of the search's grid can ask for a little more time
            if not number:
                break
            trials, steps = trials + 1, steps + max(1, steps // 64)
            number, place, found = self._sampled(problem, steps * period, steps)
        self._refuse(number, place, 0)
        return replace(found, trials=trials + 1)

    def _shortest(self, problem: Problem) -> Tuple[int, float]:
        """How many durations the search tries on a grid of 64 steps, and the shortest that it finds."""
        told, duration, end = (c.c_size_t * 3)(), c.c_double(), (c.c_double * 8)()
        number = self._library.slew_plan_reference_numbers(*_declared(problem), c.c_bool(False), c.c_double(0.0), c.c_size_t(64), told, c.byref(duration), end)
        self._refuse(number, told[0], 0)
        return told[1], duration.value

    def _sampled(self, problem: Problem, duration: float, steps: int) -> Tuple[int, int, Reference]:
        """A refusal's number and place, or zeros, and the reference of a given duration."""
        told, took, end, written = (c.c_size_t * 3)(), c.c_double(), (c.c_double * 8)(), c.c_size_t()
        lent = min(steps, 100_000) + 1
        rows = (c.c_double * (31 * lent))()
        number = self._library.slew_reference_list_numbers(*_declared(problem), c.c_bool(True), c.c_double(duration), c.c_size_t(steps), rows, c.c_size_t(lent),
                                                           c.byref(written), told, c.byref(took), end)
        wheels, controls = len(problem.wheels), len(problem.wheels) or len(problem.thrusters) or 3
        samples = tuple(_reference_sample(rows[at:at + 31], wheels, controls) for at in range(0, 31 * written.value, 31))
        return number, told[0], Reference(problem, took.value, tuple(end[:wheels]), samples)

    def legs(self, problem: Problem, tiles: Sequence[Quaternion], way: str = "search") -> Iterator[Path]:
        """The legs of a mosaic of 2 to 64 tiles, one after another, each from the momenta that the one before it ended with. The problem's own attitudes are not read.
        Way: "search", "eigenaxis" or "gentle", as `plan`, `plan_eigenaxis` and its gentle shape plan a leg. A refused leg ends them with `Refused`, whose `leg` is its index;
        the legs before it stand."""
        if way not in WAYS:
            raise ValueError(f"a way is one of {', '.join(WAYS)}, not {way!r}")
        if not 2 <= len(tiles) <= 64:
            self._refuse(23, 0, 0)
        starts = [wheel.start_nms for wheel in problem.wheels[:8]]
        cursor, sums = (c.c_size_t * 5)(), (c.c_double * 9)(0.0, *starts)
        for leg, (q0, qf) in enumerate(zip(tiles, tiles[1:])):
            ends = (c.c_size_t(WAYS.index(way)), _doubles(q0, 4, "a tile"), _doubles(qf, 4, "a tile"), cursor, sums)
            path = self._planned(replace(problem, q0=tuple(q0), qf=tuple(qf)), self._library.slew_mosaic_next, ends, leg)
            yield replace(path, problem=_turning(path.problem, path.nodes[0].hw))

    def preview(self, record: Record, problem: Problem) -> Preview:
        """The plan of a problem from the momenta on record; the problem's own are not read."""
        if len(record.momenta) != len(problem.wheels):
            self._refuse(22, min(len(record.momenta), len(problem.wheels)), 0)
        return Preview(record, self.plan(_turning(problem, record.momenta)))

    def start(self, record: Record, preview: Preview) -> Record:
        """What is on record once the preview is started: the path's last momenta. Refusal 26 where the record no longer has the bits that the preview began from."""
        wheels, at, place = c.c_size_t(len(record.momenta)), (c.c_double * 8)(*record.momenta[:8]), c.c_size_t()
        began = (c.c_double * 8)(*preview.began.momenta[:8])
        number = self._library.slew_start(c.byref(wheels), at, c.c_size_t(0), c.c_size_t(len(preview.began.momenta)), began,
                                          c.c_size_t(len(preview.path.problem.wheels)), _doubles(preview.path.numbers, 374, "the nodes"), c.byref(place))
        self._refuse(number, place.value, 0)
        return Record(tuple(at[:wheels.value]))

    def _planned(self, problem: Problem, entry: Callable[..., int], more: Tuple[Any, ...], leg: Optional[int] = None) -> Path:
        told, held, duration, defect = (c.c_size_t * 5)(), (c.c_size_t * 12)(), c.c_double(), c.c_double()
        decision, nodes = (c.c_double * 193)(), (c.c_double * 374)()
        number = entry(*_declared(problem), *more, self._workspace, c.c_size_t(WORKSPACE), told, c.byref(duration), c.byref(defect), decision, nodes, held)
        place, runs, controls, wheels, iterations = told
        self._refuse(number, place, runs, leg)
        rows = tuple(tuple(decision[1 + k * controls:1 + (k + 1) * controls]) for k in range(16))
        return Path(problem, duration.value, iterations, runs, defect.value, rows, _nodes(nodes[:], wheels), tuple(held[:controls]), tuple(decision), tuple(nodes))

    def rerun(self, path: Path) -> Tuple[Node, ...]:
        """The nodes of the path's decision, run once by the step law with no search. They are the path's own, bit for bit, by proof."""
        nodes, defect, place, runs = (c.c_double * 374)(), c.c_double(), c.c_size_t(), c.c_size_t()
        number = self._library.slew_reconstruct(*_declared(path.problem), _doubles(path.decision, 193, "the decision"), nodes,
                                                c.byref(defect), c.byref(place), c.byref(runs))
        self._refuse(number, place.value, runs.value)
        return _nodes(nodes[:], len(path.problem.wheels))

    def plan_text(self, text: Union[bytes, str]) -> bytes:
        """What the program `slew` prints of a problem's text, in a workspace that serves every problem."""
        given = text.encode() if isinstance(text, str) else text
        given = given[:ANY_TEXT]
        out = (c.c_uint8 * ANSWER)()
        count = self._library.slew_plan((c.c_uint8 * max(1, len(given))).from_buffer_copy(given or b"\0"), c.c_size_t(len(given)),
                                        self._workspace, c.c_size_t(WORKSPACE), out, c.c_size_t(ANSWER))
        return bytes(out[:count])

    def canonical(self, text: Union[bytes, str]) -> bytes:
        """The canonical text of a problem's text: two texts are the same problem exactly when theirs are the same bytes."""
        given = (text.encode() if isinstance(text, str) else text)[:ANY_TEXT]
        out, count, place = (c.c_uint8 * 4_096)(), c.c_size_t(), c.c_size_t()
        number = self._library.slew_canonical((c.c_uint8 * max(1, len(given))).from_buffer_copy(given or b"\0"), c.c_size_t(len(given)),
                                              out, c.c_size_t(4_096), c.byref(count), c.byref(place))
        self._refuse(number, place.value, 0)
        return bytes(out[:count.value])

    def problem(self, text: Union[bytes, str]) -> Problem:
        """The problem of a text; refusal 21 or 1 where it is wrong. Its plan is that of the text, bit for bit."""
        rows = [line.strip(" ()").split() for line in self.canonical(text).decode("ascii").splitlines()[1:]]
        one = {row[0]: _floats(row[1:]) for row in rows if row[0] not in ("slew", "wheel", "thruster", "cmg", "actuators")}
        slew, (norm, tie) = [row[1] for row in rows if row[0] == "slew"][0], one["tolerance"]
        wheels = [row[1:] for row in rows if row[0] == "wheel"]
        pyramids = [Pyramid(*_floats(row[1:])) for row in rows if row[0] == "cmg"]
        return Problem(
            q0=one["q0"], qf=one["qf"], inertia_kgm2=one["inertia"], torque_limit_nm=one["limit"], slew_limit_rad_s=None if slew == "none" else _floats([slew])[0],
            weights=Weights(*one["weights"]), norm_tolerance=norm, tie_tolerance=tie,
            wheels=tuple(_wheel(words, start) for words, start in zip(wheels, one["momenta"])),
            thrusters=tuple(Thruster(_floats(row[1:4]), _floats(row[4:])[0]) for row in rows if row[0] == "thruster"), pyramid=pyramids[0] if pyramids else None)

    # ---- dense samples

    def acceleration(self, problem: Problem) -> float:
        """That of the problem's bang-coast-bang profile, in rad/s2: the alpha that dense samples are counted by."""
        profile, place = (c.c_double * 22)(), c.c_size_t()
        self._refuse(self._library.slew_problem_profile(*_declared(problem), profile, c.byref(place)), place.value, 0)
        return profile[1]

    def _alpha(self, path: Path) -> float:
        """The profile's acceleration; of a path whose problem has no profile (a half turn, no turn) the largest of its own."""
        try:
            return self.acceleration(path.problem)
        except Refused as told:
            if told.number != 7:
                raise
        return max(math.dist(a.w, b.w) / (b.t - a.t) for a, b in zip(path.nodes, path.nodes[1:]))

    def sample_count(self, path: Path, requested: int, alpha: Optional[float] = None) -> int:
        """How many dense samples a path has where `requested` are asked for; by the profile's acceleration where no alpha is named."""
        count = c.c_size_t()
        alpha = self._alpha(path) if alpha is None else alpha
        self._refuse(self._library.slew_sample_count(c.c_double(path.duration), c.c_size_t(requested), c.c_double(alpha), c.byref(count)), 0, 0)
        return count.value

    def samples(self, path: Path, requested: int, alpha: Optional[float] = None) -> Iterator[Sample]:
        """The path's dense samples, one after another."""
        for arguments in self._each(path, requested, alpha):
            sample, place = (c.c_double * 14)(), c.c_size_t()
            self._refuse(self._library.slew_sample_path(*arguments, sample, c.byref(place)), place.value, 0, sampled=True)
            yield _sample(sample[:])

    def sample_list(self, path: Path, requested: int, alpha: Optional[float] = None) -> List[Sample]:
        """The same samples as one list, in one call."""
        alpha = self._alpha(path) if alpha is None else alpha
        count = self.sample_count(path, requested, alpha)
        rows, written, place = (c.c_double * (14 * count))(), c.c_size_t(), c.c_size_t()
        number = self._library.slew_sample_list(_nine(path.problem.inertia_kgm2), c.c_double(path.problem.norm_tolerance), c.c_double(path.duration),
                                                _doubles(path.numbers, 374, "the nodes"), c.c_size_t(requested), c.c_double(alpha),
                                                rows, c.c_size_t(count), c.byref(written), c.byref(place))
        self._refuse(number, place.value, 0, sampled=True)
        return [_sample(rows[at:at + 14]) for at in range(0, 14 * count, 14)]

    def board(self, path: Path, requested: int, alpha: Optional[float] = None) -> Iterator[Tuple[int, ...]]:
        """The same as the drive board takes them: 13 whole numbers each."""
        for arguments in self._each(path, requested, alpha):
            numbers, place = (c.c_int32 * 13)(), c.c_size_t()
            self._refuse(self._library.slew_board_sample(*arguments, numbers, c.byref(place)), place.value, 0, sampled=True)
            yield tuple(numbers)

    def _each(self, path: Path, requested: int, alpha: Optional[float]) -> Iterator[Tuple[Any, ...]]:
        alpha = self._alpha(path) if alpha is None else alpha
        inertia, nodes = _nine(path.problem.inertia_kgm2), _doubles(path.numbers, 374, "the nodes")
        for index in range(self.sample_count(path, requested, alpha)):
            yield (inertia, c.c_double(path.problem.norm_tolerance), c.c_double(path.duration), nodes,
                   c.c_size_t(requested), c.c_double(alpha), c.c_size_t(index))

    # ---- beside a plan

    def order(self, times: Sequence[Sequence[int]], budget: int = 1_000_000) -> Order:
        """An order for up to 10 tiles by whole milliseconds from each (a row) to each."""
        flat = [int(x) if i != j else 0 for i, row in enumerate(times) for j, x in enumerate(row)]
        if any(not 0 <= x < 2 ** 32 for x in flat):
            self._refuse(25, 0, 0)
        order, told = (c.c_size_t * 10)(), (c.c_uint64 * 4)()
        number = self._library.slew_order(c.c_size_t(len(times)), (c.c_uint32 * max(1, len(flat)))(*flat), c.c_size_t(len(flat)), c.c_uint64(budget), order, told)
        self._refuse(number, 0, 0)
        return Order(tuple(order[:len(times)]), told[0], told[1], bool(told[2]), told[3])

    def outcome(self, angle: int, rate: int) -> Tuple[Optional[int], Optional[int]]:
        """Drive against draught: the fewest turns that force home and the drive's first choice; None where there is none."""
        turns, choice = c.c_size_t(), c.c_int64()
        self._refuse(self._library.slew_outcome(c.c_int64(angle), c.c_int64(rate), c.byref(turns), c.byref(choice)), 0, 0)
        return (None if turns.value == NONE else turns.value, None if choice.value == NONE else choice.value)

    def reply(self, angle: int, rate: int, left: int, choice: int) -> Optional[int]:
        """The draught's lowest reply that keeps the drive from home for `left` turns; None where no reply does it."""
        reply = c.c_int64()
        self._refuse(self._library.slew_reply(c.c_int64(angle), c.c_int64(rate), c.c_size_t(left), c.c_int64(choice), c.byref(reply)), 0, 0)
        return None if reply.value == NONE else reply.value

    def region(self) -> bytes:
        """The fewest turns of every start, angle by angle from -64, in each the rates from -8 to 8; 255 where it is held off."""
        turns = (c.c_uint8 * STARTS)()
        self._library.slew_region(turns)
        return bytes(turns)

    def encode_planes(self, column: Sequence[float]) -> bytes:
        """A column of up to 4,096 floats as byte planes, for the recorder."""
        words = (c.c_double * max(1, len(column)))(*column)
        out = (c.c_uint8 * (8 * len(column) or 1))()
        self._refuse(self._library.slew_encode_planes(words, c.c_size_t(len(column)), out, c.c_size_t(8 * len(column))), 0, 0)
        return bytes(out)[:8 * len(column)]

    def decode_planes(self, planes: bytes) -> Tuple[float, ...]:
        """And back, every bit."""
        count = len(planes) // 8
        out = (c.c_double * max(1, count))()
        given = (c.c_uint8 * max(1, len(planes))).from_buffer_copy(planes or b"\0")
        self._refuse(self._library.slew_decode_planes(given, c.c_size_t(len(planes)), out, c.c_size_t(count)), 0, 0)
        return tuple(out[:count])
