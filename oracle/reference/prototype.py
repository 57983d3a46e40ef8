"""Reference trajectories in plain Python: the same formulas written anew, without the library, to compare with. Neither proved nor bit-exact.

No torque from outside acts on a floating table, so its total angular momentum stays what it was. In the body's axes it is R(t)^T H0, and along a prescribed motion the
wheels must hold  A h(t) = R(t)^T H0 - J w(t). That is algebra and no integration: no error adds up, however fast the wheels turn.
"""
import math


def cross(a, b): return [a[1] * b[2] - a[2] * b[1], a[2] * b[0] - a[0] * b[2], a[0] * b[1] - a[1] * b[0]]
def add(a, b): return [x + y for x, y in zip(a, b)]
def sub(a, b): return [x - y for x, y in zip(a, b)]
def scale(s, a): return [s * x for x in a]
def dot(a, b): return sum(x * y for x, y in zip(a, b))
def norm(a): return math.sqrt(dot(a, a))
def apply(m, v): return [dot(row, v) for row in m]
def unit(a): return scale(1 / norm(a), a)
def turn(n, angle): return [math.cos(angle / 2)] + scale(math.sin(angle / 2), n)


def invert3(m):
    d = dot(m[0], cross(m[1], m[2]))
    c = [cross(m[1], m[2]), cross(m[2], m[0]), cross(m[0], m[1])]
    return [[c[j][i] / d for j in range(3)] for i in range(3)]


def quat_mul(a, b):
    return [a[0] * b[0] - dot(a[1:], b[1:])] + add(add(scale(a[0], b[1:]), scale(b[0], a[1:])), cross(a[1:], b[1:]))


def turned_back(n, angle, v):
    """R^T v, where R turns by `angle` about the unit axis n."""
    c, s = math.cos(angle), math.sin(angle)
    return add(add(scale(c, v), scale(-s, cross(n, v))), scale(dot(n, v) * (1 - c), n))


def shape(x):
    """Smooth from 0 to 1: the fraction of the rotation, its first and its second derivative."""
    return x ** 3 * (10 - 15 * x + 6 * x * x), 30 * x * x * (1 - x) ** 2, 60 * x * (1 - x) * (1 - 2 * x)


class Table:
    def __init__(self, inertia, axes, torque, momentum=None, start=None, box=0.5):
        self.j, self.jinv, self.axes, self.torque, self.momentum, self.start, self.box = inertia, invert3(inertia), axes, torque, momentum, start, box
        if axes:
            self.gram_inv = invert3([[sum(a[i] * a[k] for a in axes) for k in range(3)] for i in range(3)])

    def spread(self, v):
        """The smallest numbers, one an axis, that give v: A^T (A A^T)^-1 v."""
        y = apply(self.gram_inv, v)
        return [dot(a, y) for a in self.axes]

    def gathered(self, x):
        out = [0.0, 0.0, 0.0]
        for a, xi in zip(self.axes, x):
            out = add(out, scale(xi, a))
        return out


def wheel_momenta(t, n, angle, duration, steps):
    """The wheels' momenta at every sample; the part of the start momenta that the body does not feel is given up on the way."""
    h0 = t.gathered(t.start)
    idle = sub(t.start, t.spread(h0))
    for k in range(steps + 1):
        s, ds, _ = shape(k / steps)
        need = sub(turned_back(n, angle * s, h0), apply(t.j, scale(angle * ds / duration, n)))
        yield sub(add(t.start, t.spread(sub(need, h0))), scale(s, idle))


def thrusts(t, n, angle, duration, steps):
    for k in range(steps):
        _, ds, dds = shape((k + 0.5) / steps)
        w = scale(angle * ds / duration, n)
        tau = add(apply(t.j, scale(angle * dds / duration ** 2, n)), cross(w, apply(t.j, w)))
        yield t.spread(tau) if t.axes else tau


def reference(t, n, angle, duration, steps):
    """Rows of controls, and the wheels' momenta at the samples; None where a limit is passed."""
    if t.momentum is not None:
        momenta = list(wheel_momenta(t, n, angle, duration, steps))
        if any(not abs(x) <= t.momentum for h in momenta for x in h):
            return None
        rows = [scale(steps / duration, sub(b, a)) for a, b in zip(momenta, momenta[1:])]
    else:
        momenta, rows = None, list(thrusts(t, n, angle, duration, steps))
    for u in rows:
        body = t.gathered(u) if t.axes else u
        if any(not abs(x) <= t.torque for x in u) or any(not abs(x) <= t.box for x in body):
            return None
    return rows, momenta


def shortest(t, n, angle, steps):
    """Doubled until every limit holds, then twelve bisections."""
    low, high = 0.0, 10_000 / 2 ** 20
    while not reference(t, n, angle, high, steps):
        if high > 10_000:
            return None
        low, high = high, high * 2
    for _ in range(12):
        mid = (low + high) / 2
        if reference(t, n, angle, mid, steps):
            high = mid
        else:
            low = mid
    return high


def flown(t, rows, wheels, q, duration, fine=4):
    """The attitude and rate after the rows, each held over its step, under the continuous equations (Runge-Kutta 4)."""
    dt = duration / len(rows)
    w, h = [0.0, 0.0, 0.0], list(t.start) if wheels else None
    for u in rows:
        pushed = scale(-1, t.gathered(u)) if wheels else t.gathered(u) if t.axes else u

        def slope(q, w, time):
            stored = t.gathered(add(h, scale(time, u))) if wheels else [0.0, 0.0, 0.0]
            return scale(0.5, quat_mul(q, [0.0] + w)), apply(t.jinv, sub(pushed, cross(w, add(apply(t.j, w), stored))))

        e = dt / fine
        for i in range(fine):
            a = slope(q, w, i * e)
            b = slope(add(q, scale(e / 2, a[0])), add(w, scale(e / 2, a[1])), i * e + e / 2)
            c = slope(add(q, scale(e / 2, b[0])), add(w, scale(e / 2, b[1])), i * e + e / 2)
            d = slope(add(q, scale(e, c[0])), add(w, scale(e, c[1])), i * e + e)
            q = [q[i] + e / 6 * (a[0][i] + 2 * b[0][i] + 2 * c[0][i] + d[0][i]) for i in range(4)]
            w = [w[i] + e / 6 * (a[1][i] + 2 * b[1][i] + 2 * c[1][i] + d[1][i]) for i in range(3)]
        q = unit(q)
        if wheels:
            h = add(h, scale(dt, u))
    return q, w


def degrees_off(q, qf):
    e = quat_mul([q[0], -q[1], -q[2], -q[3]], qf)
    return math.degrees(2 * math.atan2(norm(e[1:]), abs(e[0])))


def laboratory(kind, rnd):
    d = [rnd.uniform(8, 16) for _ in range(3)]
    o = [rnd.uniform(-0.5, 0.5) for _ in range(3)]
    inertia = [[d[0], o[0], o[1]], [o[0], d[1], o[2]], [o[1], o[2], d[2]]]
    if kind == "none":
        return Table(inertia, [], 0.5)
    count = int(kind.split()[0])
    axes = [unit([(1.0 if k == i % 3 else 0.0) + rnd.uniform(-0.3, 0.3) for k in range(3)]) for i in range(count)]
    if "thrusters" in kind:
        return Table(inertia, axes, 0.6)
    most = 45.0 if "fast" in kind else 5.0 if "turning" in kind else 0.0
    return Table(inertia, axes, 0.6, 50.0, [rnd.uniform(-most, most) for _ in range(count)])
