"""01's pairs and rewriting in Python: the steps of a mended program, which pairs loop and what the others leave; and fonts made for one thing each."""
import random
import struct

LEFT_BOUNDARY = 256


def font(steps, starts, boundary=None):
    """A file in which every code exists: `starts` has the first step of each code with a program, `boundary` that of the left boundary."""
    steps = list(steps)
    if boundary is not None:
        steps.append(bytes([255, 0, boundary >> 8, boundary & 255]))
    infos = b"".join(bytes([1, 0, 1, starts[c]]) if c in starts else bytes([1, 0, 0, 0]) for c in range(256))
    sizes = [0, 2, 0, 255, 2, 1, 1, 1, len(steps), 1, 0, 0]
    body = bytes(4) + bytes([0, 160, 0, 0]) + infos + bytes(4) + bytes([0, 8, 0, 0]) + bytes(12) + b"".join(steps) + bytes(4)
    sizes[0] = 6 + len(body) // 4
    return struct.pack(">12H", *sizes) + body


def step(right, code, z, skip=128):
    return bytes([skip, right, code, z])


def redirect(target):
    return bytes([254, 0, target >> 8, target & 255])


def ligature_steps(copy):
    """The lig_kern table of the mended copy."""
    lf, lh, bc, ec, nw, nh, nd, ni, nl, nk, ne, np = struct.unpack(">12H", copy[:24])
    return copy[4 * (6 + lh + ec - bc + 1 + nw + nh + nd + ni) :][: 4 * nl]


def starts(copy):
    """Where the program of each left code of the mended copy starts."""
    lf, lh, bc, ec, nw, nh, nd, ni, nl, nk, ne, np = struct.unpack(">12H", copy[:24])
    infos, steps, found = copy[24 + 4 * lh :], ligature_steps(copy), {}
    for c in range(bc, ec + 1):
        info = infos[4 * (c - bc) :][:4]
        if info[2] % 4 == 1:
            r = info[3]
            found[c] = int.from_bytes(steps[4 * r + 2 :][:2], "big") if steps[4 * r] > 128 else r
    if nl and steps[4 * nl - 4] == 255:
        found[LEFT_BOUNDARY] = int.from_bytes(steps[4 * nl - 2 :][:2], "big")
    return found


def program(copy):
    """The steps of the mended program: (left, right) to (code, z)."""
    steps, pairs = ligature_steps(copy), {}
    for x, i in starts(copy).items():
        while 4 * i < len(steps) and steps[4 * i] <= 128:
            skip, y, code, z = steps[4 * i :][:4]
            pairs.setdefault((x, y), (code, z))
            i = i + 1 + skip if skip < 128 else len(steps)
    return pairs


def outcomes(pairs):
    """What each pair leaves, by going on until nothing more settles; a pair that is not in it never does."""
    settled = {}

    def left_by(x, y):
        return settled.get((x, y)) if (x, y) in pairs else y

    changed = True
    while changed:
        changed = False
        for (x, y), (code, z) in pairs.items():
            if (x, y) in settled:
                continue
            if code >= 128 or code in (5, 11):
                w = y
            elif code in (1, 7):
                w = left_by(z, y)
            elif code == 2:
                w = left_by(x, z)
            elif code == 3:
                v = left_by(x, z)
                w = None if v is None else left_by(v, y)
            else:
                w = z
            if w is not None:
                settled[x, y] = w
                changed = True
    return settled


def made():
    """Files made for one thing each."""
    a, b, c, d, e = range(65, 70)
    over = 200
    for name, code, z in (("leaves z", 0, c), ("loops right", 2, b), ("loops left", 1, a), ("kern like", 5, a), ("both", 3, c)):
        yield f"sole step: {name}", font([step(b, code, z)], {a: 0})
    yield "a chain", font([step(y, 2, y + 1, 0) for y in range(99)] + [step(99, 0, 7)], {a: 0})
    yield "the same pair twice in turn", font([step(b, 3, c, 0), step(c, 1, d), step(c, 0, e), step(b, 2, c, 0), step(c, 1, d)], {a: 0, d: 2, e: 3})
    yield "the first step for a code wins", font([step(b, 0, c, 0), step(b, 2, b)], {a: 0})
    yield "a loop of the left boundary alone", font([step(b, 2, c, 0), step(c, 2, b)], {}, boundary=0)
    yield "a loop that a step over 128 would make", font([step(c, 0, c, 0), step(b, 2, b, over)], {a: 0})
    yield "a loop that a step over 128 would unmake", font([step(d, 3, b, 0), step(b, 0, e, over), step(d, 1, b)], {a: 0, b: 2})
    yield "code 7 goes on, code 6 does not", font([step(b, 7, c, 0), step(c, 6, a), step(b, 6, d)], {a: 0, c: 2})
    row = [step(y, 0, y, 0) for y in range(249)] + [step(249, 0, 0)]
    yield "5000 pairs", font(row, {x: 0 for x in range(20)})
    yield "5001 pairs", font(row, {x: 249 if x == 20 else 0 for x in range(21)})
    yield "2^60 literal steps", doubling(60)


def programs(rules):
    """A file with these programs: each code's steps as (right, code, z), reached by a redirect."""
    firsts, steps = [], []
    for run in rules.values():
        firsts.append(redirect(len(rules) + len(steps)))
        steps += [step(*rule, skip=0) for rule in run[:-1]] + [step(*run[-1])]
    return font(firsts + steps, {c: i for i, c in enumerate(rules)})


def doubling(levels):
    """A pair at each level whose rewriting goes twice, in turn, through that of the level below: left codes a, t, r and v of each level, right codes y, z and u."""
    y, z, u = 253, 254, 255
    rules = {0: [(y, 0, 2)]}
    for k in range(1, levels + 1):
        a, t, r, v = 4 * k, 4 * k + 1, 4 * k + 2, 4 * k + 3
        rules[a] = [(y, 3, z), (z, 1, t)]
        rules[t] = [(z, 3, y), (u, 2, y), (y, 1, a - 4)]
        rules[r - 4] = [(z, 0, v), (y, 0, r)]
        rules[v] = [(y, 3, u), (u, 1, t)]
    return programs(rules)


def deepest():
    """Every pair of the codes 0 to 254 and 0 to 255 being settled at once: up through the right codes of an even left code, down through those of an odd one."""
    firsts = [redirect(256 + 383 * (x % 2) + x // 2) for x in range(256)]
    up = [step(255, 1, 2 * i + 1, 127 - i) for i in range(128)] + [step(y, 2, y + 1, 0) for y in range(255)]
    down = [step(0, 1, 2 * i + 2 & 255, 127 - i) for i in range(128)] + [step(y, 2, y - 1, 0) for y in range(255, 0, -1)]
    up[-1] = step(254, 2, 255)
    down[-1] = step(1, 2, 0)
    return font(firsts + up + down, {x: x for x in range(255)})


def random_programs(count):
    for seed in range(count):
        r = random.Random(seed)
        few = r.sample(range(256), r.randrange(2, 7))
        n = r.randrange(1, 30)
        steps = [step(r.choice(few), r.choice((0, 1, 1, 2, 2, 3, 3, 5, 6, 7, 11, 128)), r.choice(few), r.choice((0, 0, 0, 1, 2, 128, 128, 254))) for _ in range(n)]
        yield f"random {seed}", font(steps, {c: r.randrange(n) for c in few}, r.choice((None, r.randrange(n))))
