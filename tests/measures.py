#!/usr/bin/env python3
"""The program `measures` beside a reading of the file in Python: every refusal 1 to 12, 17 and 18, and the limits of each size."""
import random
import struct
import subprocess
import sys
from pathlib import Path

ROOT = Path(__file__).resolve().parent.parent
SAMPLE = (ROOT / "samples" / "a.tfm").read_bytes()
NAMES = "lf lh bc ec nw nh nd ni nl nk ne np".split()


def font(changes=(), junk=b"", **sizes):
    """A file with these sizes and lf to match them, then some sizes changed, then junk; many of its bytes are 0 or 255, as the first bytes of lengths are."""
    s = dict(zip(NAMES, [0, 2, 1, 0, 1, 1, 1, 1, 0, 0, 0, 0]), **sizes)
    s["lf"] = 6 + s["lh"] + s["ec"] + 1 - s["bc"] + sum(s[n] for n in NAMES[4:])
    r = random.Random(repr(s))
    body = bytes(r.choice((0, 0, 255, r.randrange(256))) for _ in range(4 * s["lf"] - 24))
    s.update(changes)
    return struct.pack(">12H", *(s[n] % 65536 for n in NAMES)) + body + junk


def number(file):
    """The refusals 1 to 12 in the order of the table, or 0."""
    if len(file) == 0:
        return 1
    if file[0] > 127:
        return 2
    if len(file) == 1:
        return 3
    lf = file[0] * 256 + file[1]
    if lf == 0:
        return 4
    if len(file) < 4 * lf:
        return 5
    if lf < 6:
        return 6
    lf, lh, bc, ec, nw, nh, nd, ni, nl, nk, ne, np = struct.unpack(">12H", file[:24])
    if any(file[2 * k] > 127 for k in range(1, 12)):
        return 7
    if lh < 2:
        return 8
    if bc > ec + 1 or ec > 255:
        return 9
    if 0 in (nw, nh, nd, ni):
        return 10
    if ne > 256:
        return 11
    if lf != 6 + lh + (ec - bc + 1) + nw + nh + nd + ni + nl + nk + ne + np:
        return 12
    return 0


def bits(word):
    signed = word - (1 << 32) if word >> 31 else word
    return struct.pack(">d", signed / 1048576).hex()


def expected(file):
    """The lines of `measures`, those of the marked decimals apart."""
    n = number(file)
    sizes = list(struct.unpack(">12H", file[:24])) if n == 0 else [0] * 12
    yield " ".join(map(str, ["SIZES", n] + sizes))
    lf, lh, bc, ec, *rest = sizes
    counts = [lh, ec - bc + 1] + rest
    tables = []
    at = 24
    for count in counts:
        tables.append(file[at : at + 4 * count])
        at += 4 * count
    for k in range(11):
        if n or k > 9:
            yield f"SUBFILE {k} {n or 17} 0 0 0"
        else:
            t = tables[k]
            yield f"SUBFILE {k} 0 {len(t)} {t[0] if t else 0} {t[-1] if t else 0}"
    zero = " ".join(["0" * 16] * 4)
    for code in range(257):
        if n or code > 255:
            yield f"EYE {code} {n or 17} {zero}"
        elif bc <= code <= ec and (info := tables[1][4 * (code - bc) :][:4])[0] > 0:
            lengths = []
            for k, index in enumerate((info[0], info[1] >> 4, info[1] & 15, info[2] >> 2)):
                t = tables[2 + k]
                i = 4 * index if 4 * index < len(t) else 0
                lengths.append(bits(int.from_bytes(t[i : i + 4], "big") if t[i] in (0, 255) else 0))
            yield f"EYE {code} 0 " + " ".join(lengths)


def files():
    yield from (SAMPLE[:n] for n in (0, 1, 2, 3, 4, 23, 24, 55, 56))
    yield from (bytes([b]) for b in (0, 127, 128, 255))
    yield from (bytes([b, c]) + bytes(40) for b in (0, 127, 128) for c in (0, 1, 5, 6, 14))
    yield SAMPLE + b"junk"
    for name in NAMES:
        for size in (0, 1, 2, 255, 256, 257, 32767, 32768, 65535):
            yield font({name: size})
            yield font({name: size}, ec=3, nw=2, ne=1, junk=bytes(1 << 10))
    for extra in (65535, 65536, 65537):
        yield font({"nl": 32767, "nk": extra - 32767 - 1})
    yield font(bc=256, ec=255)
    yield font({"bc": 2, "ec": 0})
    yield font(ne=256)
    yield font(ne=257)
    yield font(nk=32767 - 12)
    for seed in range(60):
        r = random.Random(seed)
        bc = r.randrange(257)
        ec = r.randrange(bc - 1 if bc else 0, 256)
        sizes = {n: r.choice((1, 2, 5, 16, 64)) for n in ("nw", "nh", "nd", "ni")}
        yield font(lh=r.randrange(2, 20), bc=bc, ec=ec, nl=r.randrange(9), nk=r.randrange(9), ne=r.randrange(4), np=r.randrange(8), **sizes)


def main():
    met = {}
    for file in files():
        run = subprocess.run([ROOT / "nyelgomir", "measures"], input=file, stdout=subprocess.PIPE, check=True)
        found = run.stdout.decode().splitlines()[11:]
        wanted = list(expected(file))
        if found != wanted:
            difference = [(w, f) for w, f in zip(wanted, found) if w != f][:3]
            sys.exit(f"measures: a file of {len(file)} bytes, {file[:24].hex()}..: {difference}")
        met[number(file)] = met.get(number(file), 0) + 1
    missing = set(range(13)) - set(met)
    if missing:
        sys.exit(f"measures: no file for {sorted(missing)}")
    print("measures: files by number of the answer: " + ", ".join(f"{n}: {met[n]}" for n in sorted(met)))


main()
