#!/usr/bin/env python3
"""The program `decimals` beside exact fractions: demand 3, word by word, for the words near every power of two and a seeded sample."""
import random
import subprocess
import sys
from fractions import Fraction
from pathlib import Path

ROOT = Path(__file__).resolve().parent.parent
PART = Fraction(1, 1 << 20)


def words():
    """The edges of the range and of each bit, then a sample, 16,384 in all."""
    near = {(sign * (1 << bit) + step) % (1 << 32) for bit in range(33) for sign in (1, -1) for step in range(-3, 4)}
    chosen = sorted(near)
    sample = random.Random(20)
    chosen += [sample.getrandbits(32) for _ in range(8192)]
    while len(chosen) < 16384:
        chosen.append(sample.getrandbits(24) - (1 << 23) & 0xFFFFFFFF)
    return chosen


def fault(word, text):
    """What demand 3 finds wrong with the text, or None."""
    exact = PART * (word - (1 << 32) if word >> 31 else word)
    whole, _, digits = text.lstrip("-").partition(".")
    if text.startswith("-") != (exact < 0) or str(int(whole)) != whole or not 1 <= len(digits) <= 7:
        return "form"
    value = Fraction(text)
    if abs(value - exact) >= PART / 2:
        return "half a part or more away"
    for places in range(1, len(digits) + 1):
        unit = Fraction(1, 10**places)
        below = exact // unit * unit
        for other in (below, below + unit):
            if places < len(digits) and abs(other - exact) < PART / 2:
                return "a shorter one is as near"
            if places == len(digits) and other != value and abs(other - exact) <= abs(value - exact):
                return "another is as near"
    if round(value / PART) * PART != exact:
        return "does not round back"
    return None


def main():
    chosen = words()
    stdin = b"".join(w.to_bytes(4, "big") for w in chosen)
    run = subprocess.run([ROOT / "nyelgomir", "decimals"], input=stdin, stdout=subprocess.PIPE, check=True)
    lines = run.stdout.decode().splitlines()
    faults = [(f"{w:08X}", t, f) for w, t in zip(chosen, lines) if (f := fault(w, t))]
    if len(lines) != len(chosen) or faults:
        sys.exit(f"decimals: {len(lines)} lines for {len(chosen)} words; faults: {faults[:5]}")
    print(f"decimals: {len(chosen)} words meet demand 3")


main()
