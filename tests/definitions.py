#!/usr/bin/env python3
"""The definition `build` (crates/building/specs/Build.antt) computed by the prover, on texts, beside the reading of tests/pltotf.py: the answer's
number, and every byte of the file that is built.

tests/definitions.py            the listings of the samples, some texts of its own and odd texts, in a tree of its own
tests/definitions.py N [SEED]   the same with N odd texts
"""
import re
import shutil
import subprocess
import sys
import tempfile
from collections import Counter
from pathlib import Path

sys.dont_write_bytecode = True
import pltotf
import readings

ROOT = Path(__file__).resolve().parent.parent
COUNT, SEED = 150, 20
LONGEST, LARGEST = 1500, 3000  # bytes of an odd text, and of its file: the prover computes each byte
EACH = 20  # texts of a module, so that a difference is found in a small one

# the definitions that are computed, by crate and file of specs/
COMPUTED = {
    "lent": ["Fold", "Write"],
    "ink": ["Ink"],
    "faults": ["Header", "Cycle"],
    "tfm": ["Sizes", "Subfiles"],
    "forest": ["Forest"],
    "reading": ["Values", "Heads", "Read"],
    "font": ["Told", "Checked", "Read"],
    "building": ["Pick", "Values", "Written", "Repaired", "Build"],
}
# of no listing: what a text may have at its edges
OWN = (
    b"",
    b"(FAMILY A\n\nB)\r\n(CODINGSCHEME\rx  y )",
    b"(CHARACTER C A (CHARWD R -16.0000004)(CHARHT R 0.00000047683715820312))",
    b"(CHARACTER C A (CHARWD R 15.9999999))",
    b"(FONTDIMEN (SLANT R -2048.0)(PARAMETER D 3 R +-+ .5))",
    b"(CHARACTER C A (CHARWD D 300))(CHARACTER D 256)(X)",
    b"(LIGTABLE (LABEL C A)(LIG C B C C)(SKIP D 0)(LABEL C A))",
    b"(BOUNDARYCHAR O 101)(LIGTABLE (LABEL BOUNDARYCHAR)(KRN C A R 1)(STOP))",
    b"(CHARACTER C A (NEXTLARGER C B))(CHARACTER C B (NEXTLARGER C A))",
    b"(CHARACTER C B (NEXTLARGER C A))(LIGTABLE (LABEL C A)(LIG C B O 200))",
)


def unfoldable(crate, module):
    """The names that a line `unfolding` may have, of one file of specs/."""
    text = (ROOT / "crates" / crate / "specs" / f"{module}.antt").read_text()
    return re.findall(r"^\s*unfoldable pub (\S+)", text, re.M)


def listed(numbers):
    return " ∷ ".join([*map(str, numbers), "[]"])


def answered(text):
    number, *more = pltotf.answer(text)
    return f"accepts ({listed(more[0])})" if number == 0 else f"refuses {number}"


def module_of(texts):
    """A module with a theorem for each text, that the definition gives what the reading says; the proof is that the prover computes it."""
    uses = [f"use Rattle.{c}.specs.{m} as {c.title()}{m}" for c, modules in COMPUTED.items() for m in modules]
    names = [f"{c.title()}{m}.{name}" for c, modules in COMPUTED.items() for m in modules for name in unfoldable(c, m)]
    lines = [
        "-- Texts, and what is built of them.",
        "use Prim.Native.Nat.{ℕ}",
        "use mathlib.Core.Path.{◌≡◌, refl}",
        "use mathlib.Core.List.{List, [], ◌∷◌}",
        *uses,
        "use Rattle.reading.specs.Read.{accepts, refuses}",
        "use Rattle.building.specs.Build.{build}",
    ]
    for at, text in enumerate(texts):
        lines += ["", f"text-{at} : build ({listed(text)}) ≡ {answered(text)}", f"unfolding {' '.join(names)}", f"text-{at} = refl"]
    return "\n".join(lines) + "\n"


def short(text):
    number, *more = pltotf.answer(text)
    return len(text) <= LONGEST and (number != 0 or len(more[0]) <= LARGEST)


def copy_crates(tree):
    """The crate building and those below it. What `rt ci` has proved of them on this machine it does not prove again."""
    lines = (ROOT / "crates.txt").read_text().splitlines()
    below = next(line for line in lines if line.startswith("building:")).partition(":")[2].split()
    for name in (*below, "building"):
        for part in ("src", "specs", "proofs"):
            if (ROOT / "crates" / name / part).exists():
                shutil.copytree(ROOT / "crates" / name / part, tree / "crates" / name / part)
    wanted = [line for line in lines if line.partition(":")[0] in (*below, "building")]
    (tree / "crates.txt").write_text("\n".join([*wanted, f"texts: {' '.join(below)} building"]) + "\n")


def check(texts):
    """Proves the theorems beside a copy of the crates that they speak of."""
    with tempfile.TemporaryDirectory() as folder:
        tree = Path(folder)
        copy_crates(tree)
        crate = tree / "crates" / "texts"
        for part in ("src", "specs", "proofs"):
            (crate / part).mkdir(parents=True)
        (crate / "src" / "lib.rt").write_text("// Texts, and what is built of them.\n#![tactic(auto)]\n")
        (crate / "specs" / "Lib.antt").write_text("-- Texts\n")
        parts = [texts[at : at + EACH] for at in range(0, len(texts), EACH)]
        (crate / "proofs" / "Lib.antt").write_text("-- Texts\n" + "".join(f"pub mod Texts{at}\n" for at in range(len(parts))))
        for at, part in enumerate(parts):
            (crate / "proofs" / f"Texts{at}.antt").write_text(module_of(part))
        subprocess.run(["rt", "fmt"], cwd=crate, stdout=subprocess.DEVNULL, check=True)
        done = subprocess.run(["rt", "ci"], cwd=tree, capture_output=True, text=True)
        if done.returncode == 0:
            return
        wrong = re.findall(r"Texts(\d+)\.antt:\d+:\d+: error: `text-(\d+)`", done.stdout + done.stderr)
        for part, at in dict.fromkeys(wrong):
            print("DIFFERS:", parts[int(part)][int(at)], answered(parts[int(part)][int(at)])[:400])
        if not wrong:
            print((done.stdout + done.stderr)[-3000:])
        sys.exit(1)


def main():
    count = int(sys.argv[1]) if len(sys.argv) > 1 else COUNT
    seed = int(sys.argv[2]) if len(sys.argv) > 2 else SEED
    odd = [text for text in readings.odd_texts(20 * count, seed) if short(text)][:count]
    listings = [path.read_bytes() for path in sorted((ROOT / "samples").glob("*.pl"))]
    texts = [*listings, *OWN, *odd]
    check(texts)
    kinds = Counter(pltotf.answer(text)[0] for text in texts)
    print(f"{len(texts)} texts: the definition, computed, gives what the reading says; by number {dict(sorted(kinds.items()))}")


main()
