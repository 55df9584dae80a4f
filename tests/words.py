#!/usr/bin/env python3
"""The program `check_font` beside sentences of its own in Python, over stored, refused, made and damaged files: the verdict and each finding in words, or the refusal."""
import struct
import subprocess
import sys
from collections import Counter
from pathlib import Path

sys.dont_write_bytecode = True
import damage
import judged
import pairs

ROOT = Path(__file__).resolve().parent.parent
STRINGS = ("coding scheme", "font family")
TABLES = ("width", "height", "depth", "italic", "kern")
PIECES = ("top piece; it was left out.", "middle piece; it was left out.", "bottom piece; it was left out.", "repeater; the character itself is listed.")
SENTENCES = {
    1: "There is junk after the end of the file.",
    2: "The length byte of the {string} was too large; it was set to 1.",
    3: "Byte {b} of the {string} was a parenthesis; it was made a slash.",
    4: "Byte {b} of the {string} was not printable; it was made a question mark.",
    5: "The design size is negative or below 1; it is listed as 10 points.",
    6: "The number of parameters is unusual for this kind of font: {a}.",
    7: "Parameter {a} was too big; it was set to 0.",
    8: "Entry 0 of the {table_a} table is not zero.",
    9: "Entry {b} of the {table_a} table was too big; it was set to 0.",
    10: "The program of the left boundary starts past the last step; it is ignored.",
    11: "The program of character {code_a} starts past the last step; it was taken away.",
    12: "Step {a} skipped past the last step; it was made the last of its program.",
    13: "Step {a} leads past the last step.",
    14: "Step {a} was for a missing character; the first code of the font was put in its place, or 0 where that is 256.",
    15: "Step {a} made a missing character; the first code of the font was put in its place, or 0 where that is 256.",
    16: "Step {a} has a kern past the last kern; it is listed as R 0.0.",
    17: "Step {a} had an unknown ligature code; it was made a plain ligature.",
    18: "The pair of {code_a} and {code_b} is rewritten without end.",
    19: "Recipe {a} has a missing {piece}",
    20: "The {table_b} index of character {code_a} is past its table; it counts as 0.",
    21: "The next larger character of {code_a} is missing; the link was taken away.",
    22: "The next larger characters of {code_a} come round to it again; its link was taken away.",
    23: "The recipe of character {code_a} is past the last recipe; it was taken away.",
}
VERDICTS = {
    "CLEAN": "CLEAN: nothing needs mending.",
    "MENDED": "MENDED: the file has faults; its copy is mended.",
    "LOOPING": "LOOPING: a pair of characters is rewritten without end.",
}
REFUSALS = {
    1: "The file has no bytes.",
    2: "The first byte of the file is over 127.",
    3: "The file has only one byte.",
    4: "The file says that its length is 0.",
    5: "The file has fewer bytes than it says.",
    6: "The file says that it has fewer than six words.",
    7: "A size has a first byte over 127.",
    8: "The header has fewer than two words.",
    9: "The range of character codes is impossible.",
    10: "The widths, heights, depths or italic corrections are empty.",
    11: "There are more than 256 recipes.",
    12: "The sizes do not add up to the length of the file.",
}


def name(names, i):
    return names[i] if i < len(names) else "?"


def code(c):
    return "the left boundary" if c == pairs.LEFT_BOUNDARY else f"O {c:o}"


def sentence(tag, a, b):
    return SENTENCES[tag].format(
        a=a, b=b, code_a=code(a), code_b=code(b), string=name(STRINGS, a), table_a=name(TABLES, a), table_b=name(TABLES, b), piece=name(PIECES, b)
    )


def stored():
    for path in sorted([*damage.STORED.glob("*.tfm"), *(ROOT / "samples").glob("*.tfm")]):
        yield path.name, path.read_bytes()


def main():
    files, met, boundary = 0, Counter(), False
    for source in (stored(), judged.refused(), pairs.made(), damage.files(7, 150)):
        for title, file in source:
            judge = judged.Judge(file)
            if judge.refusal:
                wanted = [f"REFUSED {judge.refusal}: {REFUSALS[judge.refusal]}"]
                met[f"REFUSED {judge.refusal}"] += 1
            else:
                records = [(tag, a, b) for tag, _, a, b in struct.iter_unpack(">BHHH", judge.records)]
                wanted = [VERDICTS[judge.verdict], *(sentence(*record) for record in records)]
                met.update({judge.verdict, *(tag for tag, _, _ in records)})
                boundary |= any(tag == 18 and a == pairs.LEFT_BOUNDARY for tag, a, _ in records)
            run = subprocess.run([ROOT / "nyelgomir", "check_font"], input=file, stdout=subprocess.PIPE, check=True, preexec_fn=judged.within_8_mb)
            found = run.stdout.decode().splitlines()
            if found != wanted:
                sys.exit(f"words: {title}: wanted and found: {damage.difference(wanted, found)}")
            files += 1
    if missing := {*SENTENCES, *VERDICTS, *(f"REFUSED {n}" for n in REFUSALS)} - set(met):
        sys.exit(f"words: no file for {sorted(map(str, missing))}")
    if not boundary:
        sys.exit("words: no loop with the left boundary")
    print(f"words: {files} files, with each finding, verdict and refusal of a file, and a loop with the left boundary")


main()
