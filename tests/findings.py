#!/usr/bin/env python3
"""The program `findings` beside the port of TFtoPL in tests/tftopl.py: the stored cases of tests/damaged, with the messages of the real tftopl, then 600 files damaged from a seed."""
import subprocess
import sys
from collections import Counter
from pathlib import Path

sys.dont_write_bytecode = True
import damage
import tftopl

ROOT = Path(__file__).resolve().parent.parent


def stored():
    """The stored files, once the port is seen to give their messages and findings."""
    for path in sorted(damage.STORED.glob("*.tfm")):
        reading = tftopl.Reading(path.read_bytes())
        if not reading.agrees(path.with_suffix(".messages").read_text().splitlines()):
            sys.exit(f"findings: {path.name}: the port prints other lines than tftopl")
        wanted = path.with_suffix(".findings").read_text().splitlines()
        if reading.lines() != wanted:
            sys.exit(f"findings: {path.name}: stored, and by the port: {damage.difference(wanted, reading.lines())}")
        yield path.name, reading


def damaged():
    for name, file in damage.files(2, 600):
        yield name, tftopl.Reading(file)


def main():
    files, met = 0, Counter()
    for readings in (stored(), damaged()):
        for name, reading in readings:
            run = subprocess.run([ROOT / "nyelgomir", "findings"], input=reading.file, stdout=subprocess.PIPE, check=True)
            found = run.stdout.decode().splitlines()
            if found != reading.lines():
                sys.exit(f"findings: {name}: wanted and found: {damage.difference(reading.lines(), found)}")
            files += 1
            met.update({tag for tag, _, _ in reading.findings})
    if missing := set(damage.TAGS) - set(met):
        sys.exit(f"findings: no file for {sorted(missing)}")
    print(f"findings: {files} files; by finding: {damage.count(met)}")


main()
