#!/usr/bin/env python3
"""What the programs `answers` and `list` list beside the real tftopl: the listing byte for byte, the findings beside its messages, and the
closing comment with them. Files are counted by class: as tftopl lists them, or by the departure of 01 that they show; anything else is a failure.

tests/listings.py            the stored files beside what tftopl printed for them, on buffers of many sizes too; the list program at its limits;
                             and, where texlive-binaries is installed, every installed font, 4,000 damaged files, and files for each departure
tests/listings.py --store    store what tftopl prints for the stored files anew
"""
import platform
import random
import shutil
import struct
import subprocess
import sys
import time
from collections import Counter
from pathlib import Path

sys.dont_write_bytecode = True
import damage
import judged
import pairs
import tftopl

ROOT = judged.ROOT
SAMPLES = ROOT / "samples"
INSTALLED = [Path("/usr/share") / folder for folder in ("texmf", "texmf-dist", "texlive/texmf-dist")]
LOOP = b"(INFINITE LIGATURE LOOP MUST BE BROKEN!)"
WHOLE = (131080, 262144, 65800, 600000)
TFTOPL_PAIRS = 32579
DAMAGED = 4000
PATIENCE = 1 if platform.machine() == "x86_64" else 20  # seconds; elsewhere the programs run under an emulator
OVER_128 = "a step over 128 ends a program"
CLASSES = {"as tftopl", "refused", "empty file", "lf below 6", "bc = 256", "table sizes", "newline after the loop line", "17 counts for the verdict", OVER_128}


def ask(requests):
    """The answers to files on lent sizes of copy, findings, pairs and listing."""
    return judged.answered([(file, judged.LISTING, sizes) for file, sizes in requests])


def meets_over_128(copy):
    """Whether a program comes to a step over 128: 003 enters it as a pair, and 01 ends there."""
    steps = pairs.ligature_steps(copy)
    for i in pairs.starts(copy).values():
        while 4 * i < len(steps):
            skip = steps[4 * i]
            if skip > 128:
                return True
            i = i + 1 + skip if skip < 128 else len(steps)
    return False


def rule(reading, verdict, tags, text, theirs):
    """The class of a file: as tftopl lists it, or the departure of 01 by which the listing differs; None where neither holds."""
    if not reading.file:
        return "empty file"
    if reading.refusal == 6:
        return "lf below 6"
    if (not reading.refusal or reading.refusal > 8) and reading.nl > 32510:
        return "table sizes"
    if reading.refusal:
        return "refused" if not theirs else None
    if reading.bc == 256:
        return "bc = 256"
    copy = bytes(reading.tfm)
    if len(pairs.program(copy)) >= TFTOPL_PAIRS:
        return "table sizes"
    loop, looping = theirs.endswith(LOOP), verdict == "LOOPING"
    if loop != looping:
        before = text.removesuffix(LOOP + b"\n") if looping else theirs.removesuffix(LOOP)
        return OVER_128 if (theirs if looping else text).startswith(before) and meets_over_128(copy) else None
    if looping:
        return "newline after the loop line" if text == theirs + b"\n" else None
    if tags - set(judged.REMARKS) == {17}:
        return "17 counts for the verdict" if text == theirs + damage.CHANGED else None
    return "as tftopl" if text == theirs else None


def fault(reading, words, findings, kind, messages):
    """What is wrong with an answer besides its listing, or None: its number, its findings but the loop, or the messages that they stand for."""
    if words[0] == "REFUSED":
        return None if int(words[1]) == reading.refusal else f"is answered {words[1]}, not {reading.refusal}"
    if {record for record in findings if record[0] != 18} != reading.findings:
        return "has other findings than the port of tftopl's checks"
    if kind not in ("bc = 256", "table sizes") and not reading.agrees(messages):
        return f"has findings for other messages: {damage.difference(messages, reading.printed)}"
    return None


def compare(name, cases):
    """Cases of a name, a file, and tftopl's messages and listing; the number of each class is printed."""
    met, refusals, tags, cases = Counter(), Counter(), Counter(), list(cases)
    for (words, records, text), (case, file, messages, theirs) in zip(ask([(file, WHOLE) for _, file, _, _ in cases]), cases):
        reading = tftopl.Reading(file)
        findings = [(tag, first, second) for tag, _, first, second in struct.iter_unpack(">BHHH", records)]
        found = {tag for tag, _, _ in findings}
        kind = rule(reading, words[0], found, text, theirs)
        if kind is None:
            sys.exit(f"listings: {case} is not listed as tftopl lists it")
        if wrong := fault(reading, words, findings, kind, messages):
            sys.exit(f"listings: {case} {wrong}")
        met[kind] += 1
        tags.update(found)
        refusals[reading.refusal] += bool(reading.refusal)
    print(f"listings: {len(cases)} {name} files: {damage.count(met)}")
    print(f"  by refusal: {damage.count(+refusals) or 'none'}; by finding: {damage.count(tags) or 'none'}")
    return met, refusals, tags


def stored():
    """The stored fonts and damaged files."""
    for folder in (SAMPLES, damage.STORED):
        for path in sorted(folder.glob("*.tfm")):
            yield path, path.read_bytes()


def store():
    for path, file in stored():
        messages, text = damage.real(file)
        path.with_suffix(".pl").write_bytes(text)
        path.with_suffix(".messages").write_text("".join(line + "\n" for line in messages))


def with_listing():
    for path, file in stored():
        yield path.name, file, path.with_suffix(".messages").read_text().splitlines(), path.with_suffix(".pl").read_bytes()


def published():
    paths = {path.resolve() for folder in INSTALLED for path in folder.rglob("*.tfm")}
    for path in sorted(paths):
        file = path.read_bytes()
        yield path.name, file, *damage.real(file)


def many_pairs(existing):
    """256 codes that share one program for the existing ones."""
    infos = b"\x01\x00\x01\x00" * existing + b"\x00\x00\x01\x00" * (256 - existing)
    program = b"".join(bytes((128 if y == existing - 1 else 0, y, 128, 0)) for y in range(existing))
    return with_program(infos, program)


def departing():
    """The ways in which a file is refused, and files for the departures that are rare."""
    yield from judged.refused()
    yield "32,600 steps", with_program(b"", b"\xff\x00\x00\x00" * 32600)
    yield "34,560 pairs", many_pairs(135)


def damaged():
    for source in (damage.files(6, DAMAGED), departing()):
        for name, file in source:
            yield name, file, *damage.real(file)


def wanted(judge, text, sizes):
    """The line for these lent sizes, by 01: the answer, and the check sums of the buffers."""
    needs = (*judge.needs(), len(text))
    number = judge.refusal or (13 if sizes[0] < needs[0] else 0)
    if number:
        after = [[judged.FILL] * n for n in sizes]
    elif short := [k for k in (2, 1, 3) if sizes[k] < needs[k]]:
        number = {2: 14, 1: 15, 3: 16}[short[0]]
        after = [[0] * n for n in sizes]
    else:
        after = [[*held, *[judged.FILL] * (n - len(held))] for held, n in zip((judge.copy, judge.records, b"", text), sizes)]
        after[2] = [0] * sizes[2]
    answer = f"REFUSED {number}" if number else f"{judge.verdict} {len(judge.records)} {len(text)}"
    return " ".join((answer, *map(judged.check_sum, after))).split()


def check_sizes():
    """The stored files on buffers of the needed size, of one less, of one more and of none."""
    met, total = Counter(), 0
    cases = list(stored())
    whole = list(ask([(file, WHOLE) for _, file in cases]))
    for (path, file), (_, _, text) in zip(cases, whole):
        judge, r = judged.Judge(file), random.Random(path.name)
        needs = (*judge.needs(), len(text))
        sizes = [needs, (0, 0, 0, 0), tuple(n + r.randrange(1, 40) for n in needs)]
        for k, n in enumerate(needs):
            sizes += [(*needs[:k], size, *needs[k + 1 :]) for size in (0, max(n - 1, 0), n + 1)]
        for (words, _, _), size in zip(ask([(file, size) for size in sizes]), sizes):
            if words != (want := wanted(judge, text, size)):
                sys.exit(f"listings: {path.name} on {size}: wanted {want}, found {words}")
            met[" ".join(words[:2]) if words[0] == "REFUSED" else words[0]] += 1
            total += 1
    print(f"listings: {total} answers on buffers of many sizes: {damage.count(met)}")


def timed(file):
    """The answer to a file and the seconds that it took, with those in which the process starts."""
    start = time.monotonic()
    [(words, _, _)] = ask([(file, WHOLE)])
    return words, time.monotonic() - start


def run_list(file):
    return subprocess.run([ROOT / "nyelgomir", "list"], input=file, stdout=subprocess.PIPE, check=True).stdout


def header_font(words, check_sum):
    """A font of no characters with so many words of header."""
    header = [check_sum, 10 << 20, *[0] * (words - 2)]
    return struct.pack(">12H", 6 + words + 4, words, 1, 0, 1, 1, 1, 1, 0, 0, 0, 0) + struct.pack(f">{words}I", *header) + bytes(16)


def listed_in(length):
    """A font whose listing has that many bytes: the lines of header words, and digits of the check sum for the last few."""
    words = 2
    while True:
        short = length - len(run_list(header_font(words, 0)))
        if short < 11:
            return header_font(words, 8**short)
        words = max(18, words + 1, words + (short - 400) // 20) if words < 18 else words + max(1, short // 22)


def check_limits():
    """The list program at its limits: 65,536 bytes of input and of listing, and one more of each. Then listings of one and two hundred megabytes, which are not printed."""
    sample = (SAMPLES / "a.tfm").read_bytes()
    text = (SAMPLES / "a.pl").read_bytes()
    full = listed_in(65536)
    for file, want in (
        (sample, text),
        (sample + bytes(65536 - len(sample)), text),
        (sample + bytes(65537 - len(sample)), b"REFUSED 13\n"),
        (b"\xff" * 65537, b"REFUSED 13\n"),
        (b"", b"REFUSED 1\n"),
    ):
        if run_list(file) != want:
            sys.exit(f"list: {len(file)} bytes of input are not answered {want[:20]}")
    if len(run_list(full)) != 65536:
        sys.exit("list: a listing of 65,536 bytes is not printed")
    more = bytearray(full)
    more[24:28] = struct.pack(">I", 8 * struct.unpack(">I", full[24:28])[0])
    if run_list(bytes(more)) != b"REFUSED 16\n":
        sys.exit("list: a listing of 65,537 bytes is not refused")
    _, alone = timed(sample)
    for steps in (15900, 32400):
        words, took = timed(shared_program(steps))
        took = max(took - alone, 0)
        if words[:2] != ["REFUSED", "16"] or took > PATIENCE:
            sys.exit(f"listings: 256 characters that share {steps} steps are answered {words[:2]} in {took:.2f} s")
    print(f"list: its limits hold; 256 characters that share 32,400 steps are refused in {took * 1000:.0f} ms")


def with_program(infos, program):
    """A font of the codes from 0 on, or of none, with this program and one kern."""
    lengths = bytes(4) + struct.pack(">I", 1 << 19) + bytes(12)
    count, steps = len(infos) // 4, len(program) // 4
    bc, ec = (0, count - 1) if infos else (1, 0)
    sizes = 6 + 2 + count + 5 + steps + 1, 2, bc, ec, 2, 1, 1, 1, steps, 1, 0, 0
    return struct.pack(">12H", *sizes) + struct.pack(">2I", 0, 10 << 20) + infos + lengths + program + bytes(4)


def shared_program(steps):
    """256 characters with one program of kerns with 16 characters, over and over."""
    program = b"".join(bytes((0, i % 16, 128, 0)) for i in range(steps - 1)) + bytes((128, 0, 128, 0))
    return with_program(b"\x01\x00\x01\x00" * 256, program)


def main():
    compare("stored", with_listing())
    check_sizes()
    check_limits()
    if not shutil.which("tftopl"):
        print("listings: TFTOPL IS NOT INSTALLED: ONLY THE STORED FILES WERE COMPARED WITH IT")
        return
    compare("published", published())
    met, refusals, tags = compare("damaged", damaged())
    if missing := CLASSES - set(met):
        sys.exit(f"listings: no file is {sorted(missing)}")
    if missing := set(range(1, 13)) - set(refusals):
        sys.exit(f"listings: no file is refused with {sorted(missing)}")
    if missing := set(range(1, 24)) - set(tags):
        sys.exit(f"listings: no file has the findings {sorted(missing)}")


if __name__ == "__main__":
    store() if "--store" in sys.argv else main()
