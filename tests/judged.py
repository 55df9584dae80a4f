#!/usr/bin/env python3
"""The verdicts and pairs of the program `answers` beside 01's rules in Python, over stored, made and damaged files, on buffers that are lent whole, short by one, empty and too long; and 65,280 pairs that are settled at once. The answers for the stored files are stored beside them; --store derives them anew."""
import random
import resource
import struct
import subprocess
import sys
from collections import Counter
from pathlib import Path

sys.dont_write_bytecode = True
import damage
import pairs
import tftopl

ROOT = Path(__file__).resolve().parent.parent
LISTING, VERDICT = 0xFFFFFFFF, 0xFFFFFFFE
REMARKS = (1, 6)
FILL = 170
ANSWERS = {"CLEAN", "MENDED", "LOOPING", "LEAVES", "LOOPS", *(f"REFUSED {n}" for n in range(1, 16)), *(f"NO OUTCOME {n}" for n in (*range(1, 15), 17))}


class Judge:
    """One file: 01's number or 0, the mended copy, its pairs and what they leave, the records and the verdict."""

    def __init__(self, file):
        reading = tftopl.Reading(file)
        self.refusal, self.copy = reading.refusal, bytes(reading.tfm)
        self.pairs, self.records, self.verdict = {}, b"", "CLEAN"
        if self.refusal:
            return
        self.pairs = pairs.program(self.copy)
        self.settled = pairs.outcomes(self.pairs)
        loops = set(self.pairs) - set(self.settled)
        found = set(reading.findings) | {(18, *pair) for pair in sorted(loops)[:1]}
        self.records = b"".join(struct.pack(">BHHH", tag, 4, first, second) for tag, first, second in sorted(found))
        if loops:
            self.verdict = "LOOPING"
        elif {tag for tag, _, _ in found} - set(REMARKS):
            self.verdict = "MENDED"

    def needs(self):
        return len(self.copy), len(self.records), len(self.pairs)

    def answer(self, copy, findings, room, asked):
        """The line for a question: the answer, and the check sums of the lent buffers."""
        x, y = asked >> 16, asked & 0xFFFF
        pair = asked != VERDICT
        lent = (copy, room) if pair else (copy, findings, room)
        number = self.refusal
        if not number and pair and (x > pairs.LEFT_BOUNDARY or y > 255):
            number = 17
        if not number and copy < len(self.copy):
            number = 13
        if number:
            after = [[FILL] * n for n in lent]
        elif room < len(self.pairs) or not pair and findings < len(self.records):
            number = 14 if room < len(self.pairs) else 15
            after = [[0] * n for n in lent]
        else:
            texts = (self.copy, b"") if pair else (self.copy, self.records, b"")
            after = [[*text, *[FILL] * (n - len(text))] for text, n in zip(texts, lent)]
            after[-1] = [0] * room
        if number:
            answer = f"{'NO OUTCOME' if pair else 'REFUSED'} {number}"
        elif not pair:
            answer = f"{self.verdict} {len(self.records)}"
        elif (x, y) in self.pairs and (x, y) not in self.settled:
            answer = "LOOPS"
        else:
            answer = f"LEAVES {self.settled.get((x, y), y)}"
        return " ".join((answer, *map(check_sum, after)))


def check_sum(values):
    total = 0
    for value in values:
        total = (total * 31 + value) & 0xFFFFFFFF
    return f"{total:08x}"


def questions(judge, r):
    """Each buffer of the needed size, of one less, of one more, of some more and of none, the others of the needed size or all the same; then pairs."""
    needs = judge.needs()
    sizes = [needs, (0, 0, 0), tuple(max(n - 1, 0) for n in needs), tuple(n + r.randrange(1, 40) for n in needs)]
    for k, n in enumerate(needs):
        sizes += [(*needs[:k], size, *needs[k + 1 :]) for size in (0, max(n - 1, 0), n + 1, n + r.randrange(2, 300))]
    sizes += [(needs[0], max(needs[1] - 1, 0), max(needs[2] - 1, 0)), (max(needs[0] - 1, 0), needs[1] + 7, needs[2] + 3)]
    for size in sizes:
        yield (*size, VERDICT)
    known = sorted(judge.pairs)
    asked = r.sample(known, min(20, len(known))) + [(65, 66), (256, 255), (257, 0), (0, 256), (65535, 0)]
    for x, y in asked:
        for size in (needs, r.choice(sizes)):
            yield (*size, x << 16 | y)


def stored():
    for path in sorted(damage.STORED.glob("*.tfm")):
        yield path.name, path.read_bytes()


def answers(name):
    """Where the questions and answers of a stored file stand, a line each."""
    return (damage.STORED / name).with_suffix(".judged")


def line(judge, question):
    return " ".join(map(str, question)) + ": " + judge.answer(*question)


def store():
    """Writes the answers of the stored files anew, by the rules here."""
    for name, file in stored():
        judge = Judge(file)
        answers(name).write_text("".join(line(judge, question) + "\n" for question in questions(judge, random.Random(name))))


def stored_questions(name, judge):
    """The stored questions, once their stored answers are those that the rules give."""
    lines = answers(name).read_text().splitlines()
    asked = [tuple(map(int, entry.split(":")[0].split())) for entry in lines]
    if lines != [line(judge, question) for question in asked]:
        sys.exit(f"judged: the stored answers for {name} are not those of the rules")
    return asked


def refused():
    """No bytes, one byte, no words, fewer bytes than claimed; a first byte over 127; less than six words; one size changed."""
    yield "no bytes", b""
    yield "one byte", bytes(1)
    yield "no words", bytes(2)
    yield "less than claimed", struct.pack(">H", 14) + bytes(30)
    yield "first byte over 127", struct.pack(">H", 32768) + bytes(4 * 32768 - 2)
    yield "five words", struct.pack(">H", 5) + bytes(18)
    sound = next(file for _, file in pairs.made())
    for k, size in ((2, 0x8000), (1, 1), (3, 256), (4, 0), (10, 257), (8, 2)):
        yield f"size {k} is {size}", sound[: 2 * k] + struct.pack(">H", size) + sound[2 * k + 2 :]


def answered(requests):
    """The answers of one process, within a stack of 8 MB, to requests of a file, what is asked, and the lent sizes of copy, findings, pairs and
    listing: the line's words, the findings, the listing."""
    asked = b"".join(struct.pack(">6I", len(file), what, *sizes) + file for file, what, sizes in requests)
    run = subprocess.run([ROOT / "nyelgomir", "answers"], input=asked, stdout=subprocess.PIPE, check=True, preexec_fn=within_8_mb)
    out, place = run.stdout, 0
    for _, what, _ in requests:
        end = out.index(b"\n", place)
        words, place = out[place:end].decode().split(), end + 1
        parts = []
        for length in lengths(words, what):
            parts.append(out[place : place + length])
            place += length
        yield words, *parts
    if place != len(out):
        sys.exit("answers: more is printed than was asked for")


def lengths(words, what):
    """How many bytes of findings and of listing follow an answer's line."""
    if words[0] == "REFUSED" or what not in (LISTING, VERDICT):
        return 0, 0
    return int(words[1]), int(words[2]) if what == LISTING else 0


def within_8_mb():
    resource.setrlimit(resource.RLIMIT_STACK, (8 << 20, resource.getrlimit(resource.RLIMIT_STACK)[1]))


def compare(name, judge, file, asked):
    """Holds the answers to some questions against the rules."""
    requests = [(file, what, (copy, findings, room, 0)) for copy, findings, room, what in asked]
    for (words, records, _), question in zip(answered(requests), asked):  # in this order, so that the answers are read to their end
        wanted, found = judge.answer(*question), " ".join(words)
        if found != wanted:
            sys.exit(f"judged: {name}: {question}: wanted {wanted}, found {found}")
        if records not in (b"", judge.records):
            sys.exit(f"judged: {name}: {question}: other findings than the rules give")
        yield " ".join(words[:3]) if words[0] == "NO" else " ".join(words[:2]) if words[0] == "REFUSED" else words[0]


def check_deepest():
    """Every pair being settled at once; the rules in Python take too long for it, so the answer stands here."""
    deep = pairs.deepest()
    count, room = len(pairs.program(deep)), 65792
    requests = [(deep, VERDICT, (len(deep), 0, size, 0)) for size in (count - 1, room)]
    found = [words[:2] for words, _, _ in answered(requests)]
    if count != 65280 or found != [["REFUSED", "14"], ["CLEAN", "0"]]:
        sys.exit(f"judged: deepest: {count} pairs, {found}")
    print(f"judged: {count:,} pairs settled at once in {len(deep)} bytes")


def main():
    files, met = 0, Counter()
    for source in (stored(), refused(), pairs.made(), pairs.random_programs(200), damage.files(5, 300)):
        for name, file in source:
            judge = Judge(file)
            asked = stored_questions(name, judge) if name.endswith(".tfm") else list(questions(judge, random.Random(name)))
            met.update(compare(name, judge, file, asked))
            files += 1
    if missing := ANSWERS - set(met):
        sys.exit(f"judged: no question is answered {sorted(missing)}")
    print(f"judged: {files} files, {sum(met.values())} questions")
    print(f"questions by answer: {damage.count(met)}")
    check_deepest()


if __name__ == "__main__":
    store() if "--store" in sys.argv else main()
