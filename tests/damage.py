#!/usr/bin/env python3
"""Small TFM files with damage of known kinds, from a seed.

tests/damage.py --compare COUNT         the port of tests/tftopl.py beside the real tftopl, over COUNT damaged files
tests/damage.py --compare FILE.tfm ..   the same over these files
tests/damage.py --store                 make the cases of tests/damaged anew

These three need tftopl of texlive-binaries.
"""
import random
import struct
import subprocess
import sys
import tempfile
from collections import Counter
from itertools import zip_longest
from pathlib import Path

sys.dont_write_bytecode = True
import tftopl

STORED = Path(__file__).resolve().parent / "damaged"
TAGS = [*range(1, 18), *range(19, 24)]
GOOD_CODES = (0, 0, 0, 0, 5, 5, 6, 11, 1, 2, 3, 7)
ODD_CODES = (4, 8, 9, 10, 12, 15, 16, 64, 127)
BAD_FIRST = (1, 2, 127, 128, 254)
CHANGED = b"(COMMENT THE TFM FILE WAS BAD, SO THE DATA HAS BEEN CHANGED!)\n"


class Font:
    """A sound font of a few characters, some codes between them missing, with programs, links and recipes."""

    def __init__(self, r):
        self.r = r
        self.bc = r.choice((0, 1, 48, 65, 97, 200, 243))
        self.header = bytearray(r.choices(b"ABCXYZ 019", k=4 * r.choice((2, 2, 11, 12, 16, 17, 18, 20))))
        self.header[4:8] = 0, 160, 0, 0
        if len(self.header) >= 48:
            self.header[8] = r.randrange(40)
        if len(self.header) >= 68:
            self.header[48] = r.randrange(20)
        self.lengths = [[[0] * 4] + [self.length() for _ in range(r.randrange(n))] for n in (5, 4, 4, 4)]
        self.lengths[0].append(self.length())
        self.infos = [self.info() for _ in range(r.randrange(4, 14))]
        for info in self.infos[1:]:
            if r.random() < 0.2:
                info[0] = 0
        self.kerns = [self.length() for _ in range(r.randrange(1, 4))]
        self.params = [self.length() for _ in range(r.randrange(8))]
        self.recipes = [self.recipe() for _ in range(r.randrange(3))]
        self.junk = b""
        self.changed = {}
        self.end = None
        self.steps = []
        for _ in range(r.randrange(4)):
            start = self.run(r.randrange(1, 5))
            for info in r.sample(self.infos, r.randrange(3)):
                info[2:] = info[2] | 1, start
        if r.random() < 0.3:
            self.link(self.some(2))
        if self.recipes and r.random() < 0.3:
            self.tag(r.choice(self.there()), 3, r.randrange(len(self.recipes)))

    def length(self):
        return [self.r.choice((0, 255))] + [self.r.randrange(256) for _ in range(3)]

    def info(self):
        width, height, depth, italic = (self.r.randrange(len(t)) for t in self.lengths)
        return [max(width, 1), 16 * height + depth, 4 * italic, self.r.randrange(256)]

    def recipe(self):
        return [self.r.choice((0, self.one())) for _ in range(3)] + [self.one()]

    def step(self, skip=128):
        """A sound ligature or kern step."""
        if self.r.random() < 0.5:
            return self.kern(skip, self.one(), self.r.randrange(len(self.kerns)))
        return [skip, self.one(), self.r.choice(GOOD_CODES), self.one()]

    def kern(self, skip, right, index):
        return [skip, right, 128 + index // 256, index % 256]

    def run(self, count):
        """Steps added at the end, the last of which stops; where they start."""
        start = len(self.steps)
        self.steps += [self.step(self.r.choice((0, 0, 1)) if i < count - 2 else 0) for i in range(count - 1)] + [self.step()]
        return start

    def ec(self):
        return self.bc + len(self.infos) - 1

    def there(self):
        return [self.bc + i for i, info in enumerate(self.infos) if info[0]]

    def one(self):
        """A code that exists, or any where none does."""
        return self.r.choice(self.there() or [self.r.randrange(256)])

    def missing(self):
        """A code that does not exist, often one in bc..ec or beside it, or any where all do."""
        gone = sorted(set(range(256)) - set(self.there())) or [self.r.randrange(256)]
        near = [c for c in gone if self.bc - 1 <= c <= self.ec() + 1]
        return self.r.choice(self.r.choice((near or gone, near or gone, gone, gone[:1], gone[-1:])))

    def tag(self, code, tag, remainder):
        if self.bc <= code <= self.ec():
            info = self.infos[code - self.bc]
            info[2:] = info[2] & ~3 | tag, remainder

    def link(self, codes):
        """Each of these codes has the next one as its next larger."""
        for code, larger in zip(codes, codes[1:]):
            self.tag(code, 2, larger)

    def some(self, most):
        """Some codes that exist, in any order, fewer if there are not so many."""
        there = self.there()
        return self.r.sample(there, min(most, len(there)))

    def start(self, step):
        """One of the codes starts at this step, or where one byte can say."""
        self.tag(self.one(), 1, min(step, 255))

    def reached(self, *steps):
        """Steps added at the end, with a label at the first."""
        self.start(len(self.steps))
        self.steps += steps

    def redirect(self, target, first=255):
        return [first, self.r.randrange(256), target // 256 % 256, target % 256]

    def string(self, which, length, text):
        """The string 0 or 1 has this length byte and text; the header is lengthened to hold it."""
        at, size, words = ((8, 40, 12), (48, 20, 17))[which]
        if len(self.header) < 4 * words:
            self.header += bytes(self.r.choices(b"abAB() \x01\xff", k=4 * words - len(self.header)))
            self.header[8] = self.r.randrange(9)
        self.header[at] = length
        self.header[at + 1 : at + size] = (text + self.header[at + 1 + len(text) : at + size])[: size - 1]

    def file(self):
        header = [self.header[i : i + 4] for i in range(0, len(self.header), 4)]
        parts = [header, self.infos, *self.lengths, self.steps, self.kerns, self.recipes, self.params]
        counts = [len(part) for part in parts]
        sizes = [6 + sum(counts), counts[0], self.bc, self.ec()] + counts[2:]
        for k, size in self.changed.items():
            sizes[k] = size
        file = struct.pack(">12H", *sizes) + b"".join(bytes(word) for part in parts for word in part) + self.junk
        return file[: self.end]


# each kind of damage; many of them also make a sound neighbour of the fault


def string_too_long(font, r):
    font.string(0, r.choice((40, 41, 128, 255)), bytes([r.choice(b"(A)a\x00\x7f")]))
    font.string(1, r.choice((19, 20, 21, 40, 255)), bytes([r.choice(b"(A)a\x00\x7f")]))


def string_full(font, r):
    font.string(0, 39, bytes(r.choices(b"aA~ ", k=38)) + bytes([r.choice(b"()\x1fA")]))
    font.string(1, 19, bytes(r.choices(b"aA~ ", k=18)) + bytes([r.choice(b"()\x1fA")]))


def parentheses(font, r):
    for which in (0, 1):
        font.string(which, r.randrange(12), bytes(r.choices(b"()aA", k=16)))


def control_bytes(font, r):
    for which in (0, 1):
        font.string(which, r.randrange(12), bytes(r.choices((0, 31, 32, 39, 42, 126, 127, 128, 255), k=16)))


def lower_case(font, r):
    for which in (0, 1):
        font.string(which, r.randrange(5, 20), bytes(r.choices(b"`azAZ{09", k=19)))


def math_scheme(font, r):
    """A scheme that asks for so many parameters, or nearly does."""
    symbols, extension = r.choice((b"TeX math symbols", b"TEX MATH SY", b"TEX MATH S(", b"TEX-MATH SY")), r.choice((b"TeX math extension", b"tex math ex"))
    text, right = r.choice(((symbols, 22), (extension, 13)))
    font.string(0, r.choice((len(text), len(text), 11, 10, 39)), text)
    font.params = [font.length() for _ in range(r.choice((right, right - 1, right + 1, 0, 35 - right)))]


def header_words(font, r):
    font.header = bytearray(r.choices((0, 3, 9, 19, 20, 39, 40, 41, 65, 97, 255), k=4 * r.randrange(2, 21)))


def design_size(font, r):
    font.header[4:8] = bytes.fromhex(r.choice(("80000000", "FFFFFFFF", "00000000", "000FFFFF", "00100000", "00F00000", "01000000", "7FFFFFFF")))


def parameters(font, r):
    font.params += [font.length() for _ in range(r.randrange(1, 5))]
    for param in r.sample(font.params, r.randrange(1, len(font.params) + 1)):
        param[0] = r.choice(BAD_FIRST)


def long_lengths(font, r):
    for table in font.lengths + [font.kerns]:
        for word in table:
            if r.random() < 0.3:
                word[0] = r.choice(BAD_FIRST)


def first_lengths(font, r):
    for table in r.sample(font.lengths, r.randrange(1, 5)):
        table[0] = r.choice(([0, 0, 0, 1], [0, 0, 1, 0], [0, 1, 0, 0], [255] * 4, [1, 0, 0, 0], [254, 1, 2, 3]))


def right_boundary(font, r):
    code = r.choice((font.missing(), font.one()))
    if not font.steps:
        font.run(3)
    font.steps[0] = [r.choice((255, 255, 254)), code, r.choice((0, 0, 1)), r.randrange(len(font.steps) + 2) % 256]
    font.reached([0, code, 128, 0], [0, font.missing(), 128, 0], [0, code, 0, font.one()], [128, font.one(), 0, code])


def left_boundary(font, r):
    font.run(r.randrange(1, 4))
    last = len(font.steps)
    font.steps.append(font.redirect(r.choice((0, last - 1, last, last + 1, last + 1, 300, 65535)), r.choice((255, 255, 255, 254))))
    if r.random() < 0.3:
        font.start(last)


def own_boundary(font, r):
    """The program of the left boundary starts at the very step that names it."""
    last = len(font.steps)
    font.steps.append(font.redirect(last))
    if r.random() < 0.3:
        font.start(last)


def one_step(font, r):
    font.steps = [font.redirect(r.choice((0, 0, 1, 256)), r.choice((255, 255, 200)))]
    if r.random() < 0.5:
        font.start(0)


def redirects(font, r):
    start = font.run(2)
    for _ in range(r.randrange(1, 4)):
        own = len(font.steps)
        target = r.choice((start, start + 1, 0, own, own + 1, own + 1, own - 1, 1000))
        font.steps.append(font.redirect(target, r.choice((129, 200, 255))))
        for _ in range(r.randrange(1, 3)):
            font.start(own)


def redirect_of_first(font, r):
    """A step 0 with 255 is passed through, and a character starts at it too."""
    font.run(2)
    font.steps[0] = font.redirect(r.choice((0, 1, len(font.steps), 256)))
    font.start(0)


def redirects_met(font, r):
    """Steps over 128 that a program comes to."""
    at = len(font.steps)
    font.reached(font.step(r.choice((0, 1))), font.step(0))
    font.steps.append(font.redirect(r.choice((at, at + 3, at + 4, 999, 65535)), r.choice((129, 254, 255))))
    font.run(1)
    if r.random() < 0.3:
        font.start(at + 2)


def skip_too_far(font, r):
    font.reached(font.step(0), font.step(r.choice((0, 1, 2))), font.step(r.choice((0, 1, 127))), font.step(r.choice((0, 1, 127, 128))))


def skip_from_boundary(font, r):
    """A skip that ends at or beyond a last step with 255."""
    font.reached(font.step(r.choice((0, 1, 2))), font.step(r.choice((0, 1))))
    font.steps.append(font.redirect(r.choice((0, len(font.steps) - 1, len(font.steps) + 1))))


def unreachable_steps(font, r):
    nk = len(font.kerns)
    for _ in range(r.randrange(1, 5)):
        skip = r.choice((0, 1, 127, 128, 129, 255))
        right = r.choice((font.one(), font.missing()))
        font.steps.append(r.choice((font.kern(skip, right, nk), [skip, right, r.choice(ODD_CODES), font.one()], [skip, right, 0, font.missing()])))


def missing_right(font, r):
    font.run(2)
    for step in r.sample(font.steps, min(3, len(font.steps))):
        step[1] = font.missing()


def missing_ligature(font, r):
    font.reached(*([r.choice((0, 128)), r.choice((font.one(), font.missing())), r.choice(GOOD_CODES), font.missing()] for _ in range(3)))


def kern_index(font, r):
    nk = len(font.kerns)
    font.reached(*(font.kern(r.choice((0, 0, 128)), font.one(), r.choice((nk - 1, nk, nk, nk + 256, 32767))) for _ in range(3)))


def odd_codes(font, r):
    font.reached(*([r.choice((0, 0, 128)), font.one(), r.choice(ODD_CODES), r.choice((font.one(), font.missing()))] for _ in range(3)))


def starts(font, r):
    """Starts at the end of the program and beyond it, where a kern may look like a redirect."""
    nl = len(font.steps)
    font.kerns[0] = [255, 0, 0, 0]
    for code in font.some(3):
        font.tag(code, 1, min(r.choice((nl - 1 if nl else 0, nl, nl + 1, 255)), 255))


def missing_starts(font, r):
    """Codes that are missing and have tag 1."""
    font.steps.append(font.redirect(r.choice((0, len(font.steps), len(font.steps) + 2))))
    for info in r.sample(font.infos, min(2, len(font.infos))):
        info[0] = 0
        info[2:] = info[2] & ~3 | 1, r.choice((0, len(font.steps) - 1, len(font.steps), 255)) % 256


def no_program(font, r):
    font.steps = []
    font.start(r.choice((0, 1, 255)))


def link_missing(font, r):
    for code in font.some(2):
        font.tag(code, 2, font.missing())


def link_chain(font, r):
    """A chain whose last character is any, one of another tag, or missing."""
    codes = font.some(4)
    font.link(codes + [font.missing()] * r.randrange(2))


def link_to_itself(font, r):
    for code in font.some(2):
        font.tag(code, 2, code)


def link_cycle(font, r):
    """A cycle, often with a tail that leads into it."""
    codes = font.some(r.randrange(2, 8))
    font.link(codes)
    if codes:
        font.tag(codes[-1], 2, r.choice(codes))


def link_two_cycles(font, r):
    codes = font.some(9)
    for cycle in (codes[: len(codes) // 2], codes[len(codes) // 2 :]):
        font.link(cycle + cycle[:1])


def link_through_missing(font, r):
    """A cycle but for one member, which is missing or has another tag."""
    codes = font.some(4)
    font.link(codes + codes[:1])
    if codes:
        info = font.infos[codes[-1] - font.bc]
        info[0], info[2] = r.choice(((0, info[2]), (1, info[2] & ~3), (1, info[2] | 3)))


def recipe_pieces(font, r):
    for _ in range(2):
        font.recipes.append([r.choice((0, font.one(), font.missing())) for _ in range(3)] + [r.choice((font.one(), font.missing()))])
    font.tag(font.one(), 3, r.randrange(len(font.recipes)))


def recipe_of_zeros(font, r):
    font.recipes.append([0, 0, 0, 0])
    font.recipes.append([0, font.missing(), 0, 0])
    font.tag(font.one(), 3, len(font.recipes) - 1)


def recipe_number(font, r):
    for code in font.some(2):
        font.tag(code, 3, r.choice((max(len(font.recipes) - 1, 0), len(font.recipes), 255)))


def indices(font, r):
    counts = [len(t) for t in font.lengths]
    for info in r.sample(font.infos, min(3, len(font.infos))):
        width, height, depth, italic = (r.choice((0, n - 1, n, n, most)) for n, most in zip(counts, (255, 15, 15, 63)))
        info[:3] = width % 256, 16 * min(height, 15) + min(depth, 15), 4 * min(italic, 63) + info[2] % 4


def junk(font, r):
    font.junk = bytes(r.randrange(256) for _ in range(r.choice((1, 2, 4, 40))))


def no_characters(font, r):
    font.bc = r.choice((1, 1, 65, 255))
    font.infos = []


def no_characters_at_end(font, r):
    """bc is 256 and ec 255, where tftopl is no judge."""
    font.bc = 256
    font.infos = []


def first_missing(font, r):
    """The code bc is missing, so that what is made bc is missing still."""
    if font.infos:
        font.infos[0][0] = 0
    font.reached([0, font.missing(), 128, 0], [0, font.missing(), 0, font.missing()], [128, font.bc % 256, 0, font.bc % 256])


def all_missing(font, r):
    for info in font.infos:
        info[0] = 0


def all_codes(font, r):
    font.bc = 0
    font.infos += [font.info() for _ in range(256 - len(font.infos))]


def long_program(font, r):
    """More than 256 steps and kerns: addresses and kern indices of two bytes."""
    font.kerns += [font.length() for _ in range(256)]
    for _ in range(90):
        font.run(3)
    far = len(font.steps) - 1
    font.reached(font.step(0), [0, font.one(), 129, r.choice((0, len(font.kerns) - 256, 200))], font.step())
    font.steps[250:252] = font.redirect(r.choice((256, far, 256 * 3))), font.redirect(r.choice((257, len(font.steps), 65535)))
    font.start(250)
    font.start(251)


def wild_steps(font, r):
    """Steps of nearly any bytes, and starts among them."""
    near = (0, 1, 2, 3, 4, 5, 128, 129, 255)
    font.steps = [[r.choice((0, 0, 1, 2, 127, 128, 129, 255)), r.choice((font.one(), font.missing())), r.choice((0, 0, 1) + near), r.choice((font.one(), *near))] for _ in range(r.randrange(1, 16))]
    for code in font.some(5):
        font.tag(code, 1, r.randrange(len(font.steps) + 1))


def wild_characters(font, r):
    for info in font.infos:
        info[:] = r.choice((0, 1, 1, 1, 9)), r.choice((0, 1, 16, 255)), r.randrange(16), r.choice((r.randrange(4), *font.some(3)))


def wild_links(font, r):
    """Links only, to codes in bc..ec or beside it."""
    for code in font.there():
        font.tag(code, r.choice((2, 2, 2, 0, 3)), (font.bc + r.randrange(-1, len(font.infos) + 1)) % 256)


def loop_and_more(font, r):
    """A ligature loop, at which tftopl stops, and faults that it would look for later."""
    for kind in (recipe_pieces, indices, recipe_number, link_to_itself, link_missing):
        kind(font, r)
    code = font.one()
    font.reached([128, code, 2, code])


def sizes(font, r):
    font.changed[r.randrange(12)] = r.choice((0, 1, 5, 6, 255, 256, 257, 32767, 32768))


def beyond(font, r):
    """bc is ec+2."""
    font.bc, font.infos = r.choice((2, 100, 257)), []
    font.changed[3] = font.bc - 2


def cut(font, r):
    font.end = r.choice((0, 1, 2, 23, 24, -1))


DAMAGES = [
    *(string_too_long, string_full, parentheses, control_bytes, lower_case, math_scheme, header_words, design_size),
    *(parameters, long_lengths, first_lengths, indices, junk),
    *(right_boundary, left_boundary, own_boundary, one_step, redirects, redirect_of_first, redirects_met, skip_too_far, skip_from_boundary),
    *(unreachable_steps, missing_right, missing_ligature, kern_index, odd_codes, starts, missing_starts, no_program),
    *(link_missing, link_chain, link_to_itself, link_cycle, link_two_cycles, link_through_missing),
    *(recipe_pieces, recipe_of_zeros, recipe_number),
    *(no_characters, no_characters_at_end, first_missing, all_missing, all_codes, long_program),
    *(wild_steps, wild_characters, wild_links, loop_and_more, sizes, beyond, cut),
]
RARE = {no_characters, no_characters_at_end, all_missing, all_codes, long_program, one_step, loop_and_more, sizes, beyond, cut}
UNSTORED = {header_words, no_characters_at_end, all_codes, long_program, sizes, beyond, cut}
TOGETHER = {
    "together_header": (string_too_long, math_scheme, design_size, parameters, first_lengths, long_lengths, junk),
    "together_program": (right_boundary, redirects, skip_too_far, kern_index, odd_codes, starts, left_boundary),
    "together_characters": (indices, link_missing, link_cycle, recipe_pieces, recipe_number),
}


def damaged(r, kinds):
    font = Font(r)
    for kind in kinds:
        kind(font, r)
    return font.file()


def files(seed, count):
    """So many files and their names, which say the damage."""
    for n in range(count):
        r = random.Random(f"{seed} {n}")
        kinds = r.sample(DAMAGES, r.choice((0, 1, 2, 3, 4, 6, 8, 11)))
        kinds = [kind for kind in kinds if kind not in RARE or r.random() < 0.2]
        yield f"{seed}-{n}-" + "+".join(kind.__name__ for kind in kinds), damaged(r, kinds)


def judged(reading):
    """Whether tftopl can be asked: it reads past a file of less than six words, refuses more than 32,510 steps, and lists codes from 0 where bc is 256."""
    if reading.refusal:
        return reading.refusal != 6 and not (reading.refusal > 8 and reading.nl > 32510)
    return reading.nl <= 32510 and reading.bc < 256


def real(file):
    """The lines of the real tftopl, normalised, and its listing."""
    with tempfile.TemporaryDirectory() as folder:
        font, listing = Path(folder, "font.tfm"), Path(folder, "font.pl")
        font.write_bytes(file)
        run = subprocess.run(["tftopl", font, listing], stderr=subprocess.PIPE)
        text = listing.read_bytes() if listing.exists() else b""
    return tftopl.normal(run.stderr.decode()), text


def difference(wanted, found):
    """The first pair of lines that differ."""
    return next(pair for pair in zip_longest(wanted, found) if pair[0] != pair[1])


def fault(reading):
    """Where the port differs from the real tftopl, or None: the lines, and that the mended copy is listed as the file is."""
    messages, listing = real(reading.file)
    if not reading.agrees(messages):
        return f"tftopl and the port print {difference(messages, reading.printed)}"
    if not reading.refusal and real(reading.tfm)[1].replace(CHANGED, b"") != listing.replace(CHANGED, b""):
        return "tftopl lists the mended copy in another way"
    return None


def count(met):
    return ", ".join(f"{n}: {met[n]}" for n in sorted(met))


def compare(cases):
    findings, refusals, total, unjudged = Counter(), Counter(), 0, 0
    for name, file in cases:
        reading = tftopl.Reading(file)
        total += 1
        refusals[reading.refusal] += 1
        findings.update({tag for tag, _, _ in reading.findings})
        if not judged(reading):
            unjudged += 1
        elif wrong := fault(reading):
            sys.exit(f"damage: {name}: {wrong}")
    print(f"damage: {total} files as tftopl has them, but for {unjudged} where it is no judge")
    print(f"files by refusal: {count(refusals)}; by finding: {count(findings)}")


def cases():
    """The stored files: of each kind of damage alone, and of some together, the one with the most findings in a few; then two that are refused."""
    chosen = {kind.__name__: (kind,) for kind in DAMAGES if kind not in UNSTORED}
    for name, kinds in {**chosen, **TOGETHER}.items():
        found = []
        for n in range(100):
            r = random.Random(f"{name} {n}")
            reading = tftopl.Reading(damaged(r, kinds))
            found.append((len({tag for tag, _, _ in reading.findings}), -len(reading.file), n, reading))
        yield name, max(found)[3]
    for name, changed in (("range", {2: 300}), ("sum", {8: 200})):
        font = Font(random.Random(name))
        font.changed = changed
        yield "refused_" + name, tftopl.Reading(font.file())


def store():
    STORED.mkdir(exist_ok=True)
    for old in STORED.iterdir():
        old.unlink()
    findings = Counter()
    for name, reading in cases():
        if wrong := fault(reading):
            sys.exit(f"damage: {name}: {wrong}")
        findings.update({tag for tag, _, _ in reading.findings})
        STORED.joinpath(f"{name}.tfm").write_bytes(reading.file)
        STORED.joinpath(f"{name}.findings").write_text("".join(line + "\n" for line in reading.lines()))
        STORED.joinpath(f"{name}.messages").write_text("".join(line + "\n" for line in real(reading.file)[0]))
    print(f"damage: stored files by finding: {count(findings)}")
    if few := [tag for tag in TAGS if findings[tag] < 2]:
        sys.exit(f"damage: less than two stored files for {few}")


def main():
    arguments = sys.argv[1:]
    if arguments == ["--store"]:
        store()
    elif len(arguments) == 2 and arguments[0] == "--compare" and arguments[1].isdigit():
        compare(files(1, int(arguments[1])))
    elif len(arguments) > 1 and arguments[0] == "--compare":
        compare((path, Path(path).read_bytes()) for path in arguments[1:])
    else:
        sys.exit(__doc__)


if __name__ == "__main__":
    main()
