"""PLtoTF in Python for R-1 of 02: what a property list becomes, by the sections (§) of pltotf.web, with 02's refusals.

`answer(text)` is (19,), (20,), (21, the table that is too long) or (0, the bytes of the file).

Where PLtoTF complains and goes on, its repair counts. 02 and its open points decide otherwise here:
- any complaint about structure, a name or the form of a value is 19, about the size of a number 20; DESIGNUNITS, EXT and bytes over 127 are 19 too;
- a bare CHARWD, which the listing writes for a width index past its table, is the width 0;
- -16.0 is FF000000, SLANT may be any word, and a design size below 1 is stored as it is;
- numbers of header words and parameters go to 32,767, steps and kerns have no limit of their own, and lengths that lie close are never merged;
- a program that loops stays as it is written.
Left out are the search for loops (§117 to §125, but for what a program names), the rounding (§76 to §80), the units (§89), and all that is printed.
"""
import re
import struct

UNITY = 1 << 20
STOP_FLAG = KERN_FLAG = 128
NO_TAG, LIG_TAG, LIST_TAG, EXT_TAG = range(4)
BOUNDARY = 256  # as a left code, the left boundary; as the boundary character, that there is none
CHECK_SUM, DESIGN_SIZE, SCHEME, FAMILY, SEVEN_FLAG, FACE, HEADER_END = 0, 4, 8, 48, 68, 71, 72  # §70
WORD = (0, 0xFFFFFFFF)
SMALL_REAL = (-16 * UNITY, 16 * UNITY - 1)  # those whose word has the first byte 0 or 255
ANY_REAL = (-2048 * UNITY, 2048 * UNITY - 1)
MOST = {"widths": 255, "heights": 15, "depths": 15, "italics": 63, "recipes": 256, "words": 32767}

LENGTHS = [b"CHARWD", b"CHARHT", b"CHARDP", b"CHARIC"]
PIECES = [b"TOP", b"MID", b"BOT", b"REP"]
LIGATURES = {b"LIG": 0, b"LIG/": 1, b"/LIG": 2, b"/LIG/": 3, b"LIG/>": 5, b"/LIG>": 6, b"/LIG/>": 7, b"/LIG/>>": 11}  # §47
FROM_1 = b"SLANT SPACE STRETCH SHRINK XHEIGHT QUAD EXTRASPACE NUM1 NUM2 NUM3 DENOM1 DENOM2 SUP1 SUP2 SUP3 SUB1 SUB2 SUPDROP SUBDROP DELIM1 DELIM2 AXISHEIGHT"
FROM_8 = b"DEFAULTRULETHICKNESS BIGOPSPACING1 BIGOPSPACING2 BIGOPSPACING3 BIGOPSPACING4 BIGOPSPACING5"
PARAMETERS = {name: n for first, names in ((1, FROM_1), (8, FROM_8)) for n, name in enumerate(names.split(), first)}  # §48

LINE_END = re.compile(rb"[\r\n]")  # of CR LF the second ends a line with nothing
TO_PAREN = re.compile(rb"([^()]*)([()])")
NAME = re.compile(rb" *([0-9A-Z/>]*)", re.I)
TEXT = re.compile(rb"([ -'*-~]*)(?=[()])")
CODE = re.compile(rb" *(?:C *([!-'*-~])|D *([0-9]*)|O *([0-7]*)|H *([0-9A-F]*)|F *([BLM][IR][CER]))", re.I)
FOUR_BYTES = re.compile(rb" *(?:O *([0-7]*)|H *([0-9A-F]*))", re.I)
REAL = re.compile(rb" *[DR]([ +-]*)([0-9]*)(?:\.([0-9]*))?", re.I)


def answer(text):
    try:
        font = Font(groups(one_line(text)))
    except NotAList:
        return (19,)
    if font.out_of_range:
        return (20,)
    font.check()
    for table, count in font.counts().items():
        if count > MOST[table]:
            return (21, table)
    return (0, font.file())


class NotAList(Exception):
    """19, with what is wrong."""


# The text: one line of it, its groups, and the numbers in a group.


def one_line(text):
    """§28, §29: a line end is a blank; blanks at the front of a line are nothing, and so is a line with nothing else."""
    lines = (line.lstrip(b" ") for line in LINE_END.split(text))
    return b"".join(line + b" " for line in lines if line)


def groups(line):
    """§33, §49, §82 to §84: the groups that stand in no other, each its name in upper case, the text from there to the next parenthesis, and the groups in it.

    What a comment holds is passed over; the comment itself is a group, since it may not stand everywhere.
    """
    lists, comment, headed, end = [[]], 0, False, 0
    for piece in TO_PAREN.finditer(line):
        end, opens = piece.end(), piece[2] == b"("
        if comment:
            comment += 1 if opens else -1
            continue
        if not headed and piece[1].strip(b" "):
            raise NotAList("junk that is not in parentheses")
        headed = opens
        if not opens:
            lists.pop()
            if not lists:
                raise NotAList("extra right parenthesis")
            continue
        found = NAME.match(line, end)
        name, text, inner = found[1].upper(), TEXT.match(line, found.end()), []
        if name == b"COMMENT":
            comment, headed = 1, False
            lists[-1].append((name, b"", inner))
        elif text:
            lists[-1].append((name, text[1], inner))
            lists.append(inner)
        else:
            raise NotAList("illegal character, or no closing parenthesis")
    if comment or len(lists) > 1 or line[end:].strip(b" "):
        raise NotAList("no closing parenthesis, or junk")
    return lists[0]


def properties(lists):
    """Groups but the comments, §14."""
    return (group for group in lists if group[0] != b"COMMENT")


def whole(digits, base):
    """The number of some digits, or of none; that of the first 21 is out of every range if there are more."""
    return int(digits.lstrip(b"0")[:21] or b"0", base)


class Value:
    """The text after a name: numbers are taken from its front, whatever their size."""

    def __init__(self, text, lists=()):
        if lists:  # §35
            raise NotAList("a list in a value")
        self.text, self.at = text, 0

    def take(self, form):
        found = form.match(self.text, self.at)
        if not found:
            raise NotAList("form of a value")
        self.at = found.end()
        return found

    def finish(self):
        """§35."""
        if self.text[self.at :].strip(b" "):
            raise NotAList("junk after a value")

    def code(self):
        """§51 to §56."""
        found = self.take(CODE)
        digits, kind = found[found.lastindex], found.lastindex
        if kind == 1:
            return digits[0]
        if kind == 5:
            weight, slope, expansion = digits.upper()
            return 2 * b"MBL".index(weight) + b"RI".index(slope) + 6 * b"RCE".index(expansion)
        return whole(digits, (10, 8, 16)[kind - 2])

    def four_bytes(self):
        """§59, §60."""
        found = self.take(FOUR_BYTES)
        return whole(found[found.lastindex], (8, 16)[found.lastindex - 1])

    def real(self):
        """§62 to §66: in parts of 1,048,576, to the nearest; no seven places are as near to two."""
        signs, digits, places = self.take(REAL).groups()
        fraction = int((places or b"")[:7].ljust(7, b"0"))
        size = whole(digits, 10) * UNITY + (fraction * 2 * UNITY // 10**7 + 1) // 2
        return -size if signs.count(b"-") % 2 else size


class Font:
    """What a property list says, as it is stored, checked and written."""

    def __init__(self, lists):
        """§67 to §74."""
        self.out_of_range = False
        self.header = bytearray(HEADER_END)
        self.put_string(SCHEME, 40, b"UNSPECIFIED")
        self.put_string(FAMILY, 20, b"UNSPECIFIED")
        self.check_sum, self.design_size = None, 10 * UNITY
        self.params, self.recipes = [], []
        self.steps, self.kerns, self.min_nl, self.step_ended = [], {}, 0, False  # a kern and its place in the table
        self.boundary, self.boundary_label, self.seven_unsafe = BOUNDARY, None, False
        self.lengths = [{}, {}, {}, {}]  # of codes; those that have a width exist
        self.tables = [set(), set(), set(), set()]  # every length that was given, though another took its place
        self.tags, self.remainders = [NO_TAG] * 256, [0] * 256
        self.read(lists)

    def within(self, number, least, most):
        if least <= number <= most:
            return number
        self.out_of_range = True
        return least

    # What is stored.

    def read(self, lists):
        """§85."""
        for name, text, inner in properties(lists):
            if name == b"FONTDIMEN":
                self.read_parameters(text, inner)
            elif name == b"LIGTABLE":
                self.read_program(text, inner)
            elif name == b"CHARACTER":
                self.read_character(text, inner)
            else:
                self.read_leaf(name, Value(text, inner))

    def read_leaf(self, name, value):
        if name == b"CODINGSCHEME":
            self.put_string(SCHEME, 40, value.text)
            return
        if name == b"FAMILY":
            self.put_string(FAMILY, 20, value.text)
            return
        if name == b"SEVENBITSAFEFLAG":  # §90: any text may follow the letter, and the flag is computed in the end
            if value.text.lstrip(b" ")[:1].upper() not in (b"T", b"F"):
                raise NotAList("flag")
            return
        if name == b"CHECKSUM":
            self.check_sum = self.within(value.four_bytes(), *WORD)
        elif name == b"DESIGNSIZE":
            self.design_size = self.within(value.real(), *ANY_REAL)
        elif name == b"FACE":
            self.header[FACE] = self.code(value)
        elif name == b"HEADER":
            self.read_header_word(value)
        elif name == b"BOUNDARYCHAR":
            self.boundary = self.code(value)
        else:
            raise NotAList("name outside all lists")
        value.finish()

    def code(self, value):
        return self.within(value.code(), 0, 255)

    def put_string(self, at, room, text):
        """§87: a string that is too long is cut."""
        text = text.lstrip(b" ").upper()[: room - 1]
        self.header[at : at + room] = bytes((len(text),)) + text.ljust(room - 1, b"\0")

    def read_header_word(self, value):
        """§91."""
        at = 4 * self.within(value.code(), 18, 32767)
        word = self.within(value.four_bytes(), *WORD)
        self.header += bytes(max(at + 4 - len(self.header), 0))
        self.header[at : at + 4] = word.to_bytes(4, "big")

    def read_parameters(self, text, lists):
        """§92, §93."""
        Value(text).finish()
        for name, number, inner in properties(lists):
            value = Value(number, inner)
            if name == b"PARAMETER":
                n = self.within(value.code(), 1, 32767)
            elif name in PARAMETERS:
                n = PARAMETERS[name]
            else:
                raise NotAList("name in FONTDIMEN")
            self.params += [0] * (n - len(self.params))
            self.params[n - 1] = self.within(value.real(), *(ANY_REAL if n == 1 else SMALL_REAL))
            value.finish()

    def read_program(self, text, lists):
        """§94, §95."""
        Value(text).finish()
        self.step_ended = False
        for name, words, inner in properties(lists):
            value = Value(words, inner)
            if name == b"LABEL":
                self.read_label(value)
                continue
            if name == b"STOP":  # §99
                self.end_step(STOP_FLAG)
            elif name == b"SKIP":
                self.read_skip(value)
            elif name == b"KRN":
                right, kern = self.code(value), self.within(value.real(), *SMALL_REAL)
                self.add_kern(right, kern)
            elif name in LIGATURES:  # §101
                right, made = self.code(value), self.code(value)
                self.steps.append([0, right, LIGATURES[name], made])
                self.step_ended = True
            else:
                raise NotAList("name in LIGTABLE")
            value.finish()

    def read_label(self, value):
        """§97: any text that begins with a B is the left boundary."""
        at = len(self.steps)
        if value.text.lstrip(b" ")[:1].upper() == b"B":
            self.boundary_label = at
        else:
            self.tag(self.code(value), LIG_TAG, at)
            value.finish()
        self.min_nl = max(self.min_nl, at + 1)
        self.step_ended = False

    def end_step(self, first):
        """§99, §100: whether there is a step to be ended, which is ended then."""
        ends = self.step_ended
        if ends:
            self.steps[-1][0] = first
        self.step_ended = False
        return ends

    def read_skip(self, value):
        """§100."""
        skip = self.within(value.code(), 0, 127)
        if self.end_step(skip):
            self.min_nl = max(self.min_nl, len(self.steps) + skip + 1)

    def add_kern(self, right, kern):
        """§102: equal kerns are one."""
        at = self.kerns.setdefault(kern, len(self.kerns))
        self.steps.append([0, right, KERN_FLAG + at // 256, at % 256])
        self.step_ended = True

    def tag(self, code, tag, remainder):
        """§96: of two tags the last stands."""
        self.tags[code], self.remainders[code] = tag, remainder

    def read_character(self, text, lists):
        """§103, §104."""
        head = Value(text)
        code = self.code(head)
        head.finish()
        for name, words, inner in properties(lists):
            if name == b"VARCHAR":
                self.read_recipe(code, words, inner)
                continue
            value = Value(words, inner)
            if name == b"CHARWD" and not words.strip(b" "):
                self.sort_in(0, code, 0)
            elif name in LENGTHS:
                self.sort_in(LENGTHS.index(name), code, self.within(value.real(), *SMALL_REAL))
            elif name == b"NEXTLARGER":
                self.tag(code, LIST_TAG, self.code(value))
            else:
                raise NotAList("name in CHARACTER")
            value.finish()
        self.make(code)

    def sort_in(self, table, code, length):
        """§75: a width of 0 has an entry of its own, other lengths of 0 have none."""
        self.lengths[table][code] = length
        if length or table == 0:
            self.tables[table].add(length)

    def read_recipe(self, code, text, lists):
        """§105, §106."""
        Value(text).finish()
        recipe = [0, 0, 0, 0]
        for name, number, inner in properties(lists):
            value = Value(number, inner)
            if name not in PIECES:
                raise NotAList("name in VARCHAR")
            recipe[PIECES.index(name)] = self.code(value)
            value.finish()
        self.tag(code, EXT_TAG, len(self.recipes))
        self.recipes.append(recipe)

    # The check, with its repairs.

    def exists(self, code):
        return code in self.lengths[0]

    def make(self, code):
        """A code that was named exists, with the width 0 if no other was given."""
        if not self.exists(code):
            self.sort_in(0, code, 0)

    def check(self):
        """§110. A code that a larger one makes was passed by then, and its own program, link or recipe is not looked at."""
        if self.steps:
            self.end_program()
        for code in range(256):
            if self.exists(code):
                self.check_character(code)
        if self.boundary_label is not None:
            self.check_program(BOUNDARY, self.boundary_label)
        self.double_check()
        for code in range(256):
            self.break_cycle(code)

    def end_program(self):
        """§116."""
        if self.boundary_label is not None:
            self.steps.append([255, 0, 0, 0])
        while self.min_nl > len(self.steps):
            self.steps.append([255, 0, 0, 0])
        if self.steps[-1][0] == 0:
            self.steps[-1][0] = STOP_FLAG

    def check_character(self, code):
        """§111, §112."""
        tag, remainder = self.tags[code], self.remainders[code]
        if tag == LIG_TAG:
            self.check_program(code, remainder)
        elif tag == LIST_TAG:
            self.check_generated(code, remainder)
        elif tag == EXT_TAG:
            for d, piece in enumerate(self.recipes[remainder]):
                if piece > 0 or d == 3:
                    self.check_generated(code, piece)

    def check_generated(self, code, generated):
        self.seven_unsafe |= code < 128 <= generated
        self.make(generated)

    def check_program(self, code, i):
        """§120, §121: of the steps for one right code only the first counts. Where there are no steps, the word that is looked at is all zeros."""
        steps, seen = self.steps or [[0, 0, 0, 0]], set()
        while i < len(steps):
            first, right, op, made = steps[i]
            if right not in seen:
                seen.add(right)
                if right != self.boundary:
                    self.make(right)
                if op < KERN_FLAG:
                    self.make(made)
                    self.seven_unsafe |= made >= 128 and (code < 128 or code == BOUNDARY) and (right < 128 or right == self.boundary)
            i = len(steps) if first >= STOP_FLAG else i + 1 + first

    def double_check(self):
        """§126: the steps and recipes that nothing uses."""
        for step in self.steps:
            first, right, op, made = step
            if op >= KERN_FLAG or first < 255:
                if not self.exists(right) and right != self.boundary:
                    step[1] = self.zero()
                if op < KERN_FLAG and not self.exists(made) and made != self.boundary:
                    step[3] = self.zero()
        for recipe in self.recipes:
            for d, piece in enumerate(recipe):
                if (piece > 0 or d == 3) and not self.exists(piece):
                    recipe[d] = self.zero()

    def zero(self):
        self.make(0)
        return 0

    def break_cycle(self, code):
        """§113: the largest code of a cycle has no tag then, and keeps its remainder."""
        if self.tags[code] == LIST_TAG:
            larger = self.remainders[code]
            while larger < code and self.tags[larger] == LIST_TAG:
                larger = self.remainders[larger]
            if larger == code:
                self.tags[code] = NO_TAG

    # The file.

    def range(self):
        """bc and ec, §130."""
        codes = self.lengths[0]
        return (min(codes), max(codes)) if codes else (1, 0)

    def counts(self):
        """The number of entries of each table that 21 looks at, and of the words of the file."""
        tables = [len(table) for table in self.tables]
        return dict(zip(MOST, (*tables, len(self.recipes), self.sizes()[0])))

    def sizes(self):
        """§129 to §131: the twelve numbers, that of all words first."""
        bc, ec = self.range()
        lh, program = len(self.header) // 4, len(self.front()) + len(self.steps)
        counts = [*(len(table) + 1 for table in self.tables), program, len(self.kerns), len(self.recipes), len(self.params)]
        return [6 + lh + (ec - bc + 1) + sum(counts), lh, bc, ec, *counts]

    def starts(self):
        """§140: the places of labels, the last first, each once."""
        bc, ec = self.range()
        return sorted({self.remainders[code] for code in range(bc, ec + 1) if self.tags[code] == LIG_TAG}, reverse=True)

    def redirected(self):
        """§139, §141: the starts that a word at the front leads to: none if one byte tells them all, with the word of the boundary character before them."""
        starts, offset = self.starts(), int(self.boundary < BOUNDARY)
        if not starts or starts[0] + offset <= 255:
            return []
        count = 1
        while count < len(starts) and count + starts[count] > 255:
            count += 1
        return starts[:count]

    def front(self):
        """§142: the words before the steps. Each that leads to a start names the boundary character too, which has a word of its own if there are none."""
        redirected = self.redirected()
        mark = (255, self.boundary) if self.boundary < BOUNDARY else (254, 0)
        if not redirected:
            return [bytes((*mark, 0, 0))] if self.boundary < BOUNDARY else []
        return [bytes(mark) + (start + len(redirected)).to_bytes(2, "big") for start in redirected]

    def file(self):
        """§128."""
        self.end_header()
        front = self.front()
        sizes, infos = self.sizes(), self.infos(len(front))
        if self.boundary_label is not None and self.steps:  # §139
            self.steps[-1][2:] = divmod(self.boundary_label + len(front), 256)
        lengths = [length for table in self.tables for length in (0, *sorted(table))]
        return b"".join((
            struct.pack(">12H", *sizes),
            self.header,
            infos,
            words(lengths),
            *front,
            *map(bytes, self.steps),
            words(self.kerns),
            *map(bytes, self.recipes),
            words(self.params),
        ))

    def end_header(self):
        """§133."""
        check_sum = self.computed_check_sum() if self.check_sum is None else self.check_sum.to_bytes(4, "big")
        self.header[CHECK_SUM : CHECK_SUM + 4] = check_sum
        self.header[DESIGN_SIZE : DESIGN_SIZE + 4] = words([self.design_size])
        if not self.seven_unsafe:
            self.header[SEVEN_FLAG] = 128

    def computed_check_sum(self):
        """§134."""
        bc, ec = self.range()
        sums = [bc, ec, bc, ec]
        for code, width in sorted(self.lengths[0].items()):
            added = width + (code + 4) * 4 * UNITY
            sums = [(2 * s + added) % modulus for s, modulus in zip(sums, (255, 253, 251, 247))]
        return bytes(sums)

    def infos(self, offset):
        """§135, with the remainders of §141."""
        bc, ec = self.range()
        redirected = self.redirected()
        places = [{length: at for at, length in enumerate(sorted(table), 1)} for table in self.tables]
        infos = bytearray()
        for code in range(bc, ec + 1):
            width, height, depth, italic = (place.get(lengths.get(code), 0) for place, lengths in zip(places, self.lengths))
            tag, remainder = self.tags[code], self.remainders[code]
            if tag == LIG_TAG:
                remainder = redirected.index(remainder) if remainder in redirected else remainder + offset
            infos += bytes((width, 16 * height + depth, 4 * italic + tag, remainder))
        return infos


def words(numbers):
    """Words of two's complement, §136, §145."""
    return struct.pack(f">{len(numbers)}i", *numbers)
