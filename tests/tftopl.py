"""The checking half of TFtoPL, in the order of its sections (§, of 003): the lines that it prints, and beside them the findings and the mended copy of 01.

Left out are the listing, the search for ligature loops (§88 to §95), the table sizes (§4), and the progress report: the banner, the codes of §78 and the point of §99. A blank line ends a line of that report (§47, §67, §69), so blank lines are left out too, and `normal` takes them from what the real program printed.

The lines are TFtoPL's to the letter. The findings and the copy are 01's where it departs: a finding occurs once, though §83 repeats some messages; the copy keeps lower case; "made bc" is made 0 where bc is 256; a file with a ligature loop, at which TFtoPL stops, gets 19 to 23 too. 18, the loop, is not here.
"""
LOOP = "Infinite ligature loop starting with "
STOP_FLAG = KERN_FLAG = 128
LIG_TAG, LIST_TAG, EXT_TAG = 1, 2, 3
UNREACHABLE, PASS_THROUGH, ACCESSIBLE = 0, 1, 2
CHECK_SUM = 24
DESIGN_SIZE = CHECK_SUM + 4
SCHEME = DESIGN_SIZE + 4
FAMILY = SCHEME + 40


class Refused(Exception):
    """§20 abort, with 01's number."""


class Reading:
    """One file: `refusal` is 01's number or 0, `printed` the lines, `loops_at` how many of them come before loops are sought, `findings` a set of (tag, first, second), `tfm` the mended copy."""

    def __init__(self, file):
        self.file = file
        self.tfm = bytearray()
        self.refusal = self.loops_at = 0
        self.printed = []
        self.findings = set()
        try:
            self.read(file)
            self.set_sizes()
        except Refused as refused:
            self.refusal = refused.args[0]
            self.findings.clear()
            return
        self.compute_base_addresses()
        self.do_header()
        self.do_parameters()
        self.check_fix_words()
        self.do_ligatures_and_kerns()
        self.loops_at = len(self.printed)
        self.check_recipes()
        self.do_characters()

    def lines(self):
        """What the program `findings` writes."""
        if self.refusal:
            return [f"REFUSED {self.refusal}"]
        found = [f"{tag} {first} {second}" for tag, first, second in sorted(self.findings)]
        return found + [f"byte {i} {old} {new}" for i, (old, new) in enumerate(zip(self.file, self.tfm)) if old != new]

    def agrees(self, messages):
        """Whether these, normalised, are the lines of TFtoPL, which stops at a ligature loop."""
        if messages and messages[-1].startswith(LOOP):
            return messages[:-1] == self.printed[: self.loops_at]
        return messages == self.printed

    def find(self, tag, first=0, second=0):
        self.findings.add((tag, first, second))

    def print_ln(self, *lines):
        self.printed += lines

    # §20

    def abort(self, number, *lines):
        self.print_ln(*lines, "Sorry, but I can't go on; are you sure this is a TFM?")
        raise Refused(number)

    def read(self, file):
        if not file:  # the real program reads 255 at the end of the file
            self.abort(1, "The first byte of the input file exceeds 127!")
        if file[0] > 127:
            self.abort(2, "The first byte of the input file exceeds 127!")
        if len(file) == 1:
            self.abort(3, "The input file is only one byte long!")
        self.lf = file[0] * 256 + file[1]
        if self.lf == 0:
            self.abort(4, "The file claims to have length zero, but that's impossible!")
        if len(file) < 4 * self.lf:
            self.abort(5, "The file has fewer bytes than it claims!")
        self.tfm = bytearray(file[: 4 * self.lf])
        if len(file) > 4 * self.lf:
            self.print_ln("There's some extra junk at the end of the TFM file,", "but I'll proceed as if it weren't there.")
            self.find(1)

    # §21

    def set_sizes(self):
        tfm = self.tfm
        if self.lf < 6:
            self.abort(6)
        if any(tfm[k] > 127 for k in range(2, 24, 2)):
            self.abort(7, "One of the subfile sizes is negative!")
        sizes = [tfm[k] * 256 + tfm[k + 1] for k in range(2, 24, 2)]
        self.lh, self.bc, self.ec, self.nw, self.nh, self.nd, self.ni, self.nl, self.nk, self.ne, self.np = sizes
        if self.lh < 2:
            self.abort(8, f"The header length is only {self.lh}!")
        if self.bc > self.ec + 1 or self.ec > 255:
            self.abort(9, f"The character code range {self.bc}..{self.ec} is illegal!")
        if 0 in (self.nw, self.nh, self.nd, self.ni):
            self.abort(10, "Incomplete subfiles for character dimensions!")
        if self.ne > 256:
            self.abort(11, f"There are {self.ne} extensible recipes!")
        if self.lf != 6 + self.lh + (self.ec - self.bc + 1) + sum(sizes[3:]):
            self.abort(12, "Subfile sizes don't add up to the stated total!")

    # §23, §24

    def compute_base_addresses(self):
        self.char_base = 6 + self.lh - self.bc
        self.width_base = self.char_base + self.ec + 1
        self.height_base = self.width_base + self.nw
        self.depth_base = self.height_base + self.nh
        self.italic_base = self.depth_base + self.nd
        self.lig_kern_base = self.italic_base + self.ni
        self.kern_base = self.lig_kern_base + self.nl
        self.exten_base = self.kern_base + self.nk
        self.param_base = self.exten_base + self.ne - 1

    def char_info(self, c):
        return 4 * (self.char_base + c)

    def nonexistent(self, c):
        return c < self.bc or c > self.ec or self.tfm[self.char_info(c)] == 0

    def tag(self, c):
        return self.tfm[self.char_info(c) + 2] % 4

    def reset_tag(self, c):
        self.tfm[self.char_info(c) + 2] &= ~3

    def remainder(self, c):
        return self.tfm[self.char_info(c) + 3]

    def lig_step(self, i):
        return 4 * (self.lig_kern_base + i)

    def address(self, k):
        return 256 * self.tfm[k + 2] + self.tfm[k + 3]

    # §47

    def bad(self, message):
        self.print_ln("Bad TFM file: " + message)

    def range_error(self, what, c):
        self.print_ln(f"{what} index for character '{c:03o} is too large;", "so I reset it to zero.")

    def bad_char(self, message, c):
        self.bad(f"{message} nonexistent character '{c:03o}.")

    def correct_bad_char(self, message, k):
        self.bad_char(message, self.tfm[k])
        self.tfm[k] = self.bc % 256

    # §48

    def do_header(self):
        self.font_type = ""
        if self.lh >= 12:
            self.set_font_type()
        if self.lh >= 17:
            self.check_bcpl(1, FAMILY, 20)
        self.check_design_size()

    # §50, §51

    def check_design_size(self):
        if self.tfm[DESIGN_SIZE] > 127:
            self.bad("Design size negative!")
        elif self.tfm[DESIGN_SIZE] == 0 and self.tfm[DESIGN_SIZE + 1] < 16:
            self.bad("Design size too small!")
        else:
            return
        self.print_ln("I've set it to 10 points.")
        self.find(5)

    # §52

    def check_bcpl(self, string, k, l):
        tfm = self.tfm
        if tfm[k] >= l:
            self.bad("String is too long; I've shortened it drastically.")
            self.find(2, string)
            tfm[k] = 1
        for j in range(k + 1, k + tfm[k] + 1):
            if tfm[j] in b"()":
                self.bad("Parenthesis in string has been changed to slash.")
                self.find(3, string, j - k)
                tfm[j] = ord("/")
            elif tfm[j] < ord(" ") or tfm[j] > ord("~"):
                self.bad("Nonstandard ASCII code has been blotted out.")
                self.find(4, string, j - k)
                tfm[j] = ord("?")

    # §53

    def set_font_type(self):
        self.check_bcpl(0, SCHEME, 40)
        start = bytes(self.tfm[SCHEME + 1 : SCHEME + 12]).upper()
        if self.tfm[SCHEME] >= 11:
            self.font_type = {b"TEX MATH SY": "mathsy", b"TEX MATH EX": "mathex"}.get(start, "")

    # §58, §59

    def do_parameters(self):
        for i in range(2, self.np + 1):
            self.check_fix(4 * (self.param_base + i), "Parameter", i, 7, i)
        if self.font_type == "mathsy" and self.np != 22:
            self.print_ln(f"Unusual number of fontdimen parameters for a math symbols font ({self.np} not 22).")
            self.find(6, self.np)
        elif self.font_type == "mathex" and self.np != 13:
            self.print_ln(f"Unusual number of fontdimen parameters for an extension font ({self.np} not 13).")
            self.find(6, self.np)

    # §60

    def check_fix(self, k, what, i, *finding):
        if 0 < self.tfm[k] < 255:
            self.tfm[k : k + 4] = bytes(4)
            self.bad(f"{what} {i} is too big;")
            self.print_ln("I have set it to zero.")
            self.find(*finding)

    # §62

    def check_fix_words(self):
        tables = (
            (self.width_base, self.nw, "Width", "width"),
            (self.height_base, self.nh, "Height", "height"),
            (self.depth_base, self.nd, "Depth", "depth"),
            (self.italic_base, self.ni, "Italic correction", "italic"),
            (self.kern_base, self.nk, "Kern", ""),
        )
        for t, (base, _, _, name) in enumerate(tables[:4]):
            if any(self.tfm[4 * base : 4 * base + 4]):
                self.bad(f"{name}[0] should be zero.")
                self.find(8, t)
        for t, (base, count, what, _) in enumerate(tables):
            for i in range(count):
                self.check_fix(4 * (base + i), what, i, 9, t, i)

    # §66

    def do_ligatures_and_kerns(self):
        self.boundary_char = 256
        self.activity = [UNREACHABLE] * self.nl
        if self.nl > 0:
            self.check_boundary()
        self.build_labels()
        self.compute_activity()
        for i in range(self.nl):  # §71
            if self.activity[i] != PASS_THROUGH:
                self.check_step(i)

    # §67, §68

    def build_labels(self):
        for c in range(self.bc, self.ec + 1):
            if self.tag(c) == LIG_TAG:
                r = self.remainder(c)
                if r < self.nl and self.tfm[self.lig_step(r)] > STOP_FLAG:
                    r = self.address(self.lig_step(r))
                    if r < self.nl and self.activity[self.remainder(c)] == UNREACHABLE:
                        self.activity[self.remainder(c)] = PASS_THROUGH
                if r >= self.nl:
                    self.print_ln(f"Ligature/kern starting index for character '{c:03o} is too large;", "so I removed it.")
                    self.find(11, c)
                    self.reset_tag(c)
                else:
                    self.activity[r] = ACCESSIBLE

    # §69

    def check_boundary(self):
        first, last = self.lig_step(0), self.lig_step(self.nl - 1)
        if self.tfm[first] == 255:
            self.boundary_char = self.tfm[first + 1]
            self.activity[0] = PASS_THROUGH
        if self.tfm[last] == 255:
            r = self.address(last)
            if r >= self.nl:
                self.print_ln("Ligature/kern starting index for boundarychar is too large;so I removed it.")
                self.find(10)
            else:
                self.activity[r] = ACCESSIBLE
            self.activity[self.nl - 1] = PASS_THROUGH

    # §70

    def compute_activity(self):
        for i in range(self.nl):
            if self.activity[i] == ACCESSIBLE and self.tfm[self.lig_step(i)] < STOP_FLAG:
                r = self.tfm[self.lig_step(i)] + i + 1
                if r >= self.nl:
                    self.bad(f"Ligature/kern step {i} skips too far;")
                    self.print_ln("I made it stop.")
                    self.find(12, i)
                    self.tfm[self.lig_step(i)] = STOP_FLAG
                else:
                    self.activity[r] = ACCESSIBLE

    # §74

    def check_step(self, i):
        k = self.lig_step(i)
        if self.tfm[k] > STOP_FLAG:
            if self.address(k) >= self.nl:
                self.bad("Ligature unconditional stop command address is too big.")
                self.find(13, i)
        elif self.tfm[k + 2] >= KERN_FLAG:
            self.check_kern_step(i, k)
        else:
            self.check_ligature_step(i, k)

    # §76

    def check_kern_step(self, i, k):
        self.check_right_code("Kern step for", i, k)
        if 256 * (self.tfm[k + 2] - KERN_FLAG) + self.tfm[k + 3] >= self.nk:
            self.bad("Kern index too large.")
            self.find(16, i)

    # §77

    def check_ligature_step(self, i, k):
        self.check_right_code("Ligature step for", i, k)
        if self.nonexistent(self.tfm[k + 3]):
            self.correct_bad_char("Ligature step produces the", k + 3)
            self.find(15, i)
        if self.tfm[k + 2] not in (0, 1, 2, 3, 5, 6, 7, 11):
            self.print_ln("Ligature step with nonstandard code changed to LIG")
            self.find(17, i)
            self.tfm[k + 2] = 0

    def check_right_code(self, message, i, k):
        """The beginning of §76 and of §77."""
        if self.nonexistent(self.tfm[k + 1]) and self.tfm[k + 1] != self.boundary_char:
            self.correct_bad_char(message, k + 1)
            self.find(14, i)

    # §78

    def do_characters(self):
        for c in range(self.bc, self.ec + 1):
            if not self.nonexistent(c):
                self.check_indices(c)
                if self.tag(c) == LIG_TAG:
                    self.repeat_steps(c)
                elif self.tag(c) == LIST_TAG:
                    self.check_link(c)
                elif self.tag(c) == EXT_TAG:
                    self.check_recipe_number(c)

    # §79 to §82

    def check_indices(self, c):
        width, height_depth, italic_tag, _ = self.tfm[self.char_info(c) : self.char_info(c) + 4]
        indices = (
            (width, self.nw, "Width"),
            (height_depth // 16, self.nh, "Height"),
            (height_depth % 16, self.nd, "Depth"),
            (italic_tag // 4, self.ni, "Italic correction"),
        )
        for t, (index, count, what) in enumerate(indices):
            if index >= count:
                self.range_error(what, c)
                self.find(20, c, t)

    # §83

    def repeat_steps(self, c):
        i = self.remainder(c)
        if self.tfm[self.lig_step(i)] > STOP_FLAG:
            i = self.address(self.lig_step(i))
        while i < self.nl:
            self.check_step(i)
            skip = self.tfm[self.lig_step(i)]
            i = self.nl if skip >= STOP_FLAG else i + 1 + skip

    # §84

    def check_link(self, c):
        r = self.remainder(c)
        if self.nonexistent(r):
            self.bad_char("Character list link to", r)
            self.find(21, c)
            self.reset_tag(c)
            return
        while r < c and self.tag(r) == LIST_TAG:
            r = self.remainder(r)
        if r == c:
            self.bad("Cycle in a character list!")
            self.print_ln(f"Character '{c:03o} now ends the list.")
            self.find(22, c)
            self.reset_tag(c)

    # §85

    def check_recipe_number(self, c):
        if self.remainder(c) >= self.ne:
            self.range_error("Extensible", c)
            self.find(23, c)
            self.reset_tag(c)

    # §87

    def check_recipes(self):
        for recipe in range(self.ne):
            for d in range(4):
                k = 4 * (self.exten_base + recipe) + d
                if (self.tfm[k] > 0 or d == 3) and self.nonexistent(self.tfm[k]):
                    self.bad_char("Extensible recipe involves the", self.tfm[k])
                    self.find(19, recipe, d)
                    if d < 3:
                        self.tfm[k] = 0


def normal(printed):
    """The lines of what the real program printed, without the blank ones."""
    return [line for line in printed.splitlines() if line.strip()]
