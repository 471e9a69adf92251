"""Counts the bins that slices take in CABAC, from what they say in CAVLC: each element's value settles how many bins it has (9.3.2).

Slices are those of x264 in frames of profile Main and High, and their code words those of crates/code_tables.
"""
import ast
import os
import re
import subprocess

TABLES = os.path.join(os.path.dirname(os.path.realpath(__file__)), "../crates/code_tables/src")
# bins of mb_type in B, up to B_8x8 (table 9-37), and of sub_mb_type in P and B (table 9-38)
B_BINS = [1, 3, 3] + 9 * [6] + 10 * [7] + [6]
P_SUB_BINS, B_SUB_BINS = [1, 2, 3, 3], [1, 3, 3] + 4 * [5] + 4 * [6] + 2 * [5]
# the lists that B types 4 and 5, 6 and 7, .. use, 2 for both (table 7-14)
B_PAIRS = ["00", "11", "01", "10", "02", "12", "20", "21", "22"]
# the list that a sub-macroblock type in B uses, and how many vectors it has (table 7-18)
B_SUBS = [(None, 0), (0, 1), (1, 1), (2, 1), (0, 2), (0, 2), (1, 2), (1, 2), (2, 2), (2, 2), (0, 4), (1, 4), (2, 4)]
P_SUB_VECTORS = [1, 2, 2, 4]
# places of 4x4 blocks in raster order (6.4.3)
PLACES = [2 * (n // 4 % 2) + n % 2 + 4 * (2 * (n // 8) + n % 4 // 2) for n in range(16)]


class Words:
    """Finds the code word that bits begin with, and its number."""

    def __init__(self, codes):
        self.codes = {format(word, f"0{size}b"): number for number, (size, word) in enumerate(codes) if size}
        self.found = {}

    def read(self, cursor):
        window = cursor.bits[cursor.at : cursor.at + 16]
        if window not in self.found:
            self.found[window] = next((len(word), it) for word, it in self.codes.items() if window.startswith(word))
        size, number = self.found[window]
        cursor.at += size
        return number


def table(file, name):
    with open(f"{TABLES}/{file}.rt", encoding="utf-8") as it:
        found = re.search(rf"static {name}: [^=]*= (\[.*?\n?\]);", it.read(), re.S)
    return ast.literal_eval(found[1])


class Tables:
    def __init__(self):
        self.tokens = {least: Words(table("tokens", f"COEFF_TOKEN_{least}")) for least in ("0", "2", "4", "8", "DC")}
        self.zeros = [Words(row) for row in table("zeros", "TOTAL_ZEROS")]
        self.zeros_dc = [Words(row) for row in table("zeros", "TOTAL_ZEROS_DC")]
        self.runs = [Words(row) for row in table("runs", "RUN_BEFORE")]
        self.patterns = {intra: table("patterns", f"{name}_PATTERNS") for intra, name in ((True, "INTRA"), (False, "INTER"))}

    def token(self, nc):
        return self.tokens["DC" if nc < 0 else "0" if nc < 2 else "2" if nc < 4 else "4" if nc < 8 else "8"]


class Cursor:
    def __init__(self, bits, at):
        self.bits, self.at = bits, at

    def u(self, size):
        self.at += size
        return int(self.bits[self.at - size : self.at], 2)

    def ue(self):
        size = self.bits.index("1", self.at) - self.at
        self.at += size
        return self.u(size + 1) - 1

    def se(self):
        code = self.ue()
        return (code + 1) // 2 if code % 2 else -(code // 2)

    def te(self, most):
        return 1 - self.u(1) if most == 1 else self.ue() if most else 0


def bins_of_escape(value, least, order):
    """Bins of the suffix of a value from `least` on, an Exp-Golomb code of this order (9.3.2.3)."""
    size, left = 1, value - least
    while left >= 1 << order:
        left -= 1 << order
        order += 1
        size += 1
    return size + order


def bins_of_level(level):
    value = abs(level) - 1
    return 1 + (value + 1 if value < 14 else 14 + bins_of_escape(value, 14, 0))


def bins_of_vector(value):
    value = abs(value)
    return value + 1 + (value > 0) if value < 9 else 10 + bins_of_escape(value, 9, 3)


def bins_of_list(levels, has_flag):
    """Bins of a list of levels by their places (7.3.5.3.3)."""
    places = [at for at, it in enumerate(levels) if it]
    if not places:
        return 1
    end = len(levels) - 1
    maps = places[-1] + 1 + len(places) if places[-1] < end else end + len(places) - 1
    return has_flag + maps + sum(bins_of_level(levels[at]) for at in places)


class Slice:
    """Reads a slice, and counts its bins."""

    def __init__(self, tables, width, header, bits):
        self.tables, self.width = tables, width
        self.cursor = Cursor(bits, header["end"])
        self.kind = "PBI"[header["slice_type"] % 5]
        self.refs = [header[f"num_ref_idx_l{x}_active_minus1"] for x in (0, 1)]
        self.has_t8 = header["transform_8x8_mode_flag"]
        self.first = self.address = header["first_mb_in_slice"]
        self.counts = {}
        self.bins = 0

    def ue(self):
        return self.cursor.ue()

    # ---- residual

    def nc(self, component, place):
        columns = 4 if component == 0 else 2
        x, y = place % columns, place // columns
        left, above = (self.address, x - 1, y), (self.address, x, y - 1)
        if x == 0:
            left = (self.address - 1 if self.address % self.width else -1, columns - 1, y)
        if y == 0:
            above = (self.address - self.width, x, columns - 1)
        near = [self.counts[at][component][j * columns + i] for at, i, j in (left, above) if at >= self.first]
        return (sum(near) + len(near) - 1) // len(near) if near else 0

    def level(self, suffix_length, least):
        cursor = self.cursor
        prefix = cursor.bits.index("1", cursor.at) - cursor.at
        cursor.at += prefix + 1
        code = min(15, prefix) << suffix_length
        size = suffix_length if prefix < 14 or suffix_length else 4 * (prefix == 14)
        size = prefix - 3 if prefix >= 15 else size
        code += (cursor.u(size) if size else 0) + 15 * (prefix >= 15 and suffix_length == 0)
        code += ((1 << (prefix - 3)) - 4096 if prefix >= 16 else 0) + 2 * least
        return (code + 2) // 2 if code % 2 == 0 else -((code + 1) // 2)

    def levels(self, nc, size):
        """The levels of a list by their places, and how many aren't 0 (7.3.5.3.2)."""
        cursor, levels = self.cursor, [0] * size
        total, ones = divmod(self.tables.token(nc).read(cursor), 4)
        if not total:
            return levels, 0
        values, suffix_length = [1 - 2 * cursor.u(1) for _ in range(ones)], int(total > 10 and ones < 3)
        for number in range(ones, total):
            values.append(self.level(suffix_length, number == ones and ones < 3))
            suffix_length += suffix_length == 0
            suffix_length += suffix_length < 6 and abs(values[-1]) > 3 << (suffix_length - 1)
        zeros = 0 if total == size else (self.tables.zeros_dc if size == 4 else self.tables.zeros)[total - 1].read(cursor)
        at = zeros + total - 1
        for value in values:
            levels[at] = value
            total -= 1
            run = self.tables.runs[min(zeros, 7) - 1].read(cursor) if zeros and total else 0
            zeros -= run
            at -= 1 + run
        return levels, sum(map(bool, levels))

    def luma(self, luma, is_16x16, t8):
        mine = self.counts[self.address][0]
        for quarter in range(4):
            if not luma >> quarter & 1:
                continue
            lists = []
            for place in PLACES[4 * quarter : 4 * quarter + 4]:
                levels, mine[place] = self.levels(self.nc(0, place), 15 if is_16x16 else 16)
                lists.append(levels)
            whole = [[levels[at] for at in range(16) for levels in lists]] if t8 else lists
            self.bins += sum(bins_of_list(it, not t8) for it in whole)

    def residual(self, luma, chroma, is_16x16=False, t8=False):
        if is_16x16:
            self.bins += bins_of_list(self.levels(self.nc(0, 0), 16)[0], True)
        self.luma(luma, is_16x16, t8)
        for _ in range(2 if chroma else 0):
            self.bins += bins_of_list(self.levels(-1, 4)[0], True)
        for component in (1, 2) if chroma == 2 else ():
            for place in range(4):
                levels, self.counts[self.address][component][place] = self.levels(self.nc(component, place), 15)
                self.bins += bins_of_list(levels, True)

    # ---- macroblocks

    def delta(self):
        value = self.cursor.se()
        self.bins += 2 * abs(value) - (value > 0) + 1

    def coded(self, intra, t8, may_have_t8):
        """coded_block_pattern and what stands behind it."""
        chroma, luma = divmod(self.tables.patterns[intra][self.ue()], 16)
        self.bins += 5 + (chroma > 0)
        if may_have_t8 and luma:
            t8 = self.cursor.u(1)
            self.bins += 1
        if luma or chroma:
            self.delta()
        self.residual(luma, chroma, t8=t8)

    def chroma_mode(self):
        mode = self.ue()
        self.bins += mode + (mode < 3)

    def intra(self, number):
        if number == 25:
            self.bins += 2
            self.cursor.at += -self.cursor.at % 8 + 8 * 384
            self.counts[self.address] = [16] * 16, [16] * 4, [16] * 4
        elif number == 0:
            t8 = self.cursor.u(1) if self.has_t8 else 0
            self.bins += 1 + self.has_t8
            for _ in range(4 if t8 else 16):
                is_likely = self.cursor.u(1)
                self.cursor.at += 0 if is_likely else 3
                self.bins += 1 if is_likely else 4
            self.chroma_mode()
            self.coded(True, t8, False)
        else:
            chroma = (number - 1) // 4 % 3
            self.bins += 6 + (chroma > 0)
            self.chroma_mode()
            self.delta()
            self.residual(15 if number > 12 else 0, chroma, is_16x16=True)

    def prediction(self, parts, are_zero=False):
        """Reference indices and vectors of parts, each with its list, 2 for both, and how many vectors it has."""
        for x in 0, 1:
            for _ in range(sum(used in (x, 2) for used, _ in parts) if self.refs[x] else 0):
                self.bins += 1 + (0 if are_zero else self.cursor.te(self.refs[x]))
        for x in 0, 1:
            for _ in range(2 * sum(vectors for used, vectors in parts if used in (x, 2))):
                self.bins += bins_of_vector(self.cursor.se())

    def p(self, number):
        self.bins += 3
        subs = [self.ue() for _ in range(4)] if number > 2 else []
        self.bins += sum(P_SUB_BINS[sub] for sub in subs)
        parts = [(0, P_SUB_VECTORS[sub]) for sub in subs] or [(0, 1)] * (1 if number == 0 else 2)
        self.prediction(parts, number == 4)
        self.coded(False, 0, self.has_t8 and not any(subs))

    def b(self, number):
        self.bins += B_BINS[number]
        subs, parts = [], []
        if number == 22:
            subs = [self.ue() for _ in range(4)]
            self.bins += sum(B_SUB_BINS[sub] for sub in subs)
            parts = [B_SUBS[sub] for sub in subs]
        elif number > 3:
            parts = [(int(used), 1) for used in B_PAIRS[number // 2 - 2]]
        elif number:
            parts = [(number - 1, 1)]
        self.prediction(parts)
        self.coded(False, 0, self.has_t8 and all(sub < 4 for sub in subs))

    def macroblock(self):
        self.counts[self.address] = [0] * 16, [0] * 4, [0] * 4
        number = self.ue()
        inter = {"I": 0, "P": 5, "B": 23}[self.kind]
        if number >= inter:
            # (a prefix in P, and six bins in B)
            self.bins += {"I": 0, "P": 1, "B": 6}[self.kind]
            self.intra(number - inter)
        else:
            {"P": self.p, "B": self.b}[self.kind](number)

    def count(self):
        """Returns the bins of the slice."""
        end = self.cursor.bits.rindex("1")
        while self.cursor.at < end:
            for _ in range(self.ue() if self.kind != "I" else 0):
                self.counts[self.address] = [0] * 16, [0] * 4, [0] * 4
                self.address += 1
                self.bins += 2
            if self.cursor.at < end:
                self.macroblock()
                self.address += 1
                # (mb_skip_flag, and end_of_slice_flag)
                self.bins += 1 + (self.kind != "I")
        assert self.cursor.at == end
        return self.bins


def headers(stream):
    """Yields what the header of each slice says, with the place where its data begin, as ffmpeg reads it."""
    words = ["ffmpeg", "-v", "info", "-nostdin", "-f", "h264", "-i", stream, "-c", "copy", "-bsf:v", "trace_headers", "-f", "null", "-"]
    elements, is_slice = {}, False
    for line in subprocess.run(words, capture_output=True, text=True, check=True).stderr.splitlines():
        if not line.startswith("[trace_headers"):
            continue
        found = re.match(r"\[[^]]*\] (\d+) +(\w+)[][\d]* +([01]+) = (-?\d+)$", line)
        if is_slice and not found:
            yield dict(elements)
            is_slice = False
        if line.endswith("] Slice Header"):
            is_slice = True
            for x in 0, 1:
                elements[f"num_ref_idx_l{x}_active_minus1"] = elements.get(f"num_ref_idx_l{x}_default_active_minus1", 0)
        elif found:
            elements[found[2]] = int(found[4])
            elements["end"] = int(found[1]) + len(found[3])
    if is_slice:
        yield elements


def units(stream):
    with open(stream, "rb") as file:
        parts = re.split(rb"\x00*\x00\x00\x01", file.read())[1:]
    return [it for it in parts if it[0] % 32 in (1, 5)]


def bits_of(unit):
    payload = unit.replace(b"\0\0\3", b"\0\0")
    return format(int.from_bytes(payload, "big"), f"0{8 * len(payload)}b")


def bins_of(cavlc, cabac, most):
    """Returns about how many bins the slices of a stream have, which is given in both layers: counted are so many of them."""
    tables, bins, size = Tables(), 0, 0
    slices = list(zip(headers(cavlc), units(cavlc), units(cabac)))
    for header, unit, other in slices[:: max(1, len(slices) // most)]:
        bins += Slice(tables, header["pic_width_in_mbs_minus1"] + 1, header, bits_of(unit)).count()
        size += len(other)
    return bins / size * sum(len(other) for _, _, other in slices)
