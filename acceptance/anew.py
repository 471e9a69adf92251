"""Rewrites a stream of frames in CAVLC, as x264 writes it, so that its slices aren't in normal form and say the same.

    anew.py first|last|all FILE OTHER

Changed is the first macroblock of each slice that has a place for it, the last one, or all. With the 8x8 transform, bits of
coded_block_pattern become 1 of 8x8 blocks that aren't sent, and four lists without levels are sent for each. Where no 8x8
block is sent in a P or B macroblock that may have this transform, it is given it, and such blocks. P_8x8ref0 becomes P_8x8
with its reference indices. It prints how many slices were changed, of how many.
"""
import random
import re
import sys

from field_pictures import B, B_SUBS, EMULATION, I, INTER, INTRA, P, P_SUBS, PAIRS

START_CODE = re.compile(rb"(\x00*\x00\x00\x01)")
HIGH = 100
# coeff_token (Table 9-5) by nC from 0, 2 and 4, and of chroma DC: the length and the value of each code word, those of
# TrailingOnes 0 to 3 for each TotalCoeff
TOKENS = """
1.1 - - - 6.5 2.1 - - 8.7 6.4 3.1 - 9.7 8.6 7.5 5.3 10.7 9.6 8.5 6.3 11.7 10.6 9.5 7.4 13.15 11.6 10.5 8.4 13.11
13.14 11.5 9.4 13.8 13.10 13.13 10.4 14.15 14.14 13.9 11.4 14.11 14.10 14.13 13.12 15.15 15.14 14.9 14.12 15.11
15.10 15.13 14.8 16.15 15.1 15.9 15.12 16.11 16.14 16.13 15.8 16.7 16.10 16.9 16.12 16.4 16.6 16.5 16.8
;
2.3 - - - 6.11 2.2 - - 6.7 5.7 3.3 - 7.7 6.10 6.9 4.5 8.7 6.6 6.5 4.4 8.4 7.6 7.5 5.6 9.7 8.6 8.5 6.8 11.15 9.6 9.5
6.4 11.11 11.14 11.13 7.4 12.15 11.10 11.9 9.4 12.11 12.14 12.13 11.12 12.8 12.10 12.9 11.8 13.15 13.14 13.13 12.12
13.11 13.10 13.9 13.12 13.7 14.11 13.6 13.8 14.9 14.8 14.10 13.1 14.7 14.6 14.5 14.4
;
4.15 - - - 6.15 4.14 - - 6.11 5.15 4.13 - 6.8 5.12 5.14 4.12 7.15 5.10 5.11 4.11 7.11 5.8 5.9 4.10 7.9 6.14 6.13 4.9
7.8 6.10 6.9 4.8 8.15 7.14 7.13 5.13 8.11 8.14 7.10 6.12 9.15 8.10 8.13 7.12 9.11 9.14 8.9 8.12 9.8 9.10 9.13 8.8
10.13 9.7 9.9 9.12 10.9 10.12 10.11 10.10 10.5 10.8 10.7 10.6 10.1 10.4 10.3 10.2
;
2.1 - - - 6.7 1.1 - - 6.4 6.6 3.1 - 6.3 7.3 7.2 6.5 6.2 8.3 8.2 7.0
"""
# total_zeros (Tables 9-7 and 9-8, and 9-9 of chroma DC), a line for each TotalCoeff from 1
ZEROS = """
1 011 010 0011 0010 00011 00010 000011 000010 0000011 0000010 00000011 00000010 000000011 000000010 000000001
111 110 101 100 011 0101 0100 0011 0010 00011 00010 000011 000010 000001 000000
0101 111 110 101 0100 0011 100 011 0010 00011 00010 000001 00001 000000
00011 111 0101 0100 110 101 100 0011 011 0010 00010 00001 00000
0101 0100 0011 111 110 101 100 011 0010 00001 0001 00000
000001 00001 111 110 101 100 011 010 0001 001 000000
000001 00001 101 100 011 11 010 0001 001 000000
000001 0001 00001 011 11 10 010 001 000000
000001 000000 0001 11 10 001 01 00001
00001 00000 001 11 10 01 0001
0000 0001 001 010 1 011
0000 0001 01 1 001
000 001 1 01
00 01 1
0 1
"""
ZEROS_DC = """
1 01 001 000
1 01 00
1 0
"""
# run_before (Table 9-10), a line for each zerosLeft from 1, the last one for all above 6
RUNS = """
1 0
1 01 00
11 10 01 00
11 10 01 001 000
11 10 011 010 001 000
11 000 001 011 010 101 100
111 110 101 100 011 010 001 0001 00001 000001 0000001 00000001 000000001 0000000001 00000000001
"""


def tables(text):
    return [{word: n for n, word in enumerate(line.split())} for line in text.strip().split("\n")]


def token_table(text):
    sizes = [entry.split(".") for entry in text.split()]
    return {format(int(it[1]), f"0{it[0]}b"): n for n, it in enumerate(sizes) if len(it) == 2}


TOKENS = [token_table(text) for text in TOKENS.split(";")]
# six bits where nC is 8 or more; no level is the word of one level with three ones
TOKENS.insert(3, {format(n, "06b"): n + 4 if n != 3 else 0 for n in range(64)})
NO_LEVELS = [next(word for word, n in table.items() if n == 0) for table in TOKENS]
ZEROS, ZEROS_DC, RUNS = tables(ZEROS), tables(ZEROS_DC), tables(RUNS)


def ue(value):
    text = format(value + 1, "b")
    return "0" * (len(text) - 1) + text


class Reader:
    def __init__(self, unit):
        payload = unit[1:].replace(b"\0\0\3", b"\0\0")
        self.text = format(int.from_bytes(b"\1" + payload, "big"), "b")[1:].rstrip("0")[:-1]
        self.at = 0

    def more(self):
        return self.at < len(self.text)

    def u(self, size):
        self.at += size
        return int(self.text[self.at - size:self.at] or "0", 2)

    def prefix(self):
        """The zeros in front of a 1."""
        start, self.at = self.at, self.text.index("1", self.at) + 1
        return self.at - 1 - start

    def ue(self):
        size = self.prefix()
        return (1 << size) - 1 + self.u(size)

    def se(self):
        value = self.ue()
        return (value + 1) // 2 if value % 2 else -(value // 2)

    def te(self, greatest):
        if greatest == 1:
            return 1 - self.u(1)
        return self.ue() if greatest else 0

    def code(self, table):
        for size in range(1, 17):
            number = table.get(self.text[self.at:self.at + size])
            if number is not None:
                self.at += size
                return number
        raise ValueError("no code word")


# ---- parameter sets and slice headers

def scaling_lists(bits, count):
    for n in range(count):
        last, size = 8, 16 if n < 6 else 64
        if bits.u(1):
            for _ in range(size):
                last = (last + bits.se()) % 256
                if last == 0:
                    break


class Sps:
    def __init__(self, bits):
        profile = bits.u(24) >> 16
        self.number = bits.ue()
        if profile == HIGH:
            if (bits.ue(), bits.ue(), bits.ue(), bits.u(1)) != (1, 0, 0, 0):
                raise ValueError("4:2:0 in 8 bits is wanted")
            if bits.u(1):
                scaling_lists(bits, 8)
        self.frame_num_size = bits.ue() + 4
        self.order_type = bits.ue()
        if self.order_type == 1:
            raise ValueError("pic_order_cnt_type 0 or 2 is wanted")
        if self.order_type == 0:
            self.order_size = bits.ue() + 4
        bits.ue()
        bits.u(1)
        self.width = bits.ue() + 1
        bits.ue()
        self.frames_only = bits.u(1)
        if not self.frames_only and bits.u(1):
            raise ValueError("frames without macroblock pairs are wanted")
        self.inference = bits.u(1)


class Pps:
    def __init__(self, bits):
        self.number, self.sps = bits.ue(), bits.ue()
        if bits.u(1):
            raise ValueError("CAVLC is wanted")
        self.order_present = bits.u(1)
        bits.ue()
        self.refs = [bits.ue() + 1, bits.ue() + 1]
        self.weighted_p, self.weighted_b = bits.u(1), bits.u(2)
        for _ in range(3):
            bits.se()
        self.filter_control = bits.u(1)
        bits.u(2)
        self.transform_8x8 = bits.u(1) if bits.more() else 0


class Header:
    def __init__(self, bits, unit, sets):
        self.first, self.kind = bits.ue(), bits.ue() % 5
        self.pps = pps = sets[8, bits.ue()]
        self.sps = sps = sets[7, pps.sps]
        bits.u(sps.frame_num_size)
        if not sps.frames_only and bits.u(1):
            raise ValueError("frames are wanted")
        if unit % 32 == 5:
            bits.ue()
        if sps.order_type == 0:
            bits.u(sps.order_size)
            if pps.order_present:
                bits.se()
        if self.kind == B:
            bits.u(1)
        lists = {I: 0, P: 1, B: 2}[self.kind]
        self.refs = list(pps.refs)
        if lists and bits.u(1):
            for x in range(lists):
                self.refs[x] = bits.ue() + 1
        for _ in range(lists):
            if bits.u(1):
                while bits.ue() != 3:
                    bits.ue()
        if self.kind == P and pps.weighted_p or self.kind == B and pps.weighted_b == 1:
            self.weights(bits, lists)
        if unit >> 5:
            self.marking(bits, unit)
        bits.se()
        if pps.filter_control and bits.ue() != 1:
            bits.se()
            bits.se()

    def weights(self, bits, lists):
        bits.ue()
        bits.ue()
        for x in range(lists):
            for _ in range(self.refs[x]):
                for count in 2, 4:
                    if bits.u(1):
                        for _ in range(count):
                            bits.se()

    @staticmethod
    def marking(bits, unit):
        if unit % 32 == 5:
            bits.u(2)
        elif bits.u(1):
            while (what := bits.ue()) != 0:
                for _ in range({1: 1, 2: 1, 3: 2, 4: 1, 5: 0, 6: 1}[what]):
                    bits.ue()


# ---- slice data

class Slice:
    """The macroblocks of a slice as they are read, and the edits that take them out of normal form: of a macroblock, or None
    where its samples are aligned, a start, an end, and the bits between them."""

    def __init__(self, bits, header, rng):
        self.bits, self.header, self.rng = bits, header, rng
        self.counts, self.edits, self.at = {}, [], header.first
        while True:
            if header.kind != I:
                self.at += bits.ue()
                if not bits.more():
                    break
            self.macroblock()
            self.at += 1
            if not bits.more():
                break

    def edit(self, start, text, of=True):
        self.edits.append((self.at if of else None, start, self.bits.at, text))

    # ---- residual

    def nc(self, component, block):
        """nC of a 4x4 block (9.2.1), by its place in raster order."""
        columns, width = 2 if component else 4, self.header.sps.width
        x, y = block % columns, block // columns
        left, above = (self.at, x - 1, y), (self.at, x, y - 1)
        if x == 0:
            left = (self.at - 1 if self.at % width else -1, columns - 1, y)
        if y == 0:
            above = (self.at - width, x, columns - 1)
        near = [self.counts[m][component][j * columns + i] if m in self.counts else 0
                for m, i, j in (left, above) if m >= self.header.first]
        return (sum(near) + len(near) - 1) // len(near) if near else 0

    @staticmethod
    def row(nc):
        """The table of coeff_token."""
        return 4 if nc < 0 else min(nc // 2, 2) if nc < 8 else 3

    def levels(self, nc, most):
        """Reads a list of levels (7.3.5.3.2); how many there are."""
        bits = self.bits
        total, ones = divmod(bits.code(TOKENS[self.row(nc)]), 4)
        bits.u(ones)
        length = int(total > 10 and ones < 3)
        for n in range(ones, total):
            prefix = bits.prefix()
            size = prefix - 3 if prefix > 14 else 4 if prefix == 14 and not length else length
            code = (min(prefix, 15) << length) + bits.u(size)
            code += 15 * (prefix > 14 and length == 0) + 2 * (n == ones and ones < 3)
            if prefix > 15:
                code += (1 << prefix - 3) - 4096
            length = max(length, 1)
            length += code // 2 + 1 > 3 << length - 1 and length < 6
        left = bits.code((ZEROS_DC if most == 4 else ZEROS)[total - 1]) if 0 < total < most else 0
        for _ in range(total - 1):
            if left:
                left -= bits.code(RUNS[min(left, 7) - 1])
        return total

    def residual(self, luma, chroma, is_16x16=False, added=0):
        """Reads the residual, and puts lists without levels into the blocks that are added to the pattern."""
        mine = self.counts[self.at]
        if is_16x16:
            self.levels(self.nc(0, 0), 16)
        for n in range(16):
            place = 2 * (n // 4 % 2) + n % 2 + 4 * (2 * (n // 8) + n % 4 // 2)
            if luma >> n // 4 & 1:
                mine[0][place] = self.levels(self.nc(0, place), 15 if is_16x16 else 16)
            elif added >> n // 4 & 1:
                self.edit(self.bits.at, NO_LEVELS[self.row(self.nc(0, place))])
        for _ in range(2 if chroma else 0):
            self.levels(-1, 4)
        for component in (1, 2) if chroma == 2 else ():
            for n in range(4):
                mine[component][n] = self.levels(self.nc(component, n), 15)

    def added(self, luma, intra):
        """Bits that become 1. ffmpeg filters P and B macroblocks as if the first three blocks had levels, where their bits
        are 1 (8.7.2.1 asks for the levels)."""
        missing = 15 & ~luma
        added = missing & self.rng.randrange(16) or missing
        return added if intra or (luma | added) % 8 != 7 else added & 8

    def coded(self, intra, may_have_t8, t8):
        """coded_block_pattern, transform_size_8x8_flag behind it, mb_qp_delta and the residual."""
        bits, start = self.bits, self.bits.at
        table = INTRA if intra else INTER
        pattern = table[bits.ue()]
        end = bits.at
        given = may_have_t8 and self.header.pps.transform_8x8
        if given and pattern % 16:
            t8, given = bits.u(1), False
        added = self.added(pattern % 16, intra) if t8 or given else 0
        if added:
            flag = "1" if given else ""
            self.edits.append((self.at, start, end, ue(table.index(pattern + added)) + flag))
        if pattern:
            bits.se()
        elif added:
            self.edit(bits.at, "1")
        self.residual(pattern % 16, pattern // 16, added=added)

    # ---- macroblocks

    def predicted(self, parts):
        """Reference indices and vectors of parts, each of them a list or 2 for both, and how many vectors it has."""
        for x in 0, 1:
            for used, _ in parts:
                if used in (x, 2):
                    self.bits.te(self.header.refs[x] - 1)
        self.vectors(parts)

    def vectors(self, parts):
        for x in 0, 1:
            for used, count in parts:
                for _ in range(2 * count if used in (x, 2) else 0):
                    self.bits.se()

    def intra(self, number):
        bits = self.bits
        if number == 25:
            start = bits.at
            bits.u(-start % 8)
            self.edit(start, None, of=False)
            bits.u(384 * 8)
            self.counts[self.at] = [16] * 16, [16] * 4, [16] * 4
        elif number == 0:
            t8 = bits.u(1) if self.header.pps.transform_8x8 else 0
            for _ in range(4 if t8 else 16):
                if not bits.u(1):
                    bits.u(3)
            bits.ue()
            self.coded(True, False, t8)
        else:
            bits.ue()
            bits.se()
            self.residual(15 if number > 12 else 0, (number - 1) // 4 % 3, is_16x16=True)

    def p(self, number, start):
        may_have_t8 = True
        if number < 3:
            self.predicted([(0, 1)] * (1 if number == 0 else 2))
        else:
            if number == 4:
                self.edit(start, ue(3))
            subs = [P_SUBS[self.bits.ue()] for _ in range(4)]
            if number == 3:
                self.predicted(subs)
            else:
                self.edit(self.bits.at, "1111" if self.header.refs[0] > 1 else "")
                self.vectors(subs)
            may_have_t8 = all(count == 1 for _, count in subs)
        self.coded(False, may_have_t8, 0)

    def b(self, number):
        inference = bool(self.header.sps.inference)
        may_have_t8 = True
        if number == 22:
            subs = [B_SUBS[self.bits.ue()] for _ in range(4)]
            self.predicted(subs)
            may_have_t8 = all(count == 1 or count == 0 and inference for _, count in subs)
        elif number > 3:
            self.predicted([(int(used), 1) for used in PAIRS[number // 2 - 2]])
        elif number > 0:
            self.predicted([(number - 1, 1)])
        else:
            may_have_t8 = inference
        self.coded(False, may_have_t8, 0)

    def macroblock(self):
        start, kind = self.bits.at, self.header.kind
        number = self.bits.ue()
        self.counts[self.at] = [0] * 16, [0] * 4, [0] * 4
        inter = {I: 0, P: 5, B: 23}[kind]
        if number >= inter:
            self.intra(number - inter)
        elif kind == P:
            self.p(number, start)
        else:
            self.b(number)

    # ---- what is written

    def text(self, which):
        """The bits with the edits of the macroblocks that are chosen, and how many these are."""
        places = sorted({it[0] for it in self.edits} - {None})
        chosen = {"first": places[:1], "last": places[-1:], "all": places}[which]
        parts, size, done = [], 0, 0
        for at, start, end, bits in self.edits:
            if at is None or at in chosen:
                parts.append(self.bits.text[done:start])
                size += len(parts[-1])
                parts.append("0" * (-size % 8) if bits is None else bits)
                size += len(parts[-1])
                done = end
        return "".join(parts) + self.bits.text[done:], len(chosen)


class Rewriter:
    def __init__(self, which):
        self.which, self.rng, self.sets = which, random.Random(1), {}
        self.slices = self.changed = 0

    def unit(self, unit):
        kind = unit[0] % 32
        if kind in (7, 8):
            read = (Sps if kind == 7 else Pps)(Reader(unit))
            self.sets[kind, read.number] = read
        if kind not in (1, 5):
            return unit
        bits = Reader(unit)
        text, count = Slice(bits, Header(bits, unit[0], self.sets), self.rng).text(self.which)
        self.slices += 1
        self.changed += count > 0
        text += "1" + "0" * (-(len(text) + 1) % 8)
        return unit[:1] + EMULATION.sub(b"\0\0\3", int(text, 2).to_bytes(len(text) // 8, "big"))


def main(which, name, other):
    with open(name, "rb") as file:
        front, *parts = START_CODE.split(file.read())
    rewriter = Rewriter(which)
    units = [rewriter.unit(it) if at % 2 else it for at, it in enumerate(parts)]
    with open(other, "wb") as file:
        file.write(front + b"".join(units))
    print(rewriter.changed, rewriter.slices)


if __name__ == "__main__":
    main(*sys.argv[1:])
