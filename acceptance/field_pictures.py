"""Writes streams that no packaged encoder makes: fields and frames of one sequence, in CAVLC, with every type of macroblock
in I, P and B slices, drawn at random.

    field_pictures.py SEED PICTURES FILE [pairs]

With `pairs` the macroblocks of frames stand in pairs, each of them of frame or field macroblocks (MBAFF). The stream is profile High, 64 by 64 samples, with the 8x8 transform. A list of levels is empty or has one level, of 1 or
-1, in its first place. Forms stand in it that encoders avoid: pattern bits without a level behind them, P_8x8 whose reference
indices are all 0. It prints how many units, slices and macroblocks it wrote.
"""
import random
import re
import sys

WIDTH, FRAME_HEIGHT = 4, 4
I, P, B = 2, 0, 1
EMULATION = re.compile(rb"\x00\x00(?=[\x00-\x03])")
# coded_block_pattern by codeNum (Table 9-4), of I_NxN and of P and B macroblocks
INTRA = [47, 31, 15, 0, 23, 27, 29, 30, 7, 11, 13, 14, 39, 43, 45, 46, 16, 3, 5, 10, 12, 19, 21, 26, 28, 35, 37, 42, 44, 1,
         2, 4, 8, 17, 18, 20, 24, 6, 9, 22, 25, 32, 33, 34, 36, 40, 38, 41]
INTER = [0, 16, 1, 2, 4, 8, 32, 3, 5, 10, 12, 15, 47, 7, 11, 13, 14, 6, 9, 31, 35, 37, 42, 44, 33, 34, 36, 40, 39, 43, 45,
         46, 17, 18, 20, 24, 19, 21, 26, 28, 23, 27, 29, 30, 22, 25, 38, 41]
# the lists that the partitions of B types 4 and 5, 6 and 7, .. use (Table 7-14)
PAIRS = ["00", "11", "01", "10", "02", "12", "20", "21", "22"]
# the list that a sub-macroblock type in B uses, 2 for both, and how many parts it has (Table 7-18)
B_SUBS = [(None, 0), (0, 1), (1, 1), (2, 1), (0, 2), (0, 2), (1, 2), (1, 2), (2, 2), (2, 2), (0, 4), (1, 4), (2, 4)]
P_SUBS = [(0, 1), (0, 2), (0, 2), (0, 4)]


class Bits:
    def __init__(self):
        self.bits = []

    def u(self, value, size):
        self.bits += [value >> i & 1 for i in reversed(range(size))]

    def ue(self, value):
        size = (value + 1).bit_length()
        self.u(0, size - 1)
        self.u(value + 1, size)

    def se(self, value):
        self.ue(2 * value - 1 if value > 0 else -2 * value)

    def te(self, value, greatest):
        if greatest == 1:
            self.u(1 - value, 1)
        elif greatest > 1:
            self.ue(value)

    def align(self, bit=0):
        while len(self.bits) % 8:
            self.bits.append(bit)

    def unit(self, header):
        self.bits.append(1)
        self.align()
        payload = bytes(int("".join(map(str, self.bits[i:i + 8])), 2) for i in range(0, len(self.bits), 8))
        return b"\0\0\1" + bytes([header]) + EMULATION.sub(b"\0\0\3", payload)


def sps(pairs):
    bits = Bits()
    for value in 100, 0, 20:
        bits.u(value, 8)
    for value in 0, 1, 0, 0:
        bits.ue(value)
    bits.u(0, 2)
    for value in 0, 0, 4, 2:  # frame_num in 4 bits; order type 0, in 8 bits; two reference frames
        bits.ue(value)
    bits.u(0, 1)
    bits.ue(WIDTH - 1)
    bits.ue(FRAME_HEIGHT // 2 - 1)
    bits.u(0b01100 if pairs else 0b00100, 5)  # fields may stand, direct_8x8_inference, no cropping, no VUI
    return bits.unit(0x67)


def pps(rng):
    bits = Bits()
    bits.ue(0)
    bits.ue(0)
    bits.u(0b00, 2)
    bits.ue(0)
    bits.ue(0)  # one reference of each list, if a slice doesn't say other
    bits.ue(0)
    bits.u(0, 1)
    bits.u(rng.choice((0, 2)), 2)
    for _ in range(3):
        bits.se(0)
    bits.u(0b100, 3)
    bits.u(0b10, 2)  # the 8x8 transform
    bits.se(0)
    return bits.unit(0x68)


class Slice:
    """The macroblocks of a slice, and what their blocks count."""

    def __init__(self, rng, bits, kind, refs, first, counts):
        self.rng, self.bits, self.kind, self.refs, self.first, self.counts = rng, bits, kind, refs, first, counts
        self.run = 0

    # ---- residual

    def left(self, at, y, rows):
        """The macroblock to the left of the row y of 4x4 blocks of one at an address, of so many rows, and the row there
        (6.4.12.1)."""
        return at - 1 if at % WIDTH else -1, y

    def above(self, at, rows):
        """The macroblock above, and its row of 4x4 blocks that touches."""
        return at - WIDTH, rows - 1

    def nc(self, at, component, block):
        """nC of a 4x4 block of the macroblock at an address (9.2.1)."""
        columns = 4 if component == 0 else 2
        x, y = block % columns, block // columns
        left, above = (at, x - 1, y), (at, x, y - 1)
        if x == 0:
            other, row = self.left(at, y, columns)
            left = (other, columns - 1, row)
        if y == 0:
            other, row = self.above(at, columns)
            above = (other, x, row)
        near = [self.counts[m][component][j * columns + i] for m, i, j in (left, above) if m >= self.first]
        return (sum(near) + len(near) - 1) // len(near) if near else 0

    def levels(self, nc):
        """A list of no level, or of one in its first place; its count."""
        row = 4 if nc < 0 else min(3, (nc + 0) // 2 if nc < 4 else 2 + (nc >= 8))
        one = self.rng.random() < 0.4
        self.bits.u(*(((1, 1), (3, 2), (15, 4), (3, 6), (1, 2))[row] if not one else
                      ((1, 2), (2, 2), (14, 4), (1, 6), (1, 1))[row]))
        if one:
            self.bits.u(self.rng.getrandbits(1), 1)
            self.bits.u(1, 1)  # no zeros before it
        return int(one)

    def residual(self, at, luma, chroma, is_16x16):
        mine = self.counts[at]
        # raster places of the 4x4 blocks in their order (6.4.3)
        places = [2 * (n // 4 % 2) + n % 2 + 4 * (2 * (n // 8) + n % 4 // 2) for n in range(16)]
        if is_16x16:
            self.levels(self.nc(at, 0, 0))
        for n in range(16):
            if luma >> (n // 4) & 1:
                mine[0][places[n]] = self.levels(self.nc(at, 0, places[n]))
        for _ in range(2 if chroma else 0):
            self.levels(-1)
        for component in (1, 2) if chroma == 2 else ():
            for n in range(4):
                mine[component][n] = self.levels(self.nc(at, component, n))

    def coded(self, at, intra, may_have_t8):
        """coded_block_pattern, transform_size_8x8_flag behind it, mb_qp_delta and the residual."""
        pattern = self.rng.choice((0, 0, self.rng.randrange(48)))
        self.bits.ue((INTRA if intra else INTER).index(pattern))
        t8 = may_have_t8 and pattern % 16 != 0
        if t8:
            # ffmpeg filters as if the first three blocks had levels, where their bits are 1 (8.7.2.1 asks for the levels)
            self.bits.u(0 if pattern % 8 == 7 else self.rng.getrandbits(1), 1)
        if pattern:
            # an mb_qp_delta other than 0 goes with chroma, which no form leaves out
            self.bits.se(self.rng.choice((-1, 0, 1)) if pattern >= 16 else 0)
        self.residual(at, pattern % 16, pattern // 16, False)

    # ---- macroblocks

    def type(self, number, intra=False):
        if self.kind != I:
            self.bits.ue(self.run)
            self.run = 0
        self.bits.ue(number + ({I: 0, P: 5, B: 23}[self.kind] if intra else 0))

    def vectors(self, count):
        for _ in range(2 * count):
            self.bits.se(self.rng.choice((0, 0, 1, -1, 2, -3, 5, -6)))

    def predicted(self, parts):
        """Reference indices and vectors of parts, each of them a list or 2 for both, and how many vectors it has."""
        for x in 0, 1:
            for used, _ in parts:
                if used in (x, 2):
                    self.bits.te(self.rng.randrange(self.refs[x]), self.refs[x] - 1)
        for x in 0, 1:
            for used, vectors in parts:
                if used in (x, 2):
                    self.vectors(vectors)

    def intra(self, at):
        kind = self.rng.choice(("pcm", "nxn", "16x16", "16x16"))
        if kind == "pcm":
            self.type(25, True)
            self.bits.align()
            base = self.rng.randrange(40, 200)
            for _ in range(384):
                self.bits.u(base + self.rng.randrange(16), 8)
            self.counts[at] = [[16] * 16, [16] * 4, [16] * 4]
        elif kind == "nxn":
            self.type(0, True)
            t8 = self.rng.getrandbits(1)
            self.bits.u(t8, 1)
            self.bits.u((1 << (4 if t8 else 16)) - 1, 4 if t8 else 16)
            self.bits.ue(0)
            self.coded(at, True, False)
        else:
            luma, chroma = self.rng.choice((0, 15)), self.rng.randrange(3)
            self.type(1 + 2 + 4 * chroma + (12 if luma else 0), True)
            self.bits.ue(0)
            self.bits.se(self.rng.choice((-1, 0, 1)))
            self.residual(at, luma, chroma, True)

    def p(self, at):
        number = self.rng.randrange(5)
        self.type(number)
        t8 = True
        if number < 3:
            self.predicted([(0, 1)] * (1 if number == 0 else 2))
        else:
            subs = [self.rng.choice((0, 0, 1, 2, 3)) for _ in range(4)]
            for sub in subs:
                self.bits.ue(sub)
            zeros = number == 3 and self.rng.getrandbits(1)
            if number == 3:
                for _ in range(4):
                    self.bits.te(0 if zeros else self.rng.randrange(self.refs[0]), self.refs[0] - 1)
            for sub in subs:
                self.vectors(P_SUBS[sub][1])
            t8 = not any(subs)
        self.coded(at, False, t8)

    def b(self, at):
        number = self.rng.randrange(23)
        self.type(number)
        t8 = True
        if number == 22:
            subs = [self.rng.choice((0, 1, 2, 3, self.rng.randrange(13))) for _ in range(4)]
            for sub in subs:
                self.bits.ue(sub)
            self.predicted([B_SUBS[sub] for sub in subs])
            t8 = max(subs) < 4
        elif number > 3:
            self.predicted([(int(used), 1) for used in PAIRS[number // 2 - 2]])
        elif number > 0:
            self.predicted([(number - 1, 1)])
        self.coded(at, False, t8)

    def coded_macroblock(self, at):
        if self.kind == I or self.rng.random() < 0.15:
            self.intra(at)
        else:
            self.p(at) if self.kind == P else self.b(at)

    def is_skipped(self):
        return self.kind != I and self.rng.random() < 0.25

    def macroblocks(self, first, last):
        for at in range(first, last):
            self.counts[at] = [[0] * 16, [0] * 4, [0] * 4]
            if self.is_skipped():
                self.run += 1
            else:
                self.coded_macroblock(at)

    def end(self):
        if self.run:
            self.bits.ue(self.run)


class PairSlice(Slice):
    """The same in pairs of macroblocks, of which those of a frame's rows or those of its fields are the two. The macroblocks
    of pair n have the addresses 2n and 2n + 1."""

    def __init__(self, rng, bits, kind, refs, first, counts):
        super().__init__(rng, bits, kind, refs, first, counts)
        self.frame_refs = refs
        self.flag = None  # mb_field_decoding_flag, where it stands before the next macroblock type
        self.is_field = {}  # of each pair of the slice

    def left(self, at, y, rows):
        pair, bottom = at // 2, at % 2
        if pair % WIDTH == 0 or pair - 1 not in self.is_field:
            return -1, y
        near, sample, height = 2 * (pair - 1), 4 * y, 4 * rows
        if self.is_field[pair] == self.is_field[pair - 1]:
            return near + bottom, y
        if self.is_field[pair]:  # rows of a frame stand to the left: every other one
            sample = 2 * sample + bottom
            return near + sample // height, sample % height // 4
        sample += height * bottom  # fields stand to the left
        return near + sample % 2, sample // 2 // 4

    def above(self, at, rows):
        pair, bottom = at // 2, at % 2
        if bottom and not self.is_field[pair]:
            return at - 1, rows - 1
        other = pair - WIDTH
        if other not in self.is_field:
            return -1, rows - 1
        top_of_fields = self.is_field[pair] and self.is_field[other] and not bottom
        return 2 * other + (0 if top_of_fields else 1), rows - 1

    def type(self, number, intra=False):
        if self.flag is None:
            super().type(number, intra)
            return
        if self.kind != I:
            self.bits.ue(self.run)
            self.run = 0
        self.bits.u(self.flag, 1)
        self.flag = None
        self.bits.ue(number + ({I: 0, P: 5, B: 23}[self.kind] if intra else 0))

    def inferred(self, pair):
        """The flag of a pair that has none (7.4.4)."""
        if pair % WIDTH and pair - 1 in self.is_field:
            return self.is_field[pair - 1]
        return self.is_field.get(pair - WIDTH, 0)

    def macroblocks(self, first, last):
        for pair in range(first // 2, last // 2):
            skipped = [self.is_skipped() for _ in range(2)]
            self.is_field[pair] = self.inferred(pair) if all(skipped) else self.rng.getrandbits(1)
            self.refs = [count << self.is_field[pair] for count in self.frame_refs]
            for bottom in range(2):
                at = 2 * pair + bottom
                self.counts[at] = [[0] * 16, [0] * 4, [0] * 4]
                if skipped[bottom]:
                    self.run += 1
                    continue
                if not bottom or skipped[0]:
                    self.flag = self.is_field[pair]
                self.coded_macroblock(at)


class Stream:
    def __init__(self, seed, pairs):
        self.rng = random.Random(seed)
        self.pairs = pairs
        self.units = [sps(pairs), pps(self.rng)]
        self.slices = self.macroblocks = 0

    def picture(self, kind, idr, reference, frame_num, order, field, refs):
        """A frame, or a field where `field` is 0 for the top and 1 for the bottom one."""
        height = FRAME_HEIGHT if field is None else FRAME_HEIGHT // 2
        in_pairs = self.pairs and field is None
        step = 2 if in_pairs else 1
        size = WIDTH * height
        cut = step * self.rng.randrange(1, size // step)
        counts = [None] * size
        spatial, filtered = self.rng.getrandbits(1), self.rng.randrange(3)
        for first, last in ((0, cut), (cut, size)) if self.rng.getrandbits(1) else ((0, size),):
            bits = Bits()
            bits.ue(first // step)
            bits.ue(kind)
            bits.ue(0)
            bits.u(frame_num % 16, 4)
            bits.u(field is not None, 1)
            if field is not None:
                bits.u(field, 1)
            if idr:
                bits.ue(0)
            bits.u(order % 256, 8)
            if kind == B:
                bits.u(spatial, 1)
            if kind != I:
                bits.u(1, 1)
                for x in range(1 if kind == P else 2):
                    bits.ue(refs[x] - 1)
                bits.u(0, 1 if kind == P else 2)  # the lists as they come
            if reference:
                bits.u(0, 2 if idr else 1)
            bits.se(0)
            bits.ue(filtered)
            if filtered != 1:
                bits.se(0)
                bits.se(0)
            slice = (PairSlice if in_pairs else Slice)(self.rng, bits, kind, refs, first, counts)
            slice.macroblocks(first, last)
            slice.end()
            self.units.append(bits.unit((0x60 if reference else 0) + (5 if idr else 1)))
            self.slices += 1
        self.macroblocks += size

    def pair(self, kind, number, order, reference):
        """A picture of the stream, as a frame or as two fields, behind so many reference frames."""
        idr = number == 0
        frames = min(number, 2)
        if self.rng.random() < (0.8 if self.pairs else 0.3):
            self.picture(kind, idr, reference, number, 2 * order, None, [frames] * 2)
            return
        first = 2 * frames
        second = first
        if reference:
            second = 1 + 2 * min(number, 1)
        some = lambda most: [self.rng.randint(1, most) if most else 0 for _ in range(2)]
        self.picture(kind, idr, reference, number, 2 * order, 0, some(first))
        self.picture(P if kind == I else kind, False, reference, number, 2 * order + 1, 1, some(second))

    def write(self, pictures):
        self.pair(I, 0, 0, True)
        for n in range(1, pictures):
            self.pair(P, n, 2 * n, True)
            if n > 1:
                self.pair(B, n + 1, 2 * n - 1, False)


if __name__ == "__main__":
    stream = Stream(int(sys.argv[1]), sys.argv[4:] == ["pairs"])
    stream.write(int(sys.argv[2]))
    with open(sys.argv[3], "wb") as file:
        file.write(b"".join(stream.units))
    print(len(stream.units), stream.slices, stream.macroblocks)
