"""Judges what a run with a range has written, unit by unit: parameter sets in both forms, slices in range under the other
number of their picture parameter set, and all others byte for byte.

    ranges.py FILE OTHER FIRST LAST

FILE was read, and OTHER written with periods FIRST to LAST in range. The number of a slice's period is that of the IDR pictures
up to its own one. It says what is wrong and ends with 1, or prints how many slices are in range, of how many.
"""
import sys

from anew import Reader, START_CODE

HIGH = 100


def units_in(name):
    with open(name, "rb") as file:
        return START_CODE.split(file.read())[2::2]


def frame_num_size(unit):
    """The bits of frame_num in slices under a sequence parameter set (7.3.2.1.1)."""
    bits = Reader(unit)
    profile = bits.u(24) >> 16
    bits.ue()
    if profile == HIGH and (bits.ue(), bits.ue(), bits.ue(), bits.u(1), bits.u(1)) != (1, 0, 0, 0, 0):
        raise ValueError("4:2:0 in 8 bits without scaling matrices is wanted")
    return bits.ue() + 4


def of_pps(unit):
    bits = Reader(unit)
    return bits.ue(), bits.ue(), bits.u(1), bits.text[bits.at:]


def of_slice(unit):
    """first_mb_in_slice, slice_type and pic_parameter_set_id."""
    bits = Reader(unit)
    return [bits.ue() for _ in range(3)]


class Judge:
    def __init__(self, first, last):
        self.range = range(first, last + 1)
        self.period, self.before, self.size = 0, None, None
        self.slices = self.inside = 0

    def count(self, unit):
        """Notes a slice, which may be of the IDR picture that begins a period."""
        idr_pic_id = None
        if unit[0] % 32 == 5:
            bits = Reader(unit)
            for _ in range(3):
                bits.ue()
            bits.u(self.size)
            idr_pic_id = bits.ue()
            self.period += idr_pic_id != self.before
        self.before = idr_pic_id
        self.slices += 1
        self.inside += self.period in self.range

    def wrong(self, unit, others):
        """What is wrong with the units that were written for one, which are taken."""
        kind, other = unit[0] % 32, next(others, b"")
        if kind == 7:
            self.size = frame_num_size(unit)
            unit = unit[:2] + bytes([unit[2] & 0b01011111]) + unit[3:]
        if kind in (1, 5):
            self.count(unit)
        if kind in (1, 5) and self.period in self.range:
            first, slice_type, number = of_slice(unit)
            if unit[0] != other[0] or of_slice(other) != [first, slice_type, 255 - number]:
                return "a slice in range is another one, or names another set"
        elif unit != other:
            return "other bytes are written for a unit that stays"
        if kind == 8:
            number, sps, flag, rest = of_pps(unit)
            if of_pps(next(others, b"")) != (255 - number, sps, 1 - flag, rest):
                return "a picture parameter set isn't written in both forms"
        return None


def main(name, other, first, last):
    judge, others = Judge(int(first), int(last)), iter(units_in(other))
    for number, unit in enumerate(units_in(name)):
        wrong = judge.wrong(unit, others)
        if wrong:
            sys.exit(f"unit {number}: {wrong}")
    if next(others, None) is not None:
        sys.exit("more units are written")
    print(judge.inside, judge.slices)


if __name__ == "__main__":
    main(*sys.argv[1:])
