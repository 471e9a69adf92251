#!/usr/bin/env python3
"""Makes a stream of profile Main one of profile High, which has all that Main has: changes its sequence parameter sets alone.

    to_high.py < in.264 > out.264
"""
import re
import sys

START_CODE = re.compile(rb"(\x00*\x00\x00\x01)")
EMULATION = re.compile(rb"\x00\x00(?=[\x00-\x03])")
MAIN, HIGH = 77, 100
# chroma_format_idc 1, bit depths of 8, no transform bypass, no scaling matrices (7.3.2.1.1)
HIGH_ELEMENTS = "010" "1" "1" "0" "0"


def to_high(unit):
    """Returns the unit, of High where it is a sequence parameter set of Main."""
    payload = unit[1:].replace(b"\0\0\3", b"\0\0")
    if unit[0] % 32 != 7 or payload[0] != MAIN:
        return unit
    bits = format(int.from_bytes(payload, "big"), f"0{8 * len(payload)}b")
    # behind seq_parameter_set_id, an Exp-Golomb code; the last 1 is the stop bit
    place = 24 + 2 * bits.index("1", 24) - 2 * 24 + 1
    bits = bits[:place] + HIGH_ELEMENTS + bits[place:].rstrip("0")
    bits += "0" * (-len(bits) % 8)
    payload = bytes([HIGH]) + int(bits, 2).to_bytes(len(bits) // 8, "big")[1:]
    return unit[:1] + EMULATION.sub(b"\0\0\3", payload)


def main():
    front, *parts = START_CODE.split(sys.stdin.buffer.read())
    units = (to_high(it) if at % 2 else it for at, it in enumerate(parts))
    sys.stdout.buffer.write(front + b"".join(units))


if __name__ == "__main__":
    main()
