"""Changes a stream unit by unit, from standard input to standard output.

    units.py long      to start codes of four bytes
    units.py words     the same, with two cabac_zero_words behind each slice (7.3.2.10)
"""
import re
import sys

START_CODE = re.compile(rb"\x00*\x00\x00\x01")
SLICES = 1, 5
TWO_WORDS = b"\x00\x00\x03\x00\x00\x03"


def main(how):
    units = START_CODE.split(sys.stdin.buffer.read())[1:]
    for unit in units:
        words = TWO_WORDS if how == "words" and unit[0] % 32 in SLICES else b""
        sys.stdout.buffer.write(b"\x00\x00\x00\x01" + unit.rstrip(b"\x00") + words)


if __name__ == "__main__":
    main(sys.argv[1])
