#!/usr/bin/env python3
"""Clears the bits behind the stop bits for which slices are refused.

    behind_stop.py PROGRAM TABLE IN OUT

The standard has zero bits behind the stop bit of a slice (7.3.2.11). x264 sets the last of them in the CABAC slices of about
half of its pictures, and of such a slice PROGRAM, an h264recode, says `outside unit U slice`. Then the lowest bit of that
unit's last byte is cleared, and the stream is tried again, until no slice is refused or clearing doesn't help. TABLE is the
file of the table's text. OUT gets the stream, and how many bits were cleared is printed.
"""
import re
import subprocess
import sys

START_CODE = re.compile(rb"\x00\x00\x01")
REFUSED = re.compile(r"outside unit (\d+) slice")


def last_bytes(stream):
    """Returns the place of each unit's last byte, which is never 0."""
    starts = [it.start() for it in START_CODE.finditer(stream)][1:] + [len(stream)]
    return [len(stream[:end].rstrip(b"\0")) - 1 for end in starts]


def refused_unit(program, table, stream):
    """Returns the number of the unit whose slice the program refuses, or None."""
    words = [program, "recode", "--to", "cabac", "--table", table]
    run = subprocess.run(words, input=stream, stdout=subprocess.DEVNULL, stderr=subprocess.PIPE, check=False)
    refused = REFUSED.match(run.stderr.decode())
    return refused and int(refused[1])


def main(program, table, source, sink):
    with open(table, encoding="ascii") as file:
        text = file.read()
    with open(source, "rb") as file:
        stream = bytearray(file.read())
    places, cleared = last_bytes(stream), 0
    # (a byte 1 is the stop bit alone)
    while (unit := refused_unit(program, text, stream)) is not None and stream[places[unit]] & 1 and stream[places[unit]] > 1:
        stream[places[unit]] -= 1
        cleared += 1
    with open(sink, "wb") as file:
        file.write(stream)
    print(cleared)


if __name__ == "__main__":
    main(*sys.argv[1:])
