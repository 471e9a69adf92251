#!/usr/bin/env bash
# Processor time and peak memory of h264recode on a stream of carried units, beside `cat` on the same file.
#
#     bench/carried.sh             builds the program with rt, where it isn't built, and measures it
#     bench/carried.sh PROGRAM     measures this program, without rt
#
# Wants python3 (3.8 or later), and rt in the first form. It runs on Linux alone, for it reads the peak memory in /proc.
# The stream and one output stand in a temporary folder (TMPDIR, or /tmp), which needs room for 520 MB.
. "$(dirname "$0")/program.sh"

python3 - "$program" "$room" <<'PYTHON'
import random
import sys

from measure import measure, unit

PROGRAM, ROOM = sys.argv[1:]
STREAM, OUTPUT = f"{ROOM}/stream.264", f"{ROOM}/output"
BYTES = 256_000_000
LEAST, MOST = 3, 100_000  # of a unit
# nal_unit_type of the units that are carried
CARRIED = [6, 9, 10, 11, 12, *range(24, 32)]


def carried_unit(rng):
    """A unit of random bytes with emulation prevention (7.3.1). Short ones are as frequent as long ones."""
    size = int(LEAST * (MOST / LEAST) ** rng.random())
    payload = rng.getrandbits(8 * (size - 2)).to_bytes(size - 2, "little") + b"\x80"
    return unit(rng.choice(CARRIED), payload)


def make_stream():
    """Writes the stream, and gives the report line that a run over it must have."""
    rng = random.Random(264)
    units = read = written = 0
    with open(STREAM, "wb") as file:
        while read < BYTES:
            code = rng.choice([b"\0\0\1", b"\0\0\0\1"])
            bytes_of = carried_unit(rng)
            units += 1
            read += file.write(code) + file.write(bytes_of)
            written += 4 + len(bytes_of)
    return f"ok units {units} slices 0 macroblocks 0 in {read} out {written}"


measure(PROGRAM, STREAM, make_stream(), OUTPUT)
PYTHON
