#!/usr/bin/env bash
# Processor time and peak memory of h264recode on a stream of I_PCM slices, from CAVLC to CAVLC, beside `cat` on the same
# file. Each run's report is compared with the one that is due, and what is written to a file with the bytes that are.
#
#     bench/pcm.sh             builds the program with rt, where it isn't built, and measures it
#     bench/pcm.sh PROGRAM     measures this program, without rt
#
# Wants python3 (3.8 or later), and rt in the first form. It runs on Linux alone, for it reads the peak memory in /proc.
# The stream, one output and the bytes that are due stand in a temporary folder (TMPDIR, or /tmp), which needs room for
# 160 MB.
. "$(dirname "$0")/program.sh"

python3 - "$program" "$room" <<'PYTHON'
import random
import sys

from measure import measure, unit

PROGRAM, ROOM = sys.argv[1:]
STREAM, OUTPUT, WANTED = f"{ROOM}/stream.264", f"{ROOM}/output", f"{ROOM}/wanted.264"
BYTES = 50_000_000
WIDTH, HEIGHT = 40, 30  # of a picture, in macroblocks
MOST_SLICES = 8  # of a picture
# one macroblock in so many has samples of 0 to 3 alone, among which many bytes of emulation prevention stand
DARK = 64
DARKEN = bytes(value % 4 for value in range(256))
I_PCM = 25  # mb_type (Table 7-11)


def u(value, length):
    return format(value, f"0{length}b")


def ue(value):
    """An Exp-Golomb code (9.1)."""
    digits = format(value + 1, "b")
    return "0" * (len(digits) - 1) + digits


def filled(bits):
    """These bits as bytes, with zero bits up to the byte boundary."""
    bits += "0" * (-len(bits) % 8)
    return bytes(int(bits[at : at + 8], 2) for at in range(0, len(bits), 8))


def seq_parameter_set():
    """Of profile Main at level 3.1, with pic_order_cnt_type 2 and one reference frame (7.3.2.1.1)."""
    fields = [ue(0), ue(0), ue(2), ue(1), u(0, 1), ue(WIDTH - 1), ue(HEIGHT - 1), u(1, 1), u(1, 1), u(0, 1), u(0, 1)]
    return unit(0x67, bytes([77, 0x40, 31]) + filled("".join(fields) + "1"))


def pic_parameter_set():
    """Of CAVLC, all other elements 0 (7.3.2.2)."""
    fields = [ue(0), ue(0), u(0, 2), ue(0), ue(0), ue(0), u(0, 3), ue(0), ue(0), ue(0), u(0, 3)]
    return unit(0x68, filled("".join(fields) + "1"))


def samples(rng):
    """256 of luma and 64 of Cb and of Cr (7.3.5)."""
    values = rng.getrandbits(8 * 384).to_bytes(384, "little")
    return values.translate(DARKEN) if rng.randrange(DARK) == 0 else values


def idr_slice(rng, first, count, picture):
    """An I slice of so many I_PCM macroblocks (7.3.3, 7.3.4). Idr_pic_id is another one from one picture to the next."""
    header = [ue(first), ue(7), ue(0), u(0, 4), ue(picture % 2), u(0, 2), ue(0)]
    data = [filled("".join(header) + ue(I_PCM)), samples(rng)]
    for _ in range(count - 1):
        data += [filled(ue(I_PCM)), samples(rng)]
    return unit(0x65, b"".join(data) + b"\x80")


def slices(rng, picture):
    """A picture, cut at random, as the number of macroblocks and the unit of each slice."""
    size = WIDTH * HEIGHT
    cuts = sorted(rng.sample(range(1, size), rng.randrange(MOST_SLICES)))
    for first, end in zip([0] + cuts, cuts + [size]):
        yield end - first, idr_slice(rng, first, end - first, picture)


def make_stream():
    """Writes the stream and what is due for it, and gives the report line that a run over it must have."""
    rng = random.Random(264)
    units = count = macroblocks = read = written = 0
    with open(STREAM, "wb") as file, open(WANTED, "wb") as wanted:

        def put(bytes_of):
            nonlocal units, read, written
            code = rng.choice([b"\0\0\1", b"\0\0\0\1"])
            units += 1
            read += file.write(code) + file.write(bytes_of)
            written += wanted.write(b"\0\0\0\1") + wanted.write(bytes_of)

        put(seq_parameter_set())
        put(pic_parameter_set())
        picture = 0
        while read < BYTES:
            for size, bytes_of in slices(rng, picture):
                count += 1
                macroblocks += size
                put(bytes_of)
            picture += 1
    return f"ok units {units} slices {count} macroblocks {macroblocks} in {read} out {written}"


measure(PROGRAM, STREAM, make_stream(), OUTPUT, WANTED)
PYTHON
