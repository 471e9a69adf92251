"""Measures h264recode on a stream of an encoder, which is repeated to a size, beside ffmpeg, which decodes it.

    encoded.py cavlc PROGRAM ROOM WIDTH HEIGHT FRAMES SLICES BYTES      from CAVLC to CAVLC
    encoded.py all PROGRAM ROOM WIDTH HEIGHT FRAMES SLICES BYTES        from each layer to each
    encoded.py memory PROGRAM ROOM WIDTH HEIGHT FRAMES SLICES BYTES     the peak memory alone, from each layer to each

ROOM has part.264, so many pictures of this size in so many slices each, in CAVLC, which may stand behind itself. But for the
first form it has too table, the text of the table of CABAC's initial pairs. The stream of CABAC is what h264recode makes of
that of CAVLC; ffmpeg must show the same pictures of both. ffmpeg decodes the CABAC side where CABAC is read or written.
"""
import os
import re
import subprocess
import sys

from measure import Recoder, measure, seconds
from slice_bins import bins_of

KIND, PROGRAM, ROOM = sys.argv[1:4]
WIDTH, HEIGHT, FRAMES, SLICES, BYTES = map(int, sys.argv[4:])
CAVLC, CABAC, OUTPUT, WANTED = (f"{ROOM}/{name}" for name in ("stream.264", "cabac.264", "output", "wanted.264"))
# with the zero bytes in front of it
START_CODE = re.compile(rb"\x00*\x00\x00\x01")
FEW_ROUNDS = 2
COUNTED_SLICES = 24


def make_stream():
    """Writes the stream of CAVLC and what is due for it in its layer, and gives the counts that a report begins with."""
    with open(f"{ROOM}/part.264", "rb") as file:
        part = file.read()
    due, units = START_CODE.subn(b"\0\0\0\1", part)
    parts = -(-BYTES // len(part))
    pictures = FRAMES * parts
    macroblocks = -(-WIDTH // 16) * -(-HEIGHT // 16) * pictures
    with open(CAVLC, "wb") as file, open(WANTED, "wb") as wanted:
        for _ in range(parts):
            file.write(part)
            wanted.write(due)
    return f"ok units {units * parts} slices {SLICES * pictures} macroblocks {macroblocks}"


def report_of(counts, stream, output):
    return f"{counts} in {os.path.getsize(stream)} out {os.path.getsize(output)}"


def decode(stream, *sink):
    return ["ffmpeg", "-v", "error", "-nostdin", "-threads", "1", "-f", "h264", "-i", stream, *(sink or ("-f", "null", "-"))]


def pictures_of(stream):
    """Gives a checksum of all pictures, and what ffmpeg complains of."""
    words = decode(stream, "-fps_mode", "passthrough", "-f", "md5", "-")
    run = subprocess.run(words, capture_output=True, text=True, check=True)
    return run.stdout, run.stderr


def table():
    with open(f"{ROOM}/table", encoding="ascii") as file:
        return file.read()


def make_cabac(counts):
    """Writes the stream of CABAC."""
    _, report = seconds(Recoder(PROGRAM, "cabac", table()).words, CAVLC, CABAC)
    if report != report_of(counts, CAVLC, CABAC):
        sys.exit(f"the report is {report!r}")
    if pictures_of(CAVLC) != pictures_of(CABAC):
        sys.exit("ffmpeg shows other pictures from CABAC")


def directions():
    """Gives a name, the stream, the wanted layer and what is due, but for CAVLC to CAVLC."""
    yield "from CAVLC to CABAC", CAVLC, "cabac", CABAC
    yield "from CABAC to CAVLC", CABAC, "cavlc", WANTED
    yield "from CABAC to CABAC", CABAC, "cabac", CABAC


def measure_direction(name, counts, bins, stream, layer, due):
    report = report_of(counts, stream, due)
    print(f"{name}: {report}")
    recoder = Recoder(PROGRAM, layer, table(), decode(CABAC), FEW_ROUNDS)
    recoder.run(stream, OUTPUT, report, due)
    beside, taken = (time / bins * 1e9 for time in recoder.compare(stream, "/dev/null", report))
    print(f"a bin, of about {bins / 1e6:.0f} million: ffmpeg {beside:.1f} ns, h264recode {taken:.1f} ns")
    recoder.compare_memory(stream)


def measure_memory(counts):
    make_cabac(counts)
    print(f"the stream: {report_of(counts, CAVLC, CABAC)}")
    for name, stream, layer, beside in ("from CAVLC to CAVLC", CAVLC, "cavlc", CAVLC), *(it[:3] + (CABAC,) for it in directions()):
        print(f"{name}: ", end="")
        Recoder(PROGRAM, layer, table(), decode(beside)).compare_memory(stream)


def main():
    counts = make_stream()
    if KIND == "memory":
        measure_memory(counts)
        return
    measure(PROGRAM, CAVLC, report_of(counts, CAVLC, WANTED), OUTPUT, WANTED, decode(CAVLC))
    if KIND == "all":
        make_cabac(counts)
        bins = bins_of(CAVLC, CABAC, COUNTED_SLICES)
        for name, *rest in directions():
            measure_direction(name, counts, bins, *rest)


main()
