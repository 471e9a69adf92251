#!/usr/bin/env bash
# Processor time and peak memory of h264recode on a stream of MBAFF frames, whose macroblocks stand in pairs, with P and B
# slices and the 8x8 transform, from CAVLC to CAVLC, beside ffmpeg, which decodes the same stream in one thread. Each run's
# report is compared with the one that is due, and what is written to a file with the bytes that are.
#
#     bench/pairs.sh             builds the program with rt, where it isn't built, and measures it
#     bench/pairs.sh PROGRAM     measures this program, without rt
#
# Wants x264 and ffmpeg, the Debian packages of these names, python3 (3.8 or later), and rt in the first form. It runs on
# Linux alone, for it reads the peak memory in /proc. The streams, one output and the bytes that are due stand in a temporary
# folder (TMPDIR, or /tmp), which needs room for 170 MB.
. "$(dirname "$0")/encoder.sh"

# The height is one that pairs fill. A part of the stream has two IDR pictures, so that idr_pic_id changes where the next part
# begins.
height=736
measure_encoded cavlc 120 "scroll=horizontal=0.003:vertical=0.002,tinterlace=mode=interleave_top," --tff \
    --8x8dct --keyint 60 --no-scenecut --bframes 3 --b-adapt 0 --ref 3 --partitions all --direct auto
