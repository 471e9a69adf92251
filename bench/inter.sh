#!/usr/bin/env bash
# Processor time and peak memory of h264recode on a stream of P and B slices with the 8x8 transform, from CAVLC to CAVLC,
# beside ffmpeg, which decodes the same stream in one thread; and then on streams of about 20 and 2 Mb/s, from CAVLC and from
# CABAC to either, where ffmpeg decodes CABAC if CABAC is read or written. Each run's report is compared with the one that is
# due, and what is written to a file with the bytes that are. Without the table of initial pairs in an installed library CABAC
# is left out.
#
#     bench/inter.sh             builds the program with rt, where it isn't built, and measures it
#     bench/inter.sh PROGRAM     measures this program, without rt
#
# Wants x264 and ffmpeg, the Debian packages of these names, python3 (3.8 or later), and rt in the first form. It runs on
# Linux alone, for it reads the peak memory in /proc. The streams, one output and the bytes that are due stand in a temporary
# folder (TMPDIR, or /tmp), which needs room for 220 MB.
. "$(dirname "$0")/encoder.sh"

# A part of the stream has two IDR pictures, so that idr_pic_id changes where the next part begins.
coded=(--8x8dct --keyint 60 --no-scenecut --bframes 3 --b-adapt 0 --ref 3 --partitions all --weightp 2 --direct auto)
moved="scroll=horizontal=0.003:vertical=0.002,"
measure_encoded cavlc 120 "$moved" "${coded[@]}"

table || exit 0
echo "about 20 Mb/s"
measure_encoded all 120 "$moved" "${coded[@]}" --bitrate 17000
echo "about 2 Mb/s"
megabytes=10
measure_encoded all 120 "$moved" "${coded[@]}" --bitrate 2000
