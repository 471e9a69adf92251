#!/usr/bin/env bash
# Processor time and peak memory of h264recode on a stream of intra slices with residuals, from CAVLC and from CABAC to either,
# beside ffmpeg, which decodes the same stream in one thread, in CABAC where CABAC is read or written; and its peak memory on
# the largest pictures of level 5.2. Each run's report is compared with the one that is due, and what is written to a file with
# the bytes that are. Without the table of initial pairs in an installed library CABAC is left out.
#
#     bench/intra.sh             builds the program with rt, where it isn't built, and measures it
#     bench/intra.sh PROGRAM     measures this program, without rt
#
# Wants x264 and ffmpeg, the Debian packages of these names, python3 (3.8 or later), and rt in the first form. It runs on
# Linux alone, for it reads the peak memory in /proc. The streams, one output and the bytes that are due stand in a temporary
# folder (TMPDIR, or /tmp), which needs room for 220 MB.
. "$(dirname "$0")/encoder.sh"

kind=cavlc
! table || kind=all

# A part of the stream has its sets in front of each picture; the number of pictures is even, so that idr_pic_id changes
# where the next part begins. Scaling matrices make x264 say High.
measure_encoded $kind 60 "" --no-8x8dct --cqm jvt --keyint 1

[ $kind = all ] || exit 0
echo "pictures of 4096 by 2304, one slice each, level 5.2"
width=4096 height=2304 slices=1 megabytes=10
measure_encoded memory 2 "" --8x8dct --keyint 1 --level 5.2
