#!/usr/bin/env bash
# P and B slices and the 8x8 transform in CAVLC, made by x264 and recoded from CAVLC to CAVLC: ffmpeg must show the same
# pictures of input and output, frame by frame and sample by sample. Streams that aren't in scope must be refused at the
# unit and for the reason that docs/FORMAT.md has.
#
#     acceptance/inter_cavlc.sh             builds the program with rt, where it isn't built, and tries it
#     acceptance/inter_cavlc.sh PROGRAM     tries this program, without rt
#
# Wants x264 and ffmpeg, the Debian packages of these names. Where one is missing nothing is tried, and the exit status is
# 0. Else it is 0 where all went well, 1 where the program fell short, and 2 where something could not be tried. The clips
# stand in a temporary folder (TMPDIR, or /tmp), which needs room for 40 MB.
. "$(dirname "$0")/streams.sh"
. "$scripts/inter_streams.sh"

clip "testsrc2=size=SIZE,rotate=a=t:fillcolor=gray" 352 288 12
refused "macroblock pairs" cabac "outside unit 4 unbuilt" "${high[@]}" --bframes 2 --tff
refused "profile Baseline" cavlc "outside unit 0 profile" --profile baseline
refused "samples of 10 bits" cavlc "outside unit 0 profile" --profile high10 --output-depth 10 --no-cabac

told
