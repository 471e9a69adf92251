#!/usr/bin/env bash
# Intra slices in CAVLC, made by x264 and recoded from CAVLC to CAVLC: ffmpeg must show the same pictures of input and
# output, frame by frame and sample by sample. Streams that aren't in scope must be refused at the unit and for the reason
# that docs/FORMAT.md has.
#
#     acceptance/intra_cavlc.sh             builds the program with rt, where it isn't built, and tries it
#     acceptance/intra_cavlc.sh PROGRAM     tries this program, without rt
#
# Wants x264 and ffmpeg, the Debian packages of these names. Where one is missing nothing is tried, and the exit status is
# 0. Else it is 0 where all went well, 1 where the program fell short, and 2 where something could not be tried. The clips
# stand in a temporary folder (TMPDIR, or /tmp), which needs room for 20 MB.
. "$(dirname "$0")/streams.sh"
. "$scripts/intra_streams.sh"

clip "testsrc2=size=SIZE" 352 288 10
refused "macroblock pairs" cabac "outside unit 4 unbuilt" "${high[@]}" --interlaced
refused "profile Baseline" cavlc "outside unit 0 profile" --profile baseline --keyint 1
refused "samples of 10 bits" cavlc "outside unit 0 profile" --profile high10 --output-depth 10 --no-cabac --keyint 1

told
