#!/usr/bin/env bash
# Fields and frames of one sequence, with every type of macroblock in I, P and B slices, written by field_pictures.py and
# recoded from CAVLC to CAVLC: ffmpeg must show the same pictures of input and output, and what is written is written again
# as it stands.
#
#     acceptance/field_pictures.sh             builds the program with rt, where it isn't built, and tries it
#     acceptance/field_pictures.sh PROGRAM     tries this program, without rt
#
# Wants x264 and ffmpeg, the Debian packages of these names, and python3. Where one is missing nothing is tried, and the exit
# status is 0. Else it is 0 where all went well, 1 where the program fell short, and 2 where something could not be tried.
. "$(dirname "$0")/streams.sh"

# stays: the stream has the same frames in normal form, and that is written again as it stands
stays() {
    runs cavlc "$in" "$out" && shows "$in" "$out" && runs cavlc "$out" "$room/again.264" || return
    cmp -s "$out" "$room/again.264" || { echo "what was written is written otherwise"; return 1; }
}

for seed in {1..12}; do
    fields "$seed"
    judge "fields, seed $seed" "$(stays)"
done

told
