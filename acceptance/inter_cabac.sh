#!/usr/bin/env bash
# P and B slices, and fields, on their way from CAVLC to CABAC and back, and from CABAC to CAVLC and back. The streams of
# inter_cavlc.sh and field_pictures.sh go to CABAC under each cabac_init_idc, where ffmpeg must show the same pictures and
# complain of nothing, and back to the bytes that are written from CAVLC to CAVLC. Streams of x264 and openh264 in CABAC go to
# CAVLC and back to the bytes that the encoder wrote, but for start codes and for the bits that x264 sets behind stop bits.
# With another number in the table of initial pairs it must come out.
#
#     acceptance/inter_cabac.sh             builds the program with rt, where it isn't built, and tries it
#     acceptance/inter_cabac.sh PROGRAM     tries this program, without rt
#
# Wants x264, ffmpeg and libopenh264-7, the Debian packages of these names. Where one of the first two is missing nothing is
# tried, and the exit status is 0; without the third its streams are left out. Else it is 0 where all went well, 1 where the
# program fell short, and 2 where something could not be tried. The clips stand in a temporary folder (TMPDIR, or /tmp), which
# needs room for 60 MB.
. "$(dirname "$0")/cabac.sh"
numbers="0 1 2"
. "$scripts/inter_streams.sh"

clip "testsrc2=size=SIZE,rotate=a=t:fillcolor=gray" 352 288 12
for preset in ultrafast superfast veryfast faster fast medium slow slower veryslow placebo; do
    of_x264 "preset $preset" 1 --profile high --preset $preset --tune psnr --crf 22
done
for direct in none spatial temporal auto; do
    of_x264 "Main, direct prediction $direct" 2 "${main[@]}" --bframes 4 --direct $direct --weightb --crf 24 --slices 2
done
of_x264 "Main, open groups, constrained intra prediction" 1 "${main[@]}" --bframes 3 --open-gop --keyint 5 --constrained-intra
# x264 takes cabac_init_idc from those who call its library alone.
for init in 1 2; do
    ffmpeg -v error -nostdin -y -i "$room/clip.y4m" -c:v libx264 -profile:v high -f h264 -x264-params \
        "cabac-idc=$init:qp=22:bframes=2:b-adapt=0:keyint=250:scenecut=0:threads=1" "$in" || exit 2
    unmark
    counts=$(counted 1)
    from_cabac "cabac_init_idc $init, coded in CABAC"
    for context in 11 13 15 18 24 28 37 40 47 54 60 77 105 166 227 402 417; do
        judge "another number for context $context with cabac_init_idc $init" "$(told_apart_in_cabac $context $((init + 1)))"
    done
done
init=
of_openh264 "Main" 1 qp=24 references=3
of_openh264 "High, four slices a picture" 4 qp=18 profile=100 slice_mode=1 slices=4 complexity=2
of_openh264 "a slice for each row, no filter" 18 qp=30 slice_mode=2 filter=1
of_openh264 "a quantiser for each macroblock" 1 control=1 adaptive=1
of_openh264 "pictures of a screen" 1 usage=1 qp=26

clip "testsrc2=size=SIZE,rotate=a=t:fillcolor=gray" 128 96 24
for ((references = 1; references <= 16; references++)); do
    of_x264 "$references references" 1 --profile high --ref $references --bframes 2 --b-adapt 0 --no-scenecut --crf 26
done

clip "testsrc2=size=SIZE,rotate=a=t:fillcolor=gray" 352 288 12
encode "${high[@]}" --bframes 2 --ref 3 --partitions all --crf 22
counts=$(counted 1)
for init in $numbers; do
    for context in 11 13 14 16 18 21 23 24 27 32 36 40 41 47 50 54 55 60 73 77 85 93 105 134 166 195 247 399 402 417 426; do
        judge "another number for context $context with cabac_init_idc $init" "$(told_apart $context $((init + 1)))"
    done
done
init=

for seed in {1..12}; do
    fields "$seed"
    judge "fields, seed $seed" "$(there_and_back)"
done
# (levels stand in the first place of their lists alone)
for context in 277 292 306 321 338 353 367 382 385 436 451; do
    judge "another number for context $context, of fields" "$(told_apart $context 1)"
done

told_of_cabac
