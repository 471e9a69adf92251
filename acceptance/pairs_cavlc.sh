#!/usr/bin/env bash
# Frames whose macroblocks stand in pairs (MBAFF), in CAVLC, recoded from CAVLC to CAVLC: made by x264, and drawn by
# field_pictures.py with pairs of both kinds, pairs that are skipped in whole or in part, and I_PCM. ffmpeg must show the same
# pictures of input and output, and what is written is written again as it stands. To CABAC they must be refused as
# docs/FORMAT.md has it.
#
#     acceptance/pairs_cavlc.sh             builds the program with rt, where it isn't built, and tries it
#     acceptance/pairs_cavlc.sh PROGRAM     tries this program, without rt
#
# Wants x264 and ffmpeg, the Debian packages of these names, and python3. Where one is missing nothing is tried, and the exit
# status is 0. Else it is 0 where all went well, 1 where the program fell short, and 2 where something could not be tried. The
# clips stand in a temporary folder (TMPDIR, or /tmp), which needs room for 40 MB.
. "$(dirname "$0")/streams.sh"

# what is tried with each stream of x264, which is in normal form
fault() {
    normal && runs cavlc "$out" "$room/again.264" || return
    cmp -s "$out" "$room/again.264" || { echo "what was written is written otherwise"; return 1; }
}

# stays: the stream has the same frames in normal form, and that is written again as it stands
stays() {
    runs cavlc "$in" "$out" && shows "$in" "$out" && runs cavlc "$out" "$room/again.264" || return
    cmp -s "$out" "$room/again.264" || { echo "what was written is written otherwise"; return 1; }
}

# pairs GRAPH WIDTH HEIGHT FRAMES: the pictures that are coded from here on, whose last row of pairs may be cropped
pairs() {
    clip "$@"
    macroblocks=$((($2 + 15) / 16 * (($3 + 31) / 32) * 2))
}

high=(--profile high --no-cabac --8x8dct --keyint 250 --no-scenecut --b-adapt 0 --tff)
main=(--profile main --no-cabac --keyint 250 --no-scenecut --b-adapt 0 --qpmin 12 --tff)

pairs "testsrc2=size=SIZE,rotate=a=t:fillcolor=gray,tinterlace=mode=interleave_top" 352 288 12
same "I slices" 1 "${high[@]}" --keyint 1 --crf 23
same "I slices, three a picture" 3 "${high[@]}" --keyint 1 --qp 14 --slices 3
same "P slices, one reference" 1 "${high[@]}" --bframes 0 --ref 1 --crf 23
same "P slices, four references, all partitions" 1 "${high[@]}" --bframes 0 --ref 4 --partitions all --subme 9 --me umh --crf 18
same "bottom fields first" 1 --profile high --no-cabac --8x8dct --bff --bframes 2 --b-adapt 0 --crf 22
same "B slices, spatial direct prediction" 1 "${high[@]}" --bframes 3 --ref 3 --direct spatial --partitions all --crf 20
same "B slices, temporal direct prediction" 1 "${high[@]}" --bframes 3 --ref 3 --direct temporal --partitions all --crf 20
same "B slices that are references, weights" 1 "${high[@]}" --bframes 5 --b-pyramid normal --ref 5 --direct auto --weightb --crf 22
same "Main, without the 8x8 transform" 1 "${main[@]}" --bframes 2 --ref 2 --partitions all --crf 20
same "Main, quantiser 51" 1 "${main[@]}" --bframes 2 --qp 51
same "quantiser 1" 1 "${high[@]}" --bframes 2 --qp 1
same "four slices a picture, behind delimiters" 4 "${high[@]}" --bframes 2 --ref 2 --slices 4 --aud --crf 24
same "many references" 1 "${high[@]}" --bframes 2 --ref 16 --b-pyramid strict --crf 24 --partitions all
same "constrained intra prediction, no filter" 1 "${high[@]}" --bframes 2 --constrained-intra --no-deblock --crf 20
same "scaling matrices" 1 "${high[@]}" --bframes 2 --cqm jvt --crf 18
same "buffer models" 1 "${high[@]}" --bframes 2 --nal-hrd vbr --bitrate 3000 --vbv-maxrate 3000 --vbv-bufsize 3000

pairs "color=c=teal:size=SIZE" 352 288 12
same "skipped pictures" 1 "${high[@]}" --bframes 3 --crf 24

pairs "testsrc2=size=SIZE,tinterlace=mode=interleave_top" 350 268 8
same "sizes that pairs don't fill" 1 "${high[@]}" --bframes 2 --crf 24
same "the same, in many slices" 9 "${high[@]}" --bframes 1 --qp 14 --slices 9

pairs "testsrc2=size=SIZE" 16 32 12
same "one pair a picture" 1 "${high[@]}" --bframes 2 --qp 12

pairs "mandelbrot=size=SIZE,scroll=horizontal=0.11:vertical=0.07,tinterlace=mode=interleave_top" 320 192 10
same "long vectors" 3 "${high[@]}" --bframes 2 --ref 4 --merange 64 --me umh --subme 10 --partitions all --qp 12 --slices 3

# x264 takes I_PCM only where it looks at distances alone
pairs "$(noisy 2 3 7 8)" 176 160 10
same "intra macroblocks and I_PCM" 2 "${high[@]}" --bframes 2 --qp 4 --no-psy --slices 2

pairs "mandelbrot=size=SIZE,tinterlace=mode=interleave_top" 1920 1088 6
same "a large picture" 8 "${high[@]}" --bframes 2 --ref 3 --crf 22 --slices 8
refused "to CABAC" cabac "outside unit 4 unbuilt" "${high[@]}" --bframes 2

for seed in {1..20}; do
    fields "$seed" pairs
    judge "pairs and fields, seed $seed" "$(stays)"
done

told
