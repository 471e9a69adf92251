#!/usr/bin/env bash
# Streams of x264 in CAVLC, in which anew.py takes macroblocks of each slice out of normal form: ffmpeg must show the same
# pictures of them, and the program must write for them what it writes for x264's own, in both layers. So slices are written
# anew that would be copied otherwise, from the first macroblock that isn't in normal form, the last one, or all.
#
#     acceptance/anew.sh             builds the program with rt, where it isn't built, and tries it
#     acceptance/anew.sh PROGRAM     tries this program, without rt
#
# Wants x264 and ffmpeg, the Debian packages of these names, and python3. Where one is missing nothing is tried, and the exit
# status is 0. Else it is 0 where all went well, 1 where the program fell short, and 2 where something could not be tried. The
# clips stand in a temporary folder (TMPDIR, or /tmp), which needs room for 20 MB.
. "$(dirname "$0")/streams.sh"

changed=$room/changed.264 again=$room/again.264

# restored WHICH: the stream, changed so, has the same frames, and is written as the stream itself is
restored() {
    local layer
    python3 "$scripts/anew.py" "$1" "$in" "$changed" >>"$room/slices" || { echo "anew.py can't read it"; return 1; }
    ! cmp -s "$in" "$changed" || { echo "no macroblock was changed"; return 1; }
    shows "$in" "$changed" || return
    for layer in cavlc cabac; do
        runs "$layer" "$in" "$out" && runs "$layer" "$changed" "$again" || return
        cmp -s "$out" "$again" || { echo "to $layer: the changed stream is written otherwise than the stream"; return 1; }
    done
}

# what is tried with each stream
fault() {
    local which wrong
    for which in first last all; do
        wrong=$(restored "$which") || { echo "$which: $wrong"; return 1; }
    done
}

high=(--profile high --no-cabac --8x8dct --keyint 250 --no-scenecut --b-adapt 0)

clip "testsrc2=size=SIZE,rotate=a=t:fillcolor=gray" 352 288 12
same "I slices" 1 "${high[@]}" --keyint 1 --crf 23
same "I slices, quantiser 12" 3 "${high[@]}" --keyint 1 --qp 12 --slices 3
same "P slices, one reference" 1 "${high[@]}" --bframes 0 --ref 1 --crf 23
same "P slices, two references" 1 "${high[@]}" --bframes 0 --ref 2 --partitions all --weightp 0 --crf 20
same "P slices, four references, all partitions" 1 "${high[@]}" --bframes 0 --ref 4 --partitions all --subme 9 --me umh --crf 18
same "B slices, spatial direct prediction" 1 "${high[@]}" --bframes 3 --ref 3 --direct spatial --partitions all --crf 20
same "B slices, temporal direct prediction" 1 "${high[@]}" --bframes 3 --ref 3 --direct temporal --partitions all --crf 20
same "four slices a picture, behind delimiters" 4 "${high[@]}" --bframes 2 --ref 2 --slices 4 --aud --crf 24
same "slices of seven macroblocks" 57 "${high[@]}" --bframes 1 --ref 2 --slice-max-mbs 7 --crf 26
same "a new random access point by columns" 1 "${high[@]}" --bframes 0 --intra-refresh --keyint 6 --crf 24
same "frames where fields may stand" 1 "${high[@]}" --bframes 2 --fake-interlaced --crf 22
same "scaling matrices" 1 "${high[@]}" --bframes 2 --cqm jvt --crf 18
for preset in ultrafast veryfast medium veryslow; do
    same "preset $preset" 1 --preset "$preset" "${high[@]}" --crf 23
done

clip "testsrc2=size=SIZE,fade=t=in:st=0:d=0.5" 176 144 20
same "weights" 1 "${high[@]}" --bframes 0 --ref 3 --weightp 2 --crf 20
same "weights beside implicit ones" 1 "${high[@]}" --bframes 3 --ref 4 --weightp 2 --crf 20

clip "testsrc2=size=SIZE" 350 274 8
same "slices of five macroblocks" 80 "${high[@]}" --bframes 1 --qp 14 --slice-max-mbs 5

clip "mandelbrot=size=SIZE,scroll=horizontal=0.11:vertical=0.07" 320 180 10
same "long vectors" 3 "${high[@]}" --bframes 2 --ref 4 --merange 64 --me umh --subme 10 --partitions all --qp 12 --slices 3

# x264 takes I_PCM only where it looks at distances alone
clip "$(noisy 2 3 7 8)" 176 144 10
same "I_PCM in P and B slices" 2 "${high[@]}" --bframes 2 --qp 4 --no-psy --slices 2

echo "acceptance: $(awk '{ some += $1; all += $2 } END { print some + 0, "of", all + 0 }' "$room/slices") slices were changed"
told
