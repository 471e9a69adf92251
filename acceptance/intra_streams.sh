# shellcheck shell=bash disable=SC2154,SC2034
# Sourced by the scripts of intra slices: the clips that x264 codes, in CAVLC where nothing else is said.

# x264 says High of CAVLC without the 8x8 transform only where there are scaling matrices. All pictures are IDR pictures.
high=(--profile high --no-cabac --no-8x8dct --cqm jvt --keyint 1)
flat=16,16,16,16,16,16,16,16,16,16,16,16,16,16,16,16
# and this with the transform
high8=(--profile high --no-cabac --8x8dct --keyint 1)

clip "testsrc2=size=SIZE" 352 288 10
same "a quantiser for each macroblock" 1 "${high[@]}" --crf 23
same "quantiser 40" 1 "${high[@]}" --qp 40
same "four slices a picture, behind delimiters" 4 "${high[@]}" --crf 30 --slices 4 --aud
same "slices of seven macroblocks" 57 "${high[@]}" --crf 26 --slice-max-mbs 7
same "constrained intra prediction, no filter" 1 "${high[@]}" --crf 20 --constrained-intra --no-deblock --chroma-qp-offset 5
same "more supplemental information" 1 "${high[@]}" --nal-hrd vbr --bitrate 8000 --vbv-maxrate 8000 --vbv-bufsize 8000
# I is an IDR picture, i is none; the sets stand in front of an IDR picture
for ((picture = 0; picture < frames; picture++)); do
    [ $((picture % 5)) = 0 ] && echo "$picture I -1" || echo "$picture i -1"
done >"$room/types"
same "I slices outside IDR pictures" 2 "${high[@]}" --keyint infinite --bframes 0 --qpfile "$room/types" --slices 2
same "the 8x8 transform, a quantiser for each macroblock" 1 "${high8[@]}" --crf 23
same "the 8x8 transform, quantiser 12" 3 "${high8[@]}" --qp 12 --slices 3
same "the 8x8 transform, slices of 29 macroblocks" 14 "${high8[@]}" --crf 28 --slice-max-mbs 29
same "the 8x8 transform, scaling matrices" 1 "${high8[@]}" --cqm jvt --crf 18
# Without scaling matrices x264 says Baseline. What has constraint_set1_flag 1 too is as well a stream of Main.
encode --profile baseline --keyint 1 --crf 21 --slices 3
LC_ALL=C sed -i 's/\x00\x00\x01\x67\x42\xc0/\x00\x00\x01\x67\x4d\x40/g' "$in"
counts=$(counted 3)
judge "profile Main" "$(fault)"

clip "testsrc2=size=SIZE" 350 274 8
same "sizes that are no multiples of 16" 1 "${high[@]}" --crf 24
same "the same, in slices of five macroblocks" 80 "${high[@]}" --qp 12 --slice-max-mbs 5
same "the same, with the 8x8 transform" 80 "${high8[@]}" --qp 18 --slice-max-mbs 5

clip "testsrc2=size=SIZE" 16 16 6
same "one macroblock a picture" 1 "${high[@]}" --qp 10
same "one macroblock a picture, with the 8x8 transform" 1 "${high8[@]}" --qp 10
same "filler data" 1 "${high[@]}" --nal-hrd cbr --bitrate 800 --vbv-maxrate 800 --vbv-bufsize 100

clip "mandelbrot=size=SIZE" 320 180 6
same "fine detail, quantiser 1" 3 "${high[@]}" --qp 1 --slices 3
same "fine detail, quantiser 51" 1 "${high[@]}" --qp 51
same "4x4 prediction wherever it pays" 1 "${high[@]}" --qp 22 --partitions i4x4 --subme 10
same "8x8 prediction wherever it pays" 1 "${high8[@]}" --qp 22 --partitions i8x8 --subme 10
same "fine detail, with the 8x8 transform, quantiser 2" 3 "${high8[@]}" --qp 2 --slices 3

# x264 takes I_PCM only where it looks at distances alone
clip "$(noisy 1 3 8 9)" 176 144 10
same "I_PCM macroblocks among others" 2 "${high[@]}" --qp 9 --no-psy --slices 2
same "I_PCM macroblocks among others, with the 8x8 transform" 2 "${high8[@]}" --qp 9 --no-psy --slices 2

# scaling matrices like the flat ones allow lower quantisers than those of the standard
clip "testsrc2=size=SIZE,noise=alls=100:allf=t" 176 144 6
same "noise, quantiser 1" 1 "${high[@]}" --qp 1 --cqm4 "$flat"
same "noise, quantiser 28" 1 "${high[@]}" --qp 28
same "noise, with the 8x8 transform" 1 "${high8[@]}" --qp 24

# black and white in each component, for large levels
squares="lum=255*mod(floor(X/16)+floor(Y/16)+N\,2):cb=255*mod(floor(X/8)+N\,2):cr=255*mod(floor(Y/4)+N\,2)"
clip "nullsrc=size=SIZE,geq=$squares" 176 144 6
same "squares, quantiser 1" 1 "${high[@]}" --qp 1 --cqm4 "$flat"
same "squares, uneven scaling matrices" 1 "${high[@]}" --qp 9 --cqm4 8,9,9,11,12,14,10,10,13,16,20,20,30,40,50,90
same "squares, with the 8x8 transform" 1 "${high8[@]}" --qp 3

clip "mandelbrot=size=SIZE" 1920 1080 2
same "a large picture" 8 "${high[@]}" --crf 20 --slices 8
same "a large picture, with the 8x8 transform" 8 "${high8[@]}" --crf 20 --slices 8
