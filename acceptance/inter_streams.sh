# shellcheck shell=bash disable=SC2154,SC2034
# Sourced by the scripts of P and B slices: the clips that x264 codes, in CAVLC where nothing else is said.

# x264 says High of CAVLC where the 8x8 transform is on, and Main where there are B slices or weights. In CABAC it gives Main
# levels that CAVLC hasn't there, where the quantiser is below 12.
high=(--profile high --no-cabac --8x8dct --keyint 250 --no-scenecut --b-adapt 0)
main=(--profile main --no-cabac --keyint 250 --no-scenecut --b-adapt 0 --qpmin 12)

clip "testsrc2=size=SIZE,rotate=a=t:fillcolor=gray" 352 288 12
same "P slices, one reference" 1 "${high[@]}" --bframes 0 --ref 1 --crf 23
same "P slices, four references, all partitions" 1 "${high[@]}" --bframes 0 --ref 4 --partitions all --subme 9 --me umh --crf 18
same "B slices, spatial direct prediction" 1 "${high[@]}" --bframes 3 --ref 3 --direct spatial --partitions all --crf 20
same "B slices, temporal direct prediction" 1 "${high[@]}" --bframes 3 --ref 3 --direct temporal --partitions all --crf 20
same "B slices that are references, direct prediction by picture" 1 "${high[@]}" --bframes 5 --b-pyramid normal --ref 5 --direct auto --crf 22
same "16 references" 1 "${high[@]}" --bframes 2 --ref 16 --b-pyramid strict --crf 24 --partitions all
same "Main, without the 8x8 transform" 1 "${main[@]}" --bframes 2 --ref 2 --partitions all --crf 20
same "Main, quantiser 51" 1 "${main[@]}" --bframes 2 --qp 51
same "quantiser 1" 1 "${high[@]}" --bframes 2 --qp 1
same "four slices a picture, behind delimiters" 4 "${high[@]}" --bframes 2 --ref 2 --slices 4 --aud --crf 24
same "slices of seven macroblocks" 57 "${high[@]}" --bframes 1 --ref 2 --slice-max-mbs 7 --crf 26
same "a new random access point by columns" 1 "${high[@]}" --bframes 0 --intra-refresh --keyint 6 --crf 24
same "pictures before the first I picture they need" 1 "${high[@]}" --bframes 3 --open-gop --keyint 6 --crf 24
same "constrained intra prediction, no filter" 1 "${high[@]}" --bframes 2 --constrained-intra --no-deblock --chroma-qp-offset -5 --crf 20
same "buffer models" 1 "${high[@]}" --bframes 2 --nal-hrd vbr --bitrate 3000 --vbv-maxrate 3000 --vbv-bufsize 3000
same "frames where fields may stand" 1 "${high[@]}" --bframes 2 --fake-interlaced --crf 22
same "the 8x8 transform in I slices alone" 2 "${high[@]}" --keyint 1 --crf 20 --slices 2
same "scaling matrices" 1 "${high[@]}" --bframes 2 --cqm jvt --crf 18

clip "testsrc2=size=SIZE,fade=t=in:st=0:d=0.5" 352 288 16
same "weights" 1 "${high[@]}" --bframes 0 --ref 3 --weightp 2 --crf 20
same "weights, in Main" 1 "${main[@]}" --bframes 0 --ref 3 --weightp 2 --crf 20
same "weights beside implicit ones" 1 "${high[@]}" --bframes 3 --ref 4 --weightp 2 --crf 20

clip "color=c=teal:size=SIZE" 352 288 12
same "skipped pictures" 1 "${high[@]}" --bframes 3 --crf 24

clip "testsrc2=size=SIZE" 350 274 8
same "sizes that are no multiples of 16" 1 "${high[@]}" --bframes 2 --crf 24
same "the same, in slices of five macroblocks" 80 "${high[@]}" --bframes 1 --qp 14 --slice-max-mbs 5

clip "testsrc2=size=SIZE" 16 16 12
same "one macroblock a picture" 1 "${high[@]}" --bframes 2 --qp 12

clip "mandelbrot=size=SIZE,scroll=horizontal=0.11:vertical=0.07" 320 180 10
same "long vectors" 3 "${high[@]}" --bframes 2 --ref 4 --merange 64 --me umh --subme 10 --partitions all --qp 12 --slices 3

# x264 takes I_PCM only where it looks at distances alone
clip "$(noisy 2 3 7 8)" 176 144 10
same "intra macroblocks and I_PCM in P and B slices" 2 "${high[@]}" --bframes 2 --qp 4 --no-psy --slices 2

squares="lum=255*mod(floor(X/16)+floor(Y/16)+N\,2):cb=255*mod(floor(X/8)+N\,2):cr=255*mod(floor(Y/4)+N\,2)"
clip "nullsrc=size=SIZE,geq=$squares" 176 144 10
same "squares, quantiser 1" 1 "${high[@]}" --bframes 2 --qp 1
same "squares, weights" 1 "${main[@]}" --bframes 2 --qp 16 --weightp 2

clip "mandelbrot=size=SIZE" 1920 1080 6
same "a large picture" 8 "${high[@]}" --bframes 2 --ref 3 --crf 22 --slices 8
