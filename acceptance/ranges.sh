#!/usr/bin/env bash
# Streams of x264 with many IDR periods, of which a run with a range recodes some: from CAVLC to CABAC and from CABAC to CAVLC,
# at ranges at the front, in the middle and at the end. ffmpeg must show the same pictures of input and output; what isn't in
# range must be byte for byte what was read; what was written must come whole into either layer, with the same pictures, and
# stops another partial run. Words of no range are refused.
#
#     acceptance/ranges.sh             builds the program with rt, where it isn't built, and tries it
#     acceptance/ranges.sh PROGRAM     tries this program, without rt
#
# Wants x264, ffmpeg and python3. Where one is missing nothing is tried, and the exit status is 0. Else it is 0 where all went
# well, 1 where the program fell short, and 2 where something could not be tried. The clips stand in a temporary folder
# (TMPDIR, or /tmp), which needs room for 20 MB.
. "$(dirname "$0")/cabac.sh"

: >"$room/slices"

# parted LAYER: in the range the stream goes to this layer, and the rest stays; the decoder shows the frames of coded.264
parted() {
    local layer counts=$counts
    runs "$1" "$in" "$out" && shows "$coded" "$out" || return
    python3 "$scripts/ranges.py" "$in" "$out" ${range% *} ${range#* } >>"$room/slices" 2>"$room/wrong" ||
        { tail -n 1 "$room/wrong"; return 1; }
    recode "$1" "$out" "$again"
    [[ "$ended" = "status 4, stop number unit "*" mb 0" ]] || { echo "what was written, in a partial run: $ended"; return 1; }
    range=
    for layer in cavlc cabac; do
        recode "$layer" "$out" "$again"
        [[ "$ended" = "status 0, ok "* ]] || { echo "what was written, to $layer: $ended"; return 1; }
        shows "$coded" "$again" || return
    done
}

# bad WORD..: with these words more the call is refused, and nothing is written
bad() {
    local status=0
    "$program" recode --to cabac --table flat "$@" <"$in" >"$out" 2>"$room/report" || status=$?
    [ "status $status, $(cat "$room/report")" = "status 1, bad words" ] && ! [ -s "$out" ] || echo "status $status, $(cat "$room/report")"
}

# same NAME SLICES OPTION..: the clip, coded so in either layer, with the periods of each of $ranges in the other one
same() {
    encode "${@:3}"
    cp "$in" "$coded"
    counts=$(counted "$2")
    for range in "${ranges[@]}"; do
        judge "$1, periods $range to CABAC" "$(parted cabac)"
    done
    range=
    encode_in_cabac "${@:3}"
    counts=$(counted "$2")
    for range in "${ranges[@]}"; do
        judge "$1, periods $range to CAVLC" "$(parted cavlc)"
    done
    range=
}

high=(--profile high --no-cabac --8x8dct --no-scenecut --b-adapt 0)
main=(--profile main --no-cabac --no-scenecut --b-adapt 0 --qpmin 12)

clip "testsrc2=size=SIZE,rotate=a=t:fillcolor=gray" 176 144 40
ranges=("1 1" "3 5" "7 4294967295" "0 0")
same "eight periods" 1 "${high[@]}" --keyint 5 --min-keyint 5 --bframes 2 --ref 2 --crf 22
same "eight periods of four slices a picture, in Main" 4 "${main[@]}" --keyint 5 --min-keyint 5 --bframes 2 --slices 4 --aud --crf 22
ranges=("1 1" "10 20" "40 40")
same "a period for each picture" 2 "${high[@]}" --keyint 1 --slices 2 --crf 24

for words in "--first 3 --last 2" "--first 1" "--last 1" "--first 1 --last 00000000001" "--first 1 --last 4294967296" "--init 3" "--to cavlc" "--help"; do
    judge "the words $words" "$(bad $words)"
done

echo "acceptance: $(awk '{ some += $1; all += $2 } END { print some + 0, "of", all + 0 }' "$room/slices") slices were in range"
told_of_cabac
