#!/usr/bin/env bash
# Intra slices on their way from CAVLC to CABAC and back, and from CABAC to CAVLC and back. The streams of intra_cavlc.sh go to
# CABAC, where ffmpeg must show the same pictures and complain of nothing, and back to the bytes that are written from CAVLC
# to CAVLC. Streams of x264 and openh264 in CABAC go to CAVLC and back to the bytes that the encoder wrote, but for start codes
# and for the bits that x264 sets behind stop bits. With another number in the table of initial pairs it must come out.
#
#     acceptance/intra_cabac.sh             builds the program with rt, where it isn't built, and tries it
#     acceptance/intra_cabac.sh PROGRAM     tries this program, without rt
#
# Wants x264, ffmpeg and libopenh264-7, the Debian packages of these names. Where one of the first two is missing nothing is
# tried, and the exit status is 0; without the third its streams are left out. Else it is 0 where all went well, 1 where the
# program fell short, and 2 where something could not be tried. The clips stand in a temporary folder (TMPDIR, or /tmp), which
# needs room for 40 MB.
. "$(dirname "$0")/cabac.sh"
. "$scripts/intra_streams.sh"

clip "testsrc2=size=SIZE" 352 288 10
of_x264 "Main" 1 --profile main --keyint 1 --crf 21 --qpmin 12
of_x264 "Main, slices of 25 macroblocks" 16 --profile main --keyint 1 --qp 30 --slice-max-mbs 25
of_openh264 "Main" 1 period=1 qp=24
of_openh264 "High, four slices a picture" 4 period=1 qp=18 profile=100 slice_mode=1 slices=4 complexity=2
of_openh264 "a slice for each row, no filter" 18 period=1 qp=36 slice_mode=2 filter=1
of_openh264 "a quantiser for each macroblock" 1 period=1 control=1 adaptive=1

# zero_words: words of zeros behind the slices go, and nothing else does
zero_words() {
    recode cabac "$in" "$there"
    recode cavlc "$in" "$normal"
    python3 "$scripts/units.py" words <"$there" >"$again"
    unlike "$there" "$again" "there are no words" && runs cabac "$again" "$back" &&
        alike "$there" "$back" "to CABAC they aren't left out" && runs cavlc "$again" "$back" &&
        alike "$normal" "$back" "to CAVLC it is another stream"
}
encode "${high8[@]}" --crf 26 --slices 2
counts=$(counted 2)
judge "cabac_zero_words" "$(zero_words)"

# both_layers: of a stream of CAVLC behind which one of CABAC stands, each part goes its way, under sets of the same numbers
both_layers() {
    local layer part
    for layer in cavlc cabac; do
        for part in first second; do
            recode $layer "$room/$part.264" "$room/$part.$layer"
        done
    done
    cat "$room/first.264" "$room/second.cabac" >"$in"
    for layer in cavlc cabac; do
        recode $layer "$in" "$out"
        cat "$room/first.$layer" "$room/second.$layer" | alike - "$out" "to $layer: $ended" || return
    done
}
cp "$in" "$room/second.264"
encode "${high[@]}" --crf 26
cp "$in" "$room/first.264"
judge "CAVLC and CABAC in one stream" "$(both_layers)"

# no_cavlc: the stream has levels that CAVLC hasn't in profile Main, and stays in CABAC
no_cavlc() {
    runs cabac "$in" "$normal" && stays || return
    recode cavlc "$in" "$there"
    [[ $ended == "status 4, stop level unit "* ]] || { echo "to cavlc: $ended; due is stop level"; return 1; }
}
encode_in_cabac --profile main --keyint 1 --qp 3
counts=$(counted 1)
judge "levels that CAVLC of profile Main hasn't" "$(no_cavlc)"
python3 "$scripts/to_high.py" <"$in" >"$out"
cp "$out" "$in"
from_cabac "the same, called High"
refused "macroblock pairs" cabac "outside unit 4 unbuilt" "${high[@]}" --cabac --interlaced

encode "${high8[@]}" --crf 22
counts=$(counted 1)
# unused: other numbers where the standard has no pair change nothing
unused() {
    runs cabac "$in" "$there" || return
    table=$(awk 'NR > 11 && NR <= 60 { $1 = $2 = 127 } NR == 277 { $0 = "9 9 9 9 9 9 9 9" } 1' "$room/table")
    runs cabac "$in" "$again" && alike "$there" "$again" "it becomes another stream"
}
judge "other numbers where there is no pair" "$(unused)"
for context in 3 5 60 64 68 69 73 77 89 93 97 101 105 120 134 149 152 166 195 210 213 227 237 247 257 266 399 402 417 426; do
    judge "another number for context $context" "$(told_apart $context 0)"
done

told_of_cabac
