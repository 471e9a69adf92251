# shellcheck shell=bash
# Sourced by the scripts of CABAC: what is judged of streams on their way to CABAC and back, or from CABAC and back. The table
# of initial pairs comes out of an installed library; where none has it, nothing is tried.
. "$(dirname "${BASH_SOURCE[0]}")/streams.sh"
python3 "$scripts/table.py" >"$room/table" 2>"$room/found" || {
    echo "acceptance: skipped, since no installed library has the table of CABAC's initial pairs"
    exit 0
}
table=$(cat "$room/table")
normal=$room/normal.264 there=$room/there.264 again=$room/again.264 back=$room/back.264 coded=$room/coded.264
numbers=0 cleared=0
openh264=yes
python3 "$scripts/openh264.py" || {
    openh264=
    echo "acceptance: no streams of openh264, since the Debian package libopenh264-7 is missing"
}

# ---- faults

# alike FILE OTHER WORDS: these are the same bytes
alike() {
    cmp -s "$1" "$2" || { echo "$3"; return 1; }
}

# unlike FILE OTHER WORDS
unlike() {
    ! cmp -s "$1" "$2" || { echo "$3"; return 1; }
}

# there_and_back: the stream, of CAVLC, goes to CABAC under each of $numbers as cabac_init_idc with the same frames and back to
# its normal form, and what is written is written again as it stands
there_and_back() {
    local init=
    runs cavlc "$in" "$normal" || return
    for init in $numbers; do
        runs cabac "$in" "$there" && shows "$in" "$there" &&
            unlike "$normal" "$there" "CAVLC is written where CABAC is wanted" &&
            runs cabac "$there" "$again" && alike "$there" "$again" "from CABAC to CABAC it becomes another stream" &&
            runs cavlc "$there" "$back" && alike "$normal" "$back" "back from CABAC it is another stream" || return
    done
}

# back_and_there: the stream, of CABAC, goes to CAVLC with the frames of what the encoder wrote, and back to its normal form,
# and what is written is written again as it stands
back_and_there() {
    runs cabac "$in" "$normal" && runs cavlc "$in" "$there" && shows "$coded" "$there" &&
        unlike "$normal" "$there" "CABAC is written where CAVLC is wanted" &&
        runs cavlc "$there" "$again" && alike "$there" "$again" "from CAVLC to CAVLC it becomes another stream" &&
        runs cabac "$there" "$back" && alike "$normal" "$back" "back from CAVLC it is another stream"
}

# stays: from CABAC to CABAC the stream keeps its bytes, but for start codes, which have four then
stays() {
    python3 "$scripts/units.py" long <"$in" >"$room/long.264"
    alike "$room/long.264" "$normal" "from CABAC to CABAC its bytes change"
}

# other_table CONTEXT COLUMN: the table with another n there
other_table() {
    awk -v line=$(($1 + 1)) -v field=$((2 * $2 + 2)) 'NR == line { $field += $field > 0 ? -1 : 1 } 1' "$room/table"
}

# told_apart CONTEXT COLUMN: with another number there in the table, the stream, of CAVLC, is shown otherwise from CABAC, and
# comes back otherwise from the CABAC of the right table
told_apart() {
    runs cavlc "$in" "$normal" && runs cabac "$in" "$there" || return
    table=$(other_table "$@")
    runs cabac "$in" "$again" || return
    if shows "$in" "$again" >"$room/wrong"; then
        echo "the decoder shows the same frames"
    elif runs cavlc "$there" "$back" >"$room/wrong" && cmp -s "$normal" "$back"; then
        echo "CABAC of the right table comes back the same"
    fi
}

# told_apart_in_cabac CONTEXT COLUMN: with another number there in the table, the stream, of CABAC, is read otherwise
told_apart_in_cabac() {
    runs cavlc "$in" "$normal" || return
    table=$(other_table "$@")
    if runs cavlc "$in" "$there" >"$room/wrong" && cmp -s "$normal" "$there"; then
        echo "CABAC of the right table is read the same"
    fi
}

# ---- what is judged

fault() {
    there_and_back
}

# from_cabac NAME: the stream, of CABAC, must come through, of which an encoder wrote coded.264
from_cabac() {
    judge "$1" "$(back_and_there && stays)"
}

# unmark: keeps what x264 has coded, and clears the bits that it sets behind stop bits
unmark() {
    local count
    cp "$in" "$coded"
    count=$(python3 "$scripts/behind_stop.py" "$program" "$room/table" "$coded" "$in") || exit 2
    cleared=$((cleared + count))
}

# encode_in_cabac OPTION..: as encode, but in CABAC, and without those bits
encode_in_cabac() {
    encode "$@" --cabac
    unmark
}

# of_x264 NAME SLICES OPTION..: the clip, coded so in CABAC, must come through, but for the bits behind the stop bits
of_x264() {
    encode_in_cabac "${@:3}"
    counts=$(counted "$2")
    from_cabac "$1, coded in CABAC"
}

# of_openh264 NAME SLICES OPTION..: the clip, coded so in CABAC, must come through as it is
of_openh264() {
    [ -n "$openh264" ] || return 0
    python3 "$scripts/openh264.py" "$room/clip.y4m" "$in" "${@:3}" || exit 2
    cp "$in" "$coded"
    counts=$(counted "$2")
    from_cabac "$1, coded by openh264"
}

# same NAME SLICES OPTION..: the clip, coded so in CAVLC and in CABAC, must come through
same() {
    encode "${@:3}"
    counts=$(counted "$2")
    judge "$1" "$(there_and_back)"
    of_x264 "$@"
}

# told_of_cabac: says how many bits were cleared, and ends with 0 where all streams went as they must, else with 1
told_of_cabac() {
    echo "acceptance: $cleared bits behind stop bits of x264 were cleared"
    told
}
