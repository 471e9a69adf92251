# shellcheck shell=bash
# Sourced by the scripts here, with the program's path if one is named: the clips that are coded, the runs, and what is judged
# of them. Without x264 or ffmpeg, the Debian packages of these names, nothing is tried.
set -euo pipefail
missing=
for tool in x264 ffmpeg; do
    command -v "$tool" >/dev/null || missing="$missing $tool"
done
if [ -n "$missing" ]; then
    echo "acceptance: skipped, since these Debian packages are missing:$missing"
    exit 0
fi
scripts=$(cd "$(dirname "${BASH_SOURCE[0]}")" && pwd)
. "$scripts/../bench/program.sh"

in=$room/in.264 out=$room/out.264
table=flat init= range= untimed=
tried=0 failed=0

# ---- streams

# clip GRAPH WIDTH HEIGHT FRAMES: the pictures that are coded from here on, of filters in which SIZE is their size
clip() {
    local columns=$((($2 + 15) / 16)) rows=$((($3 + 15) / 16))
    width=$2 height=$3 frames=$4 macroblocks=$((columns * rows))
    ffmpeg -v error -nostdin -y -f lavfi -i "${1//SIZE/${width}x$height}" -frames:v "$frames" -pix_fmt yuv420p \
        "$room/clip.y4m" || { echo "$0: ffmpeg made no clip of $1" >&2; exit 2; }
}

# noisy FRAME..: the graph of smooth pictures, but that in these frames two of five macroblocks are noise
noisy() {
    local when=0 frame noise="255*abs(mod(sin(X*12.9898+Y*78.233+N)*43758.5453\,1))"
    for frame in "$@"; do when="$when+eq(N\,$frame)"; done
    when="($when)*lt(mod(7*floor(X/16)+3*floor(Y/16)+N\,5)\,2)"
    echo "nullsrc=size=SIZE,geq=lum=if($when\,$noise\,128+60*sin(X/9+N/3)*cos(Y/7)):cb=128+40*sin(X/11):cr=128+30*cos(Y/9)"
}

# encode OPTION..
encode() {
    x264 --log-level error --no-progress --threads 1 "$@" -o "$in" "$room/clip.y4m" 2>"$room/encoder" ||
        { cat "$room/encoder" >&2; echo "$0: x264 made no stream with $*" >&2; exit 2; }
}

# starts CODE FILE: how many of these start codes there are
starts() {
    LC_ALL=C grep -aoP "$1" "$2" | wc -l
}

# counted SLICES: how the report of the stream begins where it has so many slices a picture
counted() {
    echo "units $(starts '\x00\x00\x01' "$in") slices $(($1 * frames)) macroblocks $((macroblocks * frames))"
}

# fields SEED [pairs]: has field_pictures.py write the stream, of 14 frames
fields() {
    local units slices
    read -r units slices macroblocks < <(python3 "$scripts/field_pictures.py" "$1" 8 "$in" "${@:2}")
    counts="units $units slices $slices macroblocks $macroblocks" frames=14 untimed=yes
}

# shown FILE: a checksum of each frame, with what the cropping hides, and all that the decoder complains of. Times are left
# out of streams of field_pictures.py, which has none: those that ffmpeg guesses for fields among frames rest on the number
# of zero bytes in front of a unit.
shown() {
    ffmpeg -v warning -nostdin -threads 1 -flags2 +ignorecrop -f h264 -i "$1" -fps_mode passthrough -f framemd5 - 2>&1 |
        if [ -n "$untimed" ]; then sed 's/^0,[^,]*,[^,]*,/0,/'; else cat; fi
}

# ---- runs

# recode LAYER FILE OTHER: runs the program from one file to the other, with cabac_init_idc $init and the periods $range, where
# these are named, and keeps how it ended
recode() {
    local status=0 words=(--to "$1" --table "$table")
    [ -z "$init" ] || words+=(--init "$init")
    [ -z "$range" ] || words+=(--first ${range% *} --last ${range#* })
    "$program" recode "${words[@]}" <"$2" >"$3" 2>"$room/report" || status=$?
    ended="status $status, $(cat "$room/report")"
}

# ---- faults: each of these says what is wrong and ends with 1, or says nothing and ends with 0

# runs LAYER FILE OTHER: recodes, with the report that is due
runs() {
    local due
    recode "$@"
    due="status 0, ok $counts in $(stat -c %s "$2") out $(stat -c %s "$3")"
    [ "$ended" = "$due" ] || { echo "to $1: $ended; due is $due"; return 1; }
}

# shows FILE OTHER: of another file the decoder shows the frames of this one, and it complains of neither
shows() {
    shown "$1" >"$room/one.md5" || true
    shown "$2" >"$room/other.md5" || true
    if [ "$(grep -c '^0,' "$room/one.md5")" != "$frames" ] || grep -v '^0,\|^#' "$room/one.md5"; then
        echo "the decoder doesn't show $frames frames of the input, or complains of it"
    elif ! cmp -s "$room/one.md5" "$room/other.md5"; then
        echo "the decoder shows other frames of the output than of the input, or complains of it"
    else
        return 0
    fi
    return 1
}

# normal: the stream is written with start codes of four bytes, and has the same frames
normal() {
    local due
    due=$(($(stat -c %s "$in") + $(starts '\x00\x00\x01' "$in") - $(starts '\x00\x00\x00\x01' "$in")))
    runs cavlc "$in" "$out" || return
    [ "$(stat -c %s "$out")" = "$due" ] || { echo "$(stat -c %s "$out") bytes are written; $due are due"; return 1; }
    shows "$in" "$out"
}

# what the script tries with each stream
fault() {
    normal
}

# ---- what is judged

# judge NAME FAULT
judge() {
    tried=$((tried + 1))
    if [ -n "$2" ]; then
        failed=$((failed + 1))
        echo "acceptance: $1: $2"
    fi
}

# same NAME SLICES OPTION..: the clip, coded so, with SLICES slices a picture, must come through
same() {
    encode "${@:3}"
    counts=$(counted "$2")
    judge "$1" "$(fault)"
}

# refused NAME LAYER LINE OPTION..: the clip, coded so, must be refused with this line
refused() {
    local wrong=
    encode "${@:4}"
    recode "$2" "$in" "$out"
    [ "$ended" = "status 5, $3" ] || wrong="$ended; due is status 5, $3"
    judge "$1" "$wrong"
}

# told: ends with 0 where all streams went as they must, else with 1
told() {
    echo "acceptance: $((tried - failed)) of $tried streams went as they must"
    [ "$failed" = 0 ] || exit 1
}
