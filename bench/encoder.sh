# shellcheck shell=bash
# Sourced by the benchmarks whose stream x264 makes, with the program's path if one is named. It wants x264 and ffmpeg, gives
# what program.sh gives, the size of the pictures, and measure_encoded.
set -euo pipefail
for tool in x264 ffmpeg; do
    command -v "$tool" >/dev/null || { echo "$0: the Debian package $tool is wanted and isn't there" >&2; exit 2; }
done
. "$(dirname "${BASH_SOURCE[0]}")/program.sh"

width=1280 height=720 slices=4
megabytes=50

# measure_encoded KIND FRAMES MOTION OPTION..: has x264 make so many pictures with these options, in CAVLC, and measures the
# program and ffmpeg on a stream of copies of them, beside each other; the kinds are those of encoded.py, and but for cavlc they
# want $room/table. The pictures are of fine and coarse detail with some noise, and MOTION is what ffmpeg's filters do to them
# first.
measure_encoded() {
    local kind=$1 frames=$2 motion=$3
    shift 3
    local detail="mandelbrot=size=${width}x$height:rate=25[fine];testsrc2=size=${width}x$height:rate=25[coarse];
        [fine][coarse]blend=all_mode=average,${motion}noise=alls=6:allf=t"
    ffmpeg -v error -nostdin -filter_complex "$detail" -frames:v "$frames" -pix_fmt yuv420p -f yuv4mpegpipe - |
        x264 --log-level error --no-progress --threads 4 --profile high --no-cabac --crf 20 --slices $slices "$@" \
            --demuxer y4m -o "$room/part.264" - 2>"$room/encoder" || { cat "$room/encoder" >&2; exit 2; }
    python3 "$here/encoded.py" "$kind" "$program" "$room" $width $height "$frames" $slices ${megabytes}000000
}

# table: writes the table of CABAC's initial pairs to $room/table, where an installed library has it
table() {
    python3 "$here/../acceptance/table.py" >"$room/table" 2>"$room/found" ||
        { echo "$0: no installed library has the table of CABAC's initial pairs" >&2; return 1; }
}
