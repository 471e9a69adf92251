# shellcheck shell=bash
# Sourced by the benchmarks and by acceptance/, with the program's path if one is named. It gives $program, built with rt
# where none is named, and $room, a temporary folder that goes when the script ends; and it lets python3 find measure.py.
set -euo pipefail
here=$(cd "$(dirname "${BASH_SOURCE[0]}")" && pwd)

want() {
    command -v "$1" >/dev/null || { echo "$0: $1 is wanted and isn't there: $2" >&2; exit 2; }
}

want python3 "rt and the benchmarks run on it"
if [ $# -gt 0 ]; then
    program=$(realpath "$1")
else
    want rt "it builds the program; or name a built one, as in $0 PROGRAM"
    crate=$(cd "$here/../crates/h264recode" && pwd)
    program=$crate/out/h264recode
    # Where nothing has changed since the last build, this only runs the program, on no input.
    (cd "$crate" && rt run -- recode --to cavlc --table flat </dev/null >/dev/null) || {
        echo "$0: rt did not build and run $program" >&2
        exit 2
    }
fi
[ -x "$program" ] || { echo "$0: no program $program" >&2; exit 2; }

room=$(mktemp -d)
trap 'rm -rf "$room"' EXIT
export PYTHONPATH=$here PYTHONDONTWRITEBYTECODE=1
