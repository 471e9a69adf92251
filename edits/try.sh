#!/usr/bin/env bash
# Tries the wrong changes that the gate leaves out: each edit of edits/CRATE must be refused by the prover, as those of
# crates/CRATE/must-fail are, which are tried too.
#   edits/try.sh            all crates
#   edits/try.sh CRATE ..   these crates
# It works on a copy of the repository, which begins with what rt check kept here, and changes nothing. Its status is 0 where
# every edit was refused, and none was bad.
set -euo pipefail
cd "$(dirname "$0")/.."
top=$PWD
copy=$(mktemp -d)
trap 'rm -rf "$copy"' EXIT
cp -r --reflink=auto HANDLES crates.txt crates "$copy"
mkdir "$copy/.git"
crates=("$@")
[ $# -gt 0 ] || mapfile -t crates < <(cd edits && ls -d -- */ | tr -d /)
for crate in "${crates[@]}"; do
    [ -d "$top/crates/$crate" ] || { echo "edits/try.sh: there is no crate $crate" >&2; exit 2; }
    mkdir -p "$copy/crates/$crate/must-fail"
    for edit in "$top/edits/$crate/"*.edit; do
        [ -e "$edit" ] && cp -n "$edit" "$copy/crates/$crate/must-fail"
    done
done
cd "$copy"
rt must-fail "${crates[@]}"
