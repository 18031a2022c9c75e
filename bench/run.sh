#!/usr/bin/env bash
# Times the archive against the plain reference and against the same tuned by hand.
#   bench/run.sh [PASSES]
#   bench/run.sh --against ARCHIVE [PASSES]   also against another archive, as that of an earlier commit (its libhaldurap.a):
#                                             a program for each, their passes in turn, side by side
set -eu
cd "$(dirname "$0")/.."
. tests/archive.sh
build() {
    rustc --edition 2024 -C opt-level=3 -D warnings -A dead_code "${@:3}" -o "$1" bench/main.rs -C link-arg="$2"
}
build target/bench "$archive"
[ "${1:-}" = --against ] || exec target/bench "$@"
other=$2
[ -f "$other" ] || { echo "there is no archive $other"; exit 1; }
# the layout of the other archive, told by itself
echo '#include <stdio.h>
#include <haldurap.h>
int main(void) { printf("%d", (int)haldurap_layout().version); }' | gcc -Iinclude -o target/layout_of -x c - -x none "$other"
layout=$(target/layout_of)
cfgs=()
case $layout in
7) ;;
6)
    # its runs store no totals; the first of this layout have no haldurap_join either
    nm "$other" | grep ' T haldurap_join$' > /dev/null || { echo "$other has no haldurap_join and cannot be compared"; exit 1; }
    cfgs+=(--cfg no_totals)
    sed -e '/^    pub total_grams:/d; s/, total_grams: \[0; 15\], total_rests: \[0; 15\]//; s/= 2737;/= 2257;/' include/haldurap.rs > target/haldurap_other.rs
    ;;
*)
    echo "$other has layout $layout; only 6 and 7 can be compared"
    exit 1
    ;;
esac
build target/bench_other "$other" "${cfgs[@]}"
exec python3 bench/against.py target/bench_other target/bench "${@:3}"
