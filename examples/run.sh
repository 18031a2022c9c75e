#!/usr/bin/env bash
# Builds and runs the three examples; fails if one of them prints something else than expected.txt, or if expected.txt is
# not what the independent calculation gives.
set -eu
cd "$(dirname "$0")/.."
. tests/archive.sh
gcc -std=c11 -O2 -Wall -Wextra -Wpedantic -Werror -Iinclude -o target/fleet_c examples/fleet.c "$archive"
rustc --edition 2024 -O -D warnings -o target/fleet_rust examples/fleet.rs -C link-arg="$archive"

failed=0
check() {
    if "${@:2}" > target/fleet.out && cmp -s examples/expected.txt target/fleet.out; then
        echo "$1: as expected"
    else
        diff examples/expected.txt target/fleet.out || true
        echo "$1: DIFFERS, or did not end well"
        failed=1
    fi
}
export PYTHONDONTWRITEBYTECODE=1
check "tools/reference.py" python3 examples/expected.py
check "C" target/fleet_c
check "Rust" target/fleet_rust
check "Python" python3 examples/fleet.py
exit $failed
