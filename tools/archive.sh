#!/usr/bin/env bash
# Proves the C interface and writes target/libhaldurap.a, the archive for C, Rust and Python on x86-64 Linux.
# `rt lib` writes the exports of one crate, a static library; there is a crate for each group of calls, so that a must-fail
# edit of one does not pay for all. Here they become one archive.
set -eu
cd "$(dirname "$0")/.."
command -v rt > /dev/null || { echo "tools/archive.sh: rt is not installed"; exit 1; }
command -v ar > /dev/null || { echo "tools/archive.sh: ar is not installed"; exit 1; }
objects=target/archive
# so that no archive from before stands there if a proof fails
rm -f target/libhaldurap.a
rm -rf "$objects"
mkdir -p "$objects"
for crate in capi_runs capi_joins capi_lists capi_areas capi_questions capi_map capi_texts; do
    echo "proving and building $crate"
    (cd "crates/$crate" && rt lib) > "$objects/$crate.log" 2>&1 || { cat "$objects/$crate.log"; echo "tools/archive.sh: $crate is not proved, no archive is written"; exit 1; }
    (cd "$objects" && ar x "../../crates/$crate/out/lib$crate.a")
done
ar crs target/libhaldurap.a "$objects"/*.o
echo "target/libhaldurap.a"
