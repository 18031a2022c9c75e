#!/usr/bin/env bash
# Holds the archive against the plain reference.
#   tests/differential/run.sh              everything (a minute)
#   tests/differential/run.sh --small      a hundredth of it
#   tests/differential/run.sh --valgrind   a hundredth of it under valgrind, which must find no error
# Further arguments (--seed N) go to the program; without one the seed is always the same. Exits 1 on any difference.
set -eu
cd "$(dirname "$0")/../.."
. tests/archive.sh
build() {
    rustc --edition 2024 -O "$@" tests/differential/main.rs -C link-arg="$archive"
}
if [ "${1:-}" = --valgrind ]; then
    shift
    build -g -o target/differential_valgrind
    exec valgrind --quiet --error-exitcode=1 target/differential_valgrind --small "$@"
fi
build -C debug-assertions=on -o target/differential
exec target/differential "$@"
