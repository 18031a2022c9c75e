#!/usr/bin/env bash
# Holds the archive's answers to 10,000 lists against those of the commit that answers.txt names.
#   tests/answers/run.sh                   compares; exits 1 if an answer differs
#   tests/answers/run.sh --list N          prints the answers to list N, 1 to 10,000, for a diff with another archive
#   tests/answers/run.sh --write COMMIT    writes answers.txt; only with the archive of that commit
set -eu
cd "$(dirname "$0")/../.."
. tests/archive.sh
rustc --edition 2024 -O -C debug-assertions=on -o target/answers tests/answers/main.rs -C link-arg="$archive"
exec target/answers "$@"
