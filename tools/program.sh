#!/usr/bin/env bash
# Proves a program of crates/ and writes it to target/bin: tools/program.sh report
set -eu
cd "$(dirname "$0")/.."
command -v rt > /dev/null || { echo "tools/program.sh: rt is not installed"; exit 1; }
mkdir -p target/bin
for program in "$@"; do
    # `rt run` proves, builds and runs it; what it prints on no input is not looked at here
    (cd "crates/$program" && rm -f "out/$program" && rt run < /dev/null > /dev/null 2> "../../target/bin/$program.log") || true
    [ -x "crates/$program/out/$program" ] || { cat "target/bin/$program.log"; echo "tools/program.sh: $program is not proved or not built"; exit 1; }
    cp "crates/$program/out/$program" "target/bin/$program"
    echo "target/bin/$program"
done
