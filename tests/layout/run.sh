#!/usr/bin/env bash
# Compares the structs of the C header, the Rust declarations and the Python module with the archive, and measures the stack
# that each call takes. Exits 1 if a struct differs or a call takes 16 KB.
set -eu
cd "$(dirname "$0")/../.."
. tests/archive.sh
gcc -std=c11 -O2 -Wall -Wextra -Wpedantic -Werror -Iinclude -o target/layout_c tests/layout/layout.c "$archive"
gcc -std=c11 -O2 -Wall -Wextra -Wpedantic -Werror -pthread -Iinclude -o target/stack_c tests/layout/stack.c "$archive"
rustc --edition 2024 -O -D warnings -o target/layout_rust tests/layout/layout.rs -C link-arg="$archive"
failed=0
target/layout_c || failed=1
target/layout_rust || failed=1
target/stack_c || failed=1
PYTHONDONTWRITEBYTECODE=1 python3 tests/layout/layout.py || failed=1
exit $failed
