#!/usr/bin/env bash
# Tries .ci/run and tests/run.sh themselves in a scratch folder, with an `rt` and parts that do as they are told: the line
# 'N passed, 0 failed' must be the last one and the status 0 where all passed, and neither in any other case.
set -eu
cd "$(dirname "$0")/.."
room=$(mktemp -d)
[ -d "$room" ] || exit 1
trap 'rm -rf "$room"' EXIT
mkdir -p "$room/repo/.ci" "$room/repo/tests" "$room/bin" "$room/parts"
cp .ci/run "$room/repo/.ci/run"
cat > "$room/bin/rt" <<'EOF'
#!/bin/sh
[ "$*" = ci ] || { echo "rt was called with: $*"; exit 2; }
printf "$RT_SAYS"
exit "$RT_STATUS"
EOF
cat > "$room/repo/tests/run.sh" <<'EOF'
#!/bin/sh
[ "${1:-}" != --tools ] || exit "$TOOLS_STATUS"
echo 'tests: 9 passed, 0 failed'
exit "$TESTS_STATUS"
EOF
chmod +x "$room/bin/rt" "$room/repo/tests/run.sh"

failed=0
# Says whether LABEL ended as it must; what was printed is shown where it did not.
as_it_must() {
    if [ "$2" = "$3" ]; then
        echo "$1: as it must be"
    else
        echo "$1: WRONG: $2"
        cat "$room/out"
        failed=1
    fi
}

# LABEL, what rt says, its status, the status of the tools and of the tests, whether the gate passes
try() {
    status=0
    RT_SAYS=$2 RT_STATUS=$3 TOOLS_STATUS=$4 TESTS_STATUS=$5 PATH="$room/bin:$PATH" "$room/repo/.ci/run" > "$room/out" 2>&1 || status=$?
    last=$(tail -n 1 "$room/out")
    if [ "$status" -eq 0 ] && [[ $last =~ ^[0-9]+\ passed,\ 0\ failed$ ]]; then passed=yes
    elif [ "$status" -ne 0 ] && [[ ! $last =~ ^[0-9]+\ passed,\ 0\ failed$ ]]; then passed=no
    else passed="status $status with the last line '$last'"; fi
    as_it_must ".ci/run, $1" "$passed" "$6"
}
good='rt: units proved (1 s)\nrt: ok, 1 crates proved\n12 passed, 0 failed\n'
try "everything passes" "$good" 0 0 0 yes
grep -q '^rt: units proved' "$room/out" || { echo "what rt said is not shown"; failed=1; }
try "rt ci fails" 'rt: units NOT PROVED\n11 passed, 1 failed\n' 1 0 0 no
grep -q '^11 passed, 1 failed$' "$room/out" || { echo "what rt said is not shown"; failed=1; }
try "rt ci says that one failed, and ends with 0" '11 passed, 1 failed\n' 0 0 0 no
try "rt ci fails behind a good line" "$good" 2 0 0 no
try "rt ci says nothing" '' 0 0 0 no
try "rt ci ends with another line" "${good}rt: and more\n" 0 0 0 no
try "rt ci counts a bad edit" 'rt: ok; handles allowed: none; must-fail edits: 11 refused, 1 bad; every proof and must-fail edit was done in this run\n12 passed, 0 failed\n' 0 0 0 no
try "rt ci counts no bad edit" 'rt: ok; handles allowed: none; must-fail edits: 12 refused; every proof and must-fail edit was done in this run\n12 passed, 0 failed\n' 0 0 0 yes
try "the tests fail" "$good" 0 0 1 no
try "a tool is missing" "$good" 0 1 0 no

# The real tests/run.sh; its part `papers` is the one that does as it is told.
cp tests/run.sh "$room/repo/tests/run.sh"
mkdir "$room/repo/tools"
printf '#!/bin/sh\n' > "$room/repo/tools/program.sh"
cat > "$room/repo/tests/archive.sh" <<'EOF'
[ "$ARCHIVE_STATUS" -eq 0 ] || exit "$ARCHIVE_STATUS"
EOF
cat > "$room/parts/python3" <<'EOF'
#!/bin/sh
case $1 in
tests/papers.py) eval "$PAPERS_DO" ;;
esac
EOF
printf '#!/bin/sh\n' > "$room/parts/rt"
chmod +x "$room/parts/python3" "$room/parts/rt" "$room/repo/tools/program.sh"
# LABEL, what the part does, the status of the build, whether all passes, and what must be said
try_parts() {
    status=0
    PAPERS_DO=$2 ARCHIVE_STATUS=$3 PATH="$room/parts:$PATH" "$room/repo/tests/run.sh" promises papers python > "$room/out" 2>&1 || status=$?
    if [ "$status" -eq 0 ] && tail -n 1 "$room/out" | grep -q '^tests/run.sh: all parts passed'; then passed=yes
    elif [ "$status" -ne 0 ] && ! grep -q 'all parts passed' "$room/out"; then passed=no
    else passed="status $status with the last line '$(tail -n 1 "$room/out")'"; fi
    grep -q -- "$5" "$room/out" || passed="$passed, and not said: $5"
    as_it_must "tests/run.sh, $1" "$passed" "$4"
}
try_parts "every part passes" 'exit 0' 0 yes '^papers: ok'
try_parts "a part fails: it is shown" 'echo what is wrong; exit 1' 0 no '^    what is wrong$'
try_parts "a part fails: it is named" 'exit 3' 0 no '^tests/run.sh FAILED: papers'
try_parts "a part is killed" 'kill -9 $$' 0 no '^papers: FAILED'
try_parts "the build fails" 'exit 0' 1 no '^build: FAILED'
status=0
"$room/repo/tests/run.sh" no_such_part > "$room/out" 2>&1 || status=$?
as_it_must "tests/run.sh, an unknown part" "$status, $(grep -c 'there is no part no_such_part; the parts are: ' "$room/out")" "1, 1"

# Each tool, where it is missing, is told by its name.
tools="rt gcc g++ ar nm objdump rustc python3"
for tool in $tools; do
    rm -rf "$room/few"
    mkdir "$room/few"
    for other in bash dirname $tools; do
        [ "$other" = "$tool" ] || ln -s "$(command -v "$other")" "$room/few/$other"
    done
    status=0
    PATH="$room/few" "$room/few/bash" "$room/repo/tests/run.sh" --tools > "$room/out" 2>&1 || status=$?
    as_it_must "tests/run.sh, without $tool" "$status, $(cat "$room/out")" "1, tests/run.sh: $tool is not installed"
done
exit $failed
