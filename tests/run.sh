#!/usr/bin/env bash
# Everything that stands beside the proofs, in one run: the archive is built once, then each part prints one line with its
# time, two at a time. All seeds are fixed. What a part printed is in target/tests/PART.log, and is shown if the part fails.
#
#   tests/run.sh                everything; exits 1 if a part fails, and says which
#   tests/run.sh PART...        these parts alone
#   tests/run.sh --tools        only whether every tool is there
set -u
cd "$(dirname "$0")/.." || exit 1
for tool in rt gcc g++ ar nm objdump rustc python3; do
    command -v "$tool" > /dev/null || { echo "tests/run.sh: $tool is not installed"; exit 1; }
done
[ "${1:-}" != --tools ] || exit 0

# what is tested is what this run builds, whatever the caller's environment says
unset HALDURAP HALDURAP_ARCHIVE_BUILT
export PYTHONDONTWRITEBYTECODE=1
logs=target/tests
mkdir -p "$logs"

# The parts, the longest first; what each runs.
parts="report differential wrong_programs answers vectors area_vectors join_vectors sheets questions timing tight_list layout examples header python readme book papers promises gate"
run_part() {
    case $1 in
    report) python3 tests/report.py target/bin/report ;;
    differential) tests/differential/run.sh ;;
    wrong_programs) python3 tests/wrong_programs.py ;;
    answers) tests/answers/run.sh ;;
    vectors | area_vectors | join_vectors | sheets | questions | timing) python3 "tools/$1.py" --check ;;
    tight_list) python3 tools/tight_list.py ;;
    layout) tests/layout/run.sh ;;
    examples) examples/run.sh ;;
    header) python3 tests/header.py ;;
    python) python3 tests/python.py ;;
    readme) python3 tests/readme.py ;;
    book) python3 tests/book.py ;;
    papers) python3 tests/papers.py ;;
    promises) python3 tests/promises.py ;;
    gate) tests/gate.sh ;;
    esac
}

wanted=${*:-$parts}
for part in $wanted; do
    case " $parts " in
    *" $part "*) ;;
    *) echo "tests/run.sh: there is no part $part; the parts are: $parts"; exit 1 ;;
    esac
done

began=$SECONDS
failed=
build() {
    # what is not proved yet is proved first; the gate has it all
    tools/program.sh report && . tests/archive.sh
}
if (build) > "$logs/build.log" 2>&1; then
    echo "build: ok ($((SECONDS - began)) s)"
else
    cat "$logs/build.log"
    echo "build: FAILED ($((SECONDS - began)) s)"
    exit 1
fi
export HALDURAP_ARCHIVE_BUILT=1

# Starts a part beside this script; its time stands beside its log when it has ended.
declare -A part_of=()
running=0 passed=
start() {
    rm -f "$logs/$1.time"
    (
        from=$SECONDS
        run_part "$1" > "$logs/$1.log" 2>&1 < /dev/null
        status=$?
        echo "$((SECONDS - from))" > "$logs/$1.time"
        exit $status
    ) &
    part_of[$!]=$1
    running=$((running + 1))
}
# Waits for one part and says how it ended.
finish_one() {
    local ended status name took
    wait -n -p ended
    status=$?
    running=$((running - 1))
    name=${part_of[$ended]}
    took=$(cat "$logs/$name.time" 2> /dev/null)
    if [ "$status" -eq 0 ]; then
        echo "$name: ok (${took:-?} s)"
        passed="$passed $name"
    else
        sed "s/^/    /" "$logs/$name.log"
        echo "$name: FAILED, exit status $status (${took:-?} s)"
        failed="$failed $name"
    fi
}
for part in $wanted; do
    [ "$running" -lt 2 ] || finish_one
    start "$part"
done
while [ "$running" -gt 0 ]; do finish_one; done

# all passed only if each part that was wanted was seen to end well
# shellcheck disable=SC2086
if [ "$(printf '%s\n' $passed | sort)" != "$(printf '%s\n' $wanted | sort)" ]; then
    echo "tests/run.sh FAILED:$failed ($((SECONDS - began)) s)"
    exit 1
fi
echo "tests/run.sh: all parts passed ($((SECONDS - began)) s)"
