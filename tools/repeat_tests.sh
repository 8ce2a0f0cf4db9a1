#!/bin/sh
# Runs tests a hundred times, or as often as told, and tells how often all of them passed: those of threads and of TCP
# links have a schedule of their own at each run. A test that doesn't end within a minute is stopped, and its run failed.
# Usage: tools/repeat_tests.sh [CRATE [TIMES [WORD]]]: the tests of zq_tests_threads, or of CRATE, whose names have WORD in
# them. The tests are proved and built first, so this stands outside the gate.

cd "$(dirname "$0")/../crates/${1:-zq_tests_threads}" || exit 2
rt test || exit 1
said=$(mktemp) || exit 2
trap 'rm -f "$said"' EXIT
program=out/${1:-zq_tests_threads}_tests
names=$("$program" --list | sed -n 's/: test$//p' | grep -F "${3:-}")
times=${2:-100}
passed=0
for number in $(seq "$times"); do
    failed=
    for name in $names; do
        if ! timeout 60 "$program" "$name" > "$said" 2>&1; then
            echo "run $number, $name:"
            cat "$said"
            failed=1
        fi
    done
    [ "$failed" ] || passed=$((passed + 1))
done
echo "$passed of $times runs passed"
[ "$passed" = "$times" ]
