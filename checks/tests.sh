#!/usr/bin/env bash
# Tries the tests of tests/, which nothing proves: they are built anew, with checks of each index, sum and access, and run, in a minute or
# two. Ends with 1 where one of them fails, hangs or stops, or where none was tried.
set -eu
cd "$(dirname "$0")"
room=$(mktemp -d)
trap 'rm -rf "$room"' EXIT
./lay_out_tests.sh "$room"
cd "$room/crates/unproved_tests"
status=0
said=$(rt try --test --seconds 600 2>&1 < /dev/null) || status=$?
echo "$said"
told=$(sed -nE 's/^test result: .* ([0-9]+) passed; ([0-9]+) failed;.*/\1 \2/p' <<< "$said")
read -r passed failed <<< "${told:-0 1}"
# A run that was cut off has no result, and one of no test shows nothing.
if [ "$status" != 0 ] || [ "$passed" = 0 ]; then
    [ "$failed" != 0 ] || failed=1
fi
echo "$passed passed, $failed failed"
[ "$failed" = 0 ]
