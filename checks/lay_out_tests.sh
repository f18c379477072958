#!/usr/bin/env bash
# Lays out the tests that nothing proves in an empty room: tests/ is the src/ of one library, whose files end in .txt, since rt refuses .rt
# files outside of crates/. It comes beside the repository's crates. Used by tests.sh and calls.sh.
set -eu
cd "$(dirname "$0")/.."
room=$1
mkdir -p "$room/crates/unproved_tests/src"
for file in checks/tests/*.rt.txt; do
    cp "$file" "$room/crates/unproved_tests/src/$(basename "$file" .txt)"
done
cp HANDLES "$room"
git init -q "$room"
crates=$(grep -E "^nv_" crates.txt | cut -d : -f 1)
libraries=()
for crate in $crates; do
    mkdir "$room/crates/$crate"
    cp -r "crates/$crate/src" "$room/crates/$crate"
    # Tests are no library that others stand on, and neither is a program.
    if [[ $crate != *tests && ! -f crates/$crate/src/main.rt ]]; then
        libraries+=("$crate")
    fi
done
{
    cat crates.txt
    echo "unproved_tests: ${libraries[*]}"
} > "$room/crates.txt"
