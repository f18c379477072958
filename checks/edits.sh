#!/usr/bin/env bash
# Tries wrong bodies that the prover must refuse, of which the gate tries the few in crates/NAME/must-fail: those in edits/NAME, for the crates that a change touches.
# They are put into a copy of the repository, and `rt must-fail` tries them there, over what `rt check` kept here: 8 to 16 seconds each, more in large functions, and a
# check of what isn't kept. Says what was refused, and ends with the status of that. It is called by hand, behind `rt check` in the crates that were changed.
#
#   edits.sh [BASE]      for the crates that differ from the commit BASE, HEAD^ unless said, in what is committed since or lies here
#   edits.sh NAME ..     for these crates
set -eu -o pipefail
cd "$(dirname "$0")/.."
if [ $# -gt 0 ] && [ -d "crates/$1" ]; then
    names=$*
else
    names=$({ git diff --name-only "${1:-HEAD^}" -- crates; git ls-files --others --exclude-standard -- crates; } | cut -d / -f 2 | sort -u)
fi
tried=()
for name in $names; do
    if [ -d "checks/edits/$name" ]; then
        tried+=("$name")
    fi
done
if [ ${#tried[@]} = 0 ]; then
    echo "no edits of" $names
    exit 0
fi
room=$(mktemp -d)
trap 'rm -rf "$room"' EXIT
cp HANDLES crates.txt "$room"
git init -q "$room"
for part in crates/*/src crates/*/specs crates/*/proofs; do
    cp -r --parents "$part" "$room"
done
for name in "${tried[@]}"; do
    cp -r "checks/edits/$name" "$room/crates/$name/must-fail"
done
cd "$room"
rt must-fail "${tried[@]}" | grep "^rt: "
