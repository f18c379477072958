#!/usr/bin/env bash
# Counts what calls that take no memory allocate, call by call: no_memory/main.rt.txt gets them ready, makes all of them in each run, and
# says how many allocations are left up to the one that fails, behind the call whose number it is given. Behind each call there must be as
# many as before the first one, also where it met a fault or a lock that another pass held. It proves nothing, and builds anew each time,
# which takes most of a minute, as the program runs once a call. The program's file ends in .txt, since rt refuses .rt files outside of crates/.
set -eu
cd "$(dirname "$0")/.."
room=$(mktemp -d)
trap 'rm -rf "$room"' EXIT
mkdir -p "$room/crates/no_memory/src" "$room/cases"
cp checks/no_memory/main.rt.txt "$room/crates/no_memory/src/main.rt"
cp HANDLES "$room"
git init -q "$room"
grep -E "^nv_" crates.txt | cut -d : -f 1 | while read -r crate; do
    mkdir "$room/crates/$crate"
    cp -r "crates/$crate/src" "$room/crates/$crate"
done
{
    cat crates.txt
    echo "no_memory: nv_plain nv_pmem nv_store nv_bench nv_header nv_table nv_mount nv_calls nv_clean"
} > "$room/crates.txt"
# More numbers than there are calls.
for call in {00..69}; do
    : > "$room/cases/$call"
    echo "$call" > "$room/cases/$call.args"
done
cd "$room/crates/no_memory"
said=$(rt try --fail-alloc 3000 --cases "$room/cases" 2>&1 < /dev/null) || { echo "$said"; exit 1; }
wrong=$(grep "^answered otherwise" <<< "$said" | sort -u) || true
counts=$(sed -nE 's/^call ([0-9]+) of ([0-9]+) left ([0-9]+) (.*)$/\1\t\2\t\3\t\4/p' <<< "$said" | sort -n -u)
awk -F '\t' -v wrong="$wrong" '
    $1 >= $2 { next }
    seen++ && $3 != left { print $4 " took memory " left - $3 " times"; failed++ }
    { made = $2; left = $3 }
    END {
        if (wrong) { print wrong; failed++ }
        if (!seen || seen != made) { print "counted behind " seen + 0 " of " made + 0 " calls"; failed++ }
        print seen - failed " passed, " failed + 0 " failed"
        exit failed > 0
    }' <<< "$counts"
