#!/usr/bin/env bash
# Makes 100,000 calls by four threads and a cleaner beside them, over a log of 16 entries: the test of tests.sh of these, with ten times its calls, for which its time is too short where much else runs.
# Each call is done within 10,000,000 tries, all replies are those of plain files in the order of the calls' places, and the stores are those files in the end. It proves nothing, and builds anew each time.
set -eu
cd "$(dirname "$0")"
room=$(mktemp -d)
trap 'rm -rf "$room"' EXIT
./lay_out_tests.sh "$room"
cd "$room/crates/unproved_tests"
test=four_threads_and_a_cleaner_keep_one_history
# That test alone, with more calls.
for file in src/*.rt; do
    awk -v test="$test" '
        dropping { if ($0 == "}") dropping = 0; next }
        $0 == "#[test]" { attribute = 1; next }
        attribute { attribute = 0; if (index($0, "fn " test "(") != 1) { dropping = 1; next } print "#[test]" }
        { print }' "$file" > "$room/file"
    cp "$room/file" "$file"
done
for edit in 's/calls: 2_500,/calls: 25_000,/' 's/answered.len(), 10_000)/answered.len(), 100_000)/'; do
    before=$(cksum < src/board_threads.rt)
    sed -i "$edit" src/board_threads.rt
    [ "$before" != "$(cksum < src/board_threads.rt)" ] || { echo "the test reads otherwise: $edit"; exit 1; }
done
said=$(rt try --test --seconds 1200 2>&1 < /dev/null) || { echo "$said"; echo "0 passed, 1 failed"; exit 1; }
echo "$said"
if grep -q "^test board_threads::$test \.\.\. ok$" <<< "$said"; then
    echo "1 passed, 0 failed"
else
    echo "0 passed, 1 failed"
    exit 1
fi
