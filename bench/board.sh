#!/usr/bin/env bash
# Prints reads of 64 bytes a second by try_pread, over a store in memory, at one and at four threads, beside the same reads of such a store behind a
# plain Mutex; and durable writes of 64 bytes a second by try_pwrite, beside those of the log of one thread (bench/engine) behind a plain Mutex: first over parts in memory,
# which keep what each line may hold after a power failure, and then over plain copies of their lines. All pages have buffers, and each thread reads and
# writes pages of its own; a read counts if it goes well and gives the bytes that the store has. A log of 1,024 entries is filled and the next one opened
# outside of the time. Last come calls a second of a mix, three writes of 96 bytes to one read of as many: of a mount with a cleaner's thread beside those
# that call, and of the log behind a Mutex, with a thread that carries it to its file while it is more than half full, and without one, where it is filled
# again and again. Beside such a thread a call that finds no room cleans the log itself. The program, bench/board, is proved, and compiled with optimization.
# Its files end in .txt, since rt refuses .rt and .antt files outside of crates/. A folder may be named, in which what is built stays for the next run; else
# it is built in a new one, which is removed.
# With --build before a folder it is built right there, over parts in memory, and not run.
set -eu
build=
if [ "${1:-}" = --build ]; then
    build=yes
    room=$(realpath -m "$2")
elif [ $# -gt 0 ]; then
    room=$(realpath -m "$1")/nvcache-board
else
    room=$(mktemp -d)
    trap 'rm -rf "$room"' EXIT
fi
cd "$(dirname "$0")/.."
rm -rf "$room"/crates/*/{src,specs,proofs}
for crate in nv_plain nv_pmem nv_store nv_entry nv_header nv_recover nv_core nv_table nv_pages nv_mount nv_op nv_mirror nv_cache nv_ring nv_calls nv_clean; do
    mkdir -p "$room/crates/$crate"
    cp -r "crates/$crate/src" "crates/$crate/specs" "crates/$crate/proofs" "$room/crates/$crate"
done
for crate in engine board; do
    (cd "bench/$crate" && find src specs proofs -name '*.txt') | while read -r file; do
        install -D -m 644 "bench/$crate/$file" "$room/crates/$crate/${file%.txt}"
    done
done
cp HANDLES "$room"
{
    grep -E "^nv_(plain|pmem|store|entry|header|recover|core|table|pages|mount|op|mirror|cache|ring|calls|clean):" crates.txt
    echo "engine: nv_plain nv_pmem nv_store nv_entry nv_header nv_recover thiserror"
    echo "board: nv_plain nv_pmem nv_store nv_header nv_recover engine nv_mount nv_calls nv_clean nv_table thiserror"
} > "$room/crates.txt"
plain=$PWD/bench/board/plain/kind.rt.txt
cd "$room/crates/board"
if [ "$build" ]; then
    rt run -- small > /dev/null 2> "$room/log" || { cat "$room/log" >&2; exit 1; }
    exit
fi
rt run 2> "$room/log" || { cat "$room/log" >&2; exit 1; }
cp "$plain" src/kind.rt
rt run 2> "$room/log" || { cat "$room/log" >&2; exit 1; }
