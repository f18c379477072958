#!/usr/bin/env bash
# Prints lines per second and peak memory of `nv_sim run --noworker` beside `wc -l` on the same file, for two traces of 60 MiB, or of
# as many as the first word says: one of comments, writes, fills and reads, and one of comments and reads of no bytes, where little is
# done but to read the lines. A log of 16 entries takes the first 16 writes and fills; the others are read and refused.
set -eu
cd "$(dirname "$0")/../crates/nv_sim"
[ -x out/nv_sim ] || rt run -- run --noworker < stdin > /dev/null
room=$(mktemp -d)
trap 'rm -rf "$room"' EXIT
python3 - "$PWD/out/nv_sim" "$room" "${1:-60}" <<'PY'
import os, subprocess, sys, time

PROGRAM, ROOM = sys.argv[1:3]
SIZE = int(sys.argv[3]) << 20


def mixed(i):
    at = i % 16 * 64
    return f"# {'a comment of some length ' * 8}\n0 pwrite 0 {at} {'61' * 64}\n0 pfill 0 {at} 64 98\n0 pread 0 {at} 64\n"


def scan(i):
    return f"# {i:040} a comment of few bytes\n0 pread 0 {i % 64 * 64} 0\n"


def make(path, block):
    """A trace of blocks of lines; and how many lines it has. This process keeps it not, or its memory would count as its children's."""
    with open(path, "w") as file:
        lines = file.write("file a\nfd 0 a rw\n") and 2
        size = i = 0
        while size < SIZE:
            text = block(i)
            size += file.write(text)
            lines += text.count("\n")
            i += 1
    return lines


def run(words, given, to):
    """The seconds and the peak memory, in bytes, of a program."""
    start = time.monotonic()
    with open(given, "rb") as stdin, open(to, "wb") as stdout:
        process = subprocess.Popen(words, stdin=stdin, stdout=stdout)
        _, status, used = os.wait4(process.pid, 0)
    assert status == 0, (words, status)
    return time.monotonic() - start, used.ru_maxrss * 1024


for name, block in ("mixed", mixed), ("scan", scan):
    trace, report = f"{ROOM}/trace", f"{ROOM}/report"
    lines = make(trace, block)
    size = os.path.getsize(trace)
    counted = min(run(["wc", "-l"], trace, report)[0] for _ in range(3))
    seconds, peak = run([PROGRAM, "run", "--noworker"], trace, report)
    print(f"{name}: {lines} lines, {size / (1 << 20):.0f} MiB, a report of {os.path.getsize(report) / (1 << 20):.0f} MiB")
    print(f"  nv_sim {seconds:.2f} s, {lines / seconds:.0f} lines/s, {seconds / size * 1e9:.1f} ns a byte, peak memory {peak / size:.2f} times the input")
    print(f"  wc -l  {counted:.3f} s, {lines / counted:.0f} lines/s, {counted / size * 1e9:.2f} ns a byte; nv_sim takes {seconds / counted:.0f} times as long")
PY
