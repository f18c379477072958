#!/usr/bin/env bash
# Prints calls a second of `nv_sim gen 7 20000 T`, three writes of 96 bytes to one read of up to as many over a log of 16 entries, with a worker beside T threads: its run less that of no
# calls, at one thread, two and four; and beside it those of the log of one thread behind a plain Mutex, of as many entries over the same parts, with a thread that carries it to its file while it
# is more than half full, and without one. There a call that finds no room carries the log to its file itself. Each figure is the middle one of five, taken in turn. Last comes the memory of the
# largest load, as GNU time tells it: what Python is told of its child counts what Python itself has. The log's program is that of bench/board, proved, and compiled with optimization, as nv_sim is. A folder may be named, in which what is built stays for the next run.
set -eu
if [ $# -gt 0 ]; then
    room=$(realpath -m "$1")/nvcache-board
else
    room=$(mktemp -d)
    trap 'rm -rf "$room"' EXIT
fi
cd "$(dirname "$0")/.."
(cd crates/nv_sim && { [ -x out/nv_sim ] || rt run -- gen 0 0 1 > /dev/null; })
bench/board.sh --build "$room"
python3 - "$PWD/crates/nv_sim/out/nv_sim" "$room/crates/board/out/board" <<'PY'
import shutil, statistics, subprocess, sys, time

PROGRAM, BOARD = sys.argv[1:]
TIME = shutil.which("time") or sys.exit("gen.sh needs GNU time")
CALLS = 20_000
THREADS = (1, 2, 4)


def run(calls, threads, seed=7):
    """Seconds of a run."""
    start = time.monotonic()
    subprocess.run([PROGRAM, "gen", str(seed), str(calls), str(threads)], stdin=subprocess.DEVNULL, stdout=subprocess.DEVNULL, check=True)
    return time.monotonic() - start


def memory(calls, threads, seed=7):
    """Peak memory of a run, in KiB."""
    words = [TIME, "-f", "%M", PROGRAM, "gen", str(seed), str(calls), str(threads)]
    done = subprocess.run(words, stdin=subprocess.DEVNULL, stdout=subprocess.DEVNULL, stderr=subprocess.PIPE, check=True)
    return int(done.stderr)


ours = {threads: [] for threads in THREADS}
logs = {threads: [] for threads in THREADS}
for _ in range(5):
    for threads in THREADS:
        seconds = run(CALLS, threads) - run(0, threads)
        ours[threads].append(CALLS * threads / max(seconds, 1e-9))
    for line in subprocess.run([BOARD, "small"], stdout=subprocess.PIPE, check=True).stdout.splitlines():
        threads, cleaned, alone = map(int, line.split())
        logs[threads].append((cleaned, alone))
for threads in THREADS:
    rate = statistics.median(ours[threads])
    cleaned, alone = (statistics.median(figures) for figures in zip(*logs[threads]))
    print(f"{threads} thread(s): {rate:.0f} calls a second, {1e6 / rate:.2f} us each; of a log behind a Mutex {cleaned:.0f} with a cleaner and {alone:.0f} without")
print(f"gen 7 100000 8 takes {memory(100_000, 8) / 1024:.1f} MiB at most")
PY
