#!/usr/bin/env bash
# Prints how long `nv_sim run` takes for 10,000 rounds of one call each, beside one round of the same calls, by
# one thread: three writes of 64 bytes to one read, over 64 pages, with a worker, whose thread each round starts;
# and reads alone without a worker, where no thread is started. Each is the least of nine runs, taken in turn.
# Where there is a C compiler, so many threads are started and joined one by one by a plain loop in these turns.
# Then the peak memory of runs by how many calls they have: in rounds of one call, of a refused one and of 1,000,
# and in one round; and that of `gen 7 N 8` by N. GNU time tells it, where it is there: what Python is told of
# its child counts what Python itself had when it started it, some 14 MiB. A program may be named: nv_sim of
# other sources.
set -eu
program=
[ $# -eq 0 ] || program=$(realpath "$1")
cd "$(dirname "$0")/../crates/nv_sim"
if [ -z "$program" ]; then
    [ -x out/nv_sim ] || rt run -- run --noworker < stdin > /dev/null
    program=$PWD/out/nv_sim
fi
room=$(mktemp -d)
trap 'rm -rf "$room"' EXIT
python3 - "$program" "$room" <<'PY'
import os, shutil, subprocess, sys, time

PROGRAM, ROOM = sys.argv[1:]
HEAD = "file a\nfd 0 a rw\n"
CALLS = 10_000
RUNS = 9
ALONE = ["run", "--noworker"]
COMPILER = shutil.which("cc") or shutil.which("gcc") or shutil.which("clang")
TIME = shutil.which("time")
STARTS = """
#include <pthread.h>
static void *end(void *none) { return none; }
int main(void) {
    for (int i = 0; i < COUNT; i++) {
        pthread_t thread;
        if (pthread_create(&thread, 0, end, 0) || pthread_join(thread, 0)) return 1;
    }
}
"""


def mix(i):
    at = i * 37 % 63 * 64
    return f"0 pread 0 {at} 64\n" if i % 4 == 0 else f"0 pwrite 0 {at} {i % 256:02x}{'61' * 63}\n"


def read(i):
    return f"0 pread 0 {i * 37 % 63 * 64} 64\n"


def refused(i):
    return f"0 pread 0 {4096 + i % 64} 64\n"


def make(name, call, calls, each):
    """A trace of so many calls, so many of them in a round."""
    path = os.path.join(ROOM, name)
    with open(path, "w") as file:
        file.write(HEAD)
        for i in range(calls):
            file.write("round\n" * (i > 0 and i % each == 0) + call(i))
    return path


def run(words, path):
    """The seconds of a run by the clock, and those of processors."""
    with open(path, "rb") as given:
        start = time.monotonic()
        process = subprocess.Popen(words, stdin=given, stdout=subprocess.DEVNULL)
        _, status, used = os.wait4(process.pid, 0)
        seconds = time.monotonic() - start
    if status:
        sys.exit(f"{words[0]} ended with {status}")
    return seconds, used.ru_utime + used.ru_stime


def memory(words, path):
    """The peak memory of a run, in bytes."""
    words = [TIME, "-f", "%M", PROGRAM, *words]
    with open(path, "rb") as given:
        done = subprocess.run(words, stdin=given, stdout=subprocess.DEVNULL, stderr=subprocess.PIPE, check=True)
    return int(done.stderr) * 1024


def mib(size):
    return f"{size / (1 << 20):.1f} MiB"


def times(name, call, words, plain):
    """The time of runs in turn; and of a program without a trace."""
    paths = [make("none", call, 0, 1), make("rounds", call, CALLS, 1), make("one", call, CALLS, CALLS)]
    turns = []
    for _ in range(RUNS):
        turns.append([run([PROGRAM, *words], path) for path in paths])
        if plain:
            turns[-1].append(run([plain], os.devnull))
    for kind, place in ("by the clock", 0), ("of processors", 1):
        none, rounds, one, *threads = (min(turn[place] for turn in column) for column in zip(*turns))
        net = (rounds - none) / max(one - none, 1e-9)
        print(f"{name}, seconds {kind}: {CALLS} rounds of one call {rounds:.3f}, one round of {CALLS} calls {one:.3f}, "
              f"{rounds / one:.1f} times; {net:.1f} times less the {none:.3f} of no calls"
              + "".join(f"; {CALLS} threads started and joined by a plain loop {seconds:.3f}" for seconds in threads))


def grown(name, call, each, words):
    """The peak memory by the number of calls, and what one more takes."""
    counts = (1_000, 10_000, 40_000)
    sizes = [memory(words, make("trace", call, count, each or count)) for count in counts]
    more = (sizes[2] - sizes[1]) / (counts[2] - counts[1])
    shown = ", ".join(f"{count} {mib(size)}" for count, size in zip(counts, sizes))
    print(f"{name}: {shown}; {more:.0f} bytes for one call more")


starts = None
if COMPILER:
    starts = os.path.join(ROOM, "starts")
    words = [COMPILER, "-O2", f"-DCOUNT={CALLS}", "-pthread", "-o", starts, "-x", "c", "-"]
    subprocess.run(words, input=STARTS.encode(), check=True)
times("with a worker", mix, ["run"], starts)
times("reads without a worker", read, ALONE, None)
if TIME is None:
    sys.exit("memory: not measured, as there is no GNU time")
print(f"no calls: {mib(memory(['run'], make('none', mix, 0, 1)))}")
grown("in rounds of one call, with a worker", mix, 1, ["run"])
grown("in rounds of one read, without a worker", read, 1, ALONE)
grown("in rounds of one refused call, without a worker", refused, 1, ALONE)
grown("in rounds of 1,000 calls, with a worker", mix, 1_000, ["run"])
grown("in one round, with a worker", mix, None, ["run"])
for calls in (0, 10_000, 100_000):
    print(f"gen 7 {calls} 8: {mib(memory(['gen', '7', str(calls), '8'], os.devnull))}")
PY
