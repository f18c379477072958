#!/usr/bin/env bash
# Prints how long `nv_sim run` takes for a trace of 200,000 calls, or of as many as the first word says, by one thread and by four, with a worker beside them: three writes of 64 bytes to one read of 64,
# over 64 pages; the middle one of five runs, and a call's part less the run of a trace of no calls; and the peak memory in bytes a byte of the trace. For reads of no bytes, without a worker, it
# prints the bytes of memory a call. The memory is what GNU time tells: what Python is told of its child counts what Python itself has.
set -eu
cd "$(dirname "$0")/../crates/nv_sim"
[ -x out/nv_sim ] || rt run -- run --noworker < stdin > /dev/null
room=$(mktemp -d)
trap 'rm -rf "$room"' EXIT
python3 - "$PWD/out/nv_sim" "$room" "${1:-200000}" <<'PY'
import os, shutil, subprocess, sys, time

PROGRAM, ROOM = sys.argv[1:3]
TIME = shutil.which("time") or sys.exit("run.sh needs GNU time")
CALLS = int(sys.argv[3])
HEAD = "file a\nfd 0 a rw\n"


def mix(i, threads):
    at = i * 37 % 63 * 64
    return f"{i % threads} pread 0 {at} 64\n" if i % 4 == 0 else f"{i % threads} pwrite 0 {at} {i % 256:02x}{'61' * 63}\n"


def short(i, threads):
    return f"{i % threads} pread 0 0 0\n"


def make(name, block, calls, threads):
    path = os.path.join(ROOM, name)
    with open(path, "w") as file:
        file.write(HEAD)
        file.writelines(block(i, threads) for i in range(calls))
    return path


def run(path, *words):
    """Seconds and peak memory of a run; where it isn't done, nothing."""
    told = os.path.join(ROOM, "told")
    with open(path, "rb") as given:
        start = time.monotonic()
        done = subprocess.run([TIME, "-f", "%M", "-o", told, PROGRAM, "run", *words], stdin=given, stdout=subprocess.DEVNULL)
        seconds = time.monotonic() - start
    if done.returncode:
        sys.exit(f"nv_sim ended with {done.returncode}")
    with open(told) as file:
        return seconds, int(file.read()) * 1024


def middle(path, *words):
    runs = sorted(run(path, *words) for _ in range(5))
    return runs[2]


none = middle(make("none", mix, 0, 1))
for threads in (1, 4):
    path = make(f"mix-{threads}", mix, CALLS, threads)
    seconds, memory = middle(path)
    each = max(seconds - none[0], 1e-9) / CALLS
    print(f"{threads} thread(s), with a worker: {seconds:.2f} s, {each * 1e6:.2f} us a call, {memory / os.path.getsize(path):.2f} bytes of memory a byte of the trace")
for threads in (1, 4):
    path = make(f"short-{threads}", short, CALLS, threads)
    seconds, memory = middle(path, "--noworker")
    print(f"{threads} thread(s), reads of no bytes: {seconds:.2f} s, {(memory - none[1]) / CALLS:.0f} bytes of memory a call")
PY
