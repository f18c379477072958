#!/usr/bin/env python3
"""Runs `nv_sim gen` on loads, and compares its five lines with those that the rules give, computed here: words of SplitMix64, each thread's calls one after another on a plain file.
A load of
20,000 calls by each of eight threads is run twice. With `largest` behind the program it also runs the largest load, and prints what memory that takes."""
import os, subprocess, sys, time

PROGRAM = sys.argv[1]
MASK = (1 << 64) - 1
LOADS = [(0, 0, 1), (0, 0, 2), (0, 1, 1), (1, 1, 8), (5, 1000, 3), (4294967295, 500, 5), (7, 100, 4), (7, 100, 4), (7, 20000, 8), (7, 20000, 8)]
LARGEST = (7, 100000, 8)


def words(state):
    """SplitMix64, from this state on."""
    while True:
        state = (state + 0x9E3779B97F4A7C15) & MASK
        word = ((state ^ state >> 30) * 0xBF58476D1CE4E5B9) & MASK
        word = ((word ^ word >> 27) * 0x94D049BB133111EB) & MASK
        yield word ^ word >> 31


def expected(seed, calls, threads):
    blocks = [0] * 64
    written = 64 * 96
    read = 0
    for thread in range(threads):
        drawn = words(seed + thread)
        for _ in range(calls):
            a, b, c = next(drawn), next(drawn), next(drawn)
            if a % 4 == 0:
                read += 1 + c % 96
            else:
                blocks[thread + threads * (b % (64 // threads))] = c % 256
                written += 96
    total = sum((i + 1) * blocks[i // 96] for i in range(6144))
    return f"gen {seed} {calls} {threads}\nplaced {64 + calls * threads}\nwritten {written}\nread {read}\nsum {total}\n".encode()


def run(load):
    process = subprocess.Popen([PROGRAM, "gen", *map(str, load)], stdin=subprocess.DEVNULL, stdout=subprocess.PIPE)
    shown = process.stdout.read()
    _, status, used = os.wait4(process.pid, 0)
    return shown, os.waitstatus_to_exitcode(status), used.ru_maxrss // 1024


failed = 0
loads = LOADS + [LARGEST] * (sys.argv[2:] == ["largest"])
for load in loads:
    start = time.monotonic()
    shown, status, memory = run(load)
    if (shown, status) != (expected(*load), 0):
        failed += 1
        print(f"gen {load}: status {status}, {shown!r}")
    elif load == LARGEST:
        print(f"gen {' '.join(map(str, load))}: {time.monotonic() - start:.1f} s, {memory} MiB at most")
print(f"{len(loads) - failed} passed, {failed} failed")
sys.exit(failed > 0)
