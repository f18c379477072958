#!/usr/bin/env python3
"""Runs traces of four threads, with a worker beside them, through nv_run over folders of a real disk, and kills it.

Each thread writes its own places, in turn, and counts up in what it writes. A run that ends by itself shows the last count of each
thread. One that is killed at any moment must leave, after a recovery, a front of each thread's writes, each whole: with its last count
it also left, at every other place, the last one that was written there before. Closes with 'N passed, M failed', and fails where one
fails.

    threads.py PROGRAM [MOMENTS [WRITES]]
"""

import random
import subprocess
import sys
import tempfile
import time

THREADS, PLACES, WORDS = 4, 8, 12
SIZE = 8 * WORDS
RUN = ["run", "--entries", "64", "--batch", "16"]
# What makes the region and its file, and no call.
EMPTY = b"file a\nfd 0 a rw\n"
# One kill in so many meets a folder without a region, the others a region with an empty log.
BLANK = 8
# Killed before its region was formatted, a run leaves one with no magic or no parts.
NOT_YET = (b"error region bad magic", b"error region truncated ")


def offset(thread, count):
    return (thread * PLACES + count % PLACES) * SIZE


def trace(writes):
    lines = ["file a", "fd 0 a rw"]
    for count in range(1, writes + 1):
        for thread in range(THREADS):
            lines.append(f"{thread} pwrite 0 {offset(thread, count)} {(count.to_bytes(8, 'little') * WORDS).hex()}")
    return "\n".join(lines).encode() + b"\n"


def call(program, words, given=b""):
    try:
        done = subprocess.run([program, *words], input=given, stdout=subprocess.PIPE, timeout=600)
    except subprocess.TimeoutExpired:
        return b"", "no end in ten minutes"
    return done.stdout, done.returncode


def file_in(text):
    """The bytes of file a, which the line behind its name and length has."""
    for line in text.split(b"\n"):
        fields = line.split(b" ")
        if fields[:2] == [b"file", b"a"]:
            data = b"" if fields[3] == b"-" else bytes.fromhex(fields[3].decode())
            return data if len(data) == int(fields[2]) else None
    return None


def last_counts(data):
    """The last count of each thread where what it left is a front of its writes, each whole; else None."""
    data = data.ljust(THREADS * PLACES * SIZE, b"\0")
    counts = []
    for thread in range(THREADS):
        found = []
        for place in range(PLACES):
            at = (thread * PLACES + place) * SIZE
            words = {data[i:i + 8] for i in range(at, at + SIZE, 8)}
            if len(words) != 1:
                return None
            found.append(int.from_bytes(words.pop(), "little"))
        last = max(found)
        for place in range(PLACES):
            wanted = last - (last - place) % PLACES
            if found[place] != max(wanted, 0):
                return None
        counts.append(last)
    return counts


def moments(program, count, writes):
    given = trace(writes)
    with tempfile.TemporaryDirectory() as folder:
        call(program, [folder, *RUN], EMPTY)
        start = time.monotonic()
        text, status = call(program, [folder, *RUN], given)
        whole = time.monotonic() - start
        yield f"a run to its end, status {status}", status, 0
        yield "the end of its report", text.endswith(b"end %d 0 0\n" % (THREADS * writes)), True
        yield "all of its writes", last_counts(file_in(text) or b""), [writes] * THREADS
        text, status = call(program, [folder, "recover"])
        yield "the same behind a recovery", (last_counts(file_in(text) or b""), status), ([writes] * THREADS, 0)
    draws = random.Random(2)
    left = []
    for moment in range(count):
        with tempfile.TemporaryDirectory() as folder:
            made = moment % BLANK > 0
            if made:
                call(program, [folder, *RUN], EMPTY)
            process = subprocess.Popen([program, folder, *RUN], stdin=subprocess.PIPE, stdout=subprocess.DEVNULL)
            process.stdin.write(given)
            process.stdin.close()
            time.sleep(draws.random() * whole)
            process.kill()
            process.wait()
            text, status = call(program, [folder, "recover"])
            if not made and status == 7 and text.startswith(NOT_YET):
                left.append(None)
                yield "a region that the next run makes anew", call(program, [folder, *RUN], given)[1], 0
                continue
            counts = last_counts(file_in(text) or b"") if status == 0 else None
            left.append(counts)
            yield f"killed: {text[:60]!r}, status {status}", counts is not None, True
    shown = ", ".join("no region yet" if counts is None else "/".join(map(str, counts)) for counts in left)
    print(f"killed runs of {THREADS} threads and {writes} writes each left {shown}")


def main(program, count="50", writes="150"):
    passed = failed = 0
    for name, found, wanted in moments(program, int(count), int(writes)):
        if found == wanted:
            passed += 1
        else:
            failed += 1
            print(f"nv_run, {name}: found {found!r}, wanted {wanted!r}"[:600])
    print(f"{passed} passed, {failed} failed")
    return 1 if failed else 0


if __name__ == "__main__":
    sys.exit(main(*sys.argv[1:]))
