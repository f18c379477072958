#!/usr/bin/env python3
"""Counts what the threads of a run take from the heap once they are at work: nothing.

A run of nv_run over a folder has four threads and a worker, and three rounds, so that threads are started anew. Each thread makes calls
of each kind, most of them several times: writes of one page and of many, reads of bytes that are there and past the end of the file,
syncs, calls of no bytes, and calls that are refused by what they ask for. thread_memory/count.c, loaded before the C library, counts each
thread's mallocs and reallocs behind its first call of a device, which is in its first call of the trace. There must be none, whatever
the schedule: a thread takes the room for its answers and for the bytes that its reads give before its first call. The thread that began
the program isn't looked at, since it reads the trace and writes the report. Needs a C compiler. Closes with 'N passed, M failed', and
fails where one fails.

    thread_memory.py PROGRAM     PROGRAM is nv_run
"""

import os
import shutil
import subprocess
import sys
import tempfile

THREADS, ROUNDS, TURNS = 4, 3, 8
# The first call of a turn calls a device: its page isn't in a buffer, or its group is committed.
TURN = """
T pfill 0 OFF 96 7
T pread 0 OFF 96
T pread 0 0 1000
T pread 0 4000 50
T pfill 0 OFF 500 9
T fsync 0
T pread 0 5 0
T pfill 0 5 0 1
T pread 1 0 8
T pfill 2 0 8 8
T pread 0 4090 50
T pread 3 0 16
T fsync 3
""".split("\n")[1:-1]


def trace():
    lines = ["file a", "file b", "fd 0 a rw", "fd 1 a w", "fd 2 a r", "fd 3 b rw"]
    for place in range(ROUNDS):
        lines += ["round"] * (place > 0)
        for turn in range(TURNS):
            for thread in range(THREADS):
                offset = 512 * thread + 64 * turn + place
                lines += [line.replace("T", str(thread), 1).replace("OFF", str(offset)) for line in TURN]
    return "\n".join([*lines, ""]).encode()


def build(room):
    compiler = shutil.which("cc") or shutil.which("gcc") or shutil.which("clang")
    if compiler is None:
        sys.exit("thread_memory.py needs a C compiler")
    source = os.path.join(os.path.dirname(os.path.realpath(__file__)), "thread_memory", "count.c")
    subprocess.run([compiler, "-O2", "-shared", "-fPIC", "-o", f"{room}/count.so", source, "-ldl"], check=True)


def counted(program, room):
    """The status of a run, how many of its calls have an answer, and a row for each of its threads."""
    environment = {**os.environ, "LD_PRELOAD": f"{room}/count.so", "COUNTS": f"{room}/counts"}
    os.mkdir(f"{room}/folder")
    words = [program, f"{room}/folder", "run", "--cache", "2"]
    done = subprocess.run(words, input=trace(), stdout=subprocess.PIPE, env=environment, timeout=600)
    with open(f"{room}/counts", encoding="ascii") as rows:
        return done.returncode, done.stdout.count(b"\n"), [[int(word) for word in row.split()] for row in rows]


def main(program):
    with tempfile.TemporaryDirectory() as room:
        build(room)
        status, lines, rows = counted(os.path.realpath(program), room)
    wanted = THREADS * ROUNDS * TURNS * len(TURN) + 3
    failures = []
    if (status, lines) != (0, wanted):
        failures.append(f"status {status}, {lines} lines and not {wanted}")
    others = [row for row in rows if row[0] == 0 and row[1] > 0]
    # One of the threads of a round may be the one that began the program, and the worker may find nothing to do.
    if len(others) < (THREADS - 1) * ROUNDS:
        failures.append(f"{len(others)} threads called a device")
    for _, calls, before, after, regrown in others:
        if after + regrown > 0:
            failures.append(f"a thread that called devices {calls} times took memory {before} times before, and then {after} times, and made {regrown} of these longer")
    for failure in failures:
        print(failure)
    checked = len(others) + 2
    print(f"{checked - len(failures)} passed, {len(failures)} failed")
    return len(failures) > 0


sys.exit(main(sys.argv[1]))
