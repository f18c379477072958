#!/usr/bin/env python3
"""Runs nv_sim as its users do, and compares what it writes and its exit status with a table.

The gate before this proves what nv_main answers; here the words, the standard streams and the status go through the
system. rows.py has the commands and their reports. Closes with 'N passed, M failed', and fails where one fails.
"""

import os
import resource
import subprocess
import sys

HELLO = b"file a\nfd 0 a rw\n0 pwrite 0 0 68656c6c6f\n0 pread 0 0 16\n"
REPORT = b"0 0 pwrite 0 0 5 = 5\n1 0 pread 0 0 16 = 68656c6c6f\nfile a 5 68656c6c6f\nend 2 0 0\n"
USAGE = (b"error usage\n", 1)
READ = (b"error read\n", 3)
RUN = [b"run", b"--noworker"]
IN_ROUNDS = b"file a\nfd 0 a rw\n0 pwrite 0 0 01\nround\n1 pread 0 0 8\nround\n0 pwrite 0 1 02\n"
IN_TURN = b"0 0 pwrite 0 0 1 = 1\n1 1 pread 0 0 8 = 01\n2 0 pwrite 0 1 1 = 1\nfile a 2 0102\nend 3 0 0\n"
# The first limits that a user meets: a file of 4,096 bytes, a call of 16 pages, a log of 16 entries.
AT_THE_END = b"file a\nfd 0 a rw\n0 pfill 0 4095 1 1\n0 pfill 0 4096 1 1\n0 pread 0 4095 2\n"
ENDED = b"0 0 pwrite 0 4095 1 = 1\nrefused 0 pwrite 0 4096 1: too far\nrefused 0 pread 0 4095 2: too far\n"
SIXTEEN_PAGES = b"file a\nfd 0 a rw\n0 pfill 0 0 1024 2\n0 pfill 0 0 1025 3\n0 pfill 0 63 970 3\n"
LENGTHS = b"0 0 pwrite 0 0 1024 = 1024\nrefused 0 pwrite 0 0 1025: too long\nrefused 0 pwrite 0 63 970: too long\n"
SEVENTEEN = b"file a\nfd 0 a rw\n" + b"0 pfill 0 0 1 255\n" * 17
FULL = b"".join(b"%d 0 pwrite 0 0 1 = 1\n" % k for k in range(16)) + b"refused 0 pwrite 0 0 1: again 16 0\nfile a 1 ff\nend 16 1 0\n"
RACE = b"file a\nfd 0 a rw\n0 pfill 0 0 128 0\n0 pwrite 0 0 aa\n1 pwrite 0 64 bb\nsteps 0:done 0:seize\nsteps 1:done 0:pledge cut:11 0\n"
RACED = b"0 0 pwrite 0 0 128 = 128\n1 1 pwrite 0 64 1 = 1\nopen 0 pwrite 0 0 1: %s\nfile a 128 %sbb" + b"00" * 63 + b"\nend 2 0 1\n"
STUCK = b"file a\nfd 0 a rw\n0 pwrite 0 0 01\n1 pwrite 0 0 02\nsteps 0:place 1:done\n"
STOPPED = b"refused 0 pread 0 0 16: stopped\nopen 0 pwrite 0 0 5: %s\nfile a %s\nend 0 1 1\n"


def line(number, why):
    return (b"error line %d %s\n" % (number, why), 2)


# What the words and the input make of the program. No byte of the input is read where the words are no command.
TABLE = [
    ("hello", RUN, HELLO, (REPORT, 0)),
    ("the command alone", [b"run"], HELLO, (REPORT, 0)),
    ("two threads in rounds", [b"run"], IN_ROUNDS, (IN_TURN, 0)),
    ("two threads in rounds and no worker", RUN, IN_ROUNDS, (IN_TURN, 0)),
    ("no line feed at the end", RUN, HELLO[:-1], (REPORT, 0)),
    ("an empty input", RUN, b"", (b"end 0 0 0\n", 0)),
    ("stopped, the write lost", RUN + [b"--stop", b"12"], HELLO, (STOPPED % (b"lost", b"0 -"), 0)),
    ("stopped, the write kept", RUN + [b"--stop=12", b"--image", b"0"], HELLO, (STOPPED % (b"kept", b"5 68656c6c6f"), 0)),
    ("a stop that never comes", RUN + [b"--image=torn", b"--stop", b"4294967295"], HELLO, (REPORT, 0)),
    ("a schedule, the write lost", [b"sched"], RACE, (RACED % (b"lost", b"00" * 64), 0)),
    ("a schedule, the write kept", [b"sched", b"--image", b"new"], RACE, (RACED % (b"kept", b"aa" + b"00" * 63), 0)),
    ("a schedule that comes to no end", [b"sched"], STUCK, (b"error turns\n", 8)),
    ("a schedule without a worker", [b"sched", b"--noworker"], RACE, USAGE),
    ("a schedule that stops", [b"sched", b"--stop", b"3"], RACE, USAGE),
    ("steps of a run", [b"run"], RACE, line(6, b"form")),
    ("rounds of a schedule", [b"sched"], IN_ROUNDS, line(4, b"form")),
    ("all sizes", RUN + [b"--page=128", b"--entries", b"2", b"--pages=1", b"--cache", b"+4", b"--batch=004"], HELLO, (REPORT, 0)),
    ("the end of a file", RUN, AT_THE_END, (ENDED + b"file a 4096 " + b"00" * 4095 + b"01\nend 1 2 0\n", 0)),
    ("sixteen pages", [b"run"], SIXTEEN_PAGES, (LENGTHS + b"file a 1024 " + b"02" * 1024 + b"\nend 1 2 0\n", 0)),
    ("seventeen entries", RUN, SEVENTEEN, (FULL, 0)),
    ("a recovery of nothing", [b"recover"], b"", (b"error region truncated 0 18\n", 7)),
    ("a look at nothing", [b"look"], b"", (b"error region truncated 0 18\n", 7)),
    ("a look at nothing and its files", [b"look", b"--files"], b"", (b"error region truncated 0 18\n", 7)),
    ("two stops", RUN + [b"--stop", b"3", b"--stop=4"], HELLO, USAGE),
    ("an option of a look", [b"look", b"--noworker"], HELLO, USAGE),
    ("the option of a look twice", [b"look", b"--files", b"--files"], HELLO, USAGE),
    ("an empty word", [b""], HELLO, USAGE),
    ("the first word not UTF-8", [b"\xff", b"--noworker"], HELLO, USAGE),
    ("the second word not UTF-8", [b"run", b"\xc3\x28"], HELLO, USAGE),
    ("a third word not UTF-8", RUN + [b"\xed\xa0\x80"], HELLO, USAGE),
    ("a bad first line", RUN, b"x\n" + HELLO, line(1, b"form")),
    ("a bad second line", RUN, b"file a\nx\n", line(2, b"form")),
    ("a bad last line that no line feed ends", RUN, HELLO + b"0 pread 0 0", line(5, b"form")),
    ("a ninth thread", RUN, HELLO + b"8 fsync 0\n", line(5, b"number")),
    ("a byte that no line has", RUN, HELLO + b"\xff\n", line(5, b"bytes")),
    ("an input of the limit", RUN, b"#" * 67_108_864, (b"end 0 0 0\n", 0)),
    ("an input past the limit", RUN, b"#" * 67_108_865, (b"error input long\n", 2)),
    ("a bad line before the limit is passed", RUN, b"x\n" + b"#" * 67_108_864, line(1, b"form")),
]


def run(program, words, **streams):
    return subprocess.run([program, *words], stderr=subprocess.PIPE, timeout=600, **streams)


def table(program):
    for name, words, given, wanted in TABLE:
        done = run(program, words, input=given, stdout=subprocess.PIPE)
        yield name, (done.stdout, done.returncode), wanted, done.stderr


def streams(program):
    """Standard streams that are closed, full or no file."""
    done = run(program, RUN, stdin=os.open("/", os.O_RDONLY), stdout=subprocess.PIPE)
    yield "a folder as input", (done.stdout, done.returncode), READ, done.stderr
    done = run(program, RUN, stdout=subprocess.PIPE, preexec_fn=lambda: os.close(0))
    yield "closed input", (done.stdout, done.returncode), READ, done.stderr
    done = run(program, RUN, input=HELLO, preexec_fn=lambda: os.close(1))
    yield "closed output", done.returncode, 4, done.stderr
    for name, words in [("a report", RUN), ("an error line", [])]:
        with open("/dev/full", "wb") as full:
            done = run(program, words, input=HELLO, stdout=full)
        yield f"no room for {name}", done.returncode, 4, done.stderr
    reader, writer = os.pipe()
    os.close(reader)
    done = run(program, RUN, input=HELLO, stdout=writer)
    os.close(writer)
    yield "output that nobody reads", done.returncode, 4, done.stderr


def memory(program):
    """A program that may take 24 MiB, and a trace that it would have to keep."""
    few = 24 << 20
    limit = lambda: resource.setrlimit(resource.RLIMIT_AS, (few, few))
    given = b"file a\nfd 0 a rw\n" + b"".join(b"0 pwrite 0 0 " + b"61" * 131_072 + b"\n" for _ in range(240))
    done = run(program, RUN, input=given, stdout=subprocess.PIPE, preexec_fn=limit)
    yield "want of memory", (done.stdout, done.returncode), (b"error no memory\n", 6), done.stderr


def main(program):
    passed = failed = 0
    for cases in (table, streams, memory):
        for name, found, wanted, errors in cases(program):
            if found == wanted and errors == b"":
                passed += 1
            else:
                failed += 1
                print(f"nv_sim, {name}: found {found!r}, wanted {wanted!r}, standard error {errors!r}"[:600])
    print(f"{passed} passed, {failed} failed")
    return 1 if failed else 0


if __name__ == "__main__":
    sys.exit(main(sys.argv[1]))
