#!/usr/bin/env python3
"""Gives traces and schedules to nv_sim, line by line, and compares what it writes and its exit status with tables.

A line that breaks a rule is told by its number and one word, and of two rules the one that comes first. So each table has lines that
differ in one thing from a good one, and lines that break two rules. Closes with 'N passed, M failed', and fails where one fails.

    traces.py PROGRAM     PROGRAM is nv_sim
"""

import subprocess
import sys

HEAD = "file a\nfd 0 a rw\n"
TWO_CALLS = HEAD + "0 pwrite 0 0 68656c6c6f\n0 pread 0 0 16\n"
TWO_ANSWERS = "0 0 pwrite 0 0 5 = 5\n1 0 pread 0 0 16 = 68656c6c6f\nfile a 5 68656c6c6f\nend 2 0 0\n"
NOTHING = "file a 0 -\nend 0 0 0\n"
RUN, SCHED = ["run", "--noworker"], ["sched"]

# Third lines in no form, behind the head and before a good line.
NO_FORM = [
    "x", "0", "round 0", "round ", "0 round", "steps 0", "file", "file a b", "fd 1 a", "fd 1 a rw r", "file pwrite 0 0 ff", "fd fsync 0",
    "round pread 0 0 4", "0 sync 0", "0 PREAD 0 0 4", "0 pwrite", "0 pwrite 0 0", "0 pwrite 0 0 ff 0", "0 pread 0 0", "0 pread 0 0 4 4",
    "0 pwritev 0 0", "0 preadv 0 0 4 4", "0 preadv 0 0 1, 1", "0 pfill 0 0 1", "0 pfill 0 0 1 2 3", "0 fsync", "0 fsync 0 0", " ", " # no comment", " 0 pread 0 0 4", "0 pread 0 0 4 ",
    "0  pread 0 0 4", "0 pread  0 4", "file ",
]

# Third lines with a field that is bad, or two, and what they are told.
BAD_FIELDS = [
    ("number", ["8 pwrite 0 0 ff", "00 pwrite 0 0 ff", "x pwrite 1 0 6", "0 pwrite 00 0 ff", "0 pwrite x 0 ff", "0 pwrite 64 0 ff"]),
    ("unknown", ["0 pwrite 63 0 ff", "0 pwrite 1 x ff"]),
    ("number", ["0 pwrite 0 00 ff", "0 pwrite 0 +1 ff", "0 pwrite 0 -1 ff", "0 pwrite 0 - ff", "0 pwrite 0 x 6"]),
    ("number", ["0 pwrite 0 4611686018427387904 ff", "0 pwrite 0 123456789012345678901234567890 ff"]),
    ("hex", ["0 pwrite 0 0 6", "0 pwrite 0 0 6g", "0 pwrite 0 0 --", "0 pwrite 0 0 0x"]),
    ("hex", ["0 pwritev 0 0 00,,11", "0 pwritev 0 0 00,", "0 pwritev 0 0 ,00", "0 pwritev 0 0 00,6", "0 pwritev 0 0 " + "00" * 65_536 + "," + "00" * 65_537]),
    ("many", ["0 pwritev 0 0 " + ",".join(["6"] * 17), "0 preadv 0 0 " + ",".join(["x"] * 17)]),
    ("unknown", ["0 pread 1 0 4", "7 pread 1 0 4", "0 pwritev 1 0 6", "0 preadv 1 0 x"]),
    ("number", ["0 preadv 0 0 1,,1", "0 preadv 0 0 1,", "0 preadv 0 0 01", "0 preadv 0 0 1,-", "0 preadv 0 0 131072,1", "0 preadv 0 x 1"]),
    ("number", ["0 pread 0 00 4", "0 pread 0 0 131073", "0 pread 0 0 01", "0 pread 0 0 -", "8 pread 0 0 4"]),
    ("number", ["8 pfill 1 0 1 2", "0 pfill 0 4611686018427387904 1 2", "0 pfill 0 0 131073 0", "0 pfill 0 0 - 1"]),
    ("number", ["0 pfill 0 0 1 256", "0 pfill 0 0 1 00"]),
    ("unknown", ["0 pfill 1 0 1 2", "0 fsync 1"]),
    ("number", ["0 fsync 00", "8 fsync 0"]),
    ("repeat", ["file a"]),
    ("name", ["file A", "file .a", "file a/b", "file " + "a" * 249]),
    ("number", ["fd 0 a rw", "fd 2 a rw", "fd 64 a rw", "fd 01 a rw", "fd x b y"]),
    ("name", ["fd 1 B y"]),
    ("unknown", ["fd 1 b y"]),
    ("mode", ["fd 1 a y", "fd 1 a RW"]),
    ("bytes", ["0 pread 0 0 4\r", "0 pread 0\t0 4", "0 pread 0 0 4\0", "x\x7f", "\x80"]),
    ("form", ["x" * 262_400]),
    ("long", ["\t" * 262_401]),
    ("hex", ["0 pwrite 0 0 " + "0" * 262_146]),
]

# Good third lines, what ends them, and how many calls there are.
GOOD = [
    ("0 pwrite 0 0 6AFf", "\n", 1),
    ("0 pwrite 0 4611686018427387903 -", "\n", 1),
    ("0 pwrite 0 0 " + "0" * 262_144, "\n", 1),
    ("0 pread 0 4611686018427387903 131072", "\n", 1),
    ("0 pwritev 0 1 " + ",".join(["-"] * 16), "\n", 1),
    ("0 pwritev 0 0 " + "00" * 65_536 + ",-," + "FF" * 65_536, "\n", 1),
    ("0 preadv 0 0 " + ",".join(["8192"] * 16), "\n", 1),
    ("0 pread 0 0 0", "", 1),
    ("0 pfill 0 1 131072 255", "\n", 1),
    ("0 fsync 0", "\n0 fsync 0\n", 2),
    ("file b", "\nfd 1 b r\nfd 2 a w\n0 pread 2 0 4\n", 1),
    ("#\t" + "#" * 299_998, "\n0 pread 0 0 4\n", 1),
    ("", "\n0 pread 0 0 4\n", 1),
    ("", "", 0),
]

# Declarations behind a call or a round.
LATE = [("file b", "late"), ("file A", "late"), ("file", "form"), ("fd 1 a rw", "late"), ("fd x y z", "late")]

# What a third line is told in a form, where it is told something.
FORMS = [
    (RUN, "7 pread 0 0 4", None),
    (RUN, "8 pread 0 0 4", "number"),
    (RUN, "round", None),
    (RUN, "steps 0", "form"),
    (SCHED, "7 pread 0 0 4", None),
    (SCHED, "8 pread 0 0 4", "number"),
    (SCHED, "round", "form"),
    (SCHED, "steps 0", None),
]

ALL_FILES = "".join(f"file f{k}\n" for k in range(64))
ALL_FDS = "".join(f"fd {k} f{k} r\n" for k in range(64))
EACH_FILE = "".join(f"file f{k} 0 -\n" for k in range(64)) + "end 0 0 0\n"

# Lines in no form behind the head of a schedule.
NO_SCHEDULE = [
    "steps", "steps ", "steps 0 ", "steps  0", "step 0", "Steps 0", "0 steps", "steps 8", "steps 00", "steps 01", "steps +1", "steps -1",
    "steps x", "steps W", "steps ww", "steps w0", "steps w1", "steps w1:done", "steps 0:", "steps :done", "steps :", "steps 0::done",
    "steps 0:done:done", "steps 8:done", "steps 0:DONE", "steps 0:don", "steps 0:split", "steps 0:join", "steps w:split", "steps w:join",
    "steps 0:clean", "steps 0:1", "steps 0:w", "steps 0:cut", "steps w:cut:1", "steps done", "steps load", "steps cut", "steps cut:",
    "steps cut:0", "steps cut:01", "steps cut:+1", "steps cut:-1", "steps cut:x", "steps cut:done", "steps cut:1:1",
    "steps cut:4294967296", "steps cut:18446744073709551617", "steps crash", "steps crash:", "steps crash:Old", "steps crash:olds",
    "steps crash:-1", "steps crash:+1", "steps crash:01", "steps crash:x", "steps crash:4294967296", "steps crash:18446744073709551617",
    "steps crash:old:1", "steps crash:cut:1", "steps 0:crash", "steps w:crash:old", "steps 0 1 2 3 w:done cut:1 8",
]

# What a line behind a schedule is told, where it is told something.
BEHIND = [
    (None, ["steps w", "#", ""]),
    ("late", ["file b", "file A", "fd 1 a rw", "fd x y z", "0 pwrite 0 0 aa", "0 pread 0 0 4", "0 pfill 0 0 1 2", "0 fsync 0"]),
    ("late", ["8 pwrite 1 x 6", "x fsync 1"]),
    ("form", ["file", "0 fsync", "0 pread 0 0", "0  fsync", "round", "steps 8"]),
    ("bytes", ["steps\t8", "0 fsync\t0"]),
]

# A line of 262,400 bytes is the longest.
LONGEST = HEAD + "steps" + " w" * 131_197

# Traces, and the whole report.
REPORTS = [
    ("the calls of each kind", RUN, TWO_CALLS + "0 pread 0 9 0\n0 fsync 0\n",
     "0 0 pwrite 0 0 5 = 5\n1 0 pread 0 0 16 = 68656c6c6f\n2 0 pread 0 9 0 = -\n3 0 fsync 0 = 0\nfile a 5 68656c6c6f\nend 4 0 0\n"),
    ("a fill is a write", RUN, "file a\nfd 0 a w\n0 pfill 0 7 3 255\n",
     "0 0 pwrite 0 7 3 = 3\nfile a 10 00000000000000ffffff\nend 1 0 0\n"),
    ("the longest name", RUN, f"file {'a' * 248}\n", f"file {'a' * 248} 0 -\nend 0 0 0\n"),
    ("sixty-four files and as many descriptors", RUN, ALL_FILES + ALL_FDS, EACH_FILE),
    ("the largest input", RUN, TWO_CALLS + "#" * (67_108_864 - len(TWO_CALLS)), TWO_ANSWERS),
    ("the longest schedule", SCHED, LONGEST, NOTHING),
    ("a crash with each pick", SCHED, HEAD + "steps crash:old crash:new crash:torn\nsteps crash:mixed crash:0 crash:4294967295\n", "crash\n" * 6 + NOTHING),
]


def told(words, given, number, why):
    """A trace, and the line that refuses it at the line of a number; or none where it is good."""
    return words, given, f"error line {number} {why}\n" if why else None


def refusals():
    behind = "\n0 pread 0 0 4\n"
    yield from (told(RUN, HEAD + line + behind, 3, "form") for line in NO_FORM)
    yield from (told(RUN, HEAD + line + behind, 3, why) for why, lines in BAD_FIELDS for line in lines)
    yield from (told(RUN, f"{HEAD}{third}\n{line}\n", 4, why) for third in ["0 fsync 0", "round"] for line, why in LATE)
    yield from (told(words, f"{HEAD}{line}\n", 3, why) for words, line, why in FORMS)
    yield told(RUN, ALL_FILES + "file A\n", 65, "many")
    yield told(RUN, ALL_FILES + ALL_FDS + "fd x B y\n", 129, "many")
    yield from (told(SCHED, HEAD + line, 3, "form") for line in NO_SCHEDULE)
    for first, number in [("steps 0\n", 4), ("0 fsync 0\nsteps w:done\n", 5), ("steps crash:old\n", 4)]:
        yield from (told(SCHED, HEAD + first + line, number, why) for why, lines in BEHIND for line in lines)
    yield told(SCHED, LONGEST + "0", 3, "form")
    yield told(SCHED, LONGEST + "0\t", 3, "long")
    yield RUN, TWO_CALLS + "#" * 67_108_864, "error input long\n"


def run(program, words, given):
    """What the program writes, and its status. Each character of the input is a byte."""
    done = subprocess.run([program, *words], input=given.encode("latin-1"), stdout=subprocess.PIPE, timeout=600)
    return done.stdout.decode(), done.returncode


def calls_of(report):
    """How many calls a report has, by its last line."""
    word, *counts = report.splitlines()[-1].split(" ")
    return sum(map(int, counts)) if word == "end" else None


def checks(program):
    for words, given, line in refusals():
        report, status = run(program, words, given)
        is_right = (report, status) == (line, 2) if line else status == 0
        yield is_right, (words, given, line or "no refusal"), (report, status)
    for line, end, calls in GOOD:
        report, status = run(program, RUN, HEAD + line + end)
        yield (status, calls_of(report)) == (0, calls), (line, end, f"{calls} calls"), (report, status)
    for name, words, given, wanted in REPORTS:
        found = run(program, words, given)
        yield found == (wanted, 0), (name, wanted), found


def main(program):
    passed = failed = 0
    for is_right, wanted, found in checks(program):
        if is_right:
            passed += 1
        else:
            failed += 1
            print(f"wanted {wanted!r}"[:400], f"found {found!r}"[:400], sep="\n")
    print(f"{passed} passed, {failed} failed")
    return 1 if failed else 0


if __name__ == "__main__":
    sys.exit(main(*sys.argv[1:]))
