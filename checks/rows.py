#!/usr/bin/env python3
"""Runs commands of nv_sim over its blank memory, and compares the report and the status of each with a row.

A bar stands for a line feed. Most traces are of one file, open to read and write: their first two lines are left out, as `A`. Where
threads race, a row has each report that the rules allow. Closes with 'N passed, M failed', and fails where one fails.

    rows.py PROGRAM     PROGRAM is nv_sim
"""

import shlex
import subprocess
import sys

A = "file a|fd 0 a rw|"
HELLO = A + "0 pwrite 0 0 68656c6c6f|0 pread 0 0 16|"
WHOLE = "0 0 pwrite 0 0 5 = 5|1 0 pread 0 0 16 = 68656c6c6f|file a 5 68656c6c6f|end 2 0 0|"
# Of a run of HELLO that is stopped: its write is lost or kept, or placed, and its read met the fault.
LOST = "refused 0 pread 0 0 16: stopped|open 0 pwrite 0 0 5: lost|file a 0 -|end 0 1 1|"
KEPT = "refused 0 pread 0 0 16: stopped|open 0 pwrite 0 0 5: kept|file a 5 68656c6c6f|end 0 1 1|"
AT_THE_STORE = "0 0 pwrite 0 0 5 = 5|refused 0 pread 0 0 16: store fault|file a 5 68656c6c6f|end 1 1 0|"
# A write whose bytes are there already is kept or lost by its number, whatever the file shows.
TWICE = A + "0 pwrite 0 0 09|0 pwrite 0 0 09|"
TWICE_LOST = "0 0 pwrite 0 0 1 = 1|open 0 pwrite 0 0 1: lost|file a 1 09|end 1 0 1|"
TWICE_KEPT = TWICE_LOST.replace("lost", "kept")
SIX_WRITES = A + "".join(f"0 pwrite 0 {k} 0{k}|" for k in range(6))
THREE_PIECES = A + "0 pfill 0 0 192 5|"

# Words, a trace and its report. A write of at most 64 bytes takes 12 device calls, of which the last is the fence of its commit, and the
# 13th is the read's. Of a group each entry of one line of data takes 9, and the commit word 3: the 19th is the first of the third entry,
# and the 30th the fence of the commit word.
RUNS = [
    ("run --noworker", HELLO, WHOLE),
    ("run --noworker", A + "round|0 pwrite 0 0 68656c6c6f|round|round|0 pread 0 0 16|round|", WHOLE),
    ("run", "", "end 0 0 0|"),
    ("run --noworker", A + "0 pwrite 0 4095 0909|0 pread 0 63 962|0 pread 0 4096 1|",
     "refused 0 pwrite 0 4095 2: too far|refused 0 pread 0 63 962: too long|refused 0 pread 0 4096 1: too far|file a 0 -|end 0 3 0|"),
    ("run --noworker", A + "0 pwrite 0 0 09|0 pread 0 60 9|", "0 0 pwrite 0 0 1 = 1|1 0 pread 0 60 9 = -|file a 1 09|end 2 0 0|"),
    # Calls of no bytes, a descriptor for each mode, and two files with three descriptors.
    ("run", A + "0 pwrite 0 0 0102|0 pread 0 9 0|0 pwrite 0 9 -|0 fsync 0|",
     "0 0 pwrite 0 0 2 = 2|1 0 pread 0 9 0 = -|2 0 pwrite 0 9 0 = 0|3 0 fsync 0 = 0|file a 2 0102|end 4 0 0|"),
    ("run", "file a|fd 0 a r|0 pwrite 0 0 01|", "refused 0 pwrite 0 0 1: bad descriptor|file a 0 -|end 0 1 0|"),
    ("run --noworker", "file a|fd 0 a w|0 pwrite 0 0 01|0 pread 0 9999 0|0 fsync 0|",
     "0 0 pwrite 0 0 1 = 1|1 0 fsync 0 = 0|refused 0 pread 0 9999 0: bad descriptor|file a 1 01|end 2 1 0|"),
    ("run --noworker", "file a|file b|fd 0 a rw|fd 1 b rw|fd 2 a r|0 pwrite 0 0 61|0 pwrite 1 0 62|0 pread 2 0 4|0 pread 1 0 4|",
     "0 0 pwrite 0 0 1 = 1|1 0 pwrite 1 0 1 = 1|2 0 pread 2 0 4 = 61|3 0 pread 1 0 4 = 62|file a 1 61|file b 1 62|end 4 0 0|"),
    # A gap reads as zeros, and a read ends where the file does.
    ("run", A + "0 pwrite 0 100 ff|0 pread 0 62 4|0 pread 0 98 8|",
     f"0 0 pwrite 0 100 1 = 1|1 0 pread 0 62 4 = 00000000|2 0 pread 0 98 8 = 0000ff|file a 101 {'00' * 100}ff|end 3 0 0|"),
    # Bytes 62 and 63 are the last ones of a page, and the next two lie behind it.
    ("run --noworker", A + "0 pwrite 0 62 01020304|0 pread 0 60 9|",
     f"0 0 pwrite 0 62 4 = 4|1 0 pread 0 60 9 = 000001020304|file a 66 {'00' * 62}01020304|end 2 0 0|"),
    # Writes of 64 pages are made, and longer ones refused.
    ("run --noworker --entries 64 --pages 65", A + "0 pfill 0 0 4096 7|0 pfill 0 0 4097 7|",
     f"0 0 pwrite 0 0 4096 = 4096|refused 0 pwrite 0 0 4097: too long|file a 4096 {'07' * 4096}|end 1 1 0|"),
    # So are those of as many pages as the log has entries, whatever their page is that isn't whole.
    ("run --noworker", A + "0 pfill 0 0 1024 7|0 pfill 0 0 1025 7|0 pfill 0 1 1024 7|",
     "0 0 pwrite 0 0 1024 = 1024|refused 0 pwrite 0 0 1025: too long|refused 0 pwrite 0 1 1024: too long|"
     f"file a 1024 {'07' * 1024}|end 1 2 0|"),
    # The file limit.
    ("run --pages 2", A + "0 pwrite 0 127 09|0 pwrite 0 128 09|0 pread 0 120 8|0 pread 0 120 9|0 pread 0 129 0|0 pwrite 0 128 -|",
     "0 0 pwrite 0 127 1 = 1|1 0 pread 0 120 8 = 0000000000000009|2 0 pwrite 0 128 0 = 0|refused 0 pwrite 0 128 1: too far|"
     f"refused 0 pread 0 120 9: too far|refused 0 pread 0 129 0: too far|file a 128 {'00' * 127}09|end 3 3 0|"),
    # A full log, and a worker that makes room in it.
    ("run --noworker --entries 2", A + "0 pwrite 0 0 01|0 pwrite 0 1 02|0 pwrite 0 2 03|",
     "0 0 pwrite 0 0 1 = 1|1 0 pwrite 0 1 1 = 1|refused 0 pwrite 0 2 1: again 2 0|file a 2 0102|end 2 1 0|"),
    ("run --entries 2", SIX_WRITES, "".join(f"{k} 0 pwrite 0 {k} 1 = 1|" for k in range(6)) + "file a 6 000102030405|end 6 0 0|"),
    # One buffer.
    ("run --noworker --cache 1",
     A + "0 pfill 0 0 128 1|0 pread 0 0 2|0 pwrite 0 1 0a0b|0 pread 0 64 1|0 pwrite 0 2 0c|0 pread 0 0 5|",
     "0 0 pwrite 0 0 128 = 128|1 0 pread 0 0 2 = 0101|2 0 pwrite 0 1 2 = 2|3 0 pread 0 64 1 = 01|4 0 pwrite 0 2 1 = 1|"
     f"5 0 pread 0 0 5 = 010a0c0101|file a 128 010a0c{'01' * 125}|end 6 0 0|"),
    # Stops.
    ("run --noworker --stop 12 --image old", HELLO, LOST),
    ("run --noworker --stop 12 --image 0", HELLO, KEPT),
    ("run --noworker --stop=12 --image=torn", HELLO, LOST),
    ("run --noworker --stop=12 --image=mixed", HELLO, LOST),
    ("run --noworker --stop=12 --image=new", HELLO, KEPT),
    ("run --noworker --stop 13 --image old", HELLO, AT_THE_STORE),
    ("run --noworker --stop=4294967295 --image=4294967295", HELLO, WHOLE),
    ("run --noworker --stop=1", HELLO, LOST),
    ("run --noworker --image 1", HELLO, WHOLE),
    ("run --noworker --stop 13 --image new", TWICE, TWICE_LOST),
    ("run --noworker --stop 24 --image old", TWICE, TWICE_LOST),
    ("run --noworker --stop 24 --image new", TWICE, TWICE_KEPT),
    ("run --noworker --image new --stop 19", THREE_PIECES, "open 0 pwrite 0 0 192: lost|file a 0 -|end 0 0 1|"),
    ("run --noworker --image new --stop 30", THREE_PIECES, f"open 0 pwrite 0 0 192: kept|file a 192 {'05' * 192}|end 0 0 1|"),
    # Parts across a page, empty ones first, last and alone, and a read of parts over the end of the file.
    ("run --noworker", A + "0 pwritev 0 62 aa,-,bbcc|0 preadv 0 61 2,0,9,1|",
     f"0 0 pwritev 0 62 1,0,2 = 3|1 0 preadv 0 61 2,0,9,1 = 00aa,-,bbcc,-|file a 65 {'00' * 62}aabbcc|end 2 0 0|"),
    ("run --noworker", A + "0 pwritev 0 0 -,01,-|0 pwritev 0 9 -|0 preadv 0 0 0|0 preadv 0 0 0,1|",
     "0 0 pwritev 0 0 0,1,0 = 1|1 0 pwritev 0 9 0 = 0|2 0 preadv 0 0 0 = -|3 0 preadv 0 0 0,1 = -,01|file a 1 01|end 4 0 0|"),
    ("run --noworker", A + "0 pwritev 0 4095 01,02|0 preadv 0 63 900,62|", "refused 0 pwritev 0 4095 1,1: too far|refused 0 preadv 0 63 900,62: too long|file a 0 -|end 0 2 0|"),
    # A number may have a plus, and zeros before it. What loads print load.py computes.
    ("gen +0 0001 +01", "", "gen 0 1 1|placed 65|written 6240|read 0|sum 38227152|"),
    # Schedules without calls.
    ("sched --page=128 --entries 2 --cache 1 --batch=3 --pages 2 --image 7", "file a|steps 0:done|", "file a 0 -|end 0 0 0|"),
    ("sched --page=128 --entries 2 --cache 1 --batch=3 --pages 2 --image 7", "", "end 0 0 0|"),
]

# Of two calls of a round either may come first; both come behind the round before.
ROUNDS = A + "0 pwrite 0 0 01|round|0 pwrite 0 1 02|1 pread 0 0 8|"
EITHER = [
    "0 0 pwrite 0 0 1 = 1|1 0 pwrite 0 1 1 = 1|2 1 pread 0 0 8 = 0102|file a 2 0102|end 3 0 0|",
    "0 0 pwrite 0 0 1 = 1|1 1 pread 0 0 8 = 01|2 0 pwrite 0 1 1 = 1|file a 2 0102|end 3 0 0|",
]

# Options in one word and in two, in any order, and the bytes of a file that they make: a read of no bytes may end there, and no further.
SIZES = [
    ("", 4096),
    ("--page=64", 4096),
    ("--page=4096", 262_144),
    ("--page +128", 8192),
    ("--page=00192", 12_288),
    ("--entries=2", 4096),
    ("--entries 1024", 4096),
    ("--cache=1", 4096),
    ("--cache 16384", 4096),
    ("--batch=1", 4096),
    ("--batch 1024", 4096),
    ("--pages=1", 64),
    ("--pages 1024", 65_536),
    ("--image 7 --page 128 --pages=2 --stop 4000000000 --batch 5 --cache 6 --entries 8", 256),
]

# A line in the third place that is bad, and what is said of it.
BAD_LINES = [
    ("run --noworker", A + "0 pwrite 0 0 6|", "error line 3 hex|"),
    ("run --noworker", A + "0 pread 1 0 4|", "error line 3 unknown|"),
    ("run --noworker", A + "0 pread 0 00 4|", "error line 3 number|"),
    ("run --noworker", A + "x|", "error line 3 form|"),
    ("run --noworker", A + "8 pread 0 0 4|", "error line 3 number|"),
    ("run --noworker", A + "round|file b|", "error line 4 late|"),
    ("run", "steps 0|", "error line 1 form|"),
    ("sched", A + "steps 0|0 fsync 0|", "error line 4 late|"),
    ("sched", "round|", "error line 1 form|"),
    ("sched", "steps cut:0|", "error line 1 form|"),
]

# Words that are no command; the first are none at all.
NO_COMMANDS = """
run --help
run --page 65
--noworker
--noworker run
Run --noworker
--
--help
-h
help
--version
-V
run --noworker --help
run --noworker -h
run --noworker help
run --noworker --version
run --noworker -V
run --noworker --
run -- --noworker
run --noworker x
run --noworker ''
run --noworker --noworker
run --noworker=1
run --noworker --stop
run --stop --noworker
run --noworker --stop=3 --stop=4
run --noworker --page=64 --page 64
run --noworker --image old --image old
run --noworker --sto 3
run --noworker -stop 3
recover x
recover --noworker
recover recover
recover --
sched --noworker
sched --stop 3
sched --
sched --help
sched --page 65
sched --image NEW
sched steps
sched --page 64 --page=64
Sched
gen
gen 0
gen 0 0
gen 0 0 0
gen 0 0 9
gen 0 100001 1
gen 4294967296 0 1
gen -1 0 1
gen '' 0 1
gen 0 0 1 1
gen -- 0 1
""".split("\n")[:-1]

# Values of an option that are none, in the option's word and in the next one.
BAD_VALUES = {
    "--page": ["0", "63", "65", "4097", "4160", "-64", ""],
    "--entries": ["1", "1025", "x"],
    "--cache": ["0", "16385", "4.0"],
    "--batch": ["0", "1025", "four"],
    "--pages": ["0", "1025", " 1"],
    "--stop": ["0", "4294967296", "18446744073709551617", "-1", ""],
    "--image": ["4294967296", "NEW", "Mixed", "-1", "", "18446744073709551617"],
}


def limit(size):
    """A trace that asks how many bytes a file may have, and its report."""
    given = f"file a|fd 0 a r|0 pread 0 {size} 0|0 pread 0 {size + 1} 0|"
    return given, f"0 0 pread 0 {size} 0 = -|refused 0 pread 0 {size + 1} 0: too far|file a 0 -|end 1 1 0|"


def rows():
    """The words, the trace, the reports that are right, and the status."""
    for words, given, report in RUNS:
        yield shlex.split(words), given, [report], 0
    for _ in range(10):
        yield ["run"], ROUNDS, EITHER, 0
    for words, size in SIZES:
        given, report = limit(size)
        yield ["run", "--noworker", *words.split()], given, [report], 0
    for words, given, said in BAD_LINES:
        yield words.split(), given, [said], 2
    for words in NO_COMMANDS:
        yield shlex.split(words), HELLO, ["error usage|"], 1
    for option, values in BAD_VALUES.items():
        for value in values:
            for words in ([option, value], [f"{option}={value}"]):
                yield ["run", "--noworker", *words], HELLO, ["error usage|"], 1


def main(program):
    passed = failed = 0
    for words, given, reports, status in rows():
        done = subprocess.run([program, *words], input=given.replace("|", "\n").encode(), capture_output=True, timeout=600)
        found = done.stdout.decode().replace("\n", "|")
        if found in reports and (done.returncode, done.stderr) == (status, b""):
            passed += 1
        else:
            failed += 1
            print(f"nv_sim {shlex.join(words)}, status {done.returncode}: {found}, wanted {reports[0]}, {done.stderr!r}"[:900])
    print(f"{passed} passed, {failed} failed")
    return 1 if failed else 0


if __name__ == "__main__":
    sys.exit(main(*sys.argv[1:]))
