#!/usr/bin/env python3
"""Stops runs of two threads, with a worker beside them and without, at each of many device calls, and looks at what each report says.

A report must be of a legal history: each call of the trace stands in it once, with the place that its line counts, the answered calls
of a thread in the order of its lines, those of a round behind the ones before it, each with the reply of plain files; and the file is
the one after the history and then the open writes that were kept. A run that no stop meets has all calls answered.
Closes with 'N passed, M failed', and fails where one fails.

    stops.py PROGRAM [STOPS]     PROGRAM is nv_sim; it is stopped at each device call from 1 to STOPS, 200 unless said
"""

import subprocess
import sys

# Each call of a thread has an offset and a length of its own kind, so that a line of a report tells which one it is.
CALLS = """
0 pfill 0 0 3 3
1 pfill 0 2 130 130
0 pfill 0 60 10 10
1 pread 0 0 70
0 pfill 0 190 66 66
1 pfill 0 1 1 1
0 pfill 0 1 255 255
1 pfill 0 128 64 64
0 pread 0 100 99
1 fsync 0
round
1 pfill 0 62 5 5
0 pfill 0 64 2 2
0 pfill 0 255 1 1
1 pfill 0 30 200 200
0 pread 0 0 256
1 pread 0 255 1
0 pfill 0 126 6 6
1 pfill 0 120 20 20
0 fsync 0
1 pfill 0 0 70 70
""".split("\n")[1:-1]
TRACE = "\n".join(["file a", "fd 0 a rw", *CALLS, ""]).encode()
SIZES = ["--entries", "6", "--cache", "2"]
PICKS = ["old", "new", "torn", "mixed", "5"]
WHYS = {"stopped", "region fault", "store fault"}


class Call:
    """A call of the trace: its thread, its round, and what a report calls it."""

    def __init__(self, line, turn):
        fields = line.split(" ")
        self.thread, self.round, self.is_write = fields[0], turn, fields[1] == "pfill"
        self.name = " ".join(["pwrite" if self.is_write else fields[1], *fields[2:5]])
        self.at, self.size = map(int, fields[3:5]) if len(fields) > 3 else (0, 0)
        self.bytes = bytes([int(fields[5])]) * self.size if self.is_write else b""

    def reply_of(self, file):
        if self.is_write:
            return str(self.size)
        if self.name.startswith("fsync"):
            return "0"
        return file[self.at : self.at + self.size].hex() or "-"

    def leaves(self, file):
        if not self.bytes:
            return file
        return file.ljust(self.at, b"\0")[: self.at] + self.bytes + file[self.at + self.size :]


def calls_of(lines):
    calls, turn = [], 0
    for line in lines:
        if line == "round":
            turn += 1
        else:
            calls.append(Call(line, turn))
    return calls


def taken(left, thread, name):
    """The first of the calls that are left which has this thread and name, taken away from them."""
    for call in left:
        if (call.thread, call.name) == (thread, name):
            left.remove(call)
            return call
    raise ValueError(f"no call {thread} {name} is left")


def wanted(report):
    """What the report must be, going by which of its calls were answered, refused, kept and lost, and by their order; else why not."""
    calls = calls_of(CALLS)
    order = {id(call): place for place, call in enumerate(calls)}
    left, file, text = list(calls), b"", []
    last, turn, ends = {}, 0, [0, 0, 0]
    for line in report.splitlines():
        first, thread, rest = (line.split(" ", 2) + ["", ""])[:3]
        if first.isdigit():
            call = taken(left, thread, rest.split(" = ")[0])
            if order[id(call)] < last.get(thread, 0) or call.round < turn:
                raise ValueError(f"{line!r} is out of order")
            last[thread], turn = order[id(call)], call.round
            text.append(f"{ends[0]} {thread} {call.name} = {call.reply_of(file)}")
            file = call.leaves(file)
            ends[0] += 1
        elif first == "refused":
            name, _, why = rest.partition(": ")
            taken(left, thread, name)
            text.append(line if why in WHYS else f"refused for {why}?")
            ends[1] += 1
        elif first == "open":
            name, _, fate = rest.partition(": ")
            call = taken(left, thread, name)
            file = call.leaves(file) if fate == "kept" else file
            text.append(line if call.is_write and fate in ("kept", "lost") else f"open and {fate}?")
            ends[2] += 1
    if left:
        raise ValueError(f"{left[0].thread} {left[0].name} is missing")
    text += [f"file a {len(file)} {file.hex() or '-'}", "end %d %d %d" % tuple(ends)]
    return "\n".join(text) + "\n"


def call(program, words):
    try:
        done = subprocess.run([program, *words], input=TRACE, stdout=subprocess.PIPE, timeout=600)
    except subprocess.TimeoutExpired:
        return "", "no end in ten minutes"
    return done.stdout.decode(), done.returncode


def runs(program, stops):
    for worker in ([], ["--noworker", "--entries=32"]):
        words = ["run", *(SIZES if not worker else [*worker, *SIZES[2:]])]
        report, status = call(program, words)
        yield words, report, status, b"end 20 0 0\n"
        for stop in range(1, stops + 1):
            for pick in PICKS:
                stopped = [*words, "--stop", str(stop), "--image", pick]
                yield (stopped, *call(program, stopped), b"")


def main(program, stops="200"):
    passed = failed = 0
    for words, report, status, end in runs(program, int(stops)):
        try:
            is_right = status == 0 and report == wanted(report) and report.endswith(end.decode())
            why = "" if is_right else "differs from what its calls make"
        except (ValueError, IndexError) as error:
            is_right, why = False, str(error)
        if is_right:
            passed += 1
        else:
            failed += 1
            print(f"nv_sim {' '.join(words)}, status {status}: {why}: {report!r}"[:900])
    print(f"{passed} passed, {failed} failed")
    return 1 if failed else 0


if __name__ == "__main__":
    sys.exit(main(*sys.argv[1:]))
