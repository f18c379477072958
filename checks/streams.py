#!/usr/bin/env python3
"""Runs inputs of many rounds, and looks at when each round is run and its lines are written.

A round is run as soon as the line that ends it was read, and its lines are written before the next one is read: so a pipe that is fed
round by round shows the lines of each, and nothing of a round whose end is still to come. What comes in the way of a later round, a bad
line, a source or a sink that fails, or a stop, leaves what the rounds before wrote. A run that is killed must leave, after a recovery, at
least the writes whose lines had come out of its pipe, and of each thread a front of its writes, none of them of a round behind the
first that lacks a line. Closes with 'N passed, M failed', and fails where one fails.

    streams.py NV_SIM NV_RUN [MOMENTS]     MOMENTS runs of nv_run are killed, 20 unless said
"""

import os
import random
import select
import socket
import subprocess
import sys
import tempfile
import time

A = "file a|fd 0 a rw|"
ONE = A + "0 pwrite 0 0 01|round|"
ONE_LINE = "0 0 pwrite 0 0 1 = 1|"
TWO = ONE + "0 pwrite 0 1 02|"
TWO_LINES = ONE_LINE + "1 0 pwrite 0 1 1 = 1|"
LARGEST = 67_108_864
SECONDS = 120
# How long nothing must be written. A program that is slow passes.
QUIET = 0.2
THREADS, ROUNDS, WRITES = 3, 12, 4
# Killed before its region was formatted, a run leaves one with no magic or no parts.
NOT_YET = (b"error region bad magic", b"error region truncated ")

# Words, a trace, its report and its status. A write of at most 64 bytes takes 12 device calls, so the second one has calls 13 to 24.
ROWS = [
    ("run --noworker", ONE + "0 pread 0 00 4|", ONE_LINE + "error line 5 number|", 2),
    ("run", ONE + "0 pread 0 00 4|", ONE_LINE + "error line 5 number|", 2),
    # No call of a round with a bad line is made, and of those before only the history is shown.
    ("run", ONE + "0 pwrite 0 0 02|x|", ONE_LINE + "error line 6 form|", 2),
    ("run", ONE + "0 pread 0 0 4|0 pread 0 4096 1|round|round|file b|", ONE_LINE + "1 0 pread 0 0 4 = 01|error line 9 late|", 2),
    ("run", A + "0 pread 0 4096 1|round|x|", "error line 5 form|", 2),
    # A bad line of the first round is met before anything is run.
    ("run", A + "0 pwrite 0 0 01|x|round|", "error line 4 form|", 2),
    ("run --noworker", TWO + "#" * (LARGEST - len(TWO)), TWO_LINES + "file a 2 0102|end 2 0 0|", 0),
    ("run --noworker", ONE + "#" * LARGEST, ONE_LINE + "error input long|", 2),
    # Rounds of no calls.
    ("run", "round|round|", "end 0 0 0|", 0),
    ("run", A + "round|# none||round|round|", "file a 0 -|end 0 0 0|", 0),
    ("run", ONE + "round||round|0 pwrite 0 1 02|round|", TWO_LINES + "file a 2 0102|end 2 0 0|", 0),
    # The refused calls of all rounds come at the end, in their order.
    ("run --noworker", A + "0 pwrite 0 4096 01|0 pwrite 0 0 01|round|1 pread 0 4095 2|0 pwrite 0 1 02|round|0 pwrite 0 4097 01|",
     TWO_LINES + "refused 0 pwrite 0 4096 1: too far|refused 1 pread 0 4095 2: too far|refused 0 pwrite 0 4097 1: too far|file a 2 0102|end 2 3 0|", 0),
    # Each number of the log is drawn once, whatever round draws it.
    ("run --noworker --entries 2", TWO + "round|0 pwrite 0 2 03|", TWO_LINES + "refused 0 pwrite 0 2 1: again 2 0|file a 2 0102|end 2 1 0|", 0),
    # Stops in the first round, in a later one, behind all, and before a bad line.
    ("run --noworker --stop 12 --image old", TWO, "refused 0 pwrite 0 1 1: stopped|open 0 pwrite 0 0 1: lost|file a 0 -|end 0 1 1|", 0),
    ("run --noworker --stop 12 --image new", TWO, "refused 0 pwrite 0 1 1: stopped|open 0 pwrite 0 0 1: kept|file a 1 01|end 0 1 1|", 0),
    ("run --noworker --stop 13 --image new", TWO, ONE_LINE + "open 0 pwrite 0 1 1: lost|file a 1 01|end 1 0 1|", 0),
    ("run --noworker --stop 24 --image old", TWO, ONE_LINE + "open 0 pwrite 0 1 1: lost|file a 1 01|end 1 0 1|", 0),
    ("run --noworker --stop 24 --image new", TWO, ONE_LINE + "open 0 pwrite 0 1 1: kept|file a 2 0102|end 1 0 1|", 0),
    ("run --noworker --stop 24 --image new", TWO + "round|0 pwrite 0 2 03|",
     ONE_LINE + "refused 0 pwrite 0 2 1: stopped|open 0 pwrite 0 1 1: kept|file a 2 0102|end 1 1 1|", 0),
    ("run --noworker --stop 99 --image old", TWO, TWO_LINES + "file a 2 0102|end 2 0 0|", 0),
    ("run --noworker --stop 24 --image new", TWO + "round|x|", ONE_LINE + "error line 7 form|", 2),
    ("run --noworker --stop 99", TWO + "round|x|", TWO_LINES + "error line 7 form|", 2),
]

# Eight threads in one round, one in the next, two in the last.
CROWD = A + "".join(f"{t} pwrite 0 {t} 0{t + 1}|" for t in range(8)) + "round|0 pread 0 0 9|round|0 pwrite 0 8 09|1 pwrite 0 9 0a|"


def text_of(row):
    return row.replace("|", "\n").encode()


def call(program, words, given=b"", **how):
    """What the program writes, and its status."""
    try:
        done = subprocess.run([program, *words], input=given, stdout=subprocess.PIPE, timeout=600, **how)
    except subprocess.TimeoutExpired:
        return b"", "no end in ten minutes"
    return done.stdout, done.returncode


def recovered(program, folder):
    """The bytes of file a behind a recovery, or why there are none."""
    text, status = call(program, [folder, "recover"])
    for line in text.splitlines() if status == 0 else []:
        if line.startswith(b"file a "):
            return bytes.fromhex(line.split(b" ")[3].decode().replace("-", ""))
    return text, status


def rows(sim):
    for words, given, report, status in ROWS:
        found, ended = call(sim, words.split(" "), text_of(given))
        yield f"{words}, {given[:120]}", (found.decode().replace("\n", "|"), ended), (report, status)


def crowds(sim):
    """The calls of a round stand in some order, behind those of the round before."""
    for words in ["run"], ["run", "--noworker"], ["run", "--stop", "100000"]:
        text, status = call(sim, words, text_of(CROWD))
        lines = text.decode().splitlines()
        places = [line.split(" ", 1)[0] for line in lines[:11]]
        calls = [line.split(" ", 1)[-1] for line in lines[:11]]
        yield f"{words}, places", (places, status), ([str(k) for k in range(11)], 0)
        yield f"{words}, eight threads", sorted(calls[:8]), [f"{t} pwrite 0 {t} 1 = 1" for t in range(8)]
        yield f"{words}, one thread", calls[8:9], ["0 pread 0 0 9 = 0102030405060708"]
        yield f"{words}, two threads", sorted(calls[9:]), ["0 pwrite 0 8 1 = 1", "1 pwrite 0 9 1 = 1"]
        yield f"{words}, the end", lines[11:], ["file a 10 0102030405060708090a", "end 11 0 0"]


def bad_lines(run):
    """A bad line over a folder: what the rounds before wrote is in the files, and no more."""
    for words in ["run", "--noworker"], ["run"]:
        for given, line in (ONE + "0 pread 0 00 4|", "error line 5 number|"), (ONE + "0 pwrite 0 0 02|x|", "error line 6 form|"):
            with tempfile.TemporaryDirectory() as folder:
                yield f"{words}, {given}", call(run, [folder, *words], text_of(given)), (text_of(ONE_LINE + line), 2)
                # The log was cleaned, so there is nothing to recover.
                yield f"{words}, {given}, a recovery", call(run, [folder, "recover"]), (b"recovered 1 1 0\nfile a 1 01\n", 0)


def broken(text):
    """A socket that gives a text, and then fails."""
    mine, given = socket.socketpair()
    # A side that is closed with bytes that it has not read resets the other, once that has read all.
    given.sendall(b"unread")
    mine.sendall(text)
    mine.close()
    return given


def failing_sources(sim, run):
    for rest in "", "0 pwrite 0 0 02", "0 pwrite 0 0 02|":
        for words in ["run", "--noworker"], ["run"], ["run", "--stop", "99"]:
            with broken(text_of(ONE + rest)) as source:
                done = subprocess.run([sim, *words], stdin=source, stdout=subprocess.PIPE, timeout=SECONDS)
            yield f"{words}, a source fails behind {rest!r}", (done.stdout, done.returncode), (text_of(ONE_LINE + "error read|"), 3)
        with tempfile.TemporaryDirectory() as folder:
            with broken(text_of(ONE + rest)) as source:
                done = subprocess.run([run, folder, "run"], stdin=source, stdout=subprocess.PIPE, timeout=SECONDS)
            yield f"over a folder, a source fails behind {rest!r}", (done.stdout, done.returncode), (text_of(ONE_LINE + "error read|"), 3)
            yield f"behind {rest!r}, a recovery", recovered(run, folder), b"\1"
    with broken(text_of(A + "0 pwrite 0 0 01|")) as source:
        done = subprocess.run([sim, "run"], stdin=source, stdout=subprocess.PIPE, timeout=SECONDS)
    yield "a source fails in the first round", (done.stdout, done.returncode), (b"error read\n", 3)


class Fed:
    """A program that is fed through a pipe, and whose lines come out of another."""

    def __init__(self, words):
        self.process = subprocess.Popen(words, stdin=subprocess.PIPE, stdout=subprocess.PIPE, bufsize=0)

    def __enter__(self):
        return self

    def __exit__(self, *_):
        self.process.kill()
        self.process.wait()
        self.process.stdin.close()
        self.process.stdout.close()

    def give(self, text):
        self.process.stdin.write(text_of(text))

    def take(self, wanted):
        """What comes out until it is as long as this, or for so many seconds."""
        found, end = b"", time.monotonic() + SECONDS
        while len(found) < len(wanted) and select.select([self.process.stdout], [], [], max(0, end - time.monotonic()))[0]:
            piece = os.read(self.process.stdout.fileno(), len(wanted) - len(found))
            if not piece:
                break
            found += piece
        return found.decode().replace("\n", "|")

    def is_quiet(self):
        return not select.select([self.process.stdout], [], [], QUIET)[0]

    def ended(self):
        """Its status, with its input left open."""
        try:
            return self.process.wait(SECONDS)
        except subprocess.TimeoutExpired:
            return "no end"


def pipes(name, words):
    """The lines of a round come before the next one is given, and none before its end is."""
    with Fed(words) as fed:
        fed.give(A + "0 pwrite 0 0 01|")
        yield f"{name}, before the first round ends", fed.is_quiet(), True
        fed.give("round|")
        yield f"{name}, the first round", fed.take(ONE_LINE), ONE_LINE
        fed.give("0 pwrite 0 1 02|1 pread 0 4096 1|")
        yield f"{name}, before the second round ends", fed.is_quiet(), True
        fed.give("rou")
        yield f"{name}, amid the line that ends it", fed.is_quiet(), True
        fed.give("nd|0 pread 0 0 4")
        yield f"{name}, the second round", fed.take("1 0 pwrite 0 1 1 = 1|"), "1 0 pwrite 0 1 1 = 1|"
        yield f"{name}, before the input ends", fed.is_quiet(), True
        fed.process.stdin.close()
        last = "2 0 pread 0 0 4 = 0102|refused 1 pread 0 4096 1: too far|file a 2 0102|end 3 1 0|"
        yield f"{name}, the rest", (fed.take(last + "|"), fed.ended()), (last, 0)


def fed_pipes(sim, run):
    for words in ["run"], ["run", "--noworker"], ["run", "--stop", "4000"]:
        yield from pipes(f"nv_sim {words}", [sim, *words])
    for words in ["run"], ["run", "--noworker"]:
        with tempfile.TemporaryDirectory() as folder:
            yield from pipes(f"nv_run {words}", [run, folder, *words])


def closed_sinks(name, words):
    """A reader that goes away behind the first round. The second one is run, and nothing is read behind it."""
    with Fed(words) as fed:
        fed.give(ONE)
        yield f"{name}, the first round", fed.take(ONE_LINE), ONE_LINE
        fed.process.stdout.close()
        fed.give("0 pwrite 0 1 02|round|0 pwrite 0 2 03|round|")
        yield f"{name}, a sink that is closed", fed.ended(), 4


def failing_sinks(sim, run):
    for words in ["run"], ["run", "--noworker"], ["run", "--stop", "4000"]:
        yield from closed_sinks(f"nv_sim {words}", [sim, *words])
    for words in ["run"], ["run", "--noworker"]:
        with tempfile.TemporaryDirectory() as folder:
            yield from closed_sinks(f"nv_run {words}", [run, folder, *words])
            yield f"nv_run {words}, its rounds", call(run, [folder, "recover"]), (b"recovered 2 2 0\nfile a 2 0102\n", 0)
        with tempfile.TemporaryDirectory() as folder, open("/dev/full", "wb") as full:
            status = subprocess.run([run, folder, *words], input=text_of(TWO), stdout=full, timeout=SECONDS).returncode
            yield f"nv_run {words}, a sink without room", (status, recovered(run, folder)), (4, b"\1")


def offset(thread, count):
    return thread * ROUNDS * WRITES + count


def byte(thread, count):
    return 1 + offset(thread, count) % 255


def crowded():
    """A trace of rounds in which each thread writes its next bytes at its next places."""
    lines = ["file a", "fd 0 a rw"]
    for turn in range(ROUNDS):
        for count in range(turn * WRITES, (turn + 1) * WRITES):
            lines += [f"{thread} pwrite 0 {offset(thread, count)} {byte(thread, count):02x}" for thread in range(THREADS)]
        lines.append("round")
    return "\n".join([*lines, ""]).encode()


def counts_in(text):
    """How many writes of each thread have a whole line, where the lines are those of fronts, in order; else None."""
    counts = [0] * THREADS
    for place, line in enumerate(text.split(b"\n")[:-1]):
        if line.startswith((b"file ", b"end ")):
            continue
        thread = int(line.split(b" ")[1])
        if line != b"%d %d pwrite 0 %d 1 = 1" % (place, thread, offset(thread, counts[thread])):
            return None
        counts[thread] += 1
    return counts


def counts_left(data):
    """How many writes of each thread the file holds, where they are a front of them; else None."""
    data = data.ljust(THREADS * ROUNDS * WRITES, b"\0")
    counts = []
    for thread in range(THREADS):
        found = data[offset(thread, 0) : offset(thread + 1, 0)]
        last = len(found.rstrip(b"\0"))
        if found[:last] != bytes(byte(thread, count) for count in range(last)):
            return None
        counts.append(last)
    return counts


def kept_what_was_shown(text, left):
    """Whether each write with a line is left, and none of a round behind the first that lacks a line."""
    shown = counts_in(text)
    if shown is None or left is None:
        return False
    most = WRITES * (1 + min(shown) // WRITES)
    return all(one <= count <= most for one, count in zip(shown, left))


def killed(run, moments):
    given = crowded()
    words = ["run", "--entries", "32"]
    with tempfile.TemporaryDirectory() as folder:
        start = time.monotonic()
        text, status = call(run, [folder, *words], given)
        whole = time.monotonic() - start
        yield "a run to its end", (counts_in(text), status), ([ROUNDS * WRITES] * THREADS, 0)
        yield "its file", counts_left(recovered(run, folder)), [ROUNDS * WRITES] * THREADS
    draws, told = random.Random(5), []
    for moment in range(moments):
        with tempfile.TemporaryDirectory() as folder:
            process = subprocess.Popen([run, folder, *words], stdin=subprocess.PIPE, stdout=subprocess.PIPE)
            process.stdin.write(given)
            process.stdin.flush()
            # Each fourth one is killed at any moment, the others when so many lines have come, or soon after.
            text, lines, later = b"", draws.randrange(THREADS * ROUNDS * WRITES), draws.random() * whole
            if moment % 4:
                while text.count(b"\n") < lines and (piece := os.read(process.stdout.fileno(), 65_536)):
                    text += piece
                later /= ROUNDS
            time.sleep(later)
            process.kill()
            text += process.stdout.read()
            process.wait()
            process.stdin.close()
            process.stdout.close()
            data = recovered(run, folder)
            if isinstance(data, tuple) and data[1] == 7 and data[0].startswith(NOT_YET):
                left = [0] * THREADS
            else:
                left = counts_left(data) if isinstance(data, bytes) else None
            told.append(f"{counts_in(text)} of {left}")
            yield f"killed behind {text[-60:]!r}: {counts_in(text)} of {left}", kept_what_was_shown(text, left), True
    print("killed runs had shown, of what they left,", ", ".join(told))


def checks(sim, run, moments):
    yield from rows(sim)
    yield from crowds(sim)
    yield from bad_lines(run)
    yield from failing_sources(sim, run)
    yield from fed_pipes(sim, run)
    yield from failing_sinks(sim, run)
    yield from killed(run, moments)


def main(sim, run, moments="20"):
    passed = failed = 0
    for name, found, wanted in checks(sim, run, int(moments)):
        if found == wanted:
            passed += 1
        else:
            failed += 1
            print(f"{name}: found {found!r}, wanted {wanted!r}"[:900])
    print(f"{passed} passed, {failed} failed")
    return 1 if failed else 0


if __name__ == "__main__":
    sys.exit(main(*sys.argv[1:]))
