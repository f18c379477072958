#!/usr/bin/env python3
"""Runs traces of four threads that read and write one file, thousands of calls each, and looks at what each report says.

The answered calls have one history: the places count on, those of a thread stand in the order of its lines, and plain files give each
the same reply; the file in the end is the one after them. Beside a worker over 16 entries all are answered; without one, over 1,024, a
write is refused only once they are full, or have one left and it needs two. Where power fails amid them, what recovery finds is the file after the answered calls and then
the open writes that were kept, each whole; a thread has one open write at most. Closes with 'N passed, M failed', and fails where one fails.

    crowds.py PROGRAM     PROGRAM is nv_sim
"""

import random
import subprocess
import sys

THREADS, LENGTH = 4, 8


def drawn_call(draw, thread):
    """A call of a thread at every fourth byte of a file, half of them in a quarter of its own: a write of eight bytes, or a read."""
    at = 4 * draw.choice([draw.randrange(1022), 256 * thread + draw.randrange(254)])
    if draw.random() < 0.5:
        return f"{thread} pwrite 0 {at} {draw.randbytes(LENGTH).hex()}"
    return f"{thread} pread 0 {at} {LENGTH}"


def drawn_lines(seed, calls):
    draw = random.Random(seed)
    return [drawn_call(draw, thread) for _ in range(calls) for thread in range(THREADS)]


def reply_of(file, line):
    """What plain files answer a call, which changes them where it is a write; and what a report calls it."""
    thread, word, fd, at, last = line.split(" ")
    start = int(at)
    if word == "pread":
        return bytes(file[start : start + int(last)]).hex() or "-", line
    data = bytes.fromhex(last)
    file.extend(bytes(max(0, start + len(data) - len(file))))
    file[start : start + len(data)] = data
    return str(len(data)), f"{thread} {word} {fd} {at} {len(data)}"


def told_of(report, first):
    """The thread of each line that begins so, what it is called, and what is said of it."""
    for line in report:
        if line.startswith(first):
            _, thread, rest = line.split(" ", 2)
            yield thread, *rest.split(": ")


def wanted(lines, report, whys):
    """The lines that a report must have, going by which calls it says were answered and in which order. `whys` begin the reasons of refusals."""
    left = {str(thread): [line for line in lines if line[0] == str(thread)] for thread in range(THREADS)}
    file, text, refusals = bytearray(), [], []
    for line in report:
        place, thread, rest = (line.split(" ", 2) + ["", ""])[:3]
        if not place.isdigit():
            break
        name = rest.split(" = ")[0]
        # Those of the thread before it were refused, which no power failure brings about.
        while left[thread] and reply_of(bytearray(file), left[thread][0])[1] != f"{thread} {name}":
            if whys == STOPS:
                raise ValueError(f"{line} is answered behind one that is not")
            refusals.append(left[thread].pop(0))
        reply, name = reply_of(file, left[thread].pop(0))
        text.append(f"{len(text)} {name} = {reply}")
    count, open_lines, fates = len(text), [], list(told_of(report, "open "))
    for thread, name, fate in fates:
        # It is the first one of its thread that was not answered.
        line = left[thread].pop(0)
        if " pwrite " not in line or reply_of(bytearray(), line)[1] != f"{thread} {name}":
            raise ValueError(f"{thread} {name} is open, and not {line}")
        if fate == "kept":
            reply_of(file, line)
        open_lines.append(f"open {thread} {name}: {fate if fate == 'kept' else 'lost'}")
    if len({thread for thread, _, _ in fates}) < len(fates):
        raise ValueError("a thread has two open writes")
    refusals += [line for lines in left.values() for line in lines]
    refused = list(told_of(report, "refused "))
    if sorted(reply_of(bytearray(), line)[1] for line in refusals) != sorted(f"{thread} {name}" for thread, name, _ in refused):
        raise ValueError("other calls are refused than have no place")
    if not all(why.startswith(whys) and (" pwrite " in f" {name}" or not why.startswith("again ")) for _, name, why in refused):
        raise ValueError("a call is refused for something else")
    text += [line for line in report if line.startswith("refused ")] + open_lines
    return text + [f"file a {len(file)} {file.hex() or '-'}", f"end {count} {len(refusals)} {len(fates)}"]


# Words, how many calls a thread has, and how the reasons of refusals begin, one of which must come.
RUNS = [
    (["run"], 2_500, ()),
    (["run", "--noworker", "--entries", "1024"], 1_250, ("again 1024 0", "again 1023 0")),
    (["run", "--entries", "1024", "--cache", "2"], 1_250, ()),
]
# How many times power fails amid the calls of each of these, and the last device call at which it does.
STOPPED = [
    (["run"], 1_000, 7, 56_000),
    (["run", "--noworker", "--entries", "1024", "--cache", "2"], 450, 7, 42_000),
]
IMAGES = ["new", "old", "torn", "3", "4", "5", "6"]
STOPS = ("stopped", "region fault", "store fault")


def runs():
    yield from RUNS
    for words, calls, count, last in STOPPED:
        for k in range(count):
            yield [*words, "--stop", str(last * (k + 1) // count), "--image", IMAGES[k]], calls, STOPS


def check(program, seed, words, calls, whys):
    """Why a run isn't right, or nothing."""
    lines = drawn_lines(seed, calls)
    given = "\n".join(["file a", "fd 0 a rw", *lines, ""]).encode()
    done = subprocess.run([program, *words], input=given, stdout=subprocess.PIPE, timeout=600)
    report = done.stdout.decode().splitlines()
    if done.returncode != 0:
        return f"status {done.returncode}"
    if not whys and report[-1] != f"end {len(lines)} 0 0":
        return f"a call is refused: {report[-1]}"
    if whys and report[-1].split(" ")[2] == "0":
        return "no call is refused"
    try:
        rows = zip(wanted(lines, report, whys), report, strict=True)
        return next((f"found {found}, wanted {line}" for line, found in rows if line != found), "")
    except (ValueError, IndexError, KeyError) as error:
        return str(error)


def main(program):
    passed = failed = 0
    for seed, (words, calls, whys) in enumerate(runs()):
        why = check(program, seed, words, calls, whys)
        if why:
            failed += 1
            print(f"nv_sim {' '.join(words)}, {THREADS} times {calls} calls: {why}"[:600])
        else:
            passed += 1
    print(f"{passed} passed, {failed} failed")
    return 1 if failed else 0


if __name__ == "__main__":
    sys.exit(main(*sys.argv[1:]))
