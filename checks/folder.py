#!/usr/bin/env python3
"""Runs nv_run over folders of a real disk, as its users do: what one run leaves the next one finds, also where a run is killed
and where the disk, or something in the folder, is in its way.

What stands in the way must end a run in `error device` or in a region that is refused, by no crash and in time; and what was
answered before must be there once it is gone. A run that is killed at any moment must leave, after a recovery, a front of its
writes, each whole: with the process gone the files hold all that was written, so a write that was answered may not be missing.
What a look shows before must be what that recovery leaves, and the look must change nothing; it must need no right to write, make
nothing, and let others look beside it. Regions that are made by hand are in regions.py.
Closes with 'N passed, M failed', and fails where one fails.

    folder.py PROGRAM                     all of this; what needs a user of more rights is named and left out
    folder.py PROGRAM --killed WRITES     killed runs of so many writes alone, and what they left
"""

import contextlib
import fcntl
import glob
import os
import random
import struct
import subprocess
import sys
import tempfile
import time

HELLO = b"file a\nfd 0 a rw\n0 pwrite 0 0 68656c6c6f\n0 pread 0 0 16\n"
REPORT = b"0 0 pwrite 0 0 5 = 5\n1 0 pread 0 0 16 = 68656c6c6f\nfile a 5 68656c6c6f\nend 2 0 0\n"
AGAIN = b"file a\nfd 0 a rw\n0 pread 0 0 5\n"
ONLY_READ = b"file a\nfd 0 a r\n0 pread 0 0 5\n"
READ = b"0 0 pread 0 0 5 = 68656c6c6f\nfile a 5 68656c6c6f\nend 1 0 0\n"
USAGE = (b"error usage\n", 1)
DEVICE = (b"error device\n", 5)
LOOKED = (b"region 2 64 16 1 1\nname 0 a\nend 0 0\n", 0)
FILES_LOOKED = (b"region 2 64 16 1 1\nname 0 a\nfile a 5 68656c6c6f\nend 0 0\n", 0)
KEPT = (b"recovered 1 1 0\nfile a 5 68656c6c6f\n", 0)
NO_HEADER = (b"error region truncated 0 18\n", 7)
# Killed, or without room, before its region was formatted, a run leaves one with no magic or no parts.
NOT_YET = (b"error region bad magic", b"error region truncated ")
RUN = ["run", "--noworker"]
WRITES = 16
MOMENTS = 50
PAGE = 4096
NOBODY = 65534


def call(program, words, given=b"", **how):
    try:
        done = subprocess.run([program, *words], input=given, stdout=subprocess.PIPE, timeout=600, **how)
    except subprocess.TimeoutExpired:
        return b"", "no end in ten minutes"
    return done.stdout, done.returncode


def lives(program, folder):
    """One folder, opened again and again."""
    yield "hello", call(program, [folder, *RUN], HELLO), (REPORT, 0)
    yield "the file is there", call(program, [folder, *RUN], AGAIN), (READ, 0)
    yield "a descriptor that only reads", call(program, [folder, *RUN], ONLY_READ), (READ, 0)
    yield "the same with a worker", call(program, [folder, "run"], ONLY_READ), (READ, 0)
    yield "a recovery", call(program, [folder, "recover"]), KEPT
    # A region of other sizes is another region; the files stay.
    os.rename(folder + "/region", folder + "/region.away")
    yield "other sizes", call(program, [folder, *RUN, "--page", "4096", "--entries", "2"], AGAIN), (READ, 0)
    yield "their region", call(program, [folder, "look"]), (b"region 2 4096 2 1 0\nname 0 a\nend 0 0\n", 0)


def sizes(program, folder):
    """A file has as many bytes as its pages. A region that is there keeps its own page, and a run is told how many pages it has."""
    given = b"file a\nfd 0 a rw\n0 pwrite 0 63 0909\n0 pwrite 0 128 09\n"
    report = b"0 0 pwrite 0 63 2 = 2\nrefused 0 pwrite 0 128 1: too far\nfile a 65 %s0909\nend 1 1 0\n" % (b"00" * 63)
    yield "a page of 128 bytes", call(program, [folder, *RUN, "--page=128", "--pages", "1"], given), (report, 0)
    given = b"file a\nfd 0 a rw\n0 pwrite 0 63 0808\n0 pread 0 8191 1\n0 pread 0 8192 1\n"
    report = b"0 0 pwrite 0 63 2 = 2\n1 0 pread 0 8191 1 = -\nrefused 0 pread 0 8192 1: too far\nfile a 65 %s0808\nend 2 1 0\n" % (b"00" * 63)
    yield "its page is kept", call(program, [folder, *RUN], given), (report, 0)


def shown(program, folder):
    """The run over a folder that README.md shows, each command with what stands below it there."""
    top = os.path.dirname(os.path.dirname(os.path.abspath(__file__)))
    with open(top + "/README.md", encoding="utf-8") as page:
        lines = page.read().split("\n")
    starts = [i for i, line in enumerate(lines) if line.startswith("    $ ")]
    yield "the commands of README", len(starts) > 3, True
    for i in starts:
        end = next(j for j in range(i + 1, len(lines)) if not lines[j].startswith("    ") or lines[j].startswith("    $ "))
        wanted = "".join(line[4:] + "\n" for line in lines[i + 1 : end]).encode()
        command = lines[i][6:].split("  #")[0].strip()
        words = command.replace("/tmp/day", folder).split()
        if words[:3] == ["rt", "try", "--"]:
            given = b"" if words[-1] == "/dev/null" else open(f"{top}/crates/nv_run/{words[-1]}", "rb").read()
            yield command, call(program, words[3:-2], given), (wanted, 0)
        else:
            with open(words[-1] if words[-1].startswith("/") else f"{top}/crates/nv_run/{words[-1]}", "rb") as file:
                yield command, file.read().rstrip(b"\n"), wanted.rstrip(b"\n")


def refusals(program, folder):
    yield "no folder named", call(program, []), USAGE
    yield "a folder alone", call(program, [folder]), USAGE
    yield "a stop over real files", call(program, [folder, *RUN, "--stop", "3"], HELLO), USAGE
    yield "a schedule over real files", call(program, [folder, "sched"], HELLO), USAGE
    yield "no such folder", call(program, [folder + "/none", *RUN], HELLO), DEVICE
    yield "a region of no part", call(program, [folder, "recover"]), NO_HEADER
    os.mkdir(folder + "/region/part-0")
    yield "a part that is a folder", call(program, [folder, *RUN], HELLO), DEVICE


@contextlib.contextmanager
def replaced(path, make):
    """What has this path is away in here, and what `make` makes stands in its place."""
    os.rename(path, path + ".away")
    make(path)
    yield
    os.unlink(path)
    os.rename(path + ".away", path)


def nowhere(path):
    os.symlink("nowhere", path)


@contextlib.contextmanager
def resized(path, size):
    """The file is cut or made longer in here, and as it was thereafter."""
    with open(path, "rb") as file:
        was = file.read()
    os.truncate(path, size)
    yield
    with open(path, "wb") as file:
        file.write(was)


@contextlib.contextmanager
def locked(path, how=fcntl.LOCK_EX):
    """Another program has this folder locked in here."""
    held = os.open(path, os.O_RDONLY)
    fcntl.flock(held, how)
    yield
    os.close(held)


@contextlib.contextmanager
def no_rights(path):
    os.chmod(path, 0)
    yield
    os.chmod(path, 0o600)


def obstacles(program, folder):
    """Something in the folder that is in the way of a file that was written, and is taken away again."""
    header, part, file = folder + "/region/part-0", folder + "/region/part-1", folder + "/files/a"
    yield "hello", call(program, [folder, *RUN], HELLO), (REPORT, 0)
    for name, obstacle, wanted in (
        ("a header that is a link to nowhere", replaced(header, nowhere), DEVICE),
        ("a file that is a link to nowhere", replaced(file, nowhere), DEVICE),
        ("a header that is a pipe", replaced(header, os.mkfifo), DEVICE),
        ("a file that is a pipe", replaced(file, os.mkfifo), DEVICE),
        ("a region that another has", locked(folder + "/region"), DEVICE),
        ("a header of 17 lines and a part of one", resized(header, 1151), (b"error region truncated 17 18\n", 7)),
        ("a part of one line and a part of one", resized(part, 125), (b"error region truncated 305 306\n", 7)),
    ):
        with obstacle:
            yield f"{name}, a run", call(program, [folder, *RUN], HELLO), wanted
            yield f"{name}, a recovery", call(program, [folder, "recover"]), wanted
        yield f"{name}, taken away", call(program, [folder, "recover"]), KEPT
    for name, path, size in ("header", header, 17543), ("part", part, 135):
        with resized(path, size):
            yield f"a {name} with bytes behind its last line", call(program, [folder, "recover"]), KEPT


@contextlib.contextmanager
def taken_from(path, start):
    """What has this path is put elsewhere in here, and its first bytes are zeros, or it is not there at all for no number of them."""
    os.rename(path, path + ".away")
    if start is not None:
        with open(path + ".away", "rb") as was, open(path, "wb") as file:
            file.write(bytes(start) + was.read()[start:])
    yield
    with contextlib.suppress(FileNotFoundError):
        os.unlink(path)
    os.rename(path + ".away", path)


def region_of(folder):
    """What the files of the region hold, by their names."""
    found = {}
    with contextlib.suppress(FileNotFoundError):
        for name in sorted(os.listdir(folder + "/region")):
            with open(f"{folder}/region/{name}", "rb") as file:
                found[name] = file.read()
    return found


def standing(folder):
    """All that is in a folder: of each path its rights and when it was changed, and what a file holds."""
    found = {}
    for path in sorted(glob.glob(folder + "/**", recursive=True)):
        was = os.lstat(path)
        held = open(path, "rb").read() if os.path.isfile(path) else None
        found[path] = was.st_mode, was.st_mtime_ns, was.st_ctime_ns, held
    return found


def looks(program, folder):
    """A look makes nothing, changes nothing, and shares its lock with other looks."""
    region, file, none = folder + "/region", folder + "/files/a", folder + "/none"
    yield "a look at no folder", call(program, [none, "look"]), DEVICE
    for words in ["look"], ["look", "--files"]:
        yield f"{words} at no region", call(program, [folder, *words]), NO_HEADER
    yield "what the looks made", os.listdir(folder), []
    yield "hello", call(program, [folder, *RUN], HELLO), (REPORT, 0)
    was = standing(folder)
    with locked(region, fcntl.LOCK_SH):
        yield "a look beside another", call(program, [folder, "look"]), LOOKED
        yield "a look at the files beside another", call(program, [folder, "look", "--files"]), FILES_LOOKED
        yield "a run beside a look", call(program, [folder, *RUN], HELLO), DEVICE
    with locked(region):
        yield "a look beside a run", call(program, [folder, "look"]), DEVICE
    yield "what the looks changed", standing(folder) == was, True
    with replaced(region, nowhere):
        yield "a look at a link to nowhere", call(program, [folder, "look"]), DEVICE
    for name, make in ("a link to nowhere", nowhere), ("a pipe", os.mkfifo):
        with replaced(file, make):
            yield f"a look at {name} for a file", call(program, [folder, "look", "--files"]), DEVICE
    os.link(file, region + "/part-17")
    yield "a look at a part that is a file too", call(program, [folder, "look", "--files"]), DEVICE
    os.unlink(region + "/part-17")
    os.rename(file, file + ".away")
    text = FILES_LOOKED[0].replace(b"5 68656c6c6f", b"0 -")
    yield "a look at a file that is gone", call(program, [folder, "look", "--files"]), (text, 0)
    os.rename(folder + "/files", folder + "/away")
    yield "a look at files that are gone", call(program, [folder, "look", "--files"]), (text, 0)
    yield "what is there then", sorted(os.listdir(folder)), ["away", "region"]


def guarded(program, folder):
    """A run makes no region anew where something of one is left, or where something else stands, and lets no two names be one file."""
    header, part = folder + "/region/part-0", folder + "/region/part-1"
    yield "hello", call(program, [folder, *RUN], HELLO), (REPORT, 0)
    for name, obstacle, recovered in (
        ("no header", taken_from(header, None), NO_HEADER),
        ("a header without its magic", taken_from(header, 8), (b"error region bad magic\n", 7)),
        ("an empty header", resized(header, 0), (b"error region truncated 0 18\n", 7)),
    ):
        with obstacle:
            was = region_of(folder)
            yield f"{name}, a run", call(program, [folder, *RUN], HELLO), DEVICE
            yield f"{name}, a recovery", call(program, [folder, "recover"]), recovered
            yield f"{name}, the files", region_of(folder) == was, True
        yield f"{name}, put back", call(program, [folder, "recover"]), KEPT
    with replaced(folder + "/region/part-2", lambda path: os.link(part, path)):
        yield "two parts that are one file, a run", call(program, [folder, *RUN], HELLO), DEVICE
        yield "two parts that are one file, a recovery", call(program, [folder, "recover"]), DEVICE
    yield "two parts again", call(program, [folder, "recover"]), KEPT
    for name, make in ("hard", os.link), ("symbolic", os.symlink):
        make(folder + "/files/a", folder + "/files/b")
        yield f"a file that is a {name} link to another", call(program, [folder, *RUN], b"file b\n"), DEVICE
        os.unlink(folder + "/files/b")
        yield f"a {name} link taken away", call(program, [folder, "recover"]), KEPT


def remains(program, folder):
    """A header that is no region's: of some bytes a run leaves it, of zeros or of a header's fields without the magic it makes a region."""
    fields = struct.pack("<8Q", 0, 2, 64, 16, 0, 0, 0, 0)
    os.mkdir(folder + "/region")
    for name, held, wanted in (
        ("bytes and no line", b"notes", DEVICE),
        ("zeros and then a byte, and no line", bytes(62) + b"!", DEVICE),
        ("zeros and no line", bytes(63), (REPORT, 0)),
        ("a header that was cut short while it was made", fields + bytes(17472), (REPORT, 0)),
    ):
        for part in region_of(folder):
            os.unlink(f"{folder}/region/{part}")
        with open(folder + "/region/part-0", "wb") as file:
            file.write(held)
        yield name, call(program, [folder, *RUN], HELLO), wanted
        yield f"{name}, the file", wanted == (REPORT, 0) or region_of(folder) == {"part-0": held}, True


def rights(program, folder):
    """A part that the user may not open; where root runs this, it runs the program as nobody."""
    part = folder + "/region/part-1"
    how = {"user": NOBODY, "group": NOBODY, "extra_groups": []} if os.geteuid() == 0 else {}
    os.chmod(folder, 0o777)
    try:
        hello = call(program, [folder, *RUN], HELLO, **how)
    except PermissionError:
        print("left out, a part without rights: nobody may not start the program")
        return
    yield "hello", hello, (REPORT, 0)
    with no_rights(part):
        yield "a part without rights, a run", call(program, [folder, *RUN], HELLO, **how), DEVICE
        yield "a part without rights, a recovery", call(program, [folder, "recover"], **how), DEVICE
    yield "a part with rights again", call(program, [folder, "recover"], **how), KEPT
    paths = [path for path in standing(folder)]
    was = {path: os.lstat(path).st_mode for path in paths}
    for path in paths:
        os.chmod(path, 0o555 if os.path.isdir(path) else 0o444)
    before = standing(folder)
    yield "a folder that may be read alone, a look", call(program, [folder, "look"], **how), LOOKED
    yield "a folder that may be read alone, a look at the files", call(program, [folder, "look", "--files"], **how), FILES_LOOKED
    yield "a folder that may be read alone, a run", call(program, [folder, *RUN], HELLO, **how), DEVICE
    yield "a folder that may be read alone, a recovery", call(program, [folder, "recover"], **how), DEVICE
    yield "a folder that may be read alone is as it was", standing(folder) == before, True
    for path in paths:
        os.chmod(path, was[path])


@contextlib.contextmanager
def small_disk(folder, pages):
    """A disk in memory of so many pages, mounted on the folder, or None where this user may mount none."""
    made = ["mount", "-t", "tmpfs", "-o", f"size={pages * PAGE}", "none", folder]
    try:
        is_made = subprocess.run(made, stderr=subprocess.DEVNULL).returncode == 0
    except FileNotFoundError:
        is_made = False
    try:
        yield folder if is_made else None
    finally:
        if is_made:
            subprocess.run(["umount", folder], check=True)


def remount(folder, options):
    subprocess.run(["mount", "-o", "remount," + options, folder], check=True)


def fill(folder):
    """Fills the disk of the folder with a file."""
    with contextlib.suppress(OSError), open(folder + "/filler", "wb", buffering=0) as file:
        while True:
            file.write(bytes(PAGE))


def disks(program, folder):
    """A disk that is read-only or full when a run comes, and then is neither."""
    with small_disk(folder, 64) as disk:
        if disk is None:
            print("left out, a read-only and a full disk: this user may mount none")
            return
        yield "hello", call(program, [disk, *RUN], HELLO), (REPORT, 0)
        remount(disk, "ro")
        yield "a read-only disk, a run", call(program, [disk, *RUN], HELLO), DEVICE
        yield "a read-only disk, a recovery", call(program, [disk, "recover"]), DEVICE
        yield "a read-only disk, a look", call(program, [disk, "look"]), LOOKED
        yield "a read-only disk, a look at the files", call(program, [disk, "look", "--files"]), FILES_LOOKED
        remount(disk, "rw")
        yield "a disk that may be written again", call(program, [disk, "recover"]), KEPT
        # The parts have their pages, so the log takes the write; the file has none for it, so it stays in the log.
        fill(disk)
        beyond = b"file a\nfd 0 a rw\n0 pwrite 0 %d 21\n" % PAGE
        yield "a full disk, a run", call(program, [disk, *RUN, "--pages", "65"], beyond), (b"0 0 pwrite 0 4096 1 = 1\n" + DEVICE[0], 5)
        yield "a full disk, a recovery", call(program, [disk, "recover"]), DEVICE
        os.unlink(disk + "/filler")
        shown = (b"hello".ljust(PAGE, b"\0") + b"!").hex().encode()
        yield "room again", call(program, [disk, "recover"]), (b"recovered 1 2 1\nfile a 4097 %s\n" % shown, 0)


def full_disks(program, folder):
    """Disks of each size up to one on which a run ends, and then with room for it."""
    trace, status, pages = writes_of(WRITES), None, 0
    while status != 0 and pages < 64:
        pages += 1
        with small_disk(folder, pages) as disk:
            if disk is None:
                return
            text, status = call(program, [disk, *RUN], trace)
            shown = text.splitlines()[: -1 if status else WRITES]
            is_front = shown == [b"%d 0 pwrite 0 %d 1 = 1" % (i, i) for i in range(len(shown))]
            ended = status == 0 or status == 5 and text.endswith(DEVICE[0])
            yield f"a disk of {pages} pages: {text[:80]!r}, status {status}", (is_front, ended), (True, True)
            remount(disk, f"size={64 * PAGE}")
            text, status_then = call(program, [disk, "recover"])
            left = left_by(text, status_then, WRITES)
            fits = left is not None and max(left, 0) >= len(shown)
            yield f"room behind {pages} pages: {text[:80]!r}, status {status_then}", fits, True


def byte(i):
    return 1 + i % 255


def writes_of(count):
    """A trace of so many writes, each of the next byte at the next place."""
    return b"file a\nfd 0 a rw\n" + b"".join(b"0 pwrite 0 %d %02x\n" % (i, byte(i)) for i in range(count))


def left_by(text, status, count):
    """How many first writes a recovery of `writes_of` shows, -1 for no region yet; None where it shows anything else."""
    if status == 7 and text.startswith(NOT_YET):
        return -1
    lines = text.splitlines()
    if status != 0 or not lines or not lines[0].startswith(b"recovered "):
        return None
    if len(lines) == 1:
        return 0
    for size in range(count + 1):
        shown = bytes(map(byte, range(size))).hex().encode() or b"-"
        if lines[1:] == [b"file a %d %s" % (size, shown)]:
            return size
    return None


def wait_for_write(process, life, number):
    """Waits until the log holds something of the write of this number, or the run has ended."""
    line = b""
    while not any(line) and process.poll() is None:
        time.sleep(0.0005)
        with contextlib.suppress(FileNotFoundError), open(f"{life}/region/part-{1 + number}", "rb") as part:
            line = part.read(64)


def files_in(report):
    """Its status, and the lines of its files; all of it, where the region is refused."""
    text, status = report
    return status, text if status else [line for line in text.splitlines() if line.startswith(b"file ")]


def killed(program, folder, writes=WRITES):
    """Runs of single bytes that are killed: each fifth at any moment, the others when some write is on its way to the log."""
    run = [*RUN, "--entries", str(writes)]
    trace = writes_of(writes)
    start = time.monotonic()
    text, status = call(program, [folder, *run], trace)
    whole = time.monotonic() - start
    yield f"a run to its end, status {status}", text.endswith(b"end %d 0 0\n" % writes), True
    draws = random.Random(1)
    fronts = []
    for moment in range(MOMENTS):
        with tempfile.TemporaryDirectory(dir=folder) as life:
            process = subprocess.Popen([program, life, *run], stdin=subprocess.PIPE, stdout=subprocess.DEVNULL)
            process.stdin.write(trace)
            process.stdin.close()
            if moment % 5 == 0:
                answered = -1
                time.sleep(draws.random() * whole)
            else:
                # A write begins when those before it were answered.
                answered = draws.randrange(writes)
                wait_for_write(process, life, answered)
                time.sleep(draws.random() * 0.001)
            process.kill()
            process.wait()
            was = region_of(life)
            looked, shown = call(program, [life, "look"]), call(program, [life, "look", "--files"])
            yield "what was looked at", region_of(life) == was, True
            text, status = call(program, [life, "recover"])
            yield "what a look showed", files_in(shown), files_in((text, status))
            yield f"a look {looked!r}", looked[1] == status and looked[0].endswith(b" 0\n" if status == 0 else text), True
            left = left_by(text, status, writes)
            yield f"killed with {answered} writes answered: {text[:80]!r}, status {status}", left is not None and left >= answered, True
            fronts.append(left)
            if status == 0:
                text, status = call(program, [life, "look"])
                yield f"a look behind the recovery: {text!r}", status == 0 and text.endswith(b"end 0 0\n"), True
            if left == -1:
                yield "a region that the next run makes anew", call(program, [life, *run], trace)[1], 0
    print(f"killed runs of {writes} writes left {fronts} (-1: no region yet)")


def main(program, option=None, writes=WRITES):
    runs = [lives, sizes, shown, refusals, obstacles, looks, guarded, remains, rights, disks, full_disks, killed]
    if option == "--killed":
        runs = [lambda program, folder: killed(program, folder, int(writes))]
    passed = failed = 0
    for cases in runs:
        with tempfile.TemporaryDirectory() as folder:
            for name, found, wanted in cases(program, folder):
                if found == wanted:
                    passed += 1
                else:
                    failed += 1
                    print(f"nv_run, {name}: found {found!r}, wanted {wanted!r}"[:600])
    print(f"{passed} passed, {failed} failed")
    return 1 if failed else 0


if __name__ == "__main__":
    sys.exit(main(*sys.argv[1:]))
