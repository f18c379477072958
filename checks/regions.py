#!/usr/bin/env python3
"""Looks at regions that are made by hand, byte for byte, in both versions, and recovers them, by nv_run over a folder.

A region that breaks a rule is refused by the first that it breaks, and it and the files beneath stay as they were, byte for byte, but
that a run gives a header of version 1 lines of zeros behind its own. A look shows what a recovery finds, and changes nothing; the
recovery leaves what the look with files showed, an empty log, and the version. A run carries a region of version 1 over.
version_1/ is a folder that the last program of version 1 left when it was killed: a trace of writes, in turn the number of the call
over four bytes of the file a, and over eight of the file of a long name.
Closes with 'N passed, M failed', and fails where one fails.

    regions.py PROGRAM     PROGRAM is nv_run
"""

import os
import shutil
import struct
import sys
import tempfile

sys.dont_write_bytecode = True
from folder import DEVICE, NO_HEADER, RUN, USAGE, call, region_of  # noqa: E402

MAGIC = int.from_bytes(b"NVCACHE1", "little")
OTHER_MAGIC = int.from_bytes(b"NVCACHE2", "little")
ABOVE = (1 << 60) + 1
ZZ = int.from_bytes(b"z" * 8, "little")

# Of each version the lines of a header, the line of the first name's record, and how many lines a record has.
LINES_OF = {1: (18, 2, 1), 2: (274, 18, 4)}


def record(version, number, name):
    """The words of a name's record."""
    _, first, each = LINES_OF[version]
    held = len(name).to_bytes(8, "little") + name.ljust(64 * each - 8, b"\0")
    words = struct.unpack(f"<{8 * each}Q", held)
    return {(first + each * number + place // 8, place % 8): word for place, word in enumerate(words)}


# ---- headers: words by their line and place. The good one has a page of 64 bytes, 2 entries, the files `a` and `b2`, and tail 7.


def good(version):
    words = {(0, 0): MAGIC, (0, 1): version, (0, 2): 64, (0, 3): 2, (0, 4): 2, (1, 0): 7}
    return words | record(version, 0, b"a") | record(version, 1, b"b2")


# Of version 1 how many lines the header has, which words it has in place of the good one's, and why the region is refused.
BAD_HEADERS = [
    (17, {(0, 0): 0}, "truncated 17 18"),
    (0, {}, "truncated 0 18"),
    (18, {(0, 0): OTHER_MAGIC, (0, 1): 2}, "bad magic"),
    (18, {(0, 0): OTHER_MAGIC}, "bad magic"),
    (18, {(0, 1): 3, (0, 2): 65}, "bad version 3"),
    (18, {(0, 1): 0}, "bad version 0"),
    # Of version 2 by its words, and too short for that.
    (18, {(0, 1): 2, (0, 2): 65}, "truncated 18 274"),
    (18, {(0, 2): 65, (0, 3): 1}, "bad geometry page 65"),
    (18, {(0, 2): 65}, "bad geometry page 65"),
    (18, {(0, 3): 1, (0, 4): 17}, "bad geometry entries 1"),
    (18, {(0, 4): 17, (1, 0): ABOVE}, "bad geometry files 17"),
    (18, {(0, 4): 17}, "bad geometry files 17"),
    (18, {(1, 0): ABOVE, (2, 0): 0}, f"bad geometry tail {ABOVE}"),
    # Names: a length of 0, and of 57; `.a` and `Z2`, one byte of padding, and `a` again.
    (18, {(2, 0): 0, (3, 0): 57}, "bad name 0"),
    (18, {(2, 0): 0, (2, 1): 0}, "bad name 0"),
    (18, {(3, 0): 57}, "bad name 1"),
    (18, {(3, 1): 0x612E}, "bad name 1"),
    (18, {(3, 1): 0x325A}, "bad name 1"),
    (18, {(3, 7): 1 << 56}, "bad name 1"),
    (18, {(3, 0): 1, (3, 1): 0x61}, "bad name 1"),
]

# The same of version 2. Its lines are counted behind the magic and the version, and before the rest.
BAD_HEADERS_2 = [
    (17, {(0, 0): 0}, "truncated 17 18"),
    (18, {(0, 0): OTHER_MAGIC}, "bad magic"),
    (273, {(0, 2): 65}, "truncated 273 274"),
    (274, {(0, 2): 65, (0, 4): 65}, "bad geometry page 65"),
    (274, {(0, 3): 1025}, "bad geometry entries 1025"),
    (274, {(0, 4): 65, (1, 0): ABOVE}, "bad geometry files 65"),
    (274, {(1, 0): ABOVE, (18, 0): 0}, f"bad geometry tail {ABOVE}"),
    # Names: a length of 0, and of 249; a byte behind each name in the last line of its record; and `a` again.
    (274, {(18, 0): 0, (22, 0): 249}, "bad name 0"),
    (274, {(18, 0): 249}, "bad name 0"),
    (274, {(21, 7): 1 << 56}, "bad name 0"),
    (274, {(25, 0): 1}, "bad name 1"),
    (274, {(22, 0): 1, (22, 1): 0x61}, "bad name 1"),
]

# The version, words in place of the good header's, and what a look shows of it.
GOOD_HEADERS = [
    *[(version, words, text.replace("V", str(version))) for version in (1, 2) for words, text in (
        ({}, "region V 64 2 2 7|name 0 a|name 1 b2|end 0 0|"),
        ({(0, 2): 4096, (0, 3): 1024, (1, 0): 1 << 60}, f"region V 4096 1024 2 {1 << 60}|name 0 a|name 1 b2|end 0 0|"),
        (record(version, 0, b"z" * 56), f"region V 64 2 2 7|name 0 {'z' * 56}|name 1 b2|end 0 0|"),
        (record(version, 0, b"0-_.9"), "region V 64 2 2 7|name 0 0-_.9|name 1 b2|end 0 0|"),
    )],
    # There is no file, so no name is looked at.
    (1, {(0, 4): 0, (2, 0): 0, (3, 0): 57}, "region 1 64 2 0 7|end 0 0|"),
    (2, {(0, 4): 0, (18, 0): 0, (22, 0): 249}, "region 2 64 2 0 7|end 0 0|"),
    (2, record(2, 1, b"z" * 248), f"region 2 64 2 2 7|name 0 a|name 1 {'z' * 248}|end 0 0|"),
    # Lines 2 to 17 aren't read.
    (2, {(line, word): ZZ for line in range(2, 18) for word in range(8)}, "region 2 64 2 2 7|name 0 a|name 1 b2|end 0 0|"),
    (2, {(0, 4): 64} | {place: word for k in range(64) for place, word in record(2, k, b"f%d" % k).items()},
     f"region 2 64 2 64 7|{''.join(f'name {k} f{k}|' for k in range(64))}end 0 0|"),
]

# The lines of each part of a region with the good header but for its own lines, and how many of the 4 that its entries need are there.
LINES = [([2, 2], 4), ([3, 3, 5], 4), ([2, 1], 3), ([2], 2), ([1, 9], 3)]

# ---- logs: the words of each entry, the commit word, the file, the offset, the size, the count and the leader; and the bytes of its line
# of data.

NONE = ((0,), b"")

# The entries of a region of the file `a` that breaks a rule, and the entry that is named: a size of 0, a count past the
# entries, a follower of another leader, a follower that leads itself, a leader that follows, and a file that isn't there.
BAD_ENTRIES = [
    ([((1, 0, 0, 0, 1, 0), b"x"), NONE], 0),
    ([((1, 0, 0, 64, 3, 0), b"x"), NONE], 0),
    ([((1, 0, 0, 64, 2, 0), b"x" * 64), ((0, 0, 64, 1, 0, 7), b"x")], 1),
    ([((1, 0, 0, 64, 2, 0), b"x" * 64), ((2, 0, 64, 1, 0, 0), b"x")], 1),
    ([NONE, ((2, 0, 0, 64, 2, 1), b"x" * 64)], 1),
    ([((1, 1, 0, 1, 1, 0), b"x"), NONE], 0),
]

# Pieces of 64 bytes in one group, from number 0 on: more than version 1 may have, and as many as version 2 may.
LONG = {count: [((number == 0, 0, 64 * number, 64, count * (number == 0), 0), bytes([number]) * 64) for number in range(count)] for count in (17, 64, 65)}

# A group of numbers that aren't committed between two that are, and in place of number 7 one of an older turn.
WITH_A_HOLE = [((5, 0, 0, 1, 1, 4), b"\x0a"), ((0, 0, 1, 1, 1, 5), b"\x0b"), ((7, 0, 2, 1, 1, 6), b"\x0c"), ((4, 0, 3, 1, 1, 3), b"\x0d")]

# Numbers 0, 1 and 2, and 3 to 5; the third group writes over the first, and two entries were never written.
THREE_GROUPS = [
    ((1, 0, 1, 3, 1, 0), b"1" * 64),
    ((2, 1, 60, 4, 2, 1), b"2" * 64),
    ((0, 1, 64, 4, 0, 1), b"2" * 64),
    ((4, 0, 2, 62, 3, 3), b"3" * 64),
    ((0, 0, 64, 64, 0, 3), b"3" * 64),
    ((0, 0, 128, 4, 0, 3), b"3" * 64),
    NONE,
    NONE,
]

# A name, the tail and the entries of a region of a file or two, what the files hold at first, what a look says between the names and its
# last line, that line, the tail and the number of groups behind a recovery, and the files then.
LOGS = [
    ("a group", 5, [NONE, ((6, 0, 0, 1, 1, 5), b"*")], {"a": b"\1\2"}, "group 5 1 0 0 1|", "end 1 0|", (6, 1), {"a": b"*\2"}),
    ("a group over dots", 5, [NONE, ((6, 0, 0, 1, 1, 5), b"*")], {"a": b"...."}, "group 5 1 0 0 1|", "end 1 0|", (6, 1), {"a": b"*..."}),
    ("a group over no file", 5, [NONE, ((6, 0, 0, 1, 1, 5), b"*")], {"a": None}, "group 5 1 0 0 1|", "end 1 0|", (6, 1), {"a": b"*"}),
    ("two groups and a hole", 4, WITH_A_HOLE, {"a": b"\1\2"}, "group 4 1 0 0 1|hole 5 6|group 6 1 0 2 1|", "end 2 0|", (7, 2), {"a": b"\x0a\2\x0c"}),
    ("the same over dots", 4, WITH_A_HOLE, {"a": b"...."}, "group 4 1 0 0 1|hole 5 6|group 6 1 0 2 1|", "end 2 0|", (7, 2), {"a": b"\x0a.\x0c."}),
    ("three groups of two files", 0, THREE_GROUPS, {"a": b"....", "b": b""}, "group 0 1 0 1 3|group 1 2 1 60 8|group 3 3 0 2 130|", "end 3 0|",
     (6, 3), {"a": b".1" + b"3" * 130, "b": bytes(60) + b"2" * 8}),
    # The other file is none of the region's, and stays.
    ("two groups beside a file", 0, [((1, 0, 0, 3, 1, 0), b"abc"), ((2, 0, 3, 2, 1, 1), b"de")], {"a": b"......"},
     "group 0 1 0 0 3|group 1 1 0 3 2|", "end 2 0|", (2, 2), {"a": b"abcde."}),
    ("a write that was never carried", 0, [((1, 0, 0, 5, 1, 0), b"hello"), NONE], {"a": None}, "group 0 1 0 0 5|", "end 1 0|", (1, 1), {"a": b"hello"}),
]

# Regions with bad entries: a name, the tail and the entries, what a look says as above, and the entry for which a recovery is refused.
BAD_LOGS = [
    ("a bad group behind a good one", 0, [NONE, ((2, 0, 0, 1, 1, 1), b"\x0a"), NONE, ((4, 0, 0, 0, 1, 3), b"\x0b")],
     "hole 0 1|group 1 1 0 0 1|hole 2 3|bad 3|", "end 1 1|", 3),
    ("a follower that is committed too", 0, BAD_ENTRIES[3][0], "bad 0|bad 1|", "end 0 2|", 1),
]

# What the trace of version_1/ writes, by the number of its call: at which offset of which file, and what. All up to this one were
# durable when the program was killed.
LONG_NAME = "b" * 56
LAST_OF_VERSION_1 = 409


def part(count, words, data=b""):
    """The bytes of a part of so many lines: these words of its lines, and from line 1 on this data."""
    lines = bytearray(64 * count)
    for (line, place), value in words.items():
        if line < count:
            struct.pack_into("<Q", lines, 64 * line + 8 * place, value)
    lines[64 : 64 + len(data)] = data
    return bytes(lines)


def lay(folder, parts, files=()):
    """A folder with this region and these files alone."""
    for name in "region", "files":
        shutil.rmtree(f"{folder}/{name}", ignore_errors=True)
        os.mkdir(f"{folder}/{name}")
    for number, held in enumerate(parts):
        with open(f"{folder}/region/part-{number}", "wb") as file:
            file.write(held)
    for name, held in dict(files).items():
        if held is not None:
            with open(f"{folder}/files/{name}", "wb") as file:
                file.write(held)


def files_of(folder):
    found = {}
    for name in sorted(os.listdir(folder + "/files")):
        with open(f"{folder}/files/{name}", "rb") as file:
            found[name] = file.read()
    return found


def region(version, names, tail, entries):
    """The parts of a region of this version, these files, a page of 64 bytes, this tail and these entries."""
    words = {(0, 0): MAGIC, (0, 1): version, (0, 2): 64, (0, 3): len(entries), (0, 4): len(names), (1, 0): tail}
    for number, name in enumerate(names):
        words |= record(version, number, name.encode())
    return [part(LINES_OF[version][0], words), *[part(2, {(0, place): word for place, word in enumerate(line)}, data) for line, data in entries]]


def said(text, status=0):
    return text.replace("|", "\n").encode(), status


def refused(program, folder, name, why, commands):
    """These commands are refused for this, and the region and the files stay as they were."""
    was = region_of(folder), files_of(folder)
    for words in commands:
        yield f"{name}, {' '.join(words)}", call(program, [folder, *words]), said(f"error region {why}|", 7)
    yield f"{name}, left alone", (region_of(folder), files_of(folder)) == was, True


LOOK, WITH_FILES, RECOVER = ["look"], ["look", "--files"], ["recover"]


def bad_header(program, folder, version, count, words, why):
    """A region of two entries with a bad header of so many lines is refused, by a run too, which may give it more lines."""
    name = f"version {version}, {count} lines, {words}"
    lay(folder, [part(count, good(version) | words), bytes(128), bytes(128)], {"a": b"....", "b2": b"+"})
    yield from refused(program, folder, name, why, [LOOK, WITH_FILES, RECOVER])
    was, files = region_of(folder), files_of(folder)
    # Of blank parts a run makes a region.
    if count == 0 or words.get((0, 0)) == 0:
        return
    yield f"{name}, a run", call(program, [folder, *RUN], b"file a\n"), said(f"error region {why}|", 7)
    longer = count >= 18 and (good(version) | words)[(0, 0)] == MAGIC and (good(version) | words)[(0, 1)] == 1
    wanted = {**was, "part-0": was["part-0"].ljust(64 * 274, b"\0")} if longer else was
    yield f"{name}, behind the run", (region_of(folder) == wanted, files_of(folder)), (True, files)


def headers(program, folder):
    for version, rows in (1, BAD_HEADERS), (2, BAD_HEADERS_2):
        for count, words, why in rows:
            yield from bad_header(program, folder, version, count, words, why)
    lay(folder, [], {"a": b"...."})
    yield from refused(program, folder, "no part", "truncated 0 18", [LOOK, WITH_FILES, RECOVER])
    for version, words, text in GOOD_HEADERS:
        words = good(version) | words
        lay(folder, [part(LINES_OF[version][0], words), *[bytes(64 + words[(0, 2)])] * words[(0, 3)]])
        yield f"a good header of version {version}, {text}", call(program, [folder, "look"]), said(text)
    for version in 1, 2:
        header, name = LINES_OF[version][0], f"version {version}, parts of"
        for lines, found in LINES:
            lay(folder, [part(header, good(version)), *[bytes(64 * count) for count in lines]])
            if found == 4:
                yield f"{name} {lines} lines", call(program, [folder, "look"]), said(f"region {version} 64 2 2 7|name 0 a|name 1 b2|end 0 0|")
            else:
                why = f"truncated {header + found} {header + 4}"
                yield from refused(program, folder, f"{name} {lines} lines", why, [LOOK, WITH_FILES, RECOVER])


def bad_entries(program, folder):
    for version in 1, 2:
        for entries, number in [*BAD_ENTRIES, (LONG[65], 0), *([(LONG[17], 0)] if version == 1 else [])]:
            lay(folder, region(version, "a", 0, entries), {"a": b"...."})
            yield from refused(program, folder, f"version {version}, a bad entry, {entries[:2]}", f"bad entry {number}", [WITH_FILES, RECOVER])


def long_groups(program, folder):
    for count in 17, 64:
        lay(folder, region(2, "a", 0, LONG[count]), {"a": b"...."})
        held = b"".join(bytes([number]) * 64 for number in range(count))
        yield f"a group of {count}, a look", call(program, [folder, "look"]), said(f"region 2 64 {count} 1 0|name 0 a|group 0 {count} 0 0 {64 * count}|end 1 0|")
        yield f"a group of {count}, a recovery", call(program, [folder, "recover"]), said(f"recovered 0 {count} 1|file a {64 * count} {held.hex()}|")


def logs(program, folder):
    for version, (what, tail, entries, held, listed, end, (next_, groups), left) in [(version, row) for version in (1, 2) for row in LOGS]:
        name = f"version {version}, {what}"
        lay(folder, region(version, "".join(held), tail, entries), {**held, "other": b"other"})
        names = "".join(f"name {number} {file}|" for number, file in enumerate(held))
        first = f"region {version} 64 {len(entries)} {len(held)}"
        shown = "".join(f"file {file} {len(data)} {data.hex()}|" for file, data in left.items())
        was = region_of(folder), files_of(folder)
        yield f"{name}, a look", call(program, [folder, "look"]), said(f"{first} {tail}|{names}{listed}{end}")
        yield f"{name}, and its files", call(program, [folder, "look", "--files"]), said(f"{first} {tail}|{names}{listed}{shown}{end}")
        # A file that the region names and that isn't there stays away.
        yield f"{name}, looked at", (region_of(folder), files_of(folder)) == was, True
        yield f"{name}, a recovery", call(program, [folder, "recover"]), said(f"recovered {tail} {next_} {groups}|{shown}")
        yield f"{name}, its files", files_of(folder), {**left, "other": b"other"}
        yield f"{name}, a look behind it", call(program, [folder, "look"]), said(f"{first} {next_}|{names}end 0 0|")
        yield f"{name}, a second recovery", call(program, [folder, "recover"]), said(f"recovered {next_} {next_} 0|{shown}")


def bad_logs(program, folder):
    for version, (what, tail, entries, listed, end, number) in [(version, row) for version in (1, 2) for row in BAD_LOGS]:
        name = f"version {version}, {what}"
        lay(folder, region(version, "a", tail, entries), {"a": b"\1\2"})
        text = f"region {version} 64 {len(entries)} 1 {tail}|name 0 a|{listed}{end}"
        for words, wanted in (LOOK, said(text)), (RECOVER, said(f"error region bad entry {number}|", 7)), (LOOK, said(text)):
            yield f"{name}, {words[0]}", call(program, [folder, *words]), wanted
        yield from refused(program, folder, name, f"bad entry {number}", [WITH_FILES, RECOVER])


def goes_on(program, folder):
    """A region that was written before is recovered when it is opened, and a run goes on in it."""
    trace = b"file a\nfd 0 a rw\n0 pread 0 0 9\n"
    for version in 1, 2:
        lay(folder, region(version, "a", 0, [((1, 0, 0, 3, 1, 0), b"hel"), ((2, 0, 3, 2, 1, 1), b"lo.")]), {"a": b"...."})
        yield f"version {version}, a run over two groups", call(program, [folder, *RUN], trace), said("0 0 pread 0 0 9 = 68656c6c6f|file a 5 68656c6c6f|end 1 0 0|")
        yield f"version {version}, a look behind it", call(program, [folder, "look"]), said("region 2 64 2 1 2|name 0 a|end 0 0|")
    lay(folder, region(1, "a", 5, [NONE, ((6, 0, 0, 1, 1, 5), b"\x2a")]), {"a": b""})
    yield "a group of version 1", call(program, [folder, *RUN], b"file a\nfd 0 a r\n0 pread 0 0 4\n"), said("0 0 pread 0 0 4 = 2a|file a 1 2a|end 1 0 0|")
    yield "a look behind that", call(program, [folder, "look"]), said("region 2 64 2 1 6|name 0 a|end 0 0|")


def carried_over(program, folder):
    """The folder that the last program of version 1 left, with writes that weren't carried to the files."""
    writes = [("a", number % 128, number.to_bytes(4, "big")) if number % 2 == 0 else (LONG_NAME, 60, number.to_bytes(8, "big")) for number in range(LAST_OF_VERSION_1 + 1)]
    files = {"a": b"", LONG_NAME: b""}
    for name, at, data in writes:
        held = files[name].ljust(at + len(data), b"\0")
        files[name] = held[:at] + data + held[at + len(data) :]
    shown = "".join(f"file {name} {len(held)} {held.hex()}|" for name, held in files.items())
    left = os.path.join(os.path.dirname(os.path.abspath(__file__)), "version_1")
    for commands in [RUN], [["look", "--files"], ["recover"], RUN], [["run"]]:
        shutil.rmtree(folder)
        shutil.copytree(left, folder)
        yield "as it was left, not all is in the files", files_of(folder) != files, True
        for words in commands:
            found, status = call(program, [folder, *words], f"file a\nfile {LONG_NAME}\n".encode())
            yield f"version_1, {words}", (said(shown)[0] in found, status), (True, 0)
        yield "version_1, its files", files_of(folder), files
        first = call(program, [folder, "look"])[0].split(b"\n")[0]
        yield "version_1, its region", first, b"region 2 64 8 2 621"
        yield "version_1, a 65th file", call(program, [folder, *RUN], b"".join(b"file g%d\n" % k for k in range(63))), said("error region too many files|", 7)
        yield "version_1, up to 64 files", call(program, [folder, *RUN], b"".join(b"file g%d\n" % k for k in range(62)))[1], 0


def nothing(program, folder):
    yield "a look at nothing", call(program, [folder, "look"]), NO_HEADER
    yield "a word too many", call(program, [folder, "look", "--files", ""]), USAGE
    yield "a look at no folder", call(program, [folder + "/none", "look"]), DEVICE


def main(program):
    passed = failed = 0
    for cases in (headers, bad_entries, long_groups, logs, bad_logs, goes_on, carried_over, nothing):
        with tempfile.TemporaryDirectory() as folder:
            for name, found, wanted in cases(program, folder):
                if found == wanted:
                    passed += 1
                else:
                    failed += 1
                    print(f"nv_run, {name}: found {found!r}, wanted {wanted!r}"[:600])
    print(f"{passed} passed, {failed} failed")
    return 1 if failed else 0


if __name__ == "__main__":
    sys.exit(main(*sys.argv[1:]))
