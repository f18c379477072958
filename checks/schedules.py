#!/usr/bin/env python3
"""Follows schedules by the model of machine.py and by the command `sched` of a program, and compares what the two report.

First come rows whose reports are known. A schedule is drawn by its number: three threads and the cleaner over a file or two of four pages
and a small log, with cuts and without, and each pick; and for every third one more, of several lives. What the model recovers at the end of
a life is compared with the files that the life before left, its history and the writes that were kept.
Closes with 'N passed, M failed', and fails where one fails.

    schedules.py PROGRAM [COUNT [FIRST]]   PROGRAM is nv_sim; COUNT schedules, 300 unless said, are drawn from number FIRST on,
                                           and a third as many with two crashes to four
    schedules.py --rows                    the rows by the model alone
"""

import collections
import random
import subprocess
import sys

sys.dont_write_bytecode = True
from machine import Call, Mount, Pass, Picker, in_parts, overwritten, shown, splitmix  # noqa: E402

MOST_ADVANCES = 100_000
SIZES = {"page": 64, "entries": 16, "cache": 4, "batch": 4, "pages": 64}


# ---- schedules


class Caller:
    """A thread, with the calls that it has left, or the cleaner, which has none."""

    def __init__(self, mount, fds, calls=None):
        self.mount, self.fds, self.left = mount, fds, calls
        self.steps, self.kind = None, None

    def next_kind(self):
        if self.steps:
            return self.kind
        if self.left is None:
            return "take"
        return self.left[0].first_kind() if self.left else None

    def begin(self):
        pass_ = Pass(self.mount, self.fds)
        if self.left is None:
            work = pass_.clean()
        else:
            self.left[0].has_begun = True
            work = pass_.call(self.left[0])
        self.steps = pass_.answer(work)
        self.kind = next(self.steps)

    def advance(self):
        """Makes one step. Tells whether the present call, or batch, was answered by it."""
        try:
            if not self.steps:
                self.begin()
            self.mount.met[self.kind] += 1
            self.kind = next(self.steps)
            return False
        except StopIteration as ended:
            self.steps = None
            self.mount.met[f"{'batch' if self.left is None else self.left[0].word}: {ended.value.split(' ')[0]}"] += 1
            return self.is_answered(ended.value)

    def is_answered(self, why):
        if self.left is None:
            return True
        if why in ("busy", "raced"):
            return False
        self.left.pop(0).answer = why
        return True


def comes(caller, reach, most):
    """Makes the advances of a token, at most so many. Tells whether it came to its point."""
    if caller.next_kind() in (None, reach):
        return True
    for _ in range(most):
        answered = caller.advance()
        kind = caller.next_kind()
        if not reach or kind in (None, reach) or (reach == "done" and answered):
            return True
    return False


def lose_power(mount, pick):
    picker = Picker(pick)
    for part in mount.parts:
        part.lose_power(picker)
    for store in mount.stores:
        store.now = picker.file(store)
    mount.fuse.last = None


def recover(mount):
    """Writes the pieces of the committed groups to the stores, and empties the log. Tells the tail that was found, the groups' first
    numbers, and the number with which the log goes on."""
    first = next_ = mount.parts[0].load(1, 0)
    window = range(first, first + mount.entries)
    groups = [number for number in window if mount.part_of(number).load(0, 0) == number + 1]
    for leader in groups:
        next_ = leader + mount.part_of(leader).load(0, 4)
        for number in range(leader, next_):
            file, at, piece = mount.part_of(number).read_piece()
            mount.stores[file].now = overwritten(mount.stores[file].now, at, piece)
    for store in mount.stores:
        store.sync()
    mount.parts[0].store_durably(1, 0, next_)
    return first, groups, next_


def reply_text(call):
    if call.word == "pread":
        return ",".join(shown(part) for part in in_parts(call.reply, call.parts or [call.size]))
    return str(call.reply)


def is_open(call):
    return call.has_begun and call.place is None and (call.answer is None or (call.word, call.answer) == ("pwrite", "region fault"))


def fate(call, first, groups):
    if call.word != "pwrite":
        return "unanswered"
    return "kept" if call.drawn is not None and (call.drawn < first or call.drawn in groups) else "lost"


class Lives:
    """The lives of a schedule over one mount, which a crash opens anew, and what was reported of those that have ended."""

    def __init__(self, mount, fds, calls):
        self.mount, self.fds, self.calls, self.lines = mount, fds, calls, []
        self.life, self.placed, self.open = 0, 0, 0
        self.hire({thread: [call for call in calls if call.thread == thread] for thread in "01234567"})

    def hire(self, left):
        self.callers = {who: Caller(self.mount, self.fds, left[who]) for who in left} | {"w": Caller(self.mount, self.fds)}

    def follow(self, tokens, most):
        """Follows tokens. Tells the place of the first that used its advances up, if there is one."""
        for place, token in enumerate(tokens):
            who, _, reach = token.partition(":")
            if who == "cut":
                self.mount.fuse.arm(int(reach))
            elif who == "crash":
                self.crash(reach)
            elif who in self.callers and not comes(self.callers[who], reach, most):
                return place
        return None

    def lose_power(self, pick):
        """Power fails, and the region is recovered. Tells the lines of the life's history and of its open calls, and the number behind."""
        lose_power(self.mount, pick)
        first, groups, next_ = recover(self.mount)
        begun = [call for call in self.calls if call.has_begun and call.life is None]
        open_ = [(call, fate(call, first, groups)) for call in begun if is_open(call)]
        self.mount.met.update(end for _, end in open_)
        for call in (call for call, end in open_ if end == "kept"):
            self.mount.outcome(call)
        if [store.now for store in self.mount.stores] != self.mount.plain:
            raise ValueError("the model is wrong: other files than after the history and the writes that were kept")
        history = [f"{self.placed + call.place} {call.name()} = {reply_text(call)}" for call in self.mount.history]
        for call in begun:
            call.life = self.life
        self.life, self.placed, self.open = self.life + 1, self.placed + len(history), self.open + len(open_)
        return history, [f"open {call.name()}: {end}" for call, end in open_], next_

    def crash(self, pick):
        """Ends a life. Of each thread the present call is gone, where it was begun, and the others stay."""
        history, open_, next_ = self.lose_power(pick)
        self.lines += [*history, *open_, "crash"]
        self.mount.met[f"crash: {'seed' if pick.isdigit() else pick}"] += 1
        self.mount.open(next_)
        left = {who: [call for call in caller.left if not call.has_begun] for who, caller in self.callers.items() if who != "w"}
        self.hire(left)

    def report(self, pick, names):
        """The lines of the report, with the image that the pick names at the end."""
        history, open_, _ = self.lose_power(pick)
        refused = [call for call in self.calls if call.answer not in (None, "done") and not is_open(call)]
        return [
            *self.lines,
            *history,
            *[f"refused {call.name()}: {call.answer}" for call in refused],
            *open_,
            *[f"file {name} {len(store.now)} {shown(store.now)}" for name, store in zip(names, self.mount.stores)],
            f"end {self.placed} {len(refused)} {self.open}",
        ]


class Schedule:
    """Sizes, the pick of the image, the lines of calls, and the tokens; and the descriptors, each a file and a mode."""

    def __init__(self, sizes, pick, lines, tokens, fds=("a rw",)):
        self.sizes, self.pick, self.lines, self.tokens, self.fds = sizes, pick, lines, tokens, fds
        self.names = sorted({fd.split(" ")[0] for fd in fds})

    def words(self):
        return [word for size in self.sizes for word in (f"--{size}", str(self.sizes[size]))] + ["--image", self.pick]

    def trace(self):
        files, fds = [f"file {name}" for name in self.names], [f"fd {number} {fd}" for number, fd in enumerate(self.fds)]
        steps = [f"steps {' '.join(self.tokens)}"] if self.tokens else []
        return "\n".join([*files, *fds, *self.lines, *steps, ""])

    def followed(self, most=MOST_ADVANCES):
        """What the model makes of it: its lives, and the place of a token that used its advances up, if one did."""
        fds = [(self.names.index(name), mode) for name, mode in (fd.split(" ") for fd in self.fds)]
        lives = Lives(Mount(SIZES | self.sizes, len(self.names)), fds, [Call(line) for line in self.lines])
        return lives, lives.follow(self.tokens, most)

    def wanted(self, met):
        """The report and the status, by the model. What it met is counted."""
        lives, used_up = self.followed()
        text = lives.report(self.pick, self.names)
        met.update(lives.mount.met)
        if used_up is not None:
            met["turns"] += 1
            return "error turns\n", 8
        return "\n".join([*text, ""]), 0

    def shown(self, program):
        """The report and the status, by the program."""
        try:
            done = subprocess.run([program, "sched", *self.words()], input=self.trace().encode(), stdout=subprocess.PIPE, timeout=600)
        except subprocess.TimeoutExpired:
            return "", "no end in ten minutes"
        return done.stdout.decode(), done.returncode


# ---- rows whose reports are known

PICKS = ["old", "new", "torn", "mixed", *map(str, range(10))]
TWO_THREADS = (["0 pfill 0 0 128 0", "0 pwrite 0 0 aa", "1 pwrite 0 64 bb"], "0:done 0:seize 1:done 0:pledge cut:12 0")
IN_TWO_ENTRIES = ([f"0 pwrite 0 {k} 0{k}" for k in range(3)], "0:done w:done 0:done w:done 0:done")
ONE = ["0 pwrite 0 0 aa"]


def two_lives(pick, last):
    return [*ONE, "1 pwrite 0 1 bb", "0 pread 0 0 4"], f"0:pledge cut:12 0 crash:{pick} 1:done 0:done{last}"


# A sync makes three advances, and a call that its arguments bar one: together 100,000.
MANY = ["0 fsync 0"] * 33_333 + ["0 pread 0 4096 1"]
ALL_MANY = "|".join([f"{k} 0 fsync 0 = 0" for k in range(33_333)] + ["refused 0 pread 0 4096 1: too far", "file a 0 -", "end 33333 1 0"])
LOST = "open 0 pwrite 0 0 1: lost|file a 0 -|end 0 0 1"
KEPT = "open 0 pwrite 0 0 1: kept|file a 1 aa|end 0 0 1"
PLACED = "0 0 pwrite 0 0 1 = 1|file a 1 aa|end 1 0 0"

# A name, the sizes, the pick, the calls, the tokens, and the report; a line feed is a bar.
ROWS = [
    *[("cut before the fence, without its commit word", {}, pick, *TWO_THREADS,
       f"0 0 pwrite 0 0 128 = 128|1 1 pwrite 0 64 1 = 1|open 0 pwrite 0 0 1: lost|file a 128 {'00' * 64}bb{'00' * 63}|end 2 0 1") for pick in ("old", "torn", "mixed")],
    ("cut before the fence, with its commit word", {}, "new", *TWO_THREADS,
     f"0 0 pwrite 0 0 128 = 128|1 1 pwrite 0 64 1 = 1|open 0 pwrite 0 0 1: kept|file a 128 aa{'00' * 63}bb{'00' * 63}|end 2 0 1"),
    ("group cut in its third piece", {}, "new", ["0 pfill 0 0 192 5"], "0:pledge cut:19 0",
     "open 0 pwrite 0 0 192: lost|file a 0 -|end 0 0 1"),
    ("group cut at its last fence", {}, "new", ["0 pfill 0 0 192 5"], "0:pledge cut:30 0",
     f"open 0 pwrite 0 0 192: kept|file a 192 {'05' * 192}|end 0 0 1"),
    ("two pieces, cut at the commit", {}, "new", ["0 pwrite 0 63 0102"], "0:pledge cut:19 0", "open 0 pwrite 0 63 2: lost|file a 0 -|end 0 0 1"),
    ("two pieces, cut behind the commit", {}, "new", ["0 pwrite 0 63 0102"], "0:pledge cut:20 0",
     f"open 0 pwrite 0 63 2: kept|file a 65 {'00' * 63}0102|end 0 0 1"),
    ("before its place and cleaned, then power off", {}, "old", ["0 pwrite 0 0 cc"], "0:place w:done",
     "open 0 pwrite 0 0 1: kept|file a 1 cc|end 0 0 1"),
    ("parts cut at the commit word", {}, "new", ["0 pwritev 0 63 01,02"], "0:pledge cut:19 0", "open 0 pwritev 0 63 1,1: lost|file a 0 -|end 0 0 1"),
    ("parts cut at its fence", {}, "new", ["0 pwritev 0 63 01,02"], "0:pledge cut:20 0",
     f"open 0 pwritev 0 63 1,1: kept|file a 65 {'00' * 63}0102|end 0 0 1"),
    ("parts in a row", {}, "old", ["0 pwritev 0 62 aa,-,bbcc", "0 preadv 0 61 2,0,9,1"], "0:done 0:done",
     f"0 0 pwritev 0 62 1,0,2 = 3|1 0 preadv 0 61 2,0,9,1 = 00aa,-,bbcc,-|file a 65 {'00' * 62}aabbcc|end 2 0 0"),
    ("busy page", {}, "old", ["0 pwrite 0 0 11", "1 pread 0 0 1"], "0:place 1 0:done 1:done",
     "0 0 pwrite 0 0 1 = 1|1 1 pread 0 0 1 = 11|file a 1 11|end 2 0 0"),
    ("torn after cleaning", {}, "torn", ["0 pwrite 0 0 dd"], "0:done w:free", "0 0 pwrite 0 0 1 = 1|file a 1 dd|end 1 0 0"),
    ("a read behind each batch", {"batch": 1}, "old", ["0 pwrite 0 0 01020304", "0 pwrite 0 1 09", *["0 pread 0 0 4"] * 3],
     "0:done 0:done 0:done w:done 0:done w:done 0:done",
     "0 0 pwrite 0 0 4 = 4|1 0 pwrite 0 1 1 = 1|2 0 pread 0 0 4 = 01090304|3 0 pread 0 0 4 = 01090304|4 0 pread 0 0 4 = 01090304|"
     "file a 4 01090304|end 5 0 0"),
    ("two entries, cleaned between", {"entries": 2}, "old", *IN_TWO_ENTRIES,
     "0 0 pwrite 0 0 1 = 1|1 0 pwrite 0 1 1 = 1|2 0 pwrite 0 2 1 = 1|file a 3 000102|end 3 0 0"),
    ("turns used up", {}, "old", ["0 pwrite 0 0 01", "1 pwrite 0 0 02"], "0:place 1:done", "error turns"),
    ("the last of a token's turns", {}, "old", MANY, "0:draw", ALL_MANY),
    ("one turn too few", {}, "old", [*MANY, "0 pread 0 4096 1"], "0:draw", "error turns"),
    *[("two open writes, the later one committed", {}, pick, ["0 pfill 0 0 65 0", *TWO_THREADS[0][1:]], "0:done 0:seize 1:ready",
       f"0 0 pwrite 0 0 65 = 65|open 0 pwrite 0 0 1: lost|open 1 pwrite 0 64 1: kept|file a 65 {'00' * 64}bb|end 1 0 2") for pick in PICKS],
    *[("two open writes, the earlier one committed", {}, pick, ["0 pfill 0 0 65 0", *TWO_THREADS[0][1:]], "0:done 0:seize 1:seize 0:ready",
       f"0 0 pwrite 0 0 65 = 65|open 0 pwrite 0 0 1: kept|open 1 pwrite 0 64 1: lost|file a 65 aa{'00' * 64}|end 1 0 2") for pick in PICKS],
    *[("in mid-call", {}, pick, ["0 pwrite 0 0 11", "1 pread 0 0 1", "2 fsync 0", "3 pwrite 0 0 22", "3 fsync 0"], "2 1 0",
       "open 0 pwrite 0 0 1: lost|open 1 pread 0 0 1: unanswered|open 2 fsync 0: unanswered|file a 0 -|end 0 0 3") for pick in PICKS],
    ("full log", {"entries": 2}, "old", IN_TWO_ENTRIES[0], "0:done 0:done 0:done",
     "0 0 pwrite 0 0 1 = 1|1 0 pwrite 0 1 1 = 1|refused 0 pwrite 0 2 1: again 2 0|file a 2 0001|end 2 1 0"),
    ("one buffer", {"cache": 1}, "old",
     ["0 pfill 0 0 128 1", "0 pread 0 0 2", "0 pwrite 0 1 0a0b", "0 pread 0 64 1", "0 pwrite 0 2 0c", "0 pread 0 0 5"], "0:done " * 6,
     f"0 0 pwrite 0 0 128 = 128|1 0 pread 0 0 2 = 0101|2 0 pwrite 0 1 2 = 2|3 0 pread 0 64 1 = 01|4 0 pwrite 0 2 1 = 1|"
     f"5 0 pread 0 0 5 = 010a0c0101|file a 128 010a0c{'01' * 125}|end 6 0 0"),
    ("stopped at the commit's fence", {}, "0", ["0 pwrite 0 0 68656c6c6f", "0 pread 0 0 16"], "cut:12 0:done 0:done",
     "refused 0 pread 0 0 16: stopped|open 0 pwrite 0 0 5: kept|file a 5 68656c6c6f|end 0 1 1"),
    ("stopped at the read", {}, "old", ["0 pwrite 0 0 68656c6c6f", "0 pread 0 0 16"], "cut:13 0:done 0:done",
     "0 0 pwrite 0 0 5 = 5|refused 0 pread 0 0 16: store fault|file a 5 68656c6c6f|end 1 1 0"),
    ("no calls", {}, "old", [], "", "file a 0 -|end 0 0 0"),
    *[(f"two lives, crash:{pick}{' and a cut' * bool(cut)}", {}, "old", *two_lives(pick, cut),
       f"open 0 pwrite 0 0 1: {end}|crash|0 1 pwrite 0 1 1 = 1|1 0 pread 0 0 4 = {file}|file a 2 {file}|end 2 0 1")
      for cut in ("", " cut:60") for pick, end, file in [("old", "lost", "00bb"), ("torn", "lost", "00bb"), ("mixed", "lost", "00bb"), ("new", "kept", "aabb")]],
    *[(f"cut at call {k} of a write", {}, pick, ONE, f"cut:{k} 0:done", LOST) for k in range(1, 11) for pick in PICKS],
    *[(f"cut at call {k} of a write", {}, pick, ONE, f"cut:{k} 0:done", text)
      for k in (11, 12) for pick, text in [("old", LOST), ("torn", LOST), ("mixed", LOST), ("new", KEPT), ("0", KEPT)]],
    *[(f"cut at call {k}, behind a write", {}, pick, ONE, f"cut:{k} 0:done w:done", PLACED) for k in range(13, 61) for pick in PICKS],
]


def rows():
    for name, sizes, pick, lines, tokens, text in ROWS:
        status = 8 if text == "error turns" else 0
        yield f"{name}, image {pick}", Schedule(sizes, pick, lines, tokens.split()), (text.replace("|", "\n") + "\n", status)


# ---- steps that are counted: the advances of each call, over a file of some bytes, one buffer, 16 entries


def advances(caller):
    count = 1
    while not caller.advance():
        count += 1
    return count


def counted(lines, data, cache=1):
    mount = Mount(SIZES | {"cache": cache}, 1)
    mount.stores[0].now = mount.stores[0].durable = mount.plain[0] = data
    mount.words[mount.length_word(0)] = len(data)
    caller = Caller(mount, [(0, "rw")], [Call(line) for line in lines])
    return [advances(caller) for _ in lines]


def race():
    """The advances of a write to the end, and of one that stood before its draw meanwhile; and what that one was answered."""
    mount = Mount(SIZES, 1)
    mount.stores[0].now = mount.stores[0].durable = mount.plain[0] = bytes(128)
    mount.words[mount.length_word(0)] = 128
    slow, fast = [Caller(mount, [(0, "rw")], [Call(f"0 pwrite 0 {at} 01")]) for at in (0, 64)]
    before = 0
    while slow.next_kind() != "draw":
        slow.advance()
        before += 1
    made = advances(fast)
    while slow.steps:
        slow.advance()
        before += 1
    return made, before, slow.left[0].answer


# What is counted, and how often.
COUNTS = [
    ("a read past the end, and a sync", counted(["0 pread 0 1 9", "0 fsync 0"], b"\1\2\3", 4), [12, 3]),
    ("reads by one buffer", counted(["0 pread 0 0 1", "0 pread 0 0 1", "0 pread 0 64 1", "0 pread 0 0 1"], bytes(128)), [9, 6, 14, 14]),
    ("two writes that race", race(), (12, 8, None)),
    ("the first words of SplitMix64", [next(words) for words in [splitmix(0)] * 3], [0xE220A8397B1DCDAF, 0x6E789E6AA1B965F4, 0x06C45D188009454F]),
    ("the first page's lock", Mount(SIZES, 1).page_word(0), 30),
]


# ---- schedules that are drawn

KINDS_OF_CALLS = "load load load take give place draw seize pledge ready ready grow hold return hand hint".split()
KINDS_OF_BATCHES = "load take give hold return subtract free tail".split()
FEW_ADVANCES = 100


def drawn_call(draw, lines):
    """A call, for pages of so many lines."""
    thread, word = draw.choice("012"), draw.choice(["pwrite"] * 5 + ["pread"] * 4 + ["fsync"])
    # Descriptors 0 and 3 are open to read and write, 1 to read, 2 to write.
    fd = draw.choice({"pwrite": "0023", "pread": "0013", "fsync": "0123"}[word] if draw.random() < 0.97 else "012")
    if word == "fsync":
        return f"{thread} fsync {fd}"
    at = lines * draw.choice([draw.randrange(256), draw.randrange(64), draw.choice([60, 62, 126, 190])])
    size = draw.choice([draw.randint(1, 8)] * 16 + [0, 70, 80, draw.randint(9, 200)])
    if draw.random() < 0.2:
        return f"{thread} {word}v {fd} {at} {','.join(drawn_parts(draw, word, size))}"
    if word == "pread":
        return f"{thread} pread {fd} {at} {size}"
    if draw.random() < 0.3:
        return f"{thread} pfill {fd} {at} {size} {draw.randrange(256)}"
    return f"{thread} pwrite {fd} {at} {shown(draw.randbytes(size))}"


def drawn_parts(draw, word, size):
    """The parts of a vectored call of so many bytes."""
    cuts = [0, *sorted(draw.randint(0, size) for _ in range(draw.choice([0, 1, 1, 2, 3, 15]))), size]
    for left, right in zip(cuts, cuts[1:]):
        yield str(right - left) if word == "pread" else shown(draw.randbytes(right - left))


def drawn_cut(draw):
    """A cut at some call from here on; or in a commit, a read's miss, or a batch."""
    thread = draw.choice("012")
    in_commit = [f"{thread}:pledge", f"cut:{draw.choice([11, 12, 12, 20, 21, draw.randint(1, 30)])}", thread]
    in_read = draw.choice([[f"{thread}:hand", "cut:1", f"{thread}:done"], [f"{thread}:return", f"cut:{draw.randint(1, 13)}", thread]])
    in_batch = draw.choice([["w:return", f"cut:{draw.choice([14, draw.randint(1, 30)])}", "w"], ["w:free", f"cut:{draw.randint(1, 4)}", "w"]])
    return draw.choice([[f"cut:{draw.choice([draw.randint(1, 12), draw.randint(1, 90)])}"], in_commit, in_commit, in_read, in_batch])


def to_a_kind(draw, who):
    return f"{who}:{draw.choice(KINDS_OF_BATCHES if who == 'w' else KINDS_OF_CALLS)}"


def drawn_tokens(draw):
    """Some tokens: advances to a point or by number, by which a caller may stand anywhere when another one goes on; or a cut."""
    who, other, form = draw.choice("012012w"), draw.choice("012w"), draw.random()
    if form < 0.03:
        return drawn_cut(draw)
    if form < 0.30:
        return [who] * draw.randint(1, 12)
    if form < 0.50:
        return [f"{who}:done"]
    if form < 0.75:
        return [to_a_kind(draw, who)]
    return [to_a_kind(draw, who), *[who] * draw.randint(0, 7), draw.choice([f"{other}:done", to_a_kind(draw, other)])]


def drawn_end(draw):
    """All calls come to an end; or each caller goes on for some advances."""
    if draw.random() < 0.3:
        return [f"{who}:done" for who in draw.sample("012w" * 4, 16)]
    return [who for who in draw.sample("012w", 4) for _ in range(draw.randint(0, 15))]


def drawn(number):
    """The schedule of this number. One of fifty keeps a token that uses its advances up, the others leave such tokens out."""
    draw = random.Random(number)
    page = draw.choice([64, 64, 64, 128])
    sizes = {"page": page, "entries": draw.choice([4, 4, 5, 6, 8, 16]), "cache": draw.randint(1, 5), "batch": draw.randint(1, 6), "pages": 4}
    lines = [drawn_call(draw, page // 64) for _ in range(draw.randint(8, 24))]
    tokens = [token for _ in range(draw.randint(8, 40)) for token in drawn_tokens(draw)]
    if draw.random() < 0.6:
        lines, tokens = ["0 pfill 0 0 200 238", *lines], ["0:done", *tokens]
    tokens += drawn_end(draw)
    schedule = Schedule(sizes, drawn_pick(draw), lines, tokens, ("a rw", "a r", "a w", draw.choice(["a rw", "b rw"])))
    return schedule if number % 50 == 0 else within_turns(schedule)


def within_turns(schedule):
    """The schedule without the tokens that use their advances up."""
    used_up = schedule.followed(FEW_ADVANCES)[1]
    while used_up is not None:
        del schedule.tokens[used_up]
        used_up = schedule.followed(FEW_ADVANCES)[1]
    return schedule


def drawn_pick(draw):
    return draw.choice(["old", "new", "torn", "mixed", *[str(draw.randrange(1 << 32))] * 2])


def drawn_lives(number):
    """The schedule of this number of three lives to five, each with some cuts: more calls, and a crash behind some of the tokens."""
    draw = random.Random(f"lives {number}")
    schedule = drawn(1 + 50 * number)
    lines = schedule.sizes["page"] // 64
    schedule.lines += [drawn_call(draw, lines) for _ in range(draw.randint(8, 24))]
    for _ in range(draw.randint(2, 4)):
        thread = draw.choice("012")
        schedule.tokens += [*draw.choice([[], drawn_cut(draw), [f"{thread}:ready"], [f"{thread}:place"]]), f"crash:{drawn_pick(draw)}"]
        schedule.tokens += [token for _ in range(draw.randint(3, 12)) for token in drawn_tokens(draw)]
    schedule.tokens += drawn_end(draw)
    return within_turns(schedule)


# What three hundred schedules are to meet, so that each part of the order of steps is compared.
TO_MEET = """
load take give place draw seize pledge ready grow break hold return subtract free tail hand hint kept lost unanswered turns
pread: done; pread: busy; pread: stopped; pread: bad; pread: too; pread: region; pread: store
pwrite: done; pwrite: busy; pwrite: raced; pwrite: stopped; pwrite: bad; pwrite: too; pwrite: again; pwrite: region
fsync: done; fsync: stopped; batch: done; batch: busy; batch: idle; batch: stopped; batch: region; batch: store
crash: old; crash: new; crash: torn; crash: mixed; crash: seed
"""


def unmet(met):
    first, *others = TO_MEET.strip().split("\n")
    names = first.split(" ") + [name for line in others for name in line.split("; ")]
    return [name for name in names if not met[name]]


# ---- the check


def is_right(found, wanted, name, trace=""):
    if found != wanted:
        print(f"{name}\n{trace}wanted: {wanted}\nfound: {found}")
    return found == wanted


def is_right_by(found, wanted, name, schedule, by):
    return is_right(found, wanted, f"{name}, by the {by}: nv_sim sched {' '.join(schedule.words())}", schedule.trace())


def row_checks(program):
    for name, found, wanted in COUNTS:
        yield is_right(found, wanted, name)
    for name, schedule, wanted in rows():
        yield is_right_by(schedule.wanted(collections.Counter()), wanted, name, schedule, "model")
        if program:
            yield is_right_by(schedule.shown(program), wanted, name, schedule, "program")


def drawn_checks(program, count, first):
    met = collections.Counter()
    for number in range(first, first + count):
        schedule = drawn(number)
        yield is_right_by(schedule.shown(program), schedule.wanted(met), f"schedule {number}", schedule, "program")
    for number in range(first, first + count // 3):
        schedule = drawn_lives(number)
        yield is_right_by(schedule.shown(program), schedule.wanted(met), f"lives {number}", schedule, "program")
    if count >= 300:
        yield is_right(unmet(met), [], "never met")


def main(program=None, count="300", first="0"):
    if program in (None, "--help"):
        print(__doc__)
        return 2
    results = list(row_checks(None)) if program == "--rows" else [*row_checks(program), *drawn_checks(program, int(count), int(first))]
    failed = results.count(False)
    print(f"{len(results) - failed} passed, {failed} failed")
    return 1 if failed else 0


if __name__ == "__main__":
    sys.exit(main(*sys.argv[1:]))
