"""A model of the machine: words, cells, passes and their steps, over devices that can be refused calls and lose power.

It is written from docs/machine.md, docs/devices.md and docs/formats.md, and is as plain as they are. A word is a number. A call, or a
batch of the cleaner, is a generator, which yields the kind of the step to come; when it goes on it makes that step, behind the device
calls that are due before it. At each place the reply is compared with that of plain files. `schedules.py` compares the programs with it.
"""

import collections

MASK = (1 << 64) - 1
STOP, ORDER, HEAD, TAIL, HAND, CLEANER, HEADER = range(7)
FREE, FILLING, READY, HELD, CLEANED, BROKEN = range(6)


class Refused(Exception):
    """A call of the mount is refused, and gives back what it owns."""


class Fault(Exception):
    """A device call is refused."""


# ---- devices


class Fuse:
    """Counts the device calls, and refuses all from one on, once it is armed."""

    def __init__(self):
        self.calls, self.last = 0, None

    def arm(self, number):
        last = self.calls + number - 1
        self.last = last if self.last is None else min(self.last, last)

    def count(self, why):
        self.calls += 1
        if self.last is not None and self.calls > self.last:
            raise Fault(why)


class Part:
    """Lines of persistent memory: of each word of a line its values since the durable one, the oldest first."""

    def __init__(self, fuse, lines):
        self.fuse, self.lines, self.noted = fuse, [[[0] for _ in range(8)] for _ in range(lines)], {}

    def load(self, line, word):
        self.fuse.count("region fault")
        return self.lines[line][word][-1]

    def store(self, line, word, value):
        self.fuse.count("region fault")
        self.lines[line][word].append(value)

    def store_line(self, line, data):
        self.fuse.count("region fault")
        for word in range(8):
            self.lines[line][word].append(int.from_bytes(data[8 * word : 8 * word + 8], "little"))

    def flush(self, line):
        self.fuse.count("region fault")
        self.noted[line] = [len(values) - 1 for values in self.lines[line]]

    def fence(self):
        self.fuse.count("region fault")
        for line, oldest in self.noted.items():
            for values, first in zip(self.lines[line], oldest):
                del values[:first]
        self.noted.clear()

    def lose_power(self, picker):
        for line in self.lines:
            line[:] = [[picker.word(word, values)] for word, values in enumerate(line)]
        self.noted.clear()

    def store_durably(self, line, word, value):
        self.store(line, word, value)
        self.flush(line)
        self.fence()

    def read_piece(self):
        """The file, the offset and the bytes that an entry's part holds: loads of its fields, and of all words of its lines of data."""
        file, at, size, _, _ = [self.load(0, word) for word in range(1, 6)]
        words = [self.load(1 + line, word) for line in range(-(-size // 64)) for word in range(8)]
        return file, at, b"".join(word.to_bytes(8, "little") for word in words)[:size]


class Store:
    """A file of a disk: what reads give, what is durable, and which bytes are written since the last sync."""

    def __init__(self, fuse):
        self.fuse, self.now, self.durable, self.unsynced = fuse, b"", b"", set()

    def pread(self, at, size):
        self.fuse.count("store fault")
        return self.now[at : at + size]

    def pwrite(self, at, data):
        try:
            self.fuse.count("store fault")
            self.now = overwritten(self.now, at, data)
        finally:
            self.unsynced.update(range(at, min(at + len(data), len(self.now))))

    def sync(self):
        self.fuse.count("store fault")
        self.durable, self.unsynced = self.now, set()


def overwritten(file, at, data):
    return file.ljust(at, b"\0")[:at] + data + file[at + len(data) :] if data else file


def splitmix(state):
    while True:
        state = (state + 0x9E3779B97F4A7C15) & MASK
        word = ((state ^ state >> 30) * 0xBF58476D1CE4E5B9) & MASK
        word = ((word ^ word >> 27) * 0x94D049BB133111EB) & MASK
        yield word ^ word >> 31


class Picker:
    """Says what a power failure leaves of each device, all by one stream of draws."""

    def __init__(self, pick):
        self.pick, self.draws = pick, splitmix(int(pick)) if pick.isdigit() else None

    def word(self, word, values):
        if len(values) > 1 and self.draws:
            return values[next(self.draws) % len(values)]
        return values[-1 if self.pick == "new" or self.pick == "mixed" and word % 2 else 0]

    def file(self, store):
        if not store.unsynced or self.pick == "new":
            return store.now
        if self.pick == "old":
            return store.durable
        length = len(store.now)
        if self.draws:
            length = len(store.durable) + next(self.draws) % (length - len(store.durable) + 1)
        image = bytearray(store.now[:length])
        for place in sorted(place for place in store.unsynced if place < length):
            image[place] = next(self.draws) % 256 if self.draws else 0xA5
        return bytes(image)


# ---- the mount


class Call:
    """A call of the trace, by its line; its file, place and reply, the number that it drew, and what it was answered, as they come."""

    def __init__(self, line):
        fields = line.split(" ")
        self.thread, self.word, self.fd = fields[0], fields[1].replace("pfill", "pwrite").rstrip("v"), int(fields[2])
        self.at = int(fields[3]) if len(fields) > 3 else 0
        self.data = data_of(fields) if self.word == "pwrite" else b""
        self.parts = parts_of(fields) if fields[1].endswith("v") else None
        self.size = len(self.data) if self.word != "pread" else sum(self.parts or [int(fields[4])])
        self.end = self.at + self.size
        self.file, self.has_begun, self.answer, self.place, self.reply, self.drawn = None, False, None, None, None, None
        # The life in which it was begun, once that has ended.
        self.life = None

    def name(self):
        if self.parts:
            return f"{self.thread} {self.word}v {self.fd} {self.at} {','.join(map(str, self.parts))}"
        return f"{self.thread} {self.word} {self.fd}" + ("" if self.word == "fsync" else f" {self.at} {self.size}")

    def first_kind(self):
        return "take" if self.size else "load"


def data_of(fields):
    if fields[1] == "pfill":
        return bytes([int(fields[5])]) * int(fields[4])
    return bytes.fromhex(fields[4].replace("-", "").replace(",", ""))


def parts_of(fields):
    """How long each part of a vectored call is."""
    return [int(part) if fields[1] == "preadv" else len(part.replace("-", "")) // 2 for part in fields[4].split(",")]


def in_parts(data, parts):
    """What each part gets: they are filled in order, each to its end before the next."""
    for size in parts:
        yield data[:size]
        data = data[size:]


def shown(data):
    return data.hex() or "-"


class Buffer:
    """The buffer of a page: its bytes, where it is valid."""

    def __init__(self, data=b""):
        self.data = data


class Mount:
    """Words, buffers and devices of a new region with empty files, and the history."""

    def __init__(self, sizes, files):
        self.page, self.entries, self.pages = sizes["page"], sizes["entries"], sizes["pages"]
        self.files, self.all_pages = files, files * self.pages
        self.batch = min(sizes["batch"], self.entries)
        self.buffers = min(sizes["cache"], self.all_pages)
        self.fuse = Fuse()
        self.parts = [Part(self.fuse, 274), *[Part(self.fuse, 1 + self.page // 64) for _ in range(self.entries)]]
        self.stores = [Store(self.fuse) for _ in range(files)]
        self.plain = [b""] * files
        # How often each kind of step and each answer was met.
        self.met = collections.Counter()
        self.open(0)

    def open(self, number):
        """Begins anew over the devices, with a log that is empty and goes on with this number."""
        self.words = [0] * self.page_word(self.all_pages)
        self.words[HEAD] = self.words[TAIL] = number
        for file, store in enumerate(self.stores):
            self.words[self.length_word(file)] = len(store.now)
        for buffer in range(self.buffers):
            self.words[self.hint_word(buffer)] = buffer
        # Of each page its buffer, if it has one.
        self.cached = [Buffer() if page < self.buffers else None for page in range(self.all_pages)]
        self.history = []

    # The places of the words.

    def size_word(self, file):
        return 7 + 3 * file

    def length_word(self, file):
        return 8 + 3 * file

    def store_word(self, file):
        return 9 + 3 * file

    def entry_word(self, number):
        return 7 + 3 * self.files + number % self.entries

    def hint_word(self, buffer):
        return 7 + 3 * self.files + self.entries + buffer

    def page_word(self, page):
        return 7 + 3 * self.files + self.entries + self.buffers + 3 * page

    def cleanup_word(self, page):
        return self.page_word(page) + 1

    def dirty_word(self, page):
        return self.page_word(page) + 2

    # What calls ask of it.

    def part_of(self, number):
        return self.parts[1 + number % self.entries]

    def pages_of(self, file, at, end):
        """The pages of a file that have bytes from an offset up to an end."""
        if at >= end:
            return []
        return [file * self.pages + page for page in range(at // self.page, -(-end // self.page))]

    def pieces_of(self, call):
        """The pieces of a write: where each begins, and its bytes."""
        cuts = [call.at, *range((call.at // self.page + 1) * self.page, call.end, self.page), call.end]
        return [(at, call.data[at - call.at : end - call.at]) for at, end in zip(cuts, cuts[1:])]

    def outcome(self, call):
        """The reply of plain files, which are changed."""
        file = self.plain[call.file]
        if call.word == "pread":
            return file[call.at : call.end]
        self.plain[call.file] = overwritten(file, call.at, call.data)
        return call.size


# ---- passes


class Pass:
    """One that makes the steps of calls, or of batches. Each method with a `yield` makes steps, and yields the kind of each before it."""

    def __init__(self, mount, fds):
        self.mount, self.words, self.fds = mount, mount.words, fds
        self.owned, self.entries = [], []

    def load(self, word):
        yield "load"
        return self.words[word]

    def take(self, word):
        yield "take"
        if self.words[word]:
            raise Refused("busy")
        self.words[word] = 1
        self.owned.append(word)

    def give(self, word, before=lambda: None):
        yield "give"
        result = before()
        self.words[word] = 0
        self.owned.remove(word)
        return result

    def give_rising(self, words):
        for word in words:
            yield from self.give(word)

    def change(self, number, kind):
        """Changes the kind of an entry, whose word says as much else as before."""
        word = self.mount.entry_word(number)
        self.words[word] += kind - self.words[word] % 8

    def answer(self, work):
        """Makes the steps of a call or a batch, and those behind a refusal or a fault. Tells the answer."""
        try:
            yield from work
            return "done"
        except Refused as refusal:
            why = str(refusal)
        except Fault as fault:
            why = str(fault)
            # The step of this advance.
            self.words[STOP] = 1
            yield from self.let_entries_go()
        while self.owned:
            yield from self.give(self.owned[-1])
        return why

    def let_entries_go(self):
        while self.entries:
            number = self.entries[0]
            is_filled = self.words[self.mount.entry_word(number)] % 8 == FILLING
            yield "break" if is_filled else "return"
            self.change(number, BROKEN if is_filled else READY)
            del self.entries[0]

    # Calls.

    def call(self, call):
        call.file, mode = self.fds[call.fd]
        if {"pread": "r", "pwrite": "w", "fsync": ""}[call.word] not in mode:
            raise Refused("bad descriptor")
        if call.end > self.mount.page * self.mount.pages:
            raise Refused("too far")
        pages = self.mount.pages_of(call.file, call.at, call.end)
        if len(pages) > min(64, self.mount.entries):
            raise Refused("too long")
        if not pages:
            yield from self.call_of_no_bytes(call)
        elif call.word == "pread":
            yield from self.read(call, pages)
        else:
            yield from self.write(call, pages)

    def heed_stop(self):
        if (yield from self.load(STOP)):
            raise Refused("stopped")
        yield from self.load(ORDER)

    def begin(self, call, pages):
        """Takes the pages, and SIZE where the call reaches past LENGTH. Tells LENGTH."""
        for page in pages:
            yield from self.take(self.mount.page_word(page))
        length = yield from self.load(self.mount.length_word(call.file))
        if call.end > length:
            yield from self.take(self.mount.size_word(call.file))
            length = yield from self.load(self.mount.length_word(call.file))
        yield from self.heed_stop()
        return length

    def place(self, call, reply):
        yield "place"
        if reply != self.mount.outcome(call):
            raise ValueError(f"the model is wrong: {call.name()} = {reply}")
        call.place, call.reply = self.words[ORDER], reply
        self.mount.history.append(call)
        self.words[ORDER] += 1

    def end(self, call, pages):
        size = self.mount.size_word(call.file)
        if size in self.owned:
            yield from self.give(size)
        yield from self.give_rising(map(self.mount.page_word, pages))

    def call_of_no_bytes(self, call):
        yield from self.heed_stop()
        yield from self.place(call, b"" if call.word == "pread" else 0)

    # Reads.

    def read(self, call, pages):
        length = yield from self.begin(call, pages)
        end = min(call.end, length)
        found = b""
        for page in self.mount.pages_of(call.file, call.at, end):
            found += yield from self.read_page(page, pages)
        skipped = call.at % self.mount.page
        yield from self.place(call, found[skipped : skipped + max(0, end - call.at)])
        yield from self.end(call, pages)

    def read_page(self, page, own):
        """The bytes of a page, which its buffer has then too, if there is one."""
        cached, store = self.mount.cached, self.mount.store_word(page // self.mount.pages)
        if cached[page] and cached[page].data:
            return cached[page].data
        if not cached[page]:
            yield from self.search(page, own)
        is_dirty = yield from self.load(self.mount.dirty_word(page))
        if is_dirty:
            yield from self.take(self.mount.cleanup_word(page))
        yield from self.take(store)
        data = yield from self.give(store, lambda: self.stored(page))
        if is_dirty:
            data = yield from self.patched(page, data)
            yield from self.give(self.mount.cleanup_word(page))
        if cached[page]:
            cached[page].data = data
        return data

    def search(self, page, own):
        """Looks for a buffer for a page, among those of pages that aren't the call's own."""
        cached = self.mount.cached
        for _ in range(2 * self.mount.buffers):
            yield "hand"
            hint = self.mount.hint_word(self.words[HAND] % self.mount.buffers)
            self.words[HAND] = (self.words[HAND] + 1) & MASK
            victim = yield from self.load(hint)
            if victim in own:
                continue
            try:
                yield from self.take(self.mount.page_word(victim))
            except Refused:
                continue
            yield from self.give(self.mount.page_word(victim))
            if cached[victim]:
                cached[page], cached[victim] = Buffer(), None
                yield "hint"
                self.words[hint] = page
                return

    def stored(self, page):
        file, place = divmod(page, self.mount.pages)
        return self.mount.stores[file].pread(place * self.mount.page, self.mount.page).ljust(self.mount.page, b"\0")

    def patched(self, page, data):
        """The bytes of a page with the pieces of its entries, rising."""
        head = yield from self.load(HEAD)
        tail = yield from self.load(TAIL)
        for number in range(tail, head):
            entry = yield from self.load(self.mount.entry_word(number))
            if entry % 8 == READY and entry // 1024 == page:
                yield "hold"
                self.change(number, HELD)
                self.entries.append(number)
                yield "return"
                _, at, piece = self.mount.part_of(number).read_piece()
                data = overwritten(data, at % self.mount.page, piece)
                self.change(number, READY)
                self.entries.remove(number)
        return data

    # Writes.

    def write(self, call, pages):
        length = yield from self.begin(call, pages)
        numbers = yield from self.draw(call, len(pages))
        for number in numbers:
            yield "seize"
            self.words[self.mount.entry_word(number)] = FILLING
            self.entries.append(number)
        yield from self.pledge(call, numbers, pages)
        for number in [*numbers[1:], numbers[0]]:
            yield "ready"
            count = len(pages) if number == numbers[0] else 0
            self.words[self.mount.entry_word(number)] = READY + 8 * count + 1024 * pages[number - numbers[0]]
        self.entries.clear()
        yield from self.place(call, call.size)
        if call.end > length:
            yield "grow"
            self.words[self.mount.length_word(call.file)] = call.end
        yield from self.end(call, pages)

    def draw(self, call, count):
        head = yield from self.load(HEAD)
        tail = yield from self.load(TAIL)
        if head + count > tail + self.mount.entries:
            raise Refused(f"again {head} {tail}")
        yield "draw"
        if self.words[HEAD] != head:
            raise Refused("raced")
        self.words[HEAD] += count
        call.drawn = head
        return range(head, head + count)

    def pledge(self, call, numbers, pages):
        """Commits the group, with the first of these steps."""
        for page, (at, piece) in zip(pages, self.mount.pieces_of(call)):
            yield "pledge"
            if page == pages[0]:
                self.commit(call, numbers)
            self.words[self.mount.dirty_word(page)] += 1
            buffer = self.mount.cached[page]
            if buffer and buffer.data:
                buffer.data = overwritten(buffer.data, at % self.mount.page, piece)

    def commit(self, call, numbers):
        for number, (at, piece) in zip(numbers, self.mount.pieces_of(call)):
            part = self.mount.part_of(number)
            for line in range(-(-len(piece) // 64)):
                part.store_line(1 + line, piece[64 * line : 64 * line + 64].ljust(64, b"\0"))
                part.flush(1 + line)
            count = len(numbers) if number == numbers[0] else 0
            for word, value in enumerate([call.file, at, len(piece), count, numbers[0]]):
                part.store(0, 1 + word, value)
            part.flush(0)
            part.fence()
        self.mount.part_of(numbers[0]).store_durably(0, 0, numbers[0] + 1)

    # Batches of the cleaner.

    def clean(self):
        yield from self.take(CLEANER)
        yield from self.take(HEADER)
        if (yield from self.load(STOP)):
            raise Refused("stopped")
        tail = yield from self.load(TAIL)
        head = yield from self.load(HEAD)
        end = yield from self.clean_groups(tail, head)
        if end == tail:
            raise Refused("idle")
        yield from self.retire(tail, end)
        yield from self.give_rising(sorted(set(self.owned) - {HEADER, CLEANER}))
        yield from self.give_rising([HEADER, CLEANER])

    def clean_groups(self, tail, head):
        """Cleans groups from the tail on, as many as go into the batch. Tells where they end."""
        next_ = tail
        while next_ < head:
            leader = yield from self.load(self.mount.entry_word(next_))
            count = leader // 8 % 128
            if leader % 8 != READY or (next_ > tail and next_ + count > tail + self.mount.batch):
                break
            owned = len(self.owned)
            try:
                yield from self.clean_group(range(next_, next_ + count), leader)
            except Refused:
                while len(self.owned) > owned:
                    yield from self.give(self.owned[-1])
                if next_ == tail:
                    raise
                break
            next_ += count
        return next_

    def clean_group(self, numbers, leader):
        pages = [leader // 1024]
        for number in numbers[1:]:
            follower = yield from self.load(self.mount.entry_word(number))
            pages.append(follower // 1024)
        for page in pages:
            yield from self.take(self.mount.cleanup_word(page))
        store = self.mount.store_word(pages[0] // self.mount.pages)
        if store not in self.owned:
            yield from self.take(store)
        yield from self.write_back(numbers)
        for page in pages:
            yield "subtract"
            self.words[self.mount.dirty_word(page)] -= 1
        yield from self.give_rising(map(self.mount.cleanup_word, pages))

    def write_back(self, numbers):
        """Each piece is written with the step behind its entry's `hold`."""
        for number in numbers:
            yield "hold"
            if number > numbers[0]:
                self.carry(number - 1)
            self.change(number, HELD)
            self.entries.append(number)
        for number in numbers:
            yield "return"
            if number == numbers[0]:
                self.carry(numbers[-1])
            self.change(number, CLEANED)
            self.entries.remove(number)

    def carry(self, number):
        file, at, piece = self.mount.part_of(number).read_piece()
        self.mount.stores[file].pwrite(at, piece)

    def retire(self, tail, end):
        for number in range(tail, end):
            yield "free"
            if number == tail:
                self.move_tail(end)
            self.words[self.mount.entry_word(number)] = FREE
        yield "tail"
        self.words[TAIL] = end

    def move_tail(self, end):
        for file, store in enumerate(self.mount.stores):
            if self.mount.store_word(file) in self.owned:
                store.sync()
        self.mount.parts[0].store_durably(1, 0, end)
