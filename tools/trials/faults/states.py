"""States that a loss of power may leave, of what recorder.c recorded of a run.

After a loss at one of the recorded calls a file has all that was synced before, and any part of what came since: each write of it
whole, not at all, or in pieces of 512 or 4,096 bytes of which any may be on the disk; each truncation or not. Past the length that
was synced a piece that is missing may be zeros or garbage. A file whose folder was not synced since it was created may be missing.
The file and its log fail independently of each other.

After a sync that failed the next one writes what is pending, or the disk forgets it: of what the failed sync was to write any part may be
missing for good, whatever is synced later, though the program reads it until then. Linux does so on some file systems."""

import struct

ENTRY = struct.Struct("<ccqqq")
PIECES = (512, 4096)
# how much of what was not synced is on the disk
NOTHING, ALL, LAST, ALL_BUT_LAST, SOME, SOME_AND_ZEROS, SOME_AND_GARBAGE = range(7)
WAYS = (NOTHING, ALL, LAST, ALL_BUT_LAST, SOME, SOME, SOME_AND_ZEROS, SOME_AND_GARBAGE)


# what became of a write or a truncation: not synced so far, synced, or forgotten by a sync that failed
PENDING, SURE, FORGOTTEN = range(3)


class Call:
    """A recorded call: its letter, the kind of its file, its number, the offset or the new length, and the bytes written."""

    def __init__(self, letter, kind, number, at, data):
        self.letter, self.kind, self.number, self.at, self.data = letter, kind, number, at, data


def recorded(path):
    with open(path, "rb") as file:
        text = file.read()
    calls, at = [], 0
    while at < len(text):
        letter, kind, number, offset, length = ENTRY.unpack_from(text, at)
        at += ENTRY.size
        calls.append(Call(letter.decode(), kind.decode(), number, offset, text[at : at + length]))
        at += length
    return calls


def pieces_of(call, size):
    """The parts of a write that lie in one block of the disk each."""
    at, end = call.at, call.at + len(call.data)
    while at < end:
        stop = min(end, at - at % size + size)
        yield at, call.data[at - call.at : stop - call.at]
        at = stop


def lengthened(content, length, filler=bytes):
    if len(content) < length:
        content.extend(filler(length - len(content)))


def put(content, at, data):
    lengthened(content, at)
    content[at : at + len(data)] = data


def cut(content, length):
    del content[length:]
    lengthened(content, length)


def done(content, call):
    """Makes a call that reached the disk."""
    if call.letter == "w":
        put(content, call.at, call.data)
    else:
        cut(content, call.at)


def in_part(content, call, way, size, rng):
    """Makes a part of a call."""
    if call.letter == "t":
        if rng.random() < 0.5:
            cut(content, call.at)
        return
    for at, data in pieces_of(call, size):
        if rng.random() < 0.5:
            put(content, at, data)
        elif way == SOME_AND_ZEROS:
            lengthened(content, at + len(data))
        elif way == SOME_AND_GARBAGE:
            lengthened(content, at + len(data), rng.randbytes)


def left(synced, later, way, size, rng):
    """What a loss of power leaves of a file."""
    content = bytearray(synced)
    for number, (call, fate) in enumerate(later, 1):
        is_last = number == len(later)
        if fate == SURE or way == ALL or (way == LAST and is_last) or (way == ALL_BUT_LAST and not is_last):
            done(content, call)
        elif way >= SOME:
            in_part(content, call, way, size, rng)
    return bytes(content)


class Disk:
    """What is synced of the file (`d`) and of its log (`w`), what came later, with its fate, and the lines or replies so far."""

    def __init__(self, before, forgets):
        self.forgets = forgets
        self.synced = {kind: before.get(kind, b"") for kind in "dw"}
        self.named, self.created = set(before), set(before)
        self.later = {kind: [] for kind in "dw"}
        self.output = b""

    def decide(self, kind, fate):
        """Decides what was pending of a file. Once all is sure, it is the file."""
        later = [(call, fate if known == PENDING else known) for call, known in self.later[kind]]
        if all(known == SURE for _, known in later):
            self.synced[kind], later = left(self.synced[kind], later, ALL, 0, None), []
        self.later[kind] = later

    def make(self, call):
        if call.letter in "1n":
            self.output += call.data
        elif call.letter == "o":
            self.created.add(call.kind)
        elif call.letter == "x":
            if self.forgets and call.kind != "f":
                self.decide(call.kind, FORGOTTEN)
        elif call.letter == "s" and call.kind == "f":
            self.named |= self.created
        elif call.letter == "s":
            self.decide(call.kind, SURE)
        else:
            self.later[call.kind].append((call, PENDING))

    def lose_power(self, rng):
        """A state of the file and its log, as `placed` takes it."""
        state = {}
        for kind in sorted(self.created):
            if kind in self.named or rng.random() < 0.5:
                way, size = rng.choice(WAYS), rng.choice(PIECES)
                state[kind] = left(self.synced[kind], self.later[kind], way, size, rng)
        return state


def states(calls, before, points, rng, forgets=False):
    """Yields a state and the lines that were written by then, for each point: losses of power before these calls, in rising order."""
    disk, at = Disk(before, forgets), 0
    for point in sorted(points):
        for call in calls[at:point]:
            disk.make(call)
        at = point
        yield disk.lose_power(rng), disk.output
