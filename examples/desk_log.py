"""Reads the log beside the file of a desk, as brk reads it before it opens the file, and the locks of both: for the scripts beside this one.

    from desk_log import Log, is_locked

It needs Linux and Python 3.9.
"""

import fcntl
import os
import pathlib
import struct

LOG_HEADER, FRAME_HEADER = 32, 24
# the length of a log without a frame, and the page of the frame that begins a commit behind a synced one
EMPTIED_LOG, COUNT_PAGE = 41, b"\xff\0\0\0"
LOG_MAGICS = (0x377F0682, 0x377F0683)
# the bytes of a file on which SQLite and brk place their locks
LOCK_START, LOCK_LENGTH = 1 << 30, 512
FLOCK = "@hhqqi4x"
# the size of a page, and the number of checkpoints, in the log of a file that is being created
NEW_PAGE, NEW_COUNT = 4096, 0xFFFFFFFF


def checksum(order, start, content):
    """The sum of a log of SQLite over these bytes, going on from another one. order: "<" or ">"."""
    first, second = start
    words = struct.unpack(f"{order}{len(content) // 8 * 2}I", content[: len(content) // 8 * 8])
    for even, odd in zip(words[::2], words[1::2]):
        first = (first + even + second) & 0xFFFFFFFF
        second = (second + odd + first) & 0xFFFFFFFF
    return first, second


class Log:
    """The log beside a file, as brk reads it before it opens the file."""

    def __init__(self, path):
        self.content = pathlib.Path(path).read_bytes() if path else b""
        self.is_log = self.has_commit = self.is_damaged = False
        self.page = self.count = 0
        # the first frame that does not pass, and the marks of commits before and behind it
        self.place, self.before, self.behind = 0, 0, 0
        if len(self.content) >= LOG_HEADER:
            self.read()
        if len(self.content) > EMPTIED_LOG:
            self.test()

    def read(self):
        magic, _, self.page, self.count = struct.unpack_from(">4I", self.content)
        self.is_log = magic in LOG_MAGICS
        self.has_commit = self.is_log and any(
            self.commits(place) and self.content[self.at(place) + 8 :][:8] == self.content[16:24] for place in range(self.frames)
        )

    @property
    def frames(self):
        """The number of frames that the log has whole."""
        return (len(self.content) - LOG_HEADER) // (FRAME_HEADER + self.page)

    def at(self, place):
        return LOG_HEADER + place * (FRAME_HEADER + self.page)

    def commits(self, place):
        return self.content[self.at(place) + 4 :][:4] != bytes(4)

    def has_first_salts(self, place):
        """Whether a frame has the salts of the first one, which are those of the header unless that is wrong."""
        return self.content[self.at(place) + 8 :][:8] == self.content[self.at(0) + 8 :][:8]

    def is_signed(self):
        return self.is_log and checksum(self.order, (0, 0), self.content[:24]) == struct.unpack_from(">2I", self.content, 24)

    @property
    def order(self):
        return ">" if self.content[3] & 1 else "<"

    def passes(self, place):
        """Whether a frame has the salts of the header, and its sum goes on from the one in the frame before."""
        at = self.at(place)
        frame = self.content[at : at + FRAME_HEADER + self.page]
        if frame[8:16] != self.content[16:24] or frame[:4] == bytes(4):
            return False
        start = struct.unpack_from(">2I", self.content, self.at(place - 1) + 16 if place else 24)
        return checksum(self.order, checksum(self.order, start, frame[:8]), frame[24:]) == struct.unpack_from(">2I", frame, 16)

    def is_shut(self, place):
        """Whether a frame has the first byte of a salt that keeps a transaction from being read before it is committed."""
        return self.content[self.at(place) + 8] == (0 if self.content[16] else 1)

    def test(self):
        """Looks for what no crash leaves: a wrong header, or a synced commit behind a frame that does not pass."""
        if not self.is_signed():
            self.is_damaged = self.content[0] != 0
            self.behind = sum(self.commits(place) for place in range(self.frames) if self.has_first_salts(place))
            return
        while self.place < self.frames and self.passes(self.place):
            self.before += self.commits(self.place)
            self.place += 1
        if self.place == self.frames:
            return
        is_open, mark = not self.is_shut(self.place), None
        for place in range(self.place + 1, self.frames):
            if not self.passes(place):
                mark = None
            elif self.commits(place):
                self.behind += 1
                if mark is not None and (is_open or self.content[self.at(mark + 1) :][:4] == COUNT_PAGE):
                    self.is_damaged = True
                mark = place

    @property
    def begins_a_file(self):
        return self.is_log and self.page == NEW_PAGE and self.count == NEW_COUNT


def is_locked(path):
    """Whether another program has a lock on a file that keeps brk out."""
    asked = struct.pack(FLOCK, fcntl.F_WRLCK, os.SEEK_SET, LOCK_START, LOCK_LENGTH, 0)
    with open(path, "rb") as opened:
        found = fcntl.fcntl(opened, fcntl.F_OFD_GETLK, asked)
    return struct.unpack(FLOCK, found)[0] != fcntl.F_UNLCK
