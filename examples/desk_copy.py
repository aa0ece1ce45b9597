"""Copies the file of a desk, also while a desk runs: for examples/live-copy, examples/send, the reports and the journals of other tools.

    from desk_copy import NoCopy, copy_live

A desk commits to its log, and copies the log into its file from time to time; then the header of the log changes. So this reads the header,
copies the file, copies the log, and reads the header again: if it changed, all begins anew. What a desk was writing into the file meanwhile
is in the log too, whose pages win. The copy of the log is cut at its first frame that does not pass, before anybody opens it: each row that
was acknowledged before the copy began lies before it. The desk notices nothing: no lock is taken, and its file and its log are opened for
reading alone. A log that is damaged is not copied. It needs Python 3.9.
"""

import contextlib
import os
import shutil
import sqlite3
import time

from desk_log import EMPTIED_LOG, LOG_HEADER, Log

MOST_ATTEMPTS = 100
PAUSE = 0.01


class NoCopy(OSError):
    """No copy was made, for this reason."""


def head_of(path):
    """The header of a log; nothing of one that is missing."""
    try:
        with open(path, "rb") as log:
            return log.read(LOG_HEADER)
    except FileNotFoundError:
        return b""


def state_of(file):
    """What changes when a desk copies its log into its file; without a log, what changes when the file is written."""
    head, found = head_of(f"{file}-wal"), os.stat(file)
    return head, found.st_ino, None if len(head) == LOG_HEADER else (found.st_size, found.st_mtime_ns)


def remove(copy):
    for end in ("", "-wal", "-shm"):
        with contextlib.suppress(FileNotFoundError):
            os.remove(f"{copy}{end}")


def is_copied(file, copy):
    """Copies a file and its log, for their owner alone; returns whether both are of one state."""
    before = state_of(file)
    for end in ("", "-wal") if before[0] else ("",):
        os.close(os.open(f"{copy}{end}", os.O_CREAT | os.O_WRONLY, 0o600))
        shutil.copyfile(f"{file}{end}", f"{copy}{end}")
    return before == state_of(file)


def is_damaged_still(log, path):
    """Whether a log that looks damaged in a copy is: read while it was written it may have had a gap, which is closed by now."""
    again = Log(path)
    return again.is_damaged and again.content[:LOG_HEADER] == log.content[:LOG_HEADER] and again.place == log.place


def cut(file, copied_log):
    """Cuts the copy of a log at its first frame that does not pass."""
    log = Log(copied_log)
    if log.is_damaged and is_damaged_still(log, f"{file}-wal"):
        raise NoCopy(f"{file}-wal is damaged: end the service, keep both files, and run brk-why {file}")
    os.truncate(copied_log, log.at(log.place) if log.place else 0)


def fold(copy):
    """Copies what the log of a copy has into the copy, and deletes the log."""
    with contextlib.closing(sqlite3.connect(copy, isolation_level=None)) as conn:
        conn.execute("PRAGMA wal_checkpoint(TRUNCATE)").fetchone()
        conn.execute("SELECT count(*) FROM sqlite_schema").fetchone()


def copy_whole(file, copy):
    for _ in range(MOST_ATTEMPTS):
        if is_copied(file, copy):
            break
        remove(copy)
        time.sleep(PAUSE)
    else:
        raise NoCopy(f"the log of {file} changed at each of {MOST_ATTEMPTS} attempts")
    if os.path.exists(f"{copy}-wal"):
        cut(file, f"{copy}-wal")
    fold(copy)


def has_journal(file):
    """Whether a journal of sqlite3 is beside a file, which was not played back."""
    try:
        with open(f"{file}-journal", "rb") as journal:
            return journal.read(1) not in (b"", b"\0")
    except FileNotFoundError:
        return False


def require_desk(file, copy):
    if not os.path.isfile(file) or not os.path.getsize(file):
        raise NoCopy(f"no desk: {file} is missing or empty")
    if has_journal(file):
        raise NoCopy(f"{file}-journal is there: another program changes the file, or was killed while it did: brk-why {file}")
    for path in (copy, f"{copy}-wal"):
        if os.path.lexists(path):
            raise NoCopy(f"it exists: {path}")


def copy_live(file, copy):
    """Copies the file of a desk, with what its log has, to a new file without a log, for its owner alone. Raises NoCopy, and leaves
    nothing, if there is no desk's file or its log is damaged."""
    require_desk(file, copy)
    try:
        copy_whole(file, copy)
    except BaseException as error:
        remove(copy)
        if isinstance(error, (OSError, sqlite3.Error)) and not isinstance(error, NoCopy):
            raise NoCopy(f"{file}: {error}") from error
        raise
