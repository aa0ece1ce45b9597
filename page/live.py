"""Snapshots of a desk's file: live copies that screens share for some seconds; deleted unused."""

import contextlib
import os
import pathlib
import shutil
import sqlite3
import threading
import time

import desk_books
import desk_copy
import reporting

from . import words

# how old a snapshot may be that a further screen shares
FRESH_SECONDS = 5
# how long one stays that no screen uses: the program's text comes after its screen
KEPT_SECONDS = 20


class NoSnapshot(Exception):
    """No snapshot can be made, for this reason."""


class Snapshot:
    """A copy of a desk's file as of a moment, in a folder of its own. SQL only reads it."""

    def __init__(self, folder, read):
        self.folder, self.name, self.path = folder, folder.name, folder / "desk.db"
        self.read, self.users, self.used, self.lock = read, 0, time.monotonic(), threading.Lock()
        with contextlib.closing(self.connect()) as conn:
            schema, last = conn.execute("SELECT D_SCHEMA, D_LAST FROM DESK").fetchone()
        if schema != desk_books.SCHEMA:
            raise NoSnapshot(f"it is of schema {schema}, and not {desk_books.SCHEMA}: brk audit "
                             "upgrades an older file, a newer one needs a newer page")
        self.schema, self.stamp = schema, last or 0

    def connect(self):
        conn = sqlite3.connect(f"file:{self.path}?mode=ro&immutable=1", uri=True)
        conn.row_factory = sqlite3.Row
        reporting.add_functions(conn)
        words.add_functions(conn)
        return conn

    def for_program(self):
        """A copy of the copy for `brk`, which writes a log beside it."""
        with self.lock:
            path = self.folder / "program.db"
            if not path.exists():
                shutil.copyfile(self.path, self.folder / "part")
                os.replace(self.folder / "part", path)
            return path


class Snapshots:
    """The snapshots of a file, the newest of which is shared. A given copy has one, for good."""

    def __init__(self, file, folder, is_copy):
        self.file, self.folder, self.is_copy = file, pathlib.Path(folder), is_copy
        self.lock, self.kept, self.count = threading.Lock(), {}, 0
        shutil.rmtree(self.folder, ignore_errors=True)
        self.folder.mkdir(parents=True, mode=0o700)
        threading.Thread(target=self.sweep, daemon=True).start()

    def take(self):
        self.count += 1
        folder, begun, read = self.folder / str(self.count), time.monotonic(), time.time()
        folder.mkdir(mode=0o700)
        try:
            desk_copy.copy_live(self.file, folder / "desk.db")
            taken = Snapshot(folder, os.path.getmtime(self.file) if self.is_copy else read)
        except (OSError, TypeError, sqlite3.Error, NoSnapshot) as error:
            shutil.rmtree(folder, ignore_errors=True)
            raise NoSnapshot(f"no snapshot of {self.file}: {error}") from error
        taken.begun = begun
        self.kept[taken.name] = taken
        return taken

    def newest(self, least):
        """A snapshot that is fresh, and not from before the stamp `least`."""
        found = self.kept.get(str(self.count))
        is_fresh = found and (self.is_copy or time.monotonic() - found.begun < FRESH_SECONDS)
        taken = found if is_fresh and (self.is_copy or found.stamp >= least) else self.take()
        if taken.stamp < least and not self.is_copy:
            raise NoSnapshot(f"the snapshot of {self.file} lacks your row of the stamp {least}. "
                             "Is the door that of another desk?")
        return taken

    @contextlib.contextmanager
    def used(self, least=0, name=None):
        """A snapshot for a screen: the newest one, or that of a name if it is still there."""
        with self.lock:
            taken = self.kept.get(name) or self.newest(least)
            taken.users += 1
        try:
            yield taken
        finally:
            with self.lock:
                taken.users -= 1
                taken.used = time.monotonic()

    def sweep(self):
        while True:
            time.sleep(FRESH_SECONDS)
            with self.lock:
                for taken in list(self.kept.values()):
                    is_old = time.monotonic() - taken.used > KEPT_SECONDS
                    if not taken.users and is_old and not self.is_copy:
                        del self.kept[taken.name]
                        shutil.rmtree(taken.folder, ignore_errors=True)
