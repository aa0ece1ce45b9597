"""Batches that are sent to a built `brk` under recorder.c, and what has to hold of the file that a disturbed run leaves.

A sending is a batch over the file of a desk, or over none. Its lines, and its tables after each of its rows, come from undisturbed
runs. After a disturbance, `settled` checks of the file:

- an audit prints `ok`, or `damaged: schema` if no desk was made and no row was acknowledged;
- the tables are those after the acknowledged rows, or after one row more: none is lost, and none is booked in part;
- KEPT has the line of each acknowledged row, as it was printed;
- the batch sent again is answered with the same lines, `again` for exactly the rows that were booked, and leaves the same tables.
"""

import contextlib
import hashlib
import os
import pathlib
import sqlite3
import subprocess
import threading

from cases import MOMENT as CLOCK, SCHEMA, SECONDS, WELL, batch_of

HERE = pathlib.Path(__file__).resolve().parent


class Wrong(Exception):
    """What is not as promised."""


def expect(holds, what):
    if not holds:
        raise Wrong(what)


def removed(path):
    for end in ("", "-wal", "-shm", "-journal"):
        pathlib.Path(path + end).unlink(missing_ok=True)


def placed(path, files):
    """Writes a file and its log: `d` the bytes of the file, `w` those of its log."""
    removed(path)
    for kind, end in (("d", ""), ("w", "-wal")):
        if kind in files:
            pathlib.Path(path + end).write_bytes(files[kind])


def found(path):
    """The bytes of a file and its log, as far as they exist."""
    ends = (("d", path), ("w", path + "-wal"))
    return {kind: pathlib.Path(name).read_bytes() for kind, name in ends if os.path.exists(name)}


def read_only(path):
    return contextlib.closing(sqlite3.connect(f"file:{path}?immutable=1", uri=True))


def dump_of(path):
    """The tables of a closed file: all rows, in order."""
    total = hashlib.sha256()
    with read_only(path) as conn:
        names = [name for (name,) in conn.execute("SELECT name FROM sqlite_schema WHERE type = 'table' ORDER BY 1")]
        for name in names:
            rows = sorted(map(repr, conn.execute(f'SELECT * FROM "{name}"')))
            total.update(f"{name}\n".encode() + "\n".join(rows).encode())
    return total.hexdigest()


def lines_of(output):
    """The whole lines of rows: without the line `end`, and without a last line that is cut."""
    return [line for line in output.decode().split("\n")[:-1] if not line.startswith("end,")]


def as_first(lines):
    return [line.replace(",again,", ",ok,", 1) for line in lines]


class Ended:
    """How a run ended, what it printed, and how many calls were counted."""

    def __init__(self, status, errors, output, calls):
        self.how, self.output, self.calls = (status, errors), output, calls
        self.lines = lines_of(output)

    @property
    def is_killed(self):
        return self.how[0] == -9

    @property
    def is_fault(self):
        return self.how[0] == 3 and self.how[1].startswith("brk: fault: ") and self.how[1].count("\n") == 1


class Program:
    """A built `brk`, run with the recorder and without."""

    def __init__(self, brk, folder, compiler="cc"):
        self.brk, self.folder = os.path.abspath(brk), os.path.realpath(folder)
        self.recorder = os.path.join(self.folder, "recorder.so")
        words = [compiler, "-O1", "-shared", "-fPIC", "-o", self.recorder, str(HERE / "recorder.c")]
        subprocess.run(words, check=True)

    def path(self, name):
        return os.path.join(self.folder, name)

    def environment(self, path, faults):
        """`faults` has the variables of recorder.c by their names without `FAULTS_`, in small letters."""
        made = {f"FAULTS_{name.upper()}": str(value) for name, value in faults.items()}
        return {**os.environ, "LD_PRELOAD": self.recorder, "FAULTS_FILE": path, **made}

    def run(self, words, path, rows=b"", counting=False, **faults):
        env = None
        if counting:
            faults["count"] = path + ".count"
        if faults:
            env = self.environment(path, faults)
        words = [self.brk, words[0], "--db", path, *words[1:]]
        try:
            done = subprocess.run(words, input=rows, capture_output=True, env=env, timeout=SECONDS)
        except subprocess.TimeoutExpired:
            raise Wrong(f"no end within {SECONDS} s") from None
        calls = 0
        if counting:
            calls = int(pathlib.Path(path + ".count").read_text())
            os.unlink(path + ".count")
        return Ended(done.returncode, done.stderr.decode(), done.stdout, calls)

    def batch(self, path, rows, **faults):
        return self.run(["batch", "--at", CLOCK], path, rows, **faults)

    def audit(self, path, **faults):
        return self.run(["audit"], path, **faults)


class Sending:
    """A batch over a file, with its lines and its tables after each of its rows, by undisturbed runs."""

    def __init__(self, program, name, rows, before=None):
        self.program, self.name, self.rows = program, name, rows
        self.before = {} if before is None else before
        self.is_new = "d" not in self.before
        self.dumps, self.lock = {}, threading.Lock()
        self.output = b""
        self.dump(len(rows))
        self.lines = lines_of(self.output)

    def batch(self, count=None):
        rows = self.rows[:count]
        return batch_of(self.name, rows)

    def dump(self, count):
        """The tables after so many rows."""
        with self.lock:
            if count not in self.dumps:
                self.dumps[count] = self.undisturbed(count)
            return self.dumps[count]

    def undisturbed(self, count):
        path = self.program.path(f"{self.name}-undisturbed.db")
        placed(path, self.before)
        ended = self.program.batch(path, self.batch(count))
        if ended.how != WELL or len(ended.lines) != count:
            raise SystemExit(f"{self.name}: undisturbed: {ended.how}: {ended.output.decode()[-200:]}")
        if count == len(self.rows):
            self.output = ended.output
        dump = dump_of(path)
        removed(path)
        return dump

    def send(self, path, **faults):
        return self.program.batch(path, self.batch(), **faults)

    def acknowledged(self, ended):
        """How many rows a run acknowledged; its lines have to be the first of the undisturbed ones."""
        lines = as_first(ended.lines)
        expect(lines == self.lines[: len(lines)], "other lines")
        return len(lines)

    def audited(self, path, rows):
        """Audits what a run left that acknowledged so many rows; returns how many are booked."""
        audit = self.program.audit(path)
        if audit.how == SCHEMA and self.is_new and rows == 0:
            return 0
        expect(audit.how == WELL and audit.output == b"ok\n", f"{rows} rows acknowledged, audit: {audit.how}")
        with read_only(path) as conn:
            kept = dict(conn.execute("SELECT K_N, K_LINE FROM KEPT WHERE K_BATCH = ?", (self.name,)))
        for line in self.lines[:rows]:
            number, word, rest = [*line.split(",", 2), ""][:3]
            expect(word != "ok" or kept.get(int(number), "").endswith(rest), f"{rows} rows acknowledged, and KEPT lacks row {number}")
        dump = dump_of(path)
        for booked in (rows, rows + 1):
            if booked <= len(self.rows) and dump == self.dump(booked):
                return booked
        raise Wrong(f"{rows} rows acknowledged, and the tables are not those after {rows} or {rows + 1} rows; KEPT has {len(kept)}")

    def retried(self, path, booked):
        ended = self.send(path)
        expect(ended.how == WELL and as_first(ended.lines) == self.lines, f"sent again: {ended.how}, or other lines")
        again = [line.split(",")[0] for line in ended.lines if ",again," in line]
        wanted = [line.split(",")[0] for line in self.lines[:booked] if ",ok," in line]
        expect(again == wanted, f"sent again: `again` for rows {again}, and not {wanted}")
        expect(dump_of(path) == self.dump(len(self.rows)), "sent again: other tables")

    def settled(self, path, rows):
        """Checks what a run left that acknowledged so many rows; returns how many more are booked."""
        booked = self.audited(path, rows)
        self.retried(path, booked)
        return booked - rows


class Pair:
    """A batch that is disturbed, and then another one with other rows, which is disturbed too. What has to hold after both is said as of
    one sending, but that the tables are those after some rows of the first and then some rows of the second."""

    def __init__(self, program, name, first, second, before):
        self.program, self.before = program, before
        self.first = Sending(program, f"{name}-1", first, before)
        self.second_name, self.second_rows = f"{name}-2", second
        self.runs, self.lock = {}, threading.Lock()

    def send(self, path, **faults):
        """Sends the second batch."""
        return self.program.batch(path, batch_of(self.second_name, self.second_rows), **faults)

    def undisturbed(self, first, second):
        """The tables after so many rows of each batch, and the lines of the second."""
        with self.lock:
            if (first, second) not in self.runs:
                path = self.program.path(f"{self.second_name}-undisturbed.db")
                placed(path, self.before)
                self.program.batch(path, self.first.batch(first))
                ended = self.program.batch(path, batch_of(self.second_name, self.second_rows[:second]))
                expect(ended.how == WELL, f"undisturbed: {ended.how}")
                self.runs[first, second] = dump_of(path), ended.lines
                removed(path)
            return self.runs[first, second]

    def settled(self, path, rows, ended):
        """Checks what the two runs left, of which the first acknowledged so many rows, and the second ended so."""
        audit = self.program.audit(path)
        expect(audit.how == WELL and audit.output == b"ok\n", f"{rows} rows acknowledged, then {len(ended.lines)}, audit: {audit.how}")
        dump = dump_of(path)
        for first in range(rows, min(rows + 1, len(self.first.rows)) + 1):
            for second in range(len(ended.lines), min(len(ended.lines) + 1, len(self.second_rows)) + 1):
                tables, lines = self.undisturbed(first, second)
                if dump == tables and ended.lines == lines[: len(ended.lines)]:
                    return first - rows + second - len(ended.lines)
        raise Wrong(f"{rows} rows acknowledged, then {len(ended.lines)}, and the tables are not those after them or one more of each")


class Audit:
    """An audit of a file, which upgrades one of an older schema: as a sending of no row."""

    def __init__(self, program, name, before):
        self.program, self.name, self.before, self.is_new = program, name, before, False
        self.output = b"ok\n"
        path = program.path(f"{name}-undisturbed.db")
        placed(path, before)
        if program.audit(path).how != WELL:
            raise SystemExit(f"{name}: an undisturbed audit fails")
        self.dump = dump_of(path)

    def send(self, path, **faults):
        return self.program.audit(path, **faults)

    def acknowledged(self, ended):
        expect(self.output.startswith(ended.output), str(ended.output))
        return 0

    def settled(self, path, rows):
        audit = self.program.audit(path)
        expect(audit.how == WELL and audit.output == self.output, f"audit: {audit.how}")
        expect(dump_of(path) == self.dump, "other tables than after an undisturbed audit")
        return 0
