"""`brk serve` whose file is replaced once a failed sync has closed it: what it finds, when it opens the file again, ends it.

The reply 503 is the last of its stream, and the server waits until its client closes that stream. Meanwhile the file is replaced. After it
the server has to end by itself, with the line and the status of docs/FORMATS.md, "Faults and exit statuses", to change no byte of what
it finds, and to end with the same line if it is started again. With the file put back it has to answer the rest of the rows."""

import errno
import os
import pathlib
import sqlite3
import time

import serving
from sendings import SCHEMA, expect, found, placed, removed

SECONDS = 60
# changes by another program, most of them of tables that follow from others, and the word of docs/OPERATING.md, "The audit"
DAMAGES = (
    ("UPDATE CASH_MOVE SET CM_NAME = CM_NAME || '.'", "form"),
    ("UPDATE CASH_MOVE SET CM_AMT = CM_AMT - 1 WHERE CM_T_ID IS NOT NULL", "cash"),
    ("UPDATE HOLDING_SUMMARY SET HS_QTY = 2 * HS_QTY", "summary"),
    ("UPDATE BROKER SET B_NUM_TRADES = B_NUM_TRADES + 1", "count"),
    ("UPDATE BROKER SET B_COMM_TOTAL = B_COMM_TOTAL + 1", "commission"),
    ("UPDATE SETTLEMENT SET SE_AMT = SE_AMT - 1", "settlement"),
    ("UPDATE CUSTOMER_ACCOUNT SET CA_BAL = CA_BAL + 1", "balance"),
    ("DELETE FROM LAST_TRADE", "form"),
    ("UPDATE DESK SET D_SCHEMA = 7", "schema"),
    ("DROP TABLE CASH_MOVE", "schema"),
)


class Ending:
    """A sync fails, and what replaces the file: an ending is wanted."""

    def __init__(self, at, name, replace, wanted, is_again=True):
        self.at, self.name, self.replace, self.wanted, self.is_again = at, name, replace, wanted, is_again

    def __str__(self):
        return f"sync {self.at}, then {self.name}"


def changed_by(sql):
    """Replaces a file by one whose tables another program changed."""

    def replace(path):
        copy = path + ".other"
        placed(copy, found(path))
        conn = sqlite3.connect(copy, isolation_level=None)
        changed = conn.execute(sql).rowcount
        conn.close()
        expect(changed != 0, f"{sql}: no row was there to change")
        removed(path)
        os.replace(copy, path)
        removed(copy)

    return replace


def without_log(path):
    removed(path)


def beside_log(path):
    os.unlink(path)


def by(content):
    def replace(path):
        removed(path)
        pathlib.Path(path).write_bytes(content)

    return replace


def by_desk(files):
    return lambda path: placed(path, files)


def endings_of(at, job):
    """What a server may find after a sync that failed, the sync number `at(..)`."""
    for sql, word in DAMAGES:
        yield Ending(at(), sql, changed_by(sql), (1, f"brk: damaged: {word}\n"))
    # a server that is started makes a desk of a missing or an empty file
    yield Ending(at(), "the file and its log are removed", without_log, SCHEMA, is_again=False)
    yield Ending(at(), "the file is removed, and its log stays", beside_log, SCHEMA, is_again=False)
    yield Ending(at(), "an empty file", by(b""), SCHEMA, is_again=False)
    yield Ending(at(), "a text", by(b"A text, and no database.\n" * 500), serving.STORE)
    # its audit passes, but its last stamp is before that of the last reply
    yield Ending(at(), "an older copy of the desk", by_desk(job.before), serving.STORE, is_again=False)


def sent_until_fault(job, server):
    """Sends rows until a reply is 503: the stream of that reply, which is still open."""
    for number, row in enumerate(job.rows, 1):
        stream, reply = server.asked(*serving.request_of(job.name, number, row))
        expect(reply is not None, f"row {number}: no reply")
        if reply[0] == 503:
            expect(reply[1] == {"error": "store"}, f"row {number}: {reply}")
            return stream
        stream.close()
    expect(False, "no reply was 503")


def ended_by_itself(server, wanted, what):
    """The server ends without a further stream."""
    until = time.monotonic() + SECONDS
    while server.process.poll() is None and time.monotonic() < until:
        time.sleep(0.002)
    expect(server.process.poll() is not None, f"{what}: it had not ended after {SECONDS} s")
    expect(server.ended() == wanted, f"{what}: {server.ended()}, and not {wanted}")


def try_endings(sweep, title, job, cases):
    program = sweep.program

    def one(case, path):
        placed(path, job.before)
        server = serving.Server(program, path, calls="s", at=case.at, what="fail", error=errno.EIO)
        try:
            with sent_until_fault(job, server):
                whole = found(path)
                case.replace(path)
                given = found(path)
            ended_by_itself(server, case.wanted, case.name)
        finally:
            server.kill()
        expect(found(path).get("d") == given.get("d"), f"{case.name}: the file was changed")
        if case.is_again:
            ended_by_itself(serving.Server(program, path), case.wanted, f"{case.name}, started again")
        placed(path, whole)
        client = serving.Client(program, job, path, 0)
        try:
            client.send_all()
        finally:
            client.server.kill()
        job.settled(path, len(job.rows))
        return ["tried", case.wanted[1].strip().removeprefix("brk: ")]

    sweep.sweep(title, cases, one)


def syncs_of(program, job):
    """The numbers of the syncs of a server in the last quarter of a day, counted without other calls."""
    calls = serving.calls_of(program, job)
    syncs = [call for call in calls if call.letter == "s"]
    replies = [call for call in calls if call.letter == "n"]
    late = replies[len(replies) * 3 // 4].number
    return [number for number, call in enumerate(syncs, 1) if call.number > late]
