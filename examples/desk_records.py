"""The records of what a desk accepted, as clients and examples/send stored them: three uses of examples/desk_client.py.

    desk_client.py JOURNAL|FOLDER --verify COPY
    desk_client.py --records JOURNAL|FOLDER .. > RECORDS
    desk_client.py --restore DESK RECORDS

FOLDER is one of examples/send, with a folder for each batch, or the folder of one batch. No journal, folder or copy is changed.

- **--verify** compares each accepted row with the table KEPT of COPY, a file of the desk, which a service may hold, by the order
  of the stamps. It sends nothing. The first row that is missing there, or has another row or reply, ends it with status 5.
- **--records** prints a line for each accepted row, by the order of the stamps, each row once:

      [STAMP, BATCH, N, [FIELD, ..], [STAMP, FIELD, ..]]        the row and its reply

  Before them it prints a line for each row that has no reply, with the clock reading at which it was stored:

      ["no reply", BATCH, N, [FIELD, ..], READING]

  Nobody knows whether that row was booked. Delete its line, or write its stamp in place of "no reply" and move the line to its place.
- **--restore** sends the records to DESK, a copy that was put into the place of a lost file, each at its stamp and under its key. It
  sends nothing, with status 4, while a row has no stamp or the stamps do not rise; and with status 5 if a record up to the last stamp
  of DESK is not in its KEPT. Those rows are there, and the later ones are sent. A reply that differs from its record ends it with
  status 5 before the next row is sent: put the copy into place again, and look for the rows that the list lacks. If it was ended by
  anything else, the same command goes on after the last row.

Each run of rows with consecutive stamps takes one start of `brk serve --at STAMP`, on a free port. It needs Linux.
"""

import collections
import ctypes
import http.client
import json
import os
import pathlib
import signal
import socket
import sqlite3
import subprocess
import sys
import time

sys.dont_write_bytecode = True

import desk_books  # noqa: E402
import desk_client  # noqa: E402

NO_REPLY = "no reply"
# how long a service may take to end after its last stream
END_SECONDS = 600
# of prctl: the signal that a process gets when the one that started it ends
SET_END_SIGNAL = 1

# `stamp` is None and `reply` the clock reading of a row without a reply; `reply` is None of a row with a stamp given by hand
Record = collections.namedtuple("Record", "stamp batch number fields reply")


class Undecided(desk_client.ClientError):
    """Nothing was sent: the list is none that can be restored."""

    status = 4


class Difference(desk_client.ClientError):
    """A row is missing, or is not as its record has it."""

    status = 5


class Source:
    """The rows of a journal or of a folder: the accepted ones, those without a reply, and how many were refused."""

    def __init__(self, path):
        self.path, self.accepted, self.open, self.refused = path, [], [], 0

    def add(self, batch, number, fields, reading, word, reply):
        """Adds a row; `word` is None if it has no reply."""
        if word is None:
            self.open.append(Record(None, batch, number, fields, str(reading)))
        elif word == "no":
            self.refused += 1
        else:
            self.accepted.append(Record(int(reply[0]), batch, number, fields, reply))


def source_of(path):
    """The rows that a journal or a folder of examples/send has."""
    if not os.path.exists(path):
        raise desk_client.ClientError(f"no journal and no folder: {path} does not exist")
    source = Source(path)
    if not os.path.isdir(path):
        add_journal(source)
        return source
    folder = pathlib.Path(path)
    is_batch = (folder / "batch.csv").exists()
    # send moves a batch into the folder once it is whole; until then its name begins with a point
    parts = [folder] if is_batch else sorted(part for part in folder.iterdir() if part.is_dir() and part.name[0] != ".")
    for part in parts:
        add_batch(source, part)
    return source


def add_journal(source):
    stored = desk_client.Stored(source.path)
    with open(source.path, "rb") as file:
        stored.take_all(file.read())
    for batch, rows in stored.batches.items():
        for number, fields in rows.items():
            reply = stored.replies[batch].get(number)
            word, told = (reply.word, reply.fields) if reply else (None, None)
            source.add(batch, number, fields, stored.readings[batch], word, told)


def add_batch(source, part):
    """Adds the rows of a batch, each with the reply that accepted it, or with that of the last sending. A row that was refused, and has
    no line of a later sending that was cut short, may have been accepted then: it has no reply."""
    try:
        batch, rows = desk_client.batch_read((part / "batch.csv").read_text("utf-8"))
        at = part / "batch.at"
        # a batch that went over a door has no reading: that of its storing stands for it
        reading = int(at.read_text()) if at.exists() else (part / "batch.csv").stat().st_mtime_ns // 1_000_000
    except (OSError, ValueError, desk_client.ClientError) as error:
        raise desk_client.ClientError(f"no batch of examples/send: {part}: {error}") from None
    accepted, last = {}, {}
    for attempt in range(1, 1 + len(list(part.glob("lines-*.txt")))):
        last = lines_of(part / f"lines-{attempt}.txt")
        accepted = {**{number: told for number, told in last.items() if told[0] != "no"}, **accepted}
    for number, fields in enumerate(rows, 1):
        source.add(batch, number, fields, reading, *accepted.get(number, last.get(number, (None, None))))


def lines_of(path):
    """The word and the reply of each row that has a line of `brk batch`. A line is complete once it has its line feed."""
    found = {}
    for line in path.read_text("utf-8").split("\n")[:-1]:
        number, _, told = line.partition(",")
        if number.isdigit():
            word, *reply = told.split(",")
            found[int(number)] = word, reply
    return found


def merged(sources):
    """The accepted rows of several sources by their stamps, each once, and the rows without a reply in any."""
    found, stamps, unanswered = {}, {}, {}
    for source in sources:
        for record in source.accepted:
            key = record.batch, record.number
            if found.setdefault(key, record) != record:
                raise Difference(f"{name_of(record)}: two rows or replies under this key: {text_of(found[key])} and {text_of(record)}: {source.path}")
            if stamps.setdefault(record.stamp, key) != key:
                raise Difference(f"{name_of(record)}: another row has its stamp: {stamps[record.stamp]}: these are no rows of one desk")
        for record in source.open:
            unanswered.setdefault((record.batch, record.number), record)
    left = [record for key, record in unanswered.items() if key not in found]
    return sorted(found.values()), sorted(left, key=lambda record: (int(record.reply), record.batch, record.number))


def name_of(record):
    return f"{record.batch},{record.number}"


def text_of(record):
    reply = "" if record.reply is None else f": {','.join(record.reply)}"
    return f"{','.join(record.fields)}{reply}"


# ---- a desk's file


class Kept:
    """The rows that a desk's file has under their keys, and its last stamp."""

    def __init__(self, path):
        self.path = path
        try:
            with desk_books.copied(path) as conn:
                (self.last,) = conn.execute("SELECT coalesce(D_LAST, -1) FROM DESK").fetchone()
                self.rows = {(batch, number): (row, line) for batch, number, row, line in conn.execute("SELECT K_BATCH, K_N, K_ROW, K_LINE FROM KEPT")}
        except (OSError, sqlite3.Error, TypeError) as error:
            raise desk_client.ClientError(f"no desk can be read: {path}: {error}") from None

    def require(self, record):
        """Raises Difference unless the row is there, with its reply."""
        row, line = self.rows.get((record.batch, record.number), (None, ""))
        reply = line.split(",")
        if row is None:
            raise Difference(f"{name_of(record)}: {self.path} lacks it: {text_of(record)}")
        if row.split("\x1f") != record.fields:
            raise Difference(f"{name_of(record)}: {self.path} has another row: {','.join(row.split(chr(31)))}, and not {text_of(record)}")
        if reply != record.reply and (record.reply is not None or reply[0] != str(record.stamp)):
            raise Difference(f"{name_of(record)}: {self.path} has the reply {line}, and not that of {record.stamp}: {text_of(record)}")


def verify(path, copy):
    """Compares the accepted rows of a journal or a folder with a copy of the desk, and prints their number."""
    source = source_of(path)
    accepted, unanswered = merged([source])
    kept = Kept(copy)
    for record in accepted:
        kept.require(record)
    print(f"{path}: {len(accepted)} accepted rows are in {copy}; {source.refused} were refused, {len(unanswered)} have no reply")


# ---- the list


def print_records(paths):
    accepted, unanswered = merged([source_of(path) for path in paths])
    for record in unanswered:
        print(json.dumps([NO_REPLY, record.batch, str(record.number), record.fields, record.reply], ensure_ascii=False))
    for record in accepted:
        print(json.dumps([str(record.stamp), record.batch, str(record.number), record.fields, record.reply], ensure_ascii=False))
    if unanswered:
        print(f"desk_client: rows without a reply: {len(unanswered)}, listed first: delete each, or give it its stamp and its place", file=sys.stderr)


def records_in(path):
    """The records of a list, whose stamps rise."""
    records, last = [], -1
    with open(path, encoding="utf-8") as file:
        for number, line in enumerate(file, 1):
            try:
                record = record_of(json.loads(line))
            except (ValueError, LookupError, TypeError):
                raise Undecided(f"nothing was sent: {path}: line {number} is no record") from None
            if record.stamp is None:
                raise Undecided(f"nothing was sent: {path}: line {number}: {name_of(record)} has no reply: delete the line, or give it its stamp and its place")
            if record.stamp <= last:
                raise Undecided(f"nothing was sent: {path}: line {number}: its stamp is not later than that of the line before")
            records.append(record)
            last = record.stamp
    if not records:
        raise Undecided(f"nothing was sent: {path} has no record")
    return records


def record_of(entry):
    stamp, batch, number, fields, *reply = entry
    if not (desk_client.BATCH.fullmatch(batch) and desk_client.WHOLE.fullmatch(number) and all(isinstance(field, str) for field in fields)):
        raise ValueError(entry)
    # of a row whose stamp was given by hand the reading may still be there
    told = reply[0] if reply and isinstance(reply[0], list) else None
    if stamp != NO_REPLY and (not desk_client.WHOLE.fullmatch(stamp) or (told and told[0] != stamp)):
        raise ValueError(entry)
    return Record(None if stamp == NO_REPLY else int(stamp), batch, int(number), fields, told)


# ---- the restore


def restore(desk, path):
    """Sends the records that a desk lacks, and prints how many."""
    records, kept, missing = records_in(path), Kept(desk), []
    for record in records:
        if record.stamp <= kept.last:
            kept.require(record)
        elif (record.batch, record.number) in kept.rows:
            raise Difference(f"{name_of(record)}: nothing was sent: {desk} has it at an earlier stamp than {record.stamp}")
        else:
            missing.append(record)
    sent = 0
    for run in runs_of(missing):
        send_run(desk, run)
        sent += len(run)
    print(f"{desk}: {len(records) - sent} records were there, {sent} were sent; the last stamp is {records[-1].stamp}")


def runs_of(records):
    """Yields records in runs of consecutive stamps, none longer than a stream."""
    run = []
    for record in records:
        if run and (record.stamp != run[-1].stamp + 1 or len(run) == desk_client.MOST_REQUESTS):
            yield run
            run = []
        run.append(record)
    if run:
        yield run


def send_run(desk, run):
    """Sends a run of records, by a service of its own that has the stamp of the first as its clock."""
    port = free_port()
    words = [desk_client.program(), "serve", "--port", str(port), "--db", desk, "--existing", "--at", str(run[0].stamp), "--streams", "1"]
    try:
        service = subprocess.Popen(words, stdin=subprocess.DEVNULL, stdout=subprocess.DEVNULL, stderr=subprocess.PIPE, preexec_fn=end_with_us)
    except OSError as error:
        raise desk_client.ClientError(f"the program does not run: {words[0]}: {error.strerror}") from None
    stream = desk_client.Http(port)
    try:
        for record in run:
            require_reply(*reply_to(service, stream, desk, record), record)
        stream.close()
        if service.wait(END_SECONDS):
            raise desk_client.ClientError(f"{desk}: {service.stderr.read().decode().strip()}")
    except subprocess.TimeoutExpired:
        raise desk_client.ClientError(f"{desk}: brk serve does not end after its stream") from None
    finally:
        stream.close()
        service.terminate()
        service.wait()
        service.stderr.close()


def end_with_us():
    """Has the service end, and give the file back, when this program is killed."""
    ctypes.CDLL(None).prctl(SET_END_SIGNAL, signal.SIGTERM)


def require_reply(word, reply, record):
    """Raises Difference unless the reply is that of the record, or has the stamp that was given by hand."""
    if word == "error":
        raise desk_client.ClientError(f"{name_of(record)}: {reply}")
    is_known = record.reply is not None
    if word != "ok" or (reply if is_known else reply[:1]) != (record.reply if is_known else [str(record.stamp)]):
        raise Difference(f"{name_of(record)}: the reply is {','.join([word, *reply])}, and not that of {record.stamp}: {text_of(record)}; no later row was sent")


def reply_to(service, stream, desk, record):
    while True:
        try:
            return stream.once(f"/rows/{record.batch}/{record.number}", record.fields)
        except desk_client.NotReached:
            # it audits the file before it listens
            if service.poll() is not None:
                raise desk_client.ClientError(f"{desk}: {service.stderr.read().decode().strip() or 'brk serve ended'}") from None
            time.sleep(0.005)
        except (http.client.HTTPException, OSError) as error:
            raise desk_client.ClientError(f"{name_of(record)}: no reply: {str(error) or type(error).__name__}: run it again") from error


def free_port():
    with socket.socket() as free:
        free.bind(("127.0.0.1", 0))
        return free.getsockname()[1]


def run(given):
    """Does what the words of examples/desk_client.py ask for."""
    if given.verify:
        verify(given.journal, given.verify)
    elif given.records:
        print_records(given.records)
    else:
        restore(*given.restore)
