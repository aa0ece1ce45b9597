#!/usr/bin/env python3
"""A client of a desk that is right by construction: a module for programs, and a command.

    desk_client.py JOURNAL (--port P [--key FILE] | --db FILE) [--at MS] [--patience S] < batch.csv
    desk_client.py JOURNAL (--port P [--key FILE] | --db FILE) [--patience S] --resume
    desk_client.py JOURNAL|FOLDER --verify COPY
    desk_client.py --records JOURNAL|FOLDER ..
    desk_client.py --restore DESK RECORDS

As a command it sends the rows of a batch, whose name the journal has not, and prints their lines as `brk batch` does. With --resume
it sends the rows of the journal that have no reply, and prints each as BATCH,N,WORD,FIELD... The other three are those of
examples/desk_records.py: they compare what was sent with a copy of a desk, and send it again to a desk that was restored from an
older copy. FOLDER is one of examples/send. No journal is made but by the first batch.

    client = desk_client.Client("sent.journal", desk_client.Http(8199))
    reply, = client.send("DAY-1", [desk_client.row("deposit", ACCOUNT=100, AMOUNT=desk_client.amount(10_000))])

- **Rows are in the journal, on the disk, before they are sent**, and each reply is there before `send` returns it. A program that
  crashed opens the journal again and calls `resume`: rows without a reply are sent again under their keys, so none is booked twice.
- **A desk that is away is waited for**: while it restarts, is copied or is held by another program, a row is sent again under its
  key, each second, as long as the patience lasts (for ever without one).
- **A row that was refused is not sent again** unless `correct` or `again` asks for it. When the batch that has it is sent again
  over the command line, `none` takes its place.
- **A name that another sender used is found**: `again` or a refusal with 19 at the first sending raises `KeyUsed`.
- `row` takes fields by their names and looks at their forms and limits (examples/kinds.csv) before anything is stored. A result or a
  cancel needs a `Trade`, which only a reply to an order, or a view, has. A float is refused everywhere: amounts are texts of
  `amount`, which counts in cents.
- Rows of a batch are sent in their order, each after the reply to the one before it.

Http(port) sends to the door of a desk, or to a `brk serve` that has none. The door wants the secret of the file --key, or of BRK_KEY in
the environment; without them that of /etc/brk/door.key, which goes to the port BRK_PORT of the settings alone. File(path) runs `brk batch` and `brk ask` on a file that exists and is not empty, while no service
holds it. Both book under the same keys, so a journal may be continued with the other one. BRK names the program; without it `brk` on
PATH is taken, and then ../brk. A journal belongs to one program at a time and to one desk. Once each of its rows has a reply, another
one may be begun, with other names of batches. Its lines are JSON lists of texts:

    ["rows", BATCH, N, MS, [FIELD, ..], ..]        stored at the clock reading MS, from row N on
    ["reply", BATCH, N, "ok", FIELD, ..]

Exit status: 0 if all was done, 1 if it could not be done, 2 if the arguments are wrong, 4 if nothing was sent because of a list of
records, 5 if a row differs from its record or is missing.

examples/DeskClient.java sends and resumes with the same journal. It needs Python 3.9. docs/formats/http.md ("Retry of a row") and
docs/formats/batches.md ("Retry of a batch") have the rules.
"""

import argparse
import csv
import datetime
import fcntl
import http.client
import io
import json
import os
import pathlib
import re
import shutil
import subprocess
import sys
import time

from desk_settings import whole_setting

HERE = pathlib.Path(__file__).resolve().parent
MOST_REQUESTS = 1000
# how long a reply may take: without a door others' streams come first, each of them for up to a minute
REPLY_SECONDS = 120
# the desk ends a stream that is idle for a second, so one that is idle for longer than this is not used again
IDLE_SECONDS = 0.5
# the field of a request that has the secret of a door, and the secret and the port of the package's door
KEY_FIELD, KEY_FILE, DOOR_PORT = "X-Brk-Key", "/etc/brk/door.key", 8123
MOST_BODY_BYTES = 65_536
MOST_BATCH_BYTES = 67_108_864
# how many trades a lookup has
MOST_TRADES = 20
LAST_STAMP = 253_402_300_799_999
BATCH = re.compile(r"[A-Za-z0-9._-]{1,40}")
WHOLE = re.compile(r"0|[1-9][0-9]*")
AMOUNT = re.compile(r"-?(?:0|[1-9][0-9]*)\.[0-9]{2}")
TEXTS = {"symbol": "[A-Z0-9.-]+", "exchange": "[A-Z]+", "tax id": "[A-Za-z0-9-]+", "acl": "[01]+", "name": "[^\x00-\x1f\x7f-\x9f]+"}
NAMES_A_TRADE = ("result", "cancel", "upname")


class ClientError(Exception):
    """What ends a call of this module. `status` is the exit status of a command that it ends."""

    status = 1


class NoReply(ClientError):
    """No reply came while the patience lasted. The rows are in the journal: `resume` sends them again."""


class NotSent(ClientError):
    """The desk cannot take this: a request or arguments that it does not accept, or a damaged file. Rows without a reply stay in the
    journal."""


class KeyUsed(ClientError):
    """A row was booked under the key before, by another sender: it was not booked now."""


class Refused(ClientError):
    """A query was refused, or a field was asked of a row that was refused."""

    def __init__(self, fields):
        super().__init__(words_of(fields))
        self.fields = fields


# ---- numbers and rows


def amount(cents):
    """The one spelling of a number of cents: `-1025.10`. A float is refused."""
    if type(cents) is not int:
        raise TypeError(f"an amount is a whole number of cents: {cents!r}")
    return f"{'-' if cents < 0 else ''}{abs(cents) // 100}.{abs(cents) % 100:02}"


def cents(text):
    """The whole number of cents of an amount."""
    if not isinstance(text, str) or not AMOUNT.fullmatch(text) or text == "-0.00":
        raise ValueError(f"no amount: {text!r}")
    return int(text.replace(".", ""))


class Trade(str):
    """The id of a trade, as a reply or a view has it. Programs do not make one of a number."""


def table(name):
    """The lines of a table for programs, examples/NAME.csv."""
    with open(HERE / f"{name}.csv", newline="", encoding="utf-8") as file:
        return list(csv.DictReader(file))


def grouped(lines, column):
    found = {}
    for line in lines:
        found.setdefault(line[column], []).append(line)
    return found


KINDS = grouped(table("kinds"), "kind")
REPLIES = grouped(table("replies"), "kind")
REFUSALS = {(line["number"], line["word"]): line for line in table("refusals")}


def words_of(fields):
    """What a refusal says: its number, its name and when it is given."""
    number, word = fields[0], fields[1] if len(fields) > 1 else ""
    known = REFUSALS.get((number, word)) or next((line for (other, _), line in REFUSALS.items() if other == number), None)
    text = ",".join(fields)
    return f"{text}: {known['name']}: {known['when']}" if known else f"{text}: see docs/FORMATS.md, Refusals"


def has_form(text, line):
    """Whether a text has the form of a field, within its limits."""
    form, least, greatest = line["form"], line["least"], line["greatest"]
    if line["values"]:
        return text in line["values"].split("|")
    if form in TEXTS:
        return bool(re.fullmatch(TEXTS[form], text)) and int(least) <= len(text.encode()) <= int(greatest)
    if form == "price or empty" and text == "":
        return True
    if form in ("amount", "price", "price or empty"):
        return bool(AMOUNT.fullmatch(text)) and text != "-0.00" and cents(least) <= cents(text) <= cents(greatest)
    if form == "day":
        try:
            return re.fullmatch(r"[0-9]{4}-[0-9]{2}-[0-9]{2}", text) is not None and bool(datetime.date.fromisoformat(text)) and least <= text
        except ValueError:
            return False
    return bool(WHOLE.fullmatch(text)) and int(least) <= int(text) <= int(greatest)


def text_of(value, line):
    """The text of a field. A whole number is one of a field that is no amount, and a float is none of any."""
    if isinstance(value, (float, bool)) or not isinstance(value, (str, int)):
        raise TypeError(f"{line['field']}: no text and no whole number: {value!r}")
    if isinstance(value, int) and line["form"] in ("amount", "price", "price or empty"):
        raise TypeError(f"{line['field']}: an amount is a text of amount(cents): {value!r}")
    text = str(value)
    if not has_form(text, line):
        raise ValueError(f"{line['kind']}: {line['field']}: no {line['form']} within its limits: {text!r}")
    return text


def row(kind, *groups, **fields):
    """A row: its fields by their names in docs/formats/rows.md. A feed has ticks (SYMBOL, PRICE, QTY) in place of named fields, and an
    upname has trades."""
    lines = KINDS.get(kind)
    if lines is None:
        raise ValueError(f"no such kind: {kind!r}")
    names = [line["field"] for line in lines]
    if lines[0]["occurs"] != "1":
        if fields or not 1 <= len(groups) <= 20:
            raise ValueError(f"{kind} has 1 to 20 of {', '.join(names)}")
        groups = [group if isinstance(group, (tuple, list)) else (group,) for group in groups]
        if any(len(group) != len(lines) for group in groups):
            raise ValueError(f"{kind} has {', '.join(names)} each time")
        found = [text_of(value, line) for group in groups for value, line in zip(group, lines)]
        trades = [value for group in groups for value in group]
    else:
        if groups or sorted(fields) != sorted(names):
            raise ValueError(f"{kind} has {', '.join(names)}, by their names")
        found = [text_of(fields[name], line) for name, line in zip(names, lines)]
        trades = [fields.get("TRADE")]
    if kind in NAMES_A_TRADE and not all(isinstance(trade, Trade) for trade in trades):
        raise TypeError(f"{kind}: TRADE is a Trade, which the reply to an order or a view has")
    if kind == "band" and int(found[3]) > int(found[4]):
        raise ValueError("band: FROM is above TO")
    if kind == "order" and (found[4] == "") != (found[1] in ("TMB", "TMS")):
        raise ValueError("order: PRICE is empty for TMB and TMS, and a price for the other types")
    return [kind, *found]


def require_texts(fields):
    """Raises TypeError unless a row is a list of texts that can be sent both ways."""
    if not fields or not all(isinstance(text, str) for text in fields) or fields[0] in ("", "end"):
        raise TypeError(f"a row is a list of texts, its kind first: {fields!r:.200}")
    if len(json.dumps(fields).encode()) > MOST_BODY_BYTES:
        raise ValueError(f"a row has more than {MOST_BODY_BYTES} bytes")


class Reply:
    """The reply to a row: `ok`, `again` or `no`, and the fields after the word."""

    def __init__(self, kind, word, fields):
        self.kind, self.word, self.fields = kind, word, fields

    @property
    def accepted(self):
        return self.word != "no"

    def __getitem__(self, name):
        """A field of an accepted row by its name in docs/formats/rows.md, such as `T_ID` or `SE_AMT`; of a refused row it raises
        Refused. Fields that a later program adds are at the end, and have no name here."""
        if not self.accepted:
            raise Refused(self.fields)
        for place, line in enumerate(REPLIES[self.kind]):
            if line["field"] == name:
                return self.fields[place] if line["occurs"] == "1" else self.fields[place:]
        raise KeyError(name)

    @property
    def trade(self):
        """The trade of an accepted order."""
        return Trade(self["T_ID"])

    @property
    def submitted(self):
        """The trades that an accepted feed submitted."""
        return [Trade(text) for text in self["T_ID"]]

    def __str__(self):
        return f"{self.word},{','.join(self.fields)}"


# ---- the journal


class Stored:
    """The rows and the replies of a journal."""

    def __init__(self, path):
        self.path = os.fspath(path)
        # by batch: each row by its number, from 1 on, the replies by theirs, the clock reading of the last rows, and the
        # numbers of the rows that have no reply
        self.batches, self.replies, self.readings, self.open = {}, {}, {}, {}

    def take_all(self, content):
        """Takes the entries of the whole lines of a journal; returns the length of these lines. A last line without its line feed
        was never acted on."""
        whole = content[: content.rfind(b"\n") + 1]
        for number, line in enumerate(whole.splitlines(), 1):
            try:
                self.take(json.loads(line))
            except (ValueError, LookupError, TypeError, AttributeError):
                raise ClientError(f"no journal: {self.path}: line {number}") from None
        return len(whole)

    def take(self, entry):
        """Takes an entry as it was stored."""
        what, batch, first, *rest = entry
        if what == "rows":
            reading, *rows = rest
            self.readings[batch] = int(reading)
            for number, fields in enumerate(rows, int(first)):
                self.batches.setdefault(batch, {})[number] = fields
                self.replies.setdefault(batch, {}).pop(number, None)
                self.open.setdefault(batch, set()).add(number)
        elif what == "reply":
            word, *fields = rest
            kind = self.batches[batch][int(first)][0]
            self.replies[batch][int(first)] = Reply(kind, word, fields)
            self.open[batch].discard(int(first))
            if not self.open[batch]:
                del self.open[batch]
        else:
            raise ValueError(what)

    def pending(self, batch):
        """The numbers of the rows of a batch that have no reply."""
        return sorted(self.open.get(batch, ()))


class Journal(Stored):
    """The rows that were to be sent, and their replies, in a file that only this process has. What `rows` and `reply` store is on the
    disk when they return. A last line without its line feed is cut off. Without `makes` the file has to exist."""

    def __init__(self, path, makes=True):
        super().__init__(path)
        is_new = not os.path.exists(self.path)
        if is_new and not makes:
            raise ClientError(f"no journal: {self.path} does not exist")
        self.file = os.fdopen(os.open(self.path, os.O_RDWR | (os.O_CREAT if makes else 0) | os.O_CLOEXEC, 0o600), "r+b")
        try:
            # the first lock keeps this program's own clients out, the second one those in Java too
            fcntl.flock(self.file, fcntl.LOCK_EX | fcntl.LOCK_NB)
            fcntl.lockf(self.file, fcntl.LOCK_EX | fcntl.LOCK_NB)
        except OSError:
            self.file.close()
            raise ClientError(f"another program has the journal: {self.path}") from None
        if is_new:
            folder = os.open(os.path.dirname(os.path.abspath(self.path)), os.O_RDONLY)
            os.fsync(folder)
            os.close(folder)
        content = self.file.read()
        whole = self.take_all(content)
        if whole < len(content):
            self.file.truncate(whole)
        self.file.seek(whole)

    def append(self, entries):
        text = "".join(json.dumps(entry, ensure_ascii=False, separators=(",", ":")) + "\n" for entry in entries)
        self.file.write(text.encode())
        self.file.flush()
        os.fsync(self.file.fileno())
        for entry in entries:
            self.take(entry)

    def rows(self, batch, first, reading, rows):
        self.append([["rows", batch, str(first), str(reading), *rows]])

    def reply(self, batch, replies):
        """Stores replies, each a number, a word and fields."""
        self.append([["reply", batch, str(number), word, *fields] for number, word, fields in replies])

    def close(self):
        self.file.close()


# ---- the two ways to a desk


class NotReached(OSError):
    """The desk was not reached: no row was executed."""


def secret_for(port, key=None):
    """Returns the secret to send to a port, or None: that of the file `key`, or of BRK_KEY; else that of the package's door, to its port
    alone, so that no other program that listens gets it."""
    path = key or os.environ.get("BRK_KEY")
    if not path and port == whole_setting("BRK_PORT", DOOR_PORT) and os.path.exists(KEY_FILE):
        path = KEY_FILE
    try:
        return pathlib.Path(path).read_text("ascii").strip() if path else None
    except (OSError, ValueError) as error:
        why = getattr(error, "strerror", None) or error
        raise NotSent(f"the secret of the door cannot be read: {path}: {why}: join the group brk-clients, or name its file by --key") from None


def answer_of(port, status, body):
    """Returns the word and the value of a reply. Raises NotReached or ConnectionError for one of a door, or of a desk that failed, after which
    a row is sent again, and NotSent for one after which it cannot be sent."""
    try:
        (word, value), = json.loads(body).items()
    except (ValueError, AttributeError):
        word, value = None, f"status {status}"
    if status == 408 or (status == 503 and str(value).startswith("busy")):
        raise NotReached(f"{value}: see whether the desk runs: systemctl status brk.service")
    if status in (502, 503, 504):
        raise ConnectionError(value)
    if status == 403:
        raise NotSent(f"the door at port {port} refuses this program: {value}: name the file of its secret by --key, or join the group brk-clients")
    if word is None:
        raise NotSent(f"port {port} gives no reply of a desk: {value}")
    return word, value


def patiently(patience, action, what):
    """Returns what an action returns, and whether it was the first that reached the desk. An action that raises OSError or an error of
    HTTP is repeated, once at once and then each second, until the patience is over."""
    until, attempts, is_first = None if patience is None else time.monotonic() + patience, 0, True
    while True:
        try:
            return action(), is_first
        except (http.client.HTTPException, OSError) as error:
            is_first = is_first and isinstance(error, NotReached)
            attempts += 1
            if attempts > 1 and until is not None and time.monotonic() > until:
                raise NoReply(f"no reply from {what}: {str(error) or type(error).__name__}") from error
            if attempts > 1:
                time.sleep(1)


class Http:
    """A desk behind its door, or served without one, on a port of this machine. A door takes one request a stream; a desk takes a thousand
    on one, which is used while none of its pauses is longer than IDLE_SECONDS. Close it when nothing is to be sent. `key` is the path of a
    secret."""

    def __init__(self, port, patience=None, key=None):
        self.port, self.patience, self.key = port, patience, key
        self.stream, self.left, self.used, self.fields = None, 0, 0.0, {}

    def require(self, stored, rows):
        """Any number of rows can be sent, also while the desk is away."""

    def post(self, target, texts):
        """Returns the word and the value of the reply to a request: ok, again, no or view and a list, or error and a text."""
        return patiently(self.patience, lambda: self.once(target, texts), f"port {self.port}")[0]

    def once(self, target, texts):
        try:
            if self.left == 0 or time.monotonic() - self.used > IDLE_SECONDS:
                self.close()
                secret = secret_for(self.port, self.key)
                self.fields = {KEY_FIELD: secret} if secret else {}
                self.stream = http.client.HTTPConnection("127.0.0.1", self.port, timeout=REPLY_SECONDS)
                try:
                    self.stream.connect()
                except OSError as error:
                    raise NotReached(error.strerror or str(error)) from error
                self.left = MOST_REQUESTS
            self.left -= 1
            # a body of bytes is sent with its length; one of an iterator would be chunked, and refused
            self.stream.request("POST", target, json.dumps(texts).encode(), self.fields)
            reply = self.stream.getresponse()
            if reply.getheader("Content-Length") is None:
                raise ConnectionError("the reply is cut")
            body = reply.read()
            self.used = time.monotonic()
        except BaseException:
            self.close()
            raise
        if reply.getheader("Connection") == "close" or reply.status >= 500:
            self.close()
        return answer_of(self.port, reply.status, body)

    def close(self):
        if self.stream is not None:
            self.stream.close()
        self.stream, self.left = None, 0

    def deliver(self, batch, rows, numbers, replies, reading):
        """Yields the replies to the rows with these numbers, each a list of number, word and fields, and whether the desk was reached
        for the first time."""
        for number in numbers:
            target = f"/rows/{batch}/{number}"
            (word, fields), is_first = patiently(self.patience, lambda: self.once(target, rows[number]), f"port {self.port}")
            if word == "error":
                raise NotSent(f"{target}: {fields}")
            yield [(number, word, fields)], is_first

    def ask(self, view, arguments):
        return self.post(f"/ask/{view}", arguments)


def batch_text(batch, rows):
    """The bytes of a batch."""
    text = io.StringIO(newline="")
    csv.writer(text, lineterminator="\n").writerows([["batch", batch], *rows, ["end", len(rows)]])
    return text.getvalue().encode()


def program():
    """The program brk: that of BRK, or the one on PATH, or ../brk."""
    return os.environ.get("BRK") or shutil.which("brk") or str(HERE.parent / "brk")


class File:
    """A desk in a file that no service holds: `brk batch --existing` and `brk ask` run on it. With `new` there is neither the file nor its
    log, and the first batch makes it."""

    def __init__(self, path, patience=None, new=False):
        self.path, self.patience, self.new = os.fspath(path), patience, new

    def require(self, stored, rows):
        """Raises an error if the file is no desk, or if the rows are too many for a batch, which brk would cut."""
        self.require_file()
        if len(batch_text("A" * 40, [*stored, *rows])) > MOST_BATCH_BYTES:
            raise ValueError(f"the batch has more than {MOST_BATCH_BYTES} bytes: begin another one")

    def require_file(self):
        is_there = [os.path.exists(path) and os.path.getsize(path) > 0 for path in (self.path, f"{self.path}-wal")]
        if self.new and not any(is_there):
            return
        if not is_there[0] or not os.path.isfile(self.path):
            raise NotSent(f"no desk: {self.path} is missing or empty")

    def run(self, words, given):
        """The exit status, the output and the last message of a run. A fault and a killed run raise OSError, other failures NotSent."""
        self.require_file()
        try:
            done = subprocess.run([program(), *words], input=given, stdout=subprocess.PIPE, stderr=subprocess.PIPE)
        except OSError as error:
            raise NotSent(f"the program does not run: {program()}: {error.strerror}") from None
        message = done.stderr.decode("utf-8", "replace").strip().split("\n")[-1]
        if done.returncode in (1, 2) and not message.startswith("brk: refused: "):
            raise NotSent(f"{self.path}: {message}")
        return done.returncode, done.stdout, message

    def deliver(self, batch, rows, numbers, replies, reading):
        """Yields the replies to the rows with these numbers, all at once. The whole batch is sent, with `none` in place of each row that
        was refused before, so that it is not executed now."""
        refused = {number for number, reply in replies.items() if not reply.accepted}
        sent = [["none"] if number in refused else rows[number] for number in range(1, len(rows) + 1)]
        text = batch_text(batch, sent)
        yield patiently(self.patience, lambda: self.lines(text, set(numbers), len(sent), reading), self.path)

    def lines(self, text, numbers, count, reading):
        status, output, message = self.run(["batch", "--db", self.path, *([] if self.new else ["--existing"]), "--at", str(reading)], text)
        # a line is complete once its line feed is there
        lines = [line.split(",") for line in output.decode("ascii", "replace").split("\n")[:-1]]
        if status:
            raise OSError(message or f"exit status {status}")
        if len(lines) != count + 1 or lines[-1][0] != "end":
            raise OSError(f"{len(lines)} lines of {count} rows")
        return [(int(number), word, fields) for number, word, *fields in lines[:-1] if int(number) in numbers]

    def ask(self, view, arguments):
        def once():
            status, output, message = self.run(["ask", "--db", self.path, "--json", "--", view, *arguments], b"")
            if message.startswith("brk: refused: "):
                return "no", message[len("brk: refused: "):].split(",")
            if status:
                raise OSError(message or f"exit status {status}")
            return "view", json.loads(output)["view"]

        return patiently(self.patience, once, self.path)[0]

    def close(self):
        """Nothing is open between two runs."""


class Client:
    """Sends rows to a desk, by a journal. `now` returns the clock reading, in milliseconds since 1970-01-01 UTC, with which File
    sends rows; `brk serve` has a clock of its own. Without `makes` the journal has to exist."""

    def __init__(self, journal, desk, now=lambda: time.time_ns() // 1_000_000, makes=True):
        self.journal, self.desk, self.now = Journal(journal, makes), desk, now

    def __enter__(self):
        return self

    def __exit__(self, *_):
        self.close()

    def close(self):
        self.desk.close()
        self.journal.close()

    def send(self, batch, rows):
        """Stores rows as the next ones of a batch, sends them, and returns their replies. Raises ClientError if a row of the
        journal has no reply: call `resume` first."""
        if not BATCH.fullmatch(batch):
            raise ValueError(f"no name of a batch: {batch!r}")
        rows = [[*fields] for fields in rows]
        for fields in rows:
            require_texts(fields)
        if self.journal.open:
            raise ClientError(f"rows without a reply: {', '.join(self.journal.open)}: resume first")
        if not rows:
            return []
        stored = self.journal.batches.get(batch, {})
        self.desk.require(stored.values(), rows)
        first = len(stored) + 1
        self.journal.rows(batch, first, self.now(), rows)
        return self.deliver(batch, range(first, first + len(rows)), is_new=True)

    def correct(self, batch, number, fields):
        """Stores another row in the place of one that was refused, sends it, and returns its reply."""
        reply = self.journal.replies.get(batch, {}).get(number)
        if reply is None or reply.accepted:
            raise ClientError(f"row {number} of {batch} was not refused")
        require_texts(fields)
        self.journal.rows(batch, number, self.now(), [[*fields]])
        return self.deliver(batch, [number], is_new=True)[0]

    def again(self, batch, number):
        """Sends a row that was refused once more, unchanged: it is executed now."""
        return self.correct(batch, number, self.journal.batches[batch][number])

    def resume(self):
        """Sends all rows that have no reply, and returns their replies by batch and number."""
        found = {}
        for batch in list(self.journal.open):
            numbers = self.journal.pending(batch)
            for number, reply in zip(numbers, self.deliver(batch, numbers, is_new=False)):
                found[batch, number] = reply
        return found

    def deliver(self, batch, numbers, is_new):
        """Sends stored rows. No new row is answered `again` when it reaches the desk for the first time, and none is refused with 19,
        unless another sender used its key."""
        rows, stored, used = self.journal.batches[batch], self.journal.replies[batch], []
        for replies, is_first in self.desk.deliver(batch, rows, list(numbers), stored, self.journal.readings[batch]):
            self.journal.reply(batch, replies)
            used += [number for number, word, fields in replies if (word == "again" and is_new and is_first) or (word, fields[0]) == ("no", "19")]
        if used:
            raise KeyUsed(f"{batch}: rows that another sender booked under this name, and that are not booked now: {used}")
        return [stored[number] for number in numbers]

    def reply(self, batch, number):
        """The stored reply to a row, or none."""
        return self.journal.replies.get(batch, {}).get(number)

    def ask(self, view, *arguments):
        """The records of a view. Raises Refused if the query is refused."""
        word, value = self.desk.ask(view, [str(argument) for argument in arguments])
        if word == "no":
            raise Refused(value)
        if word == "error":
            raise NotSent(f"{view}: {value}")
        return value

    def lookup(self, view, key, first=0, last=LAST_STAMP):
        """Yields the records of each trade of `accounttrades` or `symboltrades`, oldest first, also beyond the twenty of one view.
        Raises ClientError if more than twenty trades share a stamp: their ids are in the reply to the feed that gave it to them."""
        seen = set()
        while True:
            trades = []
            for record in self.ask(view, key, first, last):
                trades += [[]] if record[0] == "trade" else []
                trades[-1].append(record)
            fresh = [records for records in trades if records[0][1] not in seen]
            yield from fresh
            if len(trades) < MOST_TRADES:
                return
            if not fresh:
                raise ClientError(f"{view} {key}: more than {MOST_TRADES} trades of the stamp {first}")
            seen.update(records[0][1] for records in fresh)
            first = trades[-1][0][2]

    def submitted(self):
        """The submitted trades: Trade, type, symbol, quantity, requested price."""
        return [(Trade(record[0]), *record[1:]) for record in self.ask("submitted")]


# ---- the command


def batch_read(text):
    """The name and the rows of a batch."""
    records = [record for record in csv.reader(io.StringIO(text, newline="")) if record]
    if len(records) < 2 or records[0][0] != "batch" or len(records[0]) != 2 or records[-1] != ["end", str(len(records) - 2)]:
        raise ClientError("standard input is no batch: batch,NAME, the rows, and end with their number")
    return records[0][1], records[1:-1]


def arguments():
    words = argparse.ArgumentParser(description=__doc__, formatter_class=argparse.RawDescriptionHelpFormatter)
    words.add_argument("journal", metavar="JOURNAL", nargs="?")
    way = words.add_mutually_exclusive_group(required=True)
    way.add_argument("--port", type=int, metavar="P")
    way.add_argument("--db", metavar="FILE")
    way.add_argument("--verify", metavar="COPY", help="compare the accepted rows with a copy of the desk")
    way.add_argument("--records", nargs="+", metavar="JOURNAL|FOLDER", help="print the accepted rows of all, by their stamps")
    way.add_argument("--restore", nargs=2, metavar=("DESK", "RECORDS"), help="send records to a desk, each at its stamp")
    words.add_argument("--key", metavar="FILE", help="the secret of the door at --port")
    words.add_argument("--at", type=int, metavar="MS", help="the clock reading, in place of the machine's")
    words.add_argument("--patience", type=int, metavar="S", help="seconds to wait for a desk that is away; for ever without it")
    words.add_argument("--new", action="store_true", help="make the desk of --db")
    words.add_argument("--resume", action="store_true", help="send what has no reply")
    given = words.parse_args()
    if bool(given.records or given.restore) == bool(given.journal):
        words.error("JOURNAL is needed, but with --records and --restore")
    if not (given.port or given.db) and (given.at is not None or given.patience is not None or given.new or given.resume):
        words.error("--at, --patience, --new and --resume need --port or --db")
    if given.key and not given.port:
        words.error("--key needs --port")
    return given


def send_batch(client):
    """Sends the batch of standard input, and prints its lines."""
    counts = {"ok": 0, "again": 0, "no": 0}
    name, rows = batch_read(sys.stdin.buffer.read().decode("utf-8-sig"))
    if name in client.journal.batches:
        raise ClientError(f"the journal has a batch {name}: its rows were stored before, and --resume sends those that have no reply")
    for number, reply in enumerate(client.send(name, rows), 1):
        print(f"{number},{reply}")
        counts[reply.word] += 1
    print(",".join(["end", *map(str, counts.values())]))


def send(given):
    """Sends a batch, or what has no reply."""
    desk = Http(given.port, given.patience, given.key) if given.port else File(given.db, given.patience, given.new)
    now = [lambda: given.at] if given.at is not None else []
    with Client(given.journal, desk, *now, makes=not given.resume) as client:
        if not given.resume:
            send_batch(client)
            return
        for (batch, number), reply in client.resume().items():
            print(f"{batch},{number},{reply}")


def main():
    given = arguments()
    try:
        if given.port or given.db:
            send(given)
        else:
            import desk_records

            desk_records.run(given)
        return 0
    except (ClientError, OSError, TypeError, ValueError) as error:
        print(f"desk_client: {error}", file=sys.stderr)
        return getattr(error, "status", 1)


if __name__ == "__main__":
    sys.dont_write_bytecode = True
    # the module that desk_records has too
    import desk_client

    sys.exit(desk_client.main())
