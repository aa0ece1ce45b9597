"""The clerks' rows: sent through the door once a click, each in the clerk's journal before that."""

import contextlib
import http.client
import pathlib
import secrets
import threading
import time

import desk_client

RECENT_MS = 600_000


class Door(desk_client.Http):
    """Sends a request once: nothing is sent twice by itself."""

    def send(self, target, texts):
        """The word and the value of a reply. Raises NoReply, or NotSent for a wrong request."""
        try:
            word, value = self.once(target, texts)
        except desk_client.NotReached as error:
            told = f"The desk was not reached ({error}): nothing was booked."
            raise desk_client.NoReply(told) from error
        except (http.client.HTTPException, OSError) as error:
            why = str(error) or type(error).__name__
            told = f"No reply came ({why}): it is not known if this was booked."
            raise desk_client.NoReply(told) from error
        finally:
            self.close()
        if word == "error":
            raise desk_client.NotSent(f"{target}: {value}")
        return word, value

    def deliver(self, batch, rows, numbers, replies, reading):
        for number in numbers:
            word, fields = self.send(f"/rows/{batch}/{number}", rows[number])
            yield [(number, word, fields)], True


class Clerk:
    """A clerk's journal and way to the desk. Each row has a batch, whose name has the initials."""

    def __init__(self, initials, folder, port, key):
        self.initials, self.lock, self.sending = initials, threading.Lock(), None
        path = pathlib.Path(folder) / f"{initials}.journal"
        self.client = desk_client.Client(path, Door(port, key=key) if key else Door(port))
        self.journal = self.client.journal

    def new_batch(self):
        now = time.strftime("%Y%m%d-%H%M%S", time.gmtime())
        return f"PAGE-{self.initials}-{now}-{secrets.token_hex(4)}"

    @property
    def stamp(self):
        """The stamp of the last row that was booked."""
        stamps = [int(reply.fields[0]) for replies in list(self.journal.replies.values())
                  for reply in list(replies.values()) if reply.accepted]
        return max(stamps, default=0)

    def waiting(self):
        """The rows without a reply: batch, fields, and whether one is being sent."""
        return [(batch, self.journal.batches[batch][1], batch == self.sending)
                for batch in list(self.journal.open)]

    def same(self, fields):
        """The batches of the last ten minutes with the same fields, without those refused."""
        since = time.time_ns() // 1_000_000 - RECENT_MS
        return [batch for batch, rows in list(self.journal.batches.items())
                if rows.get(1) == fields and self.journal.readings[batch] > since
                and getattr(self.journal.replies[batch].get(1), "accepted", True)]

    @contextlib.contextmanager
    def under_way(self, batch):
        with self.lock:
            self.sending = batch
            try:
                yield
            finally:
                self.sending = None

    def book(self, batch, fields):
        """The reply to a row. A batch that was sent before is not sent again."""
        with self.under_way(batch):
            if batch not in self.journal.batches:
                self.client.send(batch, [fields])
            elif self.journal.batches[batch][1] != fields:
                raise desk_client.ClientError("This form was used for another row: begin anew.")
            elif batch in self.journal.open:
                raise desk_client.NoReply("This row was sent before, and has no reply yet.")
            return self.journal.replies[batch][1]

    def again(self, batch):
        """The reply to a row without one, which is sent again under its key."""
        with self.under_way(batch):
            if batch in self.journal.open:
                self.client.deliver(batch, [1], is_new=False)
            return self.journal.replies[batch][1]

    def estimate(self, fields):
        """The estimate of an order by the desk, as it is now. Raises Refused."""
        with self.lock:
            word, value = self.client.desk.send("/ask/estimate", fields)
        if word == "no":
            raise desk_client.Refused(value)
        return value[0]


class Clerks:
    """The clerks of a desk, whose journals are in a folder."""

    def __init__(self, folder, port, key, desk):
        self.folder, self.port, self.key = pathlib.Path(folder), port, key
        self.lock, self.known = threading.Lock(), {}
        self.folder.mkdir(parents=True, exist_ok=True, mode=0o700)
        mark = self.folder / "desk"
        if not mark.exists():
            mark.write_text(desk, encoding="utf-8")
        other = mark.read_text(encoding="utf-8")
        if other != desk:
            raise ValueError(f"{folder} has the journals of {other}: take another by --journals")

    def named(self, initials):
        with self.lock:
            if initials not in self.known:
                self.known[initials] = Clerk(initials, self.folder, self.port, self.key)
            return self.known[initials]
