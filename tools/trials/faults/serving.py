"""`brk serve` under recorder.c, and a client that sends the rows of a day to it under their keys, each on a stream of its own."""

import errno
import json
import pathlib
import signal
import socket
import subprocess
import sys
import time

import states
from cases import SECONDS, STORE, free_port
from sendings import CLOCK, Wrong, as_first, expect, placed

CALLS = "wsto"
STREAMS = 400
PATIENCE = 6


class Server:
    """A running `brk serve`; its standard error goes into a file."""

    def __init__(self, program, path, **faults):
        self.port, self.errors = free_port(), path + ".errors"
        words = [program.brk, "serve", "--port", str(self.port), "--db", path, "--at", CLOCK, "--streams", str(STREAMS)]
        env = program.environment(path, faults) if faults else None
        with open(self.errors, "wb") as errors:
            self.process = subprocess.Popen(words, stdin=subprocess.DEVNULL, stdout=subprocess.DEVNULL, stderr=errors, env=env)

    def connected(self):
        """A stream, or None if the server has ended."""
        until = time.monotonic() + SECONDS
        while time.monotonic() < until:
            try:
                return socket.create_connection(("127.0.0.1", self.port), SECONDS)
            except (ConnectionRefusedError, ConnectionResetError):
                if self.process.poll() is not None:
                    return None
                time.sleep(0.002)
        raise Wrong("the server neither listens nor ends")

    def ended(self):
        """How it ended by itself, after a stream without a whole reply."""
        try:
            status = self.process.wait(SECONDS)
        except subprocess.TimeoutExpired:
            raise Wrong("a stream without a whole reply, and the server goes on") from None
        return status, pathlib.Path(self.errors).read_text()

    def kill(self):
        self.process.send_signal(signal.SIGKILL)
        self.process.wait()

    def asked(self, target, texts):
        """A stream to the server, and the status and the body of its reply to a request: None and None without a whole one."""
        body = json.dumps(texts).encode()
        head = f"POST {target} HTTP/1.1\r\nConnection: close\r\nContent-Length: {len(body)}\r\n\r\n"
        stream = self.connected()
        if not stream:
            return None, None
        received = b""
        try:
            stream.sendall(head.encode() + body)
            while part := stream.recv(65536):
                received += part
        except ConnectionError:
            pass
        except socket.timeout:
            raise Wrong(f"{target}: no reply within {SECONDS} s") from None
        return stream, reply_of(received)

    def post(self, target, texts):
        """The status and the body of the reply to a request, or None if there is no whole one."""
        stream, reply = self.asked(target, texts)
        if stream:
            stream.close()
        return reply

    def reply(self, name, number, row):
        return self.post(*request_of(name, number, row))


def request_of(name, number, row):
    """The target and the fields of the request that a row is."""
    return f"/rows/{name}/{number}", row.split(",")


def first_reply(received):
    """The status and the body of the first reply of some bytes, or None if it is not whole, and the bytes after it."""
    head, found, body = received.partition(b"\r\n\r\n")
    length = [line.split(b":")[1] for line in head.split(b"\r\n") if line.startswith(b"Content-Length:")]
    if not found or not length or len(body) < int(length[0]):
        return None, b""
    return (int(head.split()[1]), json.loads(body[: int(length[0])])), body[int(length[0]) :]


def reply_of(received):
    return first_reply(received)[0]


def rows_replied(job, output):
    """How many rows the replies of a server acknowledge, whose client sends each row until it is answered."""
    rows = 0
    reply, output = first_reply(output)
    while reply:
        rows += reply[0] != 503
        expect(reply[0] == 503 or as_first([line_of(rows, reply[1])]) == [job.lines[rows - 1]], f"row {rows}: {reply}")
        reply, output = first_reply(output)
    return rows


def line_of(number, body):
    """The line of a batch that says what a reply says."""
    ((word, fields),) = body.items()
    return ",".join([str(number), word, *fields])


def sent_until_killed(job, server):
    """Sends rows until there is no reply: how many were acknowledged."""
    for number, row in enumerate(job.rows, 1):
        reply = server.reply(job.name, number, row)
        if reply is None:
            return number - 1
        expect(reply[0] in (200, 409) and as_first([line_of(number, reply[1])]) == [job.lines[number - 1]], f"row {number}: {reply}")
    return len(job.rows)


def try_kills(sweep, rng, job, most):
    """Kills a server at a random call, and settles the rows by a batch."""
    program = sweep.program

    def one(at, path):
        placed(path, job.before)
        server = Server(program, path, calls=CALLS, at=at, what="kill")
        rows = sent_until_killed(job, server)
        if rows == len(job.rows):
            server.kill()
        expect(server.ended()[0] == -signal.SIGKILL, str(server.ended()))
        more = job.settled(path, rows)
        return ["tried", "with one row more booked"] if more else ["tried"]

    count = calls_of(program, job)[-1].number
    sweep.sweep("brk serve", [rng.randint(1, count) for _ in range(most)], one)


class Client:
    """Sends all rows, each until it is answered, as docs/formats/http.md says, and starts a server again that has ended.

    `most` calls of the server fail at most; None if the fault goes on. Each of them may cause one reply 503. After it the server has to
    answer in the next stream, or to end with the fault and its line; one call alone ends it only before its first reply. While a fault
    goes on, an open desk may reply 503 to each row. It has to answer queries then, and the client ends it after some streams."""

    def __init__(self, program, job, path, most, **faults):
        self.program, self.job, self.path = program, job, path
        self.came = set()
        self.start(most, **faults)

    def start(self, most, **faults):
        self.server = Server(self.program, self.path, **faults)
        self.most, self.replies, self.failures = most, 0, 0

    def start_again(self, came):
        self.came.add(came)
        self.start(0)

    def ended(self, number):
        """The server has ended: it has to be by the fault. It is started again."""
        how = self.server.ended()
        expect(how == STORE and self.most != 0, f"row {number}: the server ended: {how}")
        expect(self.most != 1 or self.replies == 0, f"row {number}: one failed call ended the server after {self.replies} replies")
        self.start_again("ended by the fault" if self.replies else "ended by the fault at its start")

    def lasting(self, number):
        """Rows get no other reply than 503: queries have to be answered. The server is ended, and started again."""
        reply = self.server.post("/ask/submitted", [])
        if reply is None:
            self.ended(number)
            return
        expect(reply[0] == 200, f"row {number}: {PATIENCE} replies 503, and to a query {reply}")
        self.server.kill()
        self.start_again("replied 503 to rows as long as the fault lasted, and answered queries")

    def failed(self, number, body, in_turn):
        """The server has replied 503, so many times in turn."""
        self.failures += 1
        expect(body == {"error": "store"}, f"row {number}: 503 {body}")
        expect(self.most is None or self.failures <= self.most, f"row {number}: {self.failures} replies 503, and {self.most} calls failed at most")
        if in_turn == PATIENCE:
            self.lasting(number)

    def answer(self, number, row):
        """The reply to a row that is not 503."""
        in_turn = 0
        while True:
            reply = self.server.reply(self.job.name, number, row)
            if reply is None:
                self.ended(number)
                in_turn = 0
                continue
            self.replies += 1
            if reply[0] != 503:
                break
            in_turn += 1
            self.failed(number, reply[1], in_turn)
        if in_turn and self.failures:
            self.came.add("came back by itself")
        return reply

    def send_all(self):
        for number, row in enumerate(self.job.rows, 1):
            status, body = self.answer(number, row)
            wanted = self.job.lines[number - 1]
            expect(status in (200, 409) and as_first([line_of(number, body)]) == [wanted], f"row {number}: {status} {body}, and not {wanted}")


def calls_of(program, job, letters=CALLS, **faults):
    """The calls of a server that answers all rows of a job, up to its end by a signal that it does not see. With `faults` one of them fails."""
    path = program.path("served.db")
    placed(path, job.before)
    client = Client(program, job, path, 1 if faults else 0, calls=letters, record=path + ".record", **faults)
    try:
        client.send_all()
    except Wrong as error:
        sys.exit(f"{job.name}: served, with {faults or 'no fault'}: {error}")
    finally:
        client.server.kill()
    return states.recorded(path + ".record")


def counted_calls(program, job, letter):
    """How many of these calls a server makes until it has answered all rows of a job."""
    return calls_of(program, job, letter)[-1].number


def calls_of_reopening(rng, program, job, error):
    """The number of a sync whose failure closes the file of a server, and how many calls more the server makes then to answer all rows."""
    calls = calls_of(program, job)
    syncs = [call.number for call in calls if call.letter == "s"]
    at = rng.choice(syncs[len(syncs) // 2 :])
    return at, calls_of(program, job, at=at, what="fail", error=error)[-1].number - calls[-1].number


def calls_with_reopening(rng, program, job):
    """The calls of a server one of whose syncs fails, after its first reply: it opens its file again, and answers all rows."""
    calls = calls_of(program, job)
    replies = [at for at, call in enumerate(calls) if call.letter == "n"]
    syncs = [call.number for call in calls[replies[0] : replies[-1]] if call.letter == "s"]
    return calls_of(program, job, at=rng.choice(syncs), what="fail", error=errno.EIO)


class Reopening:
    """The places of a sync that failed, and of the first reply of the server after it opened its file again, which may be `again`."""

    def __init__(self, calls):
        self.calls = calls
        self.failed = next(at for at, call in enumerate(calls) if call.letter == "x")
        refused, self.answered = [at for at in range(self.failed, len(calls)) if calls[at].letter == "n"][:2]
        if b" 503 " not in calls[refused].data or b" 503 " in calls[self.answered].data:
            sys.exit("a server did not answer in the stream after a sync that failed")
        self.is_again = b'"again"' in calls[self.answered].data

    def next_place(self, after, letter, kind):
        found = (at for at in range(after, self.answered) if (self.calls[at].letter, self.calls[at].kind) == (letter, kind))
        return next(found, None)

    @property
    def copying(self):
        """The calls from the first write to the file until its log is emptied, and that is synced; none if there was nothing to copy."""
        first = self.next_place(self.failed, "w", "d")
        if first is None:
            return range(0)
        return range(first, self.next_place(self.next_place(first, "w", "w"), "s", "w"))

    def without(self, letters):
        """The calls without those of some letters between the sync that failed and the reply."""
        kept = range(self.failed + 1, self.answered)
        return [call for at, call in enumerate(self.calls) if at not in kept or call.letter not in letters]

    def without_rewriting(self):
        """The calls without the writes of the log between the sync that failed and the first write to the file."""
        again = range(self.failed + 1, self.copying.start)
        return [call for at, call in enumerate(self.calls) if at not in again or (call.letter, call.kind) != ("w", "w")]


def try_faults(sweep, title, job, cases):
    """Lets calls of a server fail: it comes back or ends, and no row is lost or booked twice."""

    def one(case, path):
        placed(path, job.before)
        client = Client(sweep.program, job, path, case.most, **case.faults())
        try:
            client.send_all()
        finally:
            client.server.kill()
        job.settled(path, len(job.rows))
        return ["tried", *(client.came or ["without an effect"])]

    sweep.sweep(title, cases, one)
