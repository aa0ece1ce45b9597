"""The desk, the page's program, the way between the two, and the screens, for page/trials/try_page."""

import contextlib
import csv
import html.parser
import http.client
import http.server
import io
import json
import os
import pathlib
import re
import signal
import subprocess
import sys
import threading
import time
import urllib.parse

from cases import TOP, free_port, is_listening

SECONDS = 180
PYTHON = "/usr/bin/python3"
# how long a row waits at the way, for a case of its own
SLOW = 4


def plain(text):
    return text.replace(",", "").strip()


class Desk:
    """A desk in a file, booked and asked by the program."""

    def __init__(self, brk, path):
        self.brk, self.path, self.process, self.port = brk, pathlib.Path(path), None, None

    def run(self, *words, rows=b"", path=None):
        done = subprocess.run([self.brk, words[0], "--db", str(path or self.path), *words[1:]], input=rows, capture_output=True, timeout=SECONDS)
        return done.returncode, done.stdout.decode(), done.stderr.decode()

    def batch(self, name, rows, at):
        text = io.StringIO(newline="")
        fields = [row.split(",") if isinstance(row, str) else row for row in rows]
        csv.writer(text, lineterminator="\n").writerows([["batch", name], *fields, ["end", len(rows)]])
        status, lines, errors = self.run("batch", "--at", str(at), rows=text.getvalue().encode())
        if status or not lines.endswith(f"end,{len(rows)},0,0\n"):
            sys.exit(f"try_page: batch {name}: {lines}{errors}")

    def serve(self, at=None):
        self.port = self.port or free_port()
        words = [self.brk, "serve", "--port", str(self.port), "--db", str(self.path), "--streams", "1000000"]
        self.process = subprocess.Popen(words + (["--at", str(at)] if at else []), stdin=subprocess.DEVNULL, stderr=subprocess.DEVNULL)
        until = time.monotonic() + SECONDS
        while not is_listening(self.port) and time.monotonic() < until and self.process.poll() is None:
            time.sleep(0.02)
        return self

    def stop(self, how=signal.SIGTERM):
        if self.process and self.process.poll() is None:
            self.process.send_signal(how)
            self.process.wait(SECONDS)

    def post(self, target, texts, port=None):
        """The word and the value of a reply, on a stream of its own."""
        stream = http.client.HTTPConnection("127.0.0.1", port or self.port, timeout=SECONDS)
        try:
            stream.request("POST", target, json.dumps(texts).encode())
            ((word, value),) = json.loads(stream.getresponse().read()).items()
            return word, value
        finally:
            stream.close()


class Way:
    """What lies between the page and the desk: it passes requests on, keeps them, and does a fault on demand."""

    def __init__(self, desk):
        self.desk, self.seen, self.fault = desk, [], None
        way = self

        class Handler(http.server.BaseHTTPRequestHandler):
            protocol_version = "HTTP/1.1"

            def log_message(self, *_):
                """Prints nothing."""

            def do_POST(self):
                body = self.rfile.read(int(self.headers["Content-Length"]))
                way.seen.append((self.path, json.loads(body)))
                fault = way.fault if self.path.startswith("/rows/") else None
                way.fault = None if fault else way.fault
                if fault == "slow":
                    time.sleep(SLOW)
                if fault == "busy":
                    self.answer(503, {"error": "busy: never reached the desk"})
                    return
                word, value = way.desk.post(self.path, json.loads(body))
                if fault == "lost":
                    self.close_connection = True
                    self.connection.close()
                    return
                self.answer({"no": 409, "error": 404}.get(word, 200), {word: value})

            def answer(self, status, told):
                text = json.dumps(told).encode()
                self.send_response(status)
                self.send_header("Content-Type", "application/json")
                self.send_header("Content-Length", str(len(text)))
                self.send_header("Connection", "close")
                self.end_headers()
                with contextlib.suppress(OSError):
                    self.wfile.write(text)

        self.server = http.server.ThreadingHTTPServer(("127.0.0.1", 0), Handler)
        self.server.daemon_threads = True
        self.server.handle_error = lambda *_: None
        self.port = self.server.server_address[1]
        threading.Thread(target=self.server.serve_forever, daemon=True).start()

    def rows(self):
        return [seen for seen in self.seen if seen[0].startswith("/rows/")]


class Page:
    """The page's program, started by the trial."""

    def __init__(self, folder, brk, *words, program=TOP / "page"):
        self.folder, self.brk, self.words, self.program = pathlib.Path(folder), brk, words, program
        self.process, self.port, self.key = None, 0, None
        self.runtime = self.folder / "runtime"

    def start(self, *more, env=None):
        words = [PYTHON, str(self.program), *map(str, self.words), "--port", str(self.port), "--runtime", str(self.runtime), *more]
        self.process = subprocess.Popen(words, stdout=subprocess.PIPE, stderr=open(self.folder / "page.err", "ab"), text=True,
                                        env={**os.environ, "BRK": str(self.brk), **(env or {})})
        line = self.process.stdout.readline()
        found = re.search(r"http://127\.0\.0\.1:(\d+)/", line)
        if not found:
            sys.exit(f"try_page: the page did not start: {line}{(self.folder / 'page.err').read_text()}")
        self.port = int(found[1])
        return self

    @property
    def address(self):
        return f"http://127.0.0.1:{self.port}"

    def link(self, initials="MK", *more):
        words = ["--end", initials] if "--end" in more else ["--link", initials]
        done = subprocess.run([PYTHON, str(TOP / "page"), *words, "--runtime", str(self.runtime)],
                              capture_output=True, text=True)
        return done.stdout.strip()

    def enter(self, initials="MK"):
        """A key for the requests of the trial itself."""
        secret = self.link(initials).split("#")[1]
        status, text, _ = self.ask("POST", "/enter", {"secret": secret}, key=None)
        self.key = json.loads(text)["key"] if status == 200 else None
        return self.key

    def ask(self, method, path, form=None, key="own", **heads):
        """The status, the text and the seconds of a request."""
        stream = http.client.HTTPConnection("127.0.0.1", self.port, timeout=SECONDS)
        key = self.key if key == "own" else key
        heads = {name.replace("_", "-"): value for name, value in heads.items()} | ({"X-Page-Key": key} if key else {})
        body = None
        if form is not None:
            body, heads["Content-Type"] = urllib.parse.urlencode(form, doseq=True), "application/x-www-form-urlencoded"
        begun = time.monotonic()
        try:
            stream.request(method, path, body, heads)
            reply = stream.getresponse()
            return reply.status, reply.read().decode(), time.monotonic() - begun
        finally:
            stream.close()

    def screen(self, path):
        status, text, seconds = self.ask("GET", path)
        return Screen(status, text, seconds, self)

    def stop(self, how=signal.SIGTERM):
        if self.process and self.process.poll() is None:
            self.process.send_signal(how)
            self.process.wait(SECONDS)
        self.process.stdout.close()


class Reader(html.parser.HTMLParser):
    """Reads the tables of a screen: by the id of their section, each row by the heads of its cells; and lines by their labels."""

    def __init__(self):
        super().__init__()
        self.section, self.row, self.cell, self.text = None, None, None, []
        self.tables, self.lines, self.label, self.pairs, self.term, self.links = {}, {}, None, {}, None, []
        self.problems, self.attributes = [], {}

    def handle_starttag(self, tag, attributes):
        it = dict(attributes)
        if tag == "section":
            self.section = it.get("id")
        elif tag == "table" and it.get("id"):
            self.section = it["id"]
        elif tag == "tr":
            self.row, self.label = {}, it.get("data-line")
        elif tag in ("td", "th", "dt", "dd"):
            self.cell, self.text = it.get("data-head", tag), []
        elif tag == "a" and it.get("href"):
            self.links.append(it["href"])
        elif tag == "p" and "line" in it.get("class", ""):
            self.cell, self.text = "problem", []
        self.attributes.update({name: value for name, value in attributes if name.startswith("data-")})

    def handle_data(self, data):
        self.text.append(data)

    def handle_endtag(self, tag):
        text = " ".join("".join(self.text).split())
        if tag == "p" and self.cell == "problem":
            self.problems.append(text)
            self.cell = None
        elif tag in ("td", "th") and self.cell:
            if self.label:
                self.lines.setdefault(self.label, []).append(text)
            elif self.row is not None:
                self.row.setdefault(self.cell, []).append(text)
            self.cell, self.text = None, []
        elif tag == "dt":
            self.term, self.text = text, []
        elif tag == "dd":
            self.pairs[self.term], self.text = text, []
        elif tag == "tr" and self.row:
            self.tables.setdefault(self.section, []).append({key: it[0] if len(it) == 1 else it for key, it in self.row.items()})


class Screen:
    """A screen as the trial reads it."""

    def __init__(self, status, text, seconds, page):
        self.status, self.text, self.seconds, self.page, self.is_kept = status, text, seconds, page, False
        self.reader = Reader()
        self.reader.feed(text)
        self.problems, self.pairs, self.links = self.reader.problems, self.reader.pairs, self.reader.links

    def rows(self, section):
        return [row for row in self.reader.tables.get(section, []) if not set(row) <= {"th", "td"}]

    def sums(self, section):
        """The rows of a table with a head at the left: their cells by it."""
        return {row["th"]: row["td"] for row in self.reader.tables.get(section, []) if isinstance(row.get("th"), str) and "td" in row}

    def line(self, label):
        return plain(self.reader.lines[label][1])

    @property
    def snapshot(self):
        if not self.reader.attributes.get("data-snapshot"):
            raise ValueError(f"a screen without a snapshot: {self.status} {self.problems}")
        return self.page.runtime / "snapshots" / self.reader.attributes["data-snapshot"] / "desk.db"

    @property
    def stamp(self):
        return re.search(r'UTC">([0-9: -]{19})<', self.text)[1]


def killed_at(seam):
    """The text of a program that is the page, and kills itself at a seam of a row: `before` it is stored, once it is `stored`,
    once it is `sent` and its reply not stored, once it is `replied`."""
    return f'''
import os, runpy, signal, sys
sys.path.insert(0, {str(TOP / "examples")!r})
import desk_client
def die(*_):
    os.kill(os.getpid(), signal.SIGKILL)
class Journal(desk_client.Journal):
    def rows(self, *given):
        {"die()" if seam == "before" else "pass"}
        super().rows(*given)
        {"die()" if seam == "stored" else "pass"}
    def reply(self, *given):
        {"die()" if seam == "sent" else "pass"}
        super().reply(*given)
        {"die()" if seam == "replied" else "pass"}
desk_client.Journal = Journal
sys.argv[0] = {str(TOP / "page")!r}
runpy.run_path({str(TOP / "page")!r}, run_name="__main__")
'''
