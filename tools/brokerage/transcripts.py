"""Transcripts, read and worked out again. crates/brk_tests_cases/README.md has their form.

The rules do not say how an unknown view, and a malformed account or day of a statement, are
refused: that page says 18."""

import itertools
import re
import sqlite3
from typing import List, NamedTuple

from .amounts import MOST_STAMP, parse_whole
from .audit import audit
from .desk import Damaged, Desk
from .figures import figure
from .printed import printed
from .records import SCHEMA
from .refusals import Refused
from .tables import tables_of

ESCAPE = re.compile(r"\\(\\|r|x[0-9a-fA-F]{2})".encode())
OPEN_END = re.compile(rb"(?<!\\)(?:\\\\)*\\$")
ESCAPED = re.compile("[\\\\\x00-\x1f\x7f\udc80-\udcff]")
WITH_TEXTS = ("ask", "batch", "figures", "http", "print", "sql")
# the commands of transcripts that are not worked out, and why
LEFT_OUT = {
    "$": "the program's files and exit statuses",
    "jobs": "the program's arguments",
    "test": "tests in Rattle",
    "tests": "tests in Rattle",
}
# what a mistake in a transcript raises here
MISTAKES = (sqlite3.Error, OSError, ArithmeticError, AttributeError, LookupError, TypeError,
            ValueError)
SURROGATES = 0xdc00  # a byte that is no UTF-8 is the character of this and its value


class Command(NamedTuple):
    """A command, with the number of its line and its input and output lines."""
    line: int
    words: List[str]
    texts: List[bytes]
    output: List[str]


def commands_of(path):
    """Returns the commands of a transcript."""
    found = []
    for number, line in enumerate(path.read_bytes().split(b"\n"), 1):
        if line.startswith(b"| "):
            found[-1].texts.append(line[2:])
        elif line.startswith(b"> "):
            found[-1].output.append(line[2:].decode())
        elif line and not line.startswith(b"#"):
            found.append(Command(number, line.decode().split(" "), [], []))
    return found


def unescaped(text):
    """Returns the bytes of an input line, and whether a line feed follows."""
    open_end = OPEN_END.search(text) is not None

    def meant(escape):
        return {b"\\": b"\\", b"r": b"\r"}.get(escape[1]) or bytes([int(escape[1][1:], 16)])
    return ESCAPE.sub(meant, text[:-1] if open_end else text), not open_end


def block(texts):
    return b"".join(text + b"\n" * ends for text, ends in map(unescaped, texts))


def plain(texts):
    """Returns the arguments of a view, or SQL statements."""
    return [unescaped(text)[0].decode(errors="surrogateescape") for text in texts]


def escape(mark):
    byte = ord(mark[0]) % SURROGATES
    return {"\\": "\\\\", "\r": "\\r"}.get(mark[0]) or f"\\x{byte:02x}"


def escaped(text):
    """Returns the text of an output line."""
    return ESCAPED.sub(escape, text)


def written(data):
    """Returns the output lines of written bytes."""
    *lines, rest = data.decode(errors="surrogateescape").split("\n")
    return [escaped(line) for line in lines] + [escaped(rest) + "\\"] * (rest != "")


def lines_of(text):
    return written(text.encode(errors="surrogateescape"))


def input_line(text):
    """Returns the text of an input line: that of an output line, but for a space at its end."""
    line = escaped(text)
    return line[:-1] + "\\x20" if line.endswith(" ") else line


def input_lines(data):
    """Returns the input lines of a block."""
    *lines, rest = data.decode(errors="surrogateescape").split("\n")
    return [input_line(line) for line in lines] + [input_line(rest) + "\\"] * (rest != "")


def record(fields):
    texts = ("\x00" if field is None else str(field) for field in fields)
    return "|".join(escaped(text).replace("|", "\\x7c") for text in texts)


def moment_of(text):
    """Returns a moment in the form of the option --at; any other text is 0."""
    return parse_whole(text, MOST_STAMP) or 0


class Replay:
    """The desk or the database of a transcript, and its commands."""

    def __init__(self, folder):
        self.folder = folder
        self.desk, self.conn = None, None

    def database(self):
        """Returns the database, into which an open desk is written."""
        if self.conn is None:
            self.conn = sqlite3.connect(":memory:", isolation_level=None)
        if self.desk:
            self.desk.write(self.conn)
        return self.conn

    def do_desk(self):
        self.do_empty()
        self.desk = Desk()
        return []

    def do_empty(self):
        self.desk, self.conn = None, None
        self.database()
        return []

    def do_include(self, name):
        for command in commands_of(self.folder / name):
            self.output(command)
        return []

    def do_batch(self, moment, *, texts):
        data, fault = self.desk.batch(block(texts), moment_of(moment))
        return written(data) + ([f"! {fault[0]} {fault[1]}"] if fault else [])

    def do_http(self, moment, *, texts):
        data, done = self.desk.serve(block(texts), moment_of(moment))
        return [*written(data), f"! done {done}"]

    def do_ask(self, view, *, texts):
        return [record(row) for row in self.desk.ask(view, *plain(texts))]

    def do_print(self, form, view, *, texts):
        return lines_of(printed(form, view, self.desk.ask(view, *plain(texts))))

    def do_statement(self, account, first, last):
        return lines_of(self.desk.statement(account, first, last))

    def do_statements(self, first, last, customer=None):
        return lines_of(self.desk.statements(first, last, customer))

    def do_explain(self, *texts):
        return lines_of(self.desk.explain(*texts))

    def do_tables(self, *names):
        rows = self.desk.tables()
        chosen = [table.name for table in tables_of(SCHEMA) if not names or table.name in names]
        return [f"{name} {record(row)}" for name in chosen for row in rows[name]]

    def do_figures(self, name, *, texts):
        return [figure(name, text) for text in plain(texts)]

    def do_sql(self, *, texts):
        conn, self.desk = self.database(), None
        for text in plain(texts):
            conn.execute(text)
        return []

    def do_audit(self):
        word = self.desk.audit() if self.desk else audit(self.database())[0]
        return [f"damaged {word}" if word else "ok"]

    def do_adopt(self):
        conn, self.desk = self.database(), None
        try:
            self.desk = Desk.adopt(conn)
            return ["ok"]
        except Damaged as damaged:
            return [f"damaged {damaged.word}"]

    def output(self, command):
        """Returns the output lines of a command."""
        name, *arguments = command.words
        do = getattr(self, f"do_{name}", None)
        if do is None:
            return ["! no such command"]
        try:
            return do(*arguments, texts=command.texts) if name in WITH_TEXTS else do(*arguments)
        except Refused as refused:
            return ["no " + " ".join(refused.fields)]


def differences(path, folder):
    """Yields each output line that differs, as (line, expected, worked out)."""
    replay = Replay(folder)
    for command in commands_of(path):
        try:
            output = replay.output(command)
        except MISTAKES as error:
            output = [f"! {error!r}"]
        pairs = itertools.zip_longest(command.output, output, fillvalue="(end)")
        for place, (expected, ours) in enumerate(pairs, 1):
            if expected != ours:
                yield command.line + len(command.texts) + place, expected, ours


def why_left_out(path):
    """Returns why a transcript is not worked out, or None."""
    names = {command.words[0] for command in commands_of(path)}
    return next((why for name, why in LEFT_OUT.items() if name in names), None)


def check(paths, folder):
    """Works transcripts out again and prints what differs; returns how many passed and failed."""
    passed, failed, left_out = 0, 0, {}
    for path in paths:
        why = why_left_out(path)
        if why:
            left_out.setdefault(why, []).append(path.stem)
            continue
        differs = False
        for line, expected, ours in differences(path, folder):
            print(f"{path.name}:{line}: expected {expected}")
            print(f"{path.name}:{line}: worked out {ours}", flush=True)
            differs = True
        passed, failed = passed + (not differs), failed + differs
    parts = [f"{' '.join(names)} ({why})" for why, names in left_out.items()]
    print(f"not worked out: {'; '.join(parts) or 'none'}")
    return passed, failed
