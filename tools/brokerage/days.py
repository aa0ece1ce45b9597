"""Random days as transcripts.

A day has a setting, batches of which one is sent again, a stream, queries, statements,
explanations, the tables, the audit, and changes by another program. The day of an older schema
begins with its database."""

import json
import pathlib
import random

from .amounts import DAY, MOST_STAMP, day_of, day_text
from .desk import Desk
from .explain import FORMS
from .forms import QUERIES
from .printed import csv_line
from .random_rows import FIRST, NAMES, SECTORS, SETTING, TRADING, Rows, opening_rows
from .records import SCHEMA
from .tables import TABLES, tables_of
from .transcripts import Command, Replay, input_line, input_lines

AT_THE_END = 1 / 4  # of the days reach the end of the clock
CHANGES = 12  # by another program
FREE_MARKS = {"": (), "?": (None,)}  # columns that another program may change, with a value more
REQUESTS = 6  # of a stream
EXPLANATIONS = 8
OTHER_REQUESTS = (("/nope", "[]"), ("/rows", "{}"), ("/ask/customer", '["x"]'), ("/rows/W/0", "[]"),
                  ("/ask/submitted", "[]"))


def literal(value):
    """Returns a value in SQL."""
    if value is None:
        return "NULL"
    return str(value) if isinstance(value, int) else "'" + value.replace("'", "''") + "'"


class Day:
    """A transcript that grows, and the desk that it is replayed on."""

    def __init__(self, seed, schema):
        self.dice, self.schema = random.Random(f"{seed} {schema}"), schema
        self.moment, self.lines, self.replay = FIRST, [], Replay(pathlib.Path())

    def note(self, text):
        self.lines += ["", f"# {text}"] if self.lines else [f"# {text}"]

    def do(self, words, texts=()):
        """Adds a command with its input lines and its output."""
        command = Command(0, words.split(" "), [text.encode() for text in texts], [])
        self.lines += [words, *(f"| {text}" for text in texts)]
        self.lines += [f"> {line}" for line in self.replay.output(command)]

    def rows(self, schema=SCHEMA):
        return Rows(self.dice, self.replay.desk, schema)

    def drawn(self, kinds, name, size, schema=SCHEMA):
        """Returns the rows of a batch."""
        rows = self.rows(schema)
        return [rows.row(kinds, self.moment, (name, n)) for n in range(1, size + 1)]

    def batch(self, name, rows):
        """Adds a batch, whose lines end in one of three ways."""
        ends = self.dice.choice(("\n", "\n", "\r\n", "\n\n"))
        lines = [["batch", name], *rows, ["end", str(len(rows))]]
        data = "".join(csv_line(row) + ends for row in lines).encode()
        self.do(f"batch {self.moment}", input_lines(data))

    def stream(self):
        """Adds a stream of rows with and without a key, and of other requests."""
        rows, data = self.rows(), b""
        for n in range(1, REQUESTS + 1):
            key = self.dice.choice((("W", n), None))
            target, body = self.dice.choice(OTHER_REQUESTS)
            if n % 3:
                target = f"/rows/W/{n}" if key else "/rows"
                row = rows.row(TRADING, self.moment, key)
                body = json.dumps(row, ensure_ascii=self.dice.random() < 0.5)
            close = "Connection: close\r\n" * (n == REQUESTS)
            data += (f"POST {target} HTTP/1.1\r\n{close}"
                     f"Content-Length: {len(body.encode())}\r\n\r\n{body}").encode()
        self.do(f"http {self.moment}", input_lines(data))

    def ask(self, view):
        rows = self.rows()
        customers = rows.base.customers
        arguments = {
            "customer": lambda: [rows.known(customers)],
            "taxid": lambda: [rows.known([owner.tax_id for owner in customers.values()])],
            "recent": lambda: [rows.account_id()],
            "status": lambda: [rows.account_id()],
            "submitted": lambda: [],
            "estimate": rows.order,
            "trades": lambda: rows.upname() or ["1"],
            "accounttrades": rows.upcash,
            "symboltrades": rows.uptext,
            "lots": lambda: rows.upcash()[:2],
            "volume": lambda: [self.dice.choice(SECTORS), *self.dice.sample(NAMES, 9)],
        }[view]()
        self.do(f"ask {view}", [input_line(argument) for argument in arguments])

    def statement(self):
        account, first = self.rows().account_id(), day_of(FIRST) + self.dice.randint(-1, 2)
        last = first + self.dice.randint(-1, 9)
        self.do(f"statement {account} {day_text(first)} {day_text(last)}")

    def explain(self, form):
        rows = self.rows()
        arguments = {
            "trade": lambda: [rows.known(rows.base.trades)],
            "account": lambda: [rows.account_id()],
            "holding": lambda: [rows.account_id(), rows.listed()],
            "broker": lambda: [rows.known(rows.base.brokers)],
        }[form]()
        self.do(" ".join(("explain", form, *arguments)))

    def change(self, rows):
        """Adds a change of one value by another program, its audit, and the same change back."""
        table, column = self.dice.choice([
            (table, column) for table in TABLES.values() if rows[table.name]
            for column in table.columns if column.mark in FREE_MARKS and not column.names])
        place, row = table.names().index(column.name), self.dice.choice(rows[table.name])
        news = [other[place] for other in self.dice.choices(rows[table.name], k=3)]
        number = 0 if column.type == "TEXT" else row[place] or 0
        near = ("x", "") if column.type == "TEXT" else (number + 1, number - 1, 0)
        news += [*near, *FREE_MARKS[column.mark]]
        new = self.dice.choice([value for value in news if value != row[place]])
        where = " AND ".join(f"{name} = {literal(value)}" for name, value in zip(table.key, row))

        def update(value):
            text = f"UPDATE {table.name} SET {column.name} = {literal(value)} WHERE {where}"
            self.do("sql", [input_line(text)])
        update(new)
        self.do("audit")
        update(row[place])

    def older(self, size):
        """Adds the database of a desk of an older schema, and its adoption."""
        desk = self.replay.desk = Desk()
        for n, row in enumerate(opening_rows(self.dice, self.schema), 1):
            desk.do(self.moment, row, ("SET", n))
        for name, kinds in (("MORE", SETTING), ("OLD", TRADING)):
            for n, row in enumerate(self.drawn(kinds, name, size, self.schema), 1):
                desk.do(self.moment, row, (name, n))
        rows, tables = desk.tables(self.schema), tables_of(self.schema)
        statements = [table.sql() for table in tables]
        for table in tables:
            statements += [f"INSERT INTO {table.name} VALUES ({', '.join(map(literal, row))})"
                           for row in rows[table.name]]
        self.do("empty")
        self.do("sql", [input_line(statement) for statement in statements])
        self.do("adopt")


def day(seed, schema=SCHEMA, size=40):
    """Returns the bytes of a random day, the same for the same arguments."""
    it = Day(seed, schema)
    it.note(f"A random day of schema {schema}, seed {seed}, {size} rows in a batch.")
    if schema == SCHEMA:
        it.do("desk")
        it.batch("SET", opening_rows(it.dice, schema))
        it.batch("MORE", it.drawn(SETTING, "MORE", size // 2))
    else:
        it.older(size)
        it.do("tables")
    it.note("Trades, a stream, and queries.")
    it.batch("A", it.drawn(TRADING, "A", size))
    it.stream()
    for view in it.dice.sample(list(QUERIES), 4):
        it.ask(view)
    it.moment += it.dice.choice((1, 1000, DAY, 3 * DAY))
    rows = it.drawn(TRADING, "B", size)
    it.batch("B", rows)
    it.note("The second batch is sent again, with a row changed and a row more.")
    it.moment += it.dice.choice((0, DAY))
    rows[it.dice.randrange(size)] = it.rows().row(TRADING, it.moment)
    it.batch("B", [*rows, it.rows().row(TRADING, it.moment)])
    if it.dice.random() < AT_THE_END:
        it.note("The end of the clock.")
        it.moment = MOST_STAMP - it.dice.choice((3 * DAY, 2 * DAY, 5))
        it.batch("E", it.drawn(TRADING, "E", size // 3))
    it.note("Each view, statements, explanations, the tables and the audit.")
    for view in QUERIES:
        it.ask(view)
    it.statement()
    it.statement()
    for form in it.dice.choices(list(FORMS), k=EXPLANATIONS):
        it.explain(form)
    it.do("tables")
    it.do("audit")
    it.note("Changes by another program, each with its audit and undone.")
    rows = it.replay.desk.tables()
    for _ in range(CHANGES):
        it.change(rows)
    it.do("adopt")
    return "".join(line + "\n" for line in it.lines).encode()
