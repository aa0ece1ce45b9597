"""A desk: a base with its books, called, asked, printed and audited."""

from . import statement as statements
from .audit import audit, audit_rows
from .batches import run_batch
from .books import Books
from .database import write
from .explain import explain
from .forms import day, ident, parse_query, parse_row
from .records import SCHEMA, Base
from .refusals import Refusal, Refused
from .step import step
from .streams import serve
from .tables import base_of, rows_of
from .views import VIEWS


class Damaged(Exception):
    """A database that fails its audit, with the condition that fails."""

    def __init__(self, word):
        super().__init__(word)
        self.word = word


class Desk:
    def __init__(self, base=None):
        self.base = base or Base()
        self.books = Books(self.base)

    @classmethod
    def adopt(cls, conn):
        """Returns the desk of a database that passes its audit, whichever schema it has."""
        word, rows = audit(conn)
        if word:
            raise Damaged(word)
        return cls(base_of(rows))

    def call(self, moment, command, key=None):
        """Executes a command, with or without a key; returns `ok`, `again` or `no`, and fields."""
        row, line = self.base.kept.get(key, (None, None))
        if row is not None:
            if row == command.text:
                return "again", line.split(",")
            return "no", Refused(Refusal.KeyReused).fields
        try:
            fields = step(self.base, self.books, moment, command)
        except Refused as refused:
            return "no", refused.fields
        if key:
            self.base.kept[key] = command.text, ",".join(fields)
        return "ok", fields

    def do(self, moment, fields, key=None):
        """Executes a row; returns the word and the fields of its line."""
        try:
            return self.call(moment, parse_row(fields), key)
        except Refused as refused:
            return "no", refused.fields

    def batch(self, data, moment):
        """Runs a batch; returns the written bytes, and (kind, rows) if it is not complete."""
        return run_batch(self, data, moment)

    def serve(self, data, moment):
        """Serves a stream; returns the written bytes and the number of answered requests."""
        return serve(self, data, moment)

    def ask(self, view, *texts):
        """Returns the records of a view, each a tuple of texts."""
        arguments = parse_query(view, texts)
        return VIEWS[view](self.base, self.books, *arguments)

    def statement(self, account, first, last):
        """Returns the statement of an account; id and days are texts."""
        return statements.statement(self.base, self.books, ident(account), day(first), day(last))

    def statements(self, first, last, customer=None):
        """Returns the statements of all accounts, or of those of a customer."""
        chosen = [] if customer is None else [ident(customer)]
        return statements.statements(self.base, self.books, day(first), day(last), *chosen)

    def explain(self, *texts):
        """Returns the explanation that words ask for, or Refused."""
        return explain(self.base, self.books, texts)

    def tables(self, schema=SCHEMA):
        """Returns the rows of each table of a schema by name, sorted by key."""
        return rows_of(self.base, self.books, schema)

    def audit(self):
        """Returns the first condition that fails, or None."""
        return audit_rows(self.tables(), SCHEMA)

    def write(self, conn, schema=SCHEMA):
        """Writes the tables into a database."""
        write(conn, self.tables(schema), schema)
