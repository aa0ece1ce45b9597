"""What the scripts of this folder share: the copy of a desk's file, the functions of its SQL, and CSV.

    import reporting

A script reads a copy, which examples/desk_books.py makes in a temporary folder and deletes; the desk's
file is only read. Numbers are whole: cents, shares, days since 1970-01-01 and milliseconds since then.
Only their texts have a point. It needs Python 3.9 with SQLite 3.37, and nothing else.
"""

import contextlib
import csv
import datetime
import os
import pathlib
import re
import shutil
import sqlite3
import sys
import tempfile

sys.dont_write_bytecode = True
HERE = pathlib.Path(__file__).resolve().parent
sys.path.insert(0, str(HERE.parent))

import desk_books  # noqa: E402
from desk_books import DAY_MS, amount_text, day_text  # noqa: E402

# exit statuses
DONE, NOTHING_PRINTED, OUTPUT_FAILED, DIFFERS = 0, 1, 3, 5
# the first version that reads the tables of a desk
LEAST_SQLITE = (3, 37)
LAST_DAY = (datetime.date.max - datetime.date(1970, 1, 1)).days
MOST_ID = 1_000_000_000_000
# the tables that have the values of options
TABLES = {
    "account": ("CUSTOMER_ACCOUNT", "CA_ID"),
    "customer": ("CUSTOMER", "C_ID"),
    "broker": ("BROKER", "B_ID"),
    "symbol": ("SECURITY", "S_SYMB"),
}
# the columns of ASKED (views.sql)
ASKED = ("AS_OF", "UNTIL", "FIRST_DAY", "LAST_DAY", "ONLY_ACCOUNT", "ONLY_CUSTOMER", "ONLY_BROKER", "ONLY_SYMBOL")


class Refused(Exception):
    """Nothing is printed, for this reason."""


class OutputFailed(Exception):
    """Standard output failed: a part may be printed."""


def whole(number):
    """Returns a number of SQL. SQL makes a float of a product that exceeds 64 bits: that is refused."""
    if not isinstance(number, int):
        raise TypeError(number)
    return number


class AmountSum:
    """amount_sum(CENTS): the exact sum of any number of amounts, as a text. It is empty if one of them
    is null, which stands for an amount that is not known. Of no amount it is null."""

    def __init__(self):
        self.cents, self.is_known = 0, True

    def step(self, cents):
        if cents is None:
            self.is_known = False
        else:
            self.cents += whole(cents)

    def finalize(self):
        return amount_text(self.cents) if self.is_known else ""


def time_text(stamp):
    """Returns a stamp as a time in UTC: `2024-03-01 00:00:00.017`."""
    moment = datetime.datetime(1970, 1, 1) + datetime.timedelta(milliseconds=stamp)
    return moment.isoformat(sep=" ", timespec="milliseconds")


def of_sql(text_of):
    """Returns a function of a number as a function of SQL, which is null for null."""
    return lambda number: None if number is None else text_of(whole(number))


def add_functions(conn):
    """Adds the functions of the reports' SQL."""
    for name, text_of in (("amount_text", amount_text), ("day_text", day_text), ("time_text", time_text)):
        conn.create_function(name, 1, of_sql(text_of), deterministic=True)
    conn.create_aggregate("amount_sum", 1, AmountSum)


def why(path, error):
    """Says what an error means that came while a file was read."""
    text = str(error).removeprefix(f"{path}: ")
    if "not a database" in text or "malformed" in text:
        return f"no desk: {path}: {text}"
    if "no such table: DESK" in text:
        return f"no desk: {path} has no table DESK"
    return f"{path}: {text}"


@contextlib.contextmanager
def opened(path):
    """Opens a copy of a desk's file for SQL, and deletes it at the end."""
    if sqlite3.sqlite_version_info < LEAST_SQLITE:
        raise Refused(f"Python has SQLite {sqlite3.sqlite_version}, and {'.'.join(map(str, LEAST_SQLITE))} is needed")
    if not os.path.isfile(path) or not os.path.getsize(path):
        raise Refused(f"no desk: {path} is missing or empty")
    try:
        with desk_books.copied(path) as conn:
            desk = conn.execute("SELECT D_SCHEMA FROM DESK").fetchone()
            if desk != (desk_books.SCHEMA,):
                number = "without a row of DESK" if desk is None else f"of schema {desk[0]}, and not {desk_books.SCHEMA}"
                raise Refused(f"{path} is {number}; brk audit upgrades a file of an older schema")
            add_functions(conn)
            yield conn
    except (OSError, sqlite3.Error) as error:
        raise Refused(why(path, error)) from None


def last_day_of(conn):
    """Returns the day of the last stamp of a desk; 0 if it has no row."""
    (last,) = conn.execute("SELECT ifnull(D_LAST, 0) FROM DESK").fetchone()
    return last // DAY_MS


def choose(conn, day=None, first=0, last=LAST_DAY, account=None, customer=None, broker=None, symbol=None):
    """Creates the views of views.sql, over the rows that are wanted. DAY is the last day that counts:
    that of the last stamp if none is given."""
    day = last_day_of(conn) if day is None else day
    conn.execute(f"CREATE TEMP TABLE ASKED ({', '.join(ASKED)})")
    wanted = (day, day * DAY_MS + DAY_MS - 1, first, last, account, customer, broker, symbol)
    conn.execute("INSERT INTO ASKED VALUES (?, ?, ?, ?, ?, ?, ?, ?)", wanted)
    conn.executescript((HERE / "views.sql").read_text(encoding="utf-8"))


def require(conn, path, chosen):
    """Refuses an account, a customer, a broker or a symbol that the desk does not have."""
    for option, (table, column) in TABLES.items():
        value = chosen.get(option)
        if value is not None and not conn.execute(f"SELECT 1 FROM {table} WHERE {column} = ?", (value,)).fetchone():
            raise Refused(f"{path} has no {option} {value}")


def typed(read, name):
    """A type of an option, with the name that its error has."""

    def value_of(text):
        return read(text)

    value_of.__name__ = name
    return value_of


def add_period(words):
    """Adds the options of a period."""
    for option in ("day", "from", "to"):
        words.add_argument(f"--{option}", type=typed(day_of_text, "day"), metavar="DAY")


def period_of(words, given):
    """Returns the first and the last day of the options of a period."""
    day, first, last = given.day, getattr(given, "from"), given.to
    if day is not None and (first is not None or last is not None):
        words.error("--day is one day: give it, or --from and --to")
    if day is not None:
        first = last = day
    first, last = 0 if first is None else first, LAST_DAY if last is None else last
    if first > last:
        words.error("--from is after --to")
    return {"first": first, "last": last}


def day_of_text(text):
    """Returns the number of a day that is written as `2024-03-01`."""
    if not re.fullmatch(r"[0-9]{4}-[0-9]{2}-[0-9]{2}", text):
        raise ValueError(text)
    day = (datetime.date.fromisoformat(text) - datetime.date(1970, 1, 1)).days
    if day < 0:
        raise ValueError(text)
    return day


def id_of_text(text):
    """Returns an id: 1 to 1000000000000."""
    if not re.fullmatch(r"[1-9][0-9]{0,12}", text) or int(text) > MOST_ID:
        raise ValueError(text)
    return int(text)


def records_of(path, wanted, names):
    """Reads a CSV file with heads, without floats: yields the number of each line and the texts of the
    columns in `wanted`. `names` has the head of a column where it is another one; letters of heads may
    be small or capital."""
    try:
        with open(path, newline="", encoding="utf-8-sig") as file:
            rows = csv.reader(file, strict=True)
            heads = [head.strip().lower() for head in next(rows, [])]
            places = {}
            for column in wanted:
                head = names.get(column, column).lower()
                if heads.count(head) != 1:
                    raise Refused(f"{path}: {heads.count(head)} columns are named {head}, and not one; its heads: {', '.join(heads)}")
                places[column] = heads.index(head)
            for row in rows:
                if not any(field.strip() for field in row):
                    continue
                if len(row) != len(heads):
                    raise Refused(f"{path}: line {rows.line_num} has {len(row)} fields, and there are {len(heads)} heads")
                yield rows.line_num, {column: row[place].strip() for column, place in places.items()}
    except (OSError, UnicodeDecodeError, csv.Error) as error:
        raise Refused(f"{path}: {error}") from None


def heads_of(path):
    """Returns the heads of a CSV file, in small letters."""
    try:
        with open(path, newline="", encoding="utf-8-sig") as file:
            return [head.strip().lower() for head in next(csv.reader(file), [])]
    except (OSError, UnicodeDecodeError, csv.Error) as error:
        raise Refused(f"{path}: {error}") from None


def names_of(text, columns):
    """Reads the option --columns: `shares=Quantity,symbol=Ticker`."""
    names = dict(part.split("=", 1) for part in text.split(",")) if text else {}
    for column, head in names.items():
        if column not in columns or not head.strip():
            raise ValueError(text)
    return {column: head.strip() for column, head in names.items()}


def whole_of_text(text):
    """Returns a whole number that may have a sign, and a point with zeros: `-100`, `100.000`."""
    found = re.fullmatch(r"([+-]?[0-9]{1,18})(?:\.0*)?", text)
    if not found:
        raise ValueError(text)
    return int(found[1])


def cents_of_text(text):
    """Returns the cents of an amount that is a whole number of them: `10`, `10.5`, `10.5000`."""
    found = re.fullmatch(r"([0-9]{1,15})(?:\.([0-9]{1,2})0*)?", text)
    if not found:
        raise ValueError(text)
    return int(found[1]) * 100 + int((found[2] or "").ljust(2, "0"))


def print_csv(heads, rows):
    """Prints records as CSV: all of them, or none if one of them cannot be read."""
    with tempfile.TemporaryFile() as kept:
        with open(kept.fileno(), "w", newline="", encoding="utf-8", closefd=False) as text:
            writer = csv.writer(text, lineterminator="\n")
            writer.writerow(heads)
            for row in rows:
                if any(isinstance(field, float) for field in row):
                    raise Refused(f"a number that is not whole: {row}")
                writer.writerow(row)
        kept.seek(0)
        print_bytes(kept)


def print_bytes(kept):
    """Copies an open file to standard output."""
    try:
        shutil.copyfileobj(kept, sys.stdout.buffer)
        sys.stdout.flush()
    except OSError as error:
        # the interpreter flushes once more at its end
        os.dup2(os.open(os.devnull, os.O_WRONLY), sys.stdout.fileno())
        raise OutputFailed(error) from None


def run(name, main):
    """Runs a script, and returns its exit status. A reader that closes its pipe, as `head` does, gets no
    message."""
    try:
        return main()
    except (Refused, OSError) as reason:
        print(f"{name}: nothing was printed: {reason}", file=sys.stderr)
        return NOTHING_PRINTED
    except OutputFailed as failed:
        (error,) = failed.args
        if not isinstance(error, BrokenPipeError):
            print(f"{name}: standard output failed: {error}", file=sys.stderr)
        return OUTPUT_FAILED
