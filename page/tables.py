"""Tables: each is a query in queries/ or a report, which SQL sorts, filters, cuts and exports."""

import csv
import importlib.machinery
import importlib.util
import io
import pathlib

import reporting
from flask import url_for

from . import words

HERE, ROWS = pathlib.Path(__file__).resolve().parent, 50
LOADER = importlib.machinery.SourceFileLoader("report", str(reporting.HERE / "report"))
report = importlib.util.module_from_spec(importlib.util.spec_from_loader("report", LOADER))
LOADER.exec_module(report)
QUERIES = {path.stem: report.Report(path) for path in HERE.glob("queries/*.sql")}
for query in QUERIES.values():
    query.sql = query.sql.rstrip()
REPORTS = report.reports()

# the columns that lead somewhere: the address of each, and the name in it
LINKS = {
    "TRADE": ("trade", "trade"), "LOT": ("trade", "trade"), "ACCOUNT": ("account", "account"),
    "CUSTOMER": ("customer", "customer"), "BROKER": ("broker", "broker"),
    "SYMBOL": ("security", "symbol"), "BATCH": ("batch", "batch"),
}
# whole numbers that are no quantities
IDS = {*LINKS, "CASH_ROW", "N", "TAX_STATUS", "FIRST_ROW", "LAST_ROW"}
NOTES = {"NAME", "NOTE", "EXECUTOR", "SETTLES_BY", "FIELDS", "REPLY", "EXCHANGE"}
# what a button of a row leads to: its label, and the column that its form has
ACTIONS = {"result": ("Result", "TRADE"), "cancel": ("Cancel", "TRADE"), "feed": ("Tick", "SYMBOL")}
CODES = {"TYPE": words.TYPES, "STATUS": words.STATUSES}


class Cell:
    """A cell as it is shown: its text, its class, what it leads to, and the value in full."""

    def __init__(self, column, value, row):
        self.column, self.value, self.title, self.link = column, value, None, None
        self.text = "" if value is None else str(value)
        self.kind = "note" if column in NOTES else "text"
        if column == "ACTION":
            self.kind = "action"
            self.text, field = ACTIONS.get(value, ("", None))
            self.link = field and url_for("row", kind=value, **{field: row[field]})
        elif column in IDS:
            self.kind, (screen, name) = "id", LINKS.get(column, (None, None))
            self.link = screen and self.text and url_for(screen, **{name: value})
        elif isinstance(value, int) or words.AMOUNT.fullmatch(self.text):
            self.kind = "money" if "." in self.text else "number"
            self.text = words.grouped(value)
        elif words.PERCENT.fullmatch(self.text):
            self.kind = "number"
        elif words.TIME.fullmatch(self.text):
            self.title, self.text, self.kind = f"{value} UTC", value[:-4], "time"
        elif column in CODES:
            self.text, self.title = CODES[column].get(value, value), value
        if self.text.startswith("-") and self.kind in ("money", "number"):
            self.kind += " minus"
        if column == "DIFFERENCE" and value not in (None, "", *report.NONE):
            self.kind += " wrong"


class Part:
    """A part of a table: its heads, its rows of cells, and where it is in the whole."""

    def __init__(self, table, heads, rows, count, most):
        self.key, self.heads, self.count, self.start = table.key, heads, count, table.start
        self.order, self.is_down, self.filter = table.order, table.is_down, table.filter
        self.rows = [[Cell(head, row[head], row) for head in heads] for row in rows]
        self.kinds = [cell.kind.split()[0] for cell in self.rows[0]] if rows else []
        self.end = self.start + len(rows)
        self.has_filter = count > 5 or bool(self.filter)
        self.is_cut = bool(self.start) or self.end < count
        self.others = [("back", max(0, self.start - most) or None)] if self.start else []
        self.others += [("more", self.end)] if self.end < count else []


class Table:
    """A query with its parameters, as the address of a screen asks for it."""

    def __init__(self, conn, sql, given, key, arguments):
        self.conn, self.sql, self.given, self.key = conn, sql.rstrip().rstrip(";"), dict(given), key
        start = arguments.get(f"{key}.from", "0")
        self.start = int(start) if start.isdecimal() and len(start) < 10 else 0
        self.order = arguments.get(f"{key}.sort", "")
        self.is_down = arguments.get(f"{key}.down") == "1"
        self.filter = arguments.get(f"{key}.has", "").strip()

    def heads(self):
        cursor = self.conn.execute(f"SELECT * FROM ({self.sql}) LIMIT 0", self.given)
        return [column[0] for column in cursor.description]

    def chosen(self, heads):
        """The SQL of the rows that the filter leaves, in their order."""
        sql, given = f"SELECT * FROM ({self.sql})", dict(self.given)
        if self.filter:
            sql += f" WHERE has_words(:has, {', '.join(map(quoted, heads))})"
            # an amount is typed as it is shown
            given["has"] = self.filter.replace(",", "")
        if self.order in heads:
            sql += f" ORDER BY sort_key({quoted(self.order)}){' DESC' if self.is_down else ''}"
        return sql, given

    def shown(self, most):
        heads = self.heads()
        sql, given = self.chosen(heads)
        rows = self.conn.execute(f"{sql} LIMIT {most + 1} OFFSET {self.start}", given).fetchall()
        count = self.start + len(rows)
        if len(rows) > most or not rows and self.start:
            ((count,),) = self.conn.execute(f"SELECT count(*) FROM ({sql})", given)
        return Part(self, heads, rows[:most], count, most)

    def csv(self):
        """All rows as CSV: amounts and quantities are numbers with a plain minus."""
        heads = [head for head in self.heads() if head != "ACTION"]
        sql, given = self.chosen(self.heads())
        text = io.StringIO(newline="")
        writer = csv.writer(text, lineterminator="\n")
        writer.writerow(heads)
        for row in self.conn.execute(sql, given):
            writer.writerow([words.plain_cell(row[head]) for head in heads])
        return text.getvalue()


def quoted(name):
    return '"' + name.replace('"', '""') + '"'


def records(conn, name, **given):
    return conn.execute(QUERIES[name].sql, given).fetchall()


def record(conn, name, **given):
    return conn.execute(QUERIES[name].sql, given).fetchone()
