"""Rehearses a batch on a copy of a desk: what each row would do, in words, and why a row is stopped.

    from desk_rehearsal import Copy, Telling

A row is stopped if it is refused, if it equals a row that was booked before, if its price is further from
the last price than a setting allows, or if it takes a balance below 0. examples/send prints and decides.
It needs Python 3.9.
"""

import collections
import contextlib
import os
import sqlite3
import subprocess
import sys

sys.dont_write_bytecode = True

from desk_books import TYPES, WITHHELD, day_text  # noqa: E402
from desk_client import REFUSALS, amount, cents  # noqa: E402
from desk_copy import copy_live  # noqa: E402

DAY_MS = 86_400_000
BUYS = ("TMB", "TLB")
PERSONS = """
    SELECT CA_ID, CA_NAME, CA_TAX_ST, C_F_NAME, C_L_NAME, B_NAME
    FROM CUSTOMER_ACCOUNT JOIN CUSTOMER ON C_ID = CA_C_ID JOIN BROKER ON B_ID = CA_B_ID
"""
# rows that have no price and move no cash, by the places of their fields
PLAIN = {
    "broker": "broker {0}: {1}",
    "customer": "customer {0}: {4} {3}, tax id {2}, tier {1}",
    "permission": "{4} {3}, tax id {2}, may order for account {0}",
    "charge": "charge of {0} for tier {1}: {2}",
    "band": "commission of {1} for tier {0} at {2}, {3} to {4} shares: {5} hundredths of a percent",
    "taxrate": "tax {0}, {1}: {2} thousandths of a percent",
    "custtax": "customer {0} pays tax {1}",
    "oneday": "trades of {0} and later settle on the next day",
    "upname": "the executors' names of trades {all}",
    "upcash": "the cash types of account {0}, of trades completed from {1} to {2}",
    "uptext": "the texts of cash rows of {0}, of trades completed from {1} to {2}",
}
TRADE = "SELECT T_CA_ID, T_TT_ID, T_S_SYMB, T_QTY, T_IS_CASH FROM TRADE WHERE T_ID = ?"


def percent_text(part, whole):
    """Returns a part of a whole in percent, to a tenth: `12.5 %`."""
    tenths = (2000 * part + whole) // (2 * whole)
    return f"{tenths // 10}.{tenths % 10} %"


def number_list(numbers):
    return ",".join(map(str, sorted(numbers)))


def answers_in(text):
    """Returns the answer to each row, as a word and fields, and the counts of the line end, or None."""
    answers, counts = {}, None
    # a line is complete once it has its line feed
    for line in text.split("\n")[:-1]:
        first, *fields = line.split(",")
        if first == "end":
            counts = [int(field) for field in fields if field.isdigit()]
        elif first.isdigit() and fields:
            answers[int(first)] = (fields[0], fields[1:])
    return answers, counts


def rows_text(numbers):
    return f"row{'s' if len(numbers) > 1 else ''} {number_list(numbers)}"


def refusal_text(fields):
    """Returns a refusal in words, with what to do: from examples/refusals.csv."""
    number, word = fields[0], fields[1] if len(fields) > 1 else ""
    known = REFUSALS.get((number, word)) or REFUSALS.get((number, ""))
    text = f"refused with {','.join(fields)}"
    return f"{text}, {known['name']}: {known['when']}; what to do: {known['todo']}" if known else text


class Copy:
    """A copy of a desk in a folder of its own, or no desk yet."""

    def __init__(self, folder, file):
        self.path = os.path.join(folder, "copy.db")
        self.last, self.prices, self.balances = None, {}, {}
        self.is_desk = file is not None
        if self.is_desk:
            copy_live(file, self.path)
            with self.opened() as conn:
                (self.last,) = conn.execute("SELECT D_LAST FROM DESK").fetchone()
                self.prices = dict(conn.execute("SELECT LT_S_SYMB, LT_PRICE FROM LAST_TRADE"))
                self.balances = dict(conn.execute("SELECT CA_ID, CA_BAL FROM CUSTOMER_ACCOUNT"))

    @contextlib.contextmanager
    def opened(self):
        with contextlib.closing(sqlite3.connect(self.path)) as conn:
            yield conn

    def rows_of(self, batch):
        """Returns the rows that the desk accepted under a name, by their numbers."""
        if not self.is_desk:
            return {}
        with self.opened() as conn:
            found = conn.execute("SELECT K_N, K_ROW FROM KEPT WHERE K_BATCH = ?", (batch,)).fetchall()
        return {number: row.split("\x1f") for number, row in found}

    def booked(self, batch):
        """Yields each accepted row of another batch. What was sent without a key is not found."""
        if not self.is_desk:
            return
        with self.opened() as conn:
            for text, other, number, line in conn.execute("SELECT K_ROW, K_BATCH, K_N, K_LINE FROM KEPT WHERE K_BATCH <> ?", (batch,)):
                yield text, other, number, int(line.split(",")[0])

    def run(self, program, batch, reading):
        """Runs a batch on the copy; returns its exit status, its lines and its messages."""
        words = [program, "batch", "--db", self.path, "--at", str(reading)]
        done = subprocess.run(words, input=batch, capture_output=True)
        return done.returncode, done.stdout.decode("utf-8", "replace"), done.stderr.decode("utf-8", "replace")


def equal_rows(accepted, rows, reading):
    """Returns for each row that was booked before what it equals: if a batch has half of the rows of the sheet, on any day, and
    otherwise if it is of the day of the reading. Rows of the sheet that are equal are of the same day. `accepted` yields the rows that
    were booked: the text, the batch, the number and the stamp of each."""
    found, places = collections.defaultdict(list), collections.defaultdict(list)
    for number, row in enumerate(rows, 1):
        places["\x1f".join(row)].append(number)
    in_batch = collections.defaultdict(set)
    for text, other, number, stamp in accepted:
        if text in places:
            in_batch[other].update(places[text])
            found[text].append((other, number, stamp))
    reasons = {}
    for text, numbers in places.items():
        for number, first in zip(numbers, [None, *numbers]):
            if first is not None:
                reasons[number] = f"it equals row {first} of this sheet"
        for other, its, stamp in found[text]:
            share = len(in_batch[other])
            if 2 * share < len(rows) and stamp // DAY_MS != reading // DAY_MS:
                continue
            of = f"the batch {other} of {day_text(stamp // DAY_MS)}"
            for number in numbers:
                reasons[number] = f"it was booked before, as row {its} of {of}, which has {share} of these {len(rows)} rows"
    return reasons


class Telling:
    """Tells the rows of a batch in words, one after the other, by the answers of a copy."""

    def __init__(self, copy, conn, within):
        self.conn, self.within = conn, within
        self.prices, self.balances = dict(copy.prices), dict(copy.balances)
        self.persons = {row[0]: row[1:] for row in conn.execute(PERSONS)}

    def trade(self, number):
        return self.conn.execute(TRADE, (int(number),)).fetchone()

    def account(self, number):
        name, _, first, last, _ = self.persons[int(number)]
        return f"account {number} ({name}) of {first} {last}"

    def beside(self, symbol, price):
        """Returns the last price of a security beside a price, and why the price is stopped, if it is."""
        last = self.prices[symbol]
        away = abs(price - last)
        side = "above" if price > last else "below"
        text = f"last price {amount(last)}" + (f", {percent_text(away, last)} {side} it" if away else "")
        stops = [f"its price {amount(price)} is more than {self.within} % from the last price {amount(last)}"]
        return text, stops if away * 100 > self.within * last else []

    def balance(self, account, after):
        """Takes a balance; returns it in words, and why it is stopped, if it is."""
        before, self.balances[int(account)] = self.balances.get(int(account), 0), after
        stops = [f"the balance of account {account} falls below 0"] if after < 0 and after < before else []
        return f"balance {amount(after)}", stops

    def told(self, row, word, fields):
        """Returns a row in words, and the reasons for which it is stopped."""
        if word == "no":
            return f"{','.join(row)}: {refusal_text(fields)}", ["it is refused"]
        if word != "ok":
            return f"{','.join(row)}: booked before, with {','.join(fields)}; nothing is done now", []
        kind, *given = row
        if kind in PLAIN:
            return PLAIN[kind].format(*given, all=", ".join(given)), []
        return getattr(self, f"told_{kind}")(given, fields[1:])

    def told_order(self, row, fields):
        account, kind, symbol, qty, _, cash, end, first, last, _ = row
        trade, status, price, _, _, tax, commission, charge, _ = fields
        beside, stops = self.beside(symbol, cents(price))
        value = int(qty) * cents(price) * (-1 if kind in BUYS else 1)
        tax_status = self.persons[int(account)][1]
        settled = value - cents(commission) - cents(charge) - (cents(tax) if tax_status == WITHHELD else 0)
        state = "submitted" if status == "SBMT" else "pending"
        return (f"order by {first} {last} for {self.account(account)}: {TYPES[kind]} {qty} {symbol} at {price} ({beside}), {cash}, {end}:"
                f" trade {trade}, {state}; it would settle {amount(settled)} (commission {commission}, charge {charge}, tax {tax});"
                f" balance {amount(self.balances[int(account)])}"), stops

    def told_result(self, row, fields):
        commission, tax, settled, due, _, _, after = fields
        account, kind, symbol, qty, is_cash = self.trade(row[0])
        beside, stops = self.beside(symbol, cents(row[1]))
        balance, below = self.balance(account, cents(after))
        margin = "" if is_cash else ", on margin: no balance moves"
        return (f"result of trade {row[0]}, {self.account(account)}: {TYPES[kind]} {qty} {symbol} at {row[1]} ({beside}){margin}:"
                f" settles {settled} on {due} (commission {commission}, tax {tax}); {balance}"), stops + below

    def told_feed(self, row, fields):
        ticks, stops = [], []
        for symbol, price, qty in zip(row[::3], row[1::3], row[2::3]):
            beside, wrong = self.beside(symbol, cents(price))
            ticks.append(f"{symbol} at {price} ({beside}), {qty} shares")
            stops += wrong
            self.prices[symbol] = cents(price)
        return f"tick: {'; '.join(ticks)}: submits {'trades ' + ', '.join(fields) if fields else 'no trade'}", stops

    def told_cancel(self, row, fields):
        account, kind, symbol, qty, _ = self.trade(row[0])
        return f"cancel of trade {row[0]}, {self.account(account)}: {TYPES[kind]} {qty} {symbol}", []

    def told_deposit(self, row, fields):
        return self.moved("deposit", "on", row, fields)

    def told_withdraw(self, row, fields):
        return self.moved("withdrawal", "from", row, fields)

    def moved(self, what, where, row, fields):
        balance, stops = self.balance(row[0], cents(fields[1]))
        return f"{what} of {row[1]} {where} {self.account(row[0])}: {balance}", stops

    def told_account(self, row, fields):
        number, _, _, _, tax_status, opening = row
        balance, stops = self.balance(number, cents(opening))
        broker = self.persons[int(number)][4]
        return f"{self.account(number)}, broker {broker}, tax status {tax_status}: {balance}", stops

    def told_security(self, row, fields):
        symbol, name, exchange, sector, price = row
        self.prices[symbol] = cents(price)
        return f"security {symbol} ({name}), {exchange}, {sector}: first price {price}", []
