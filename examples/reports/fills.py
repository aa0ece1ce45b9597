#!/usr/bin/env python3
"""Turns the fills of an exchange's file into a batch of `result` rows.

    python3 examples/reports/fills.py FILE FILLS NAME > results.csv
        [--columns trade=HEAD,symbol=HEAD,side=HEAD,shares=HEAD,price=HEAD] [--within PERCENT] [--skip]
        [--round MOVEMENTS]
    examples/send FILE FOLDER results.csv

FILLS is CSV in UTF-8 with heads, among them `trade`, `symbol`, `side`, `shares` and `price`, or other
names that --columns gives. `trade` is the id that the line of the order has (T_ID), which the exchange
was sent as the client's reference. `side` is buy, b or 1, or sell, s, 2, sell short or 5, in small or
capital letters. NAME is the name of the batch.

Several fills of one order are one result if they total its shares: the price is their mean, which has
to be a whole number of cents. With --round it need not be: the result is at the nearest cent, and the
file MOVEMENTS, which is new, gets a second batch, NAME-CASH, with the deposit or the withdrawal that
makes the cash right, commission and tax counted. Send it once all results are accepted, and never
without them. What stays wrong is printed on standard error: the gain, the commission, the tax, the cost
of a lot. A trade on margin has no movement; its difference is printed. rounding.py has the rules. The rows are in the order in which the orders were filled. Each order is
compared with the desk: it is submitted, and the fills have its security, its side and its shares; a
limit is kept. With --within the price is not further from the last price than PERCENT of it.

If a fill fails, each reason is printed on standard error, and no batch. With --skip the batch has the
other orders. A result cannot be undone: read the reasons before you send the rest.

Exit status: 0 if the batch has all fills; 5 if --skip left some out; 1 if nothing was printed; 2 if the
arguments are wrong; 3 if standard output failed. FILE is read as by examples/reports/report.
"""

import argparse
import csv
import io
import os
import re
import sys

sys.dont_write_bytecode = True

import reporting  # noqa: E402
from reporting import DIFFERS, DONE, OutputFailed, Refused, amount_text  # noqa: E402
from rounding import Rounding, movement_of, nearest_cent, told  # noqa: E402

COLUMNS = ("trade", "symbol", "side", "shares", "price")
SIDES = {"buy": "buy", "b": "buy", "1": "buy", "sell": "sell", "s": "sell", "2": "sell", "sell short": "sell", "5": "sell"}
BUYS = ("TMB", "TLB")
NAME = re.compile(r"[A-Za-z0-9_-][A-Za-z0-9._-]{0,39}")
MOST_PRICE = 9_999_999
CASH = "-CASH"
STATUSES = {"PNDG": "pending: no tick has reached its price", "CMPT": "completed", "CNCL": "canceled"}
ORDER = """
    SELECT T_ST_ID, T_TT_ID, T_S_SYMB, T_QTY, T_BID_PRICE, LT_PRICE
    FROM TRADE JOIN LAST_TRADE ON LT_S_SYMB = T_S_SYMB
    WHERE T_ID = ?
"""


class Wrong(Exception):
    """The fills of an order are not booked, for this reason."""


def fills_of(path, names):
    """Reads the fills: of each text of `trade` its lines, in the order of their last lines."""
    orders = {}
    for line, fields in reporting.records_of(path, COLUMNS, names):
        before = orders.pop(fields["trade"], [])
        orders[fields["trade"]] = [*before, (line, fields)]
    return orders


def fill_of(line, fields):
    """Reads a fill: its symbol, side, shares and price in cents."""
    side = SIDES.get(fields["side"].lower())
    if side is None:
        raise Wrong(f"line {line}: {fields['side']!r} is no side")
    try:
        shares = reporting.whole_of_text(fields["shares"])
        price = reporting.cents_of_text(fields["price"])
    except ValueError as error:
        raise Wrong(f"line {line}: {error} is no whole number of shares, or no price in whole cents") from None
    if shares < 1 or not 1 <= price <= MOST_PRICE:
        raise Wrong(f"line {line}: {fields['shares']} shares at {fields['price']} are out of the limits")
    return fields["symbol"], side, shares, price


def result_of(conn, text, lines, within, is_rounded):
    """Returns the trade of an order, the price of its result in cents, and its fills, of their lines."""
    fills = [fill_of(line, fields) for line, fields in lines]
    try:
        trade = reporting.id_of_text(text)
    except ValueError:
        raise Wrong(f"line {lines[0][0]}: {text!r} is no id of a trade") from None
    order = conn.execute(ORDER, (trade,)).fetchone()
    if order is None:
        raise Wrong("the desk has no such trade")
    status, kind, symbol, qty, asked, last = order
    if status != "SBMT":
        raise Wrong(f"it is {STATUSES.get(status, status)}")
    side = "buy" if kind in BUYS else "sell"
    for one, its_side, _, _ in fills:
        if (one, its_side) != (symbol, side):
            raise Wrong(f"the order is a {side} of {symbol}, and a fill is a {its_side} of {one}")
    filled = sum(shares for _, _, shares, _ in fills)
    if filled != qty:
        raise Wrong(f"{filled} of {qty} shares are filled; a result completes all of them")
    value = sum(shares * price for _, _, shares, price in fills)
    price = nearest_cent(value, qty)
    if price * qty != value and not is_rounded:
        raise Wrong(f"the mean price of {amount_text(value)} for {qty} shares is no whole number of cents: --round books the nearest cent")
    if (kind == "TLB" and value > asked * qty) or (kind == "TLS" and value < asked * qty):
        raise Wrong(f"{amount_text(value)} for {qty} shares is worse than the limit of {amount_text(asked)}")
    if within is not None and abs(price - last) * 100 > within * last:
        raise Wrong(f"{amount_text(price)} is further than {within} % from the last price, {amount_text(last)}")
    return trade, price, [(shares, price) for _, _, shares, price in fills]


def rounded(conn, results):
    """Prints each result that is not at the mean price of its fills; returns the movements that make the cash right."""
    rounding, movements = Rounding(conn), []
    for trade_id, price, parts in results:
        trade, right, booked = rounding.booked(trade_id, price, parts)
        if sum(shares * cents for shares, cents in parts) != price * trade.qty:
            print(f"fills.py: {told(trade, price, parts, right, booked)}", file=sys.stderr)
            movements.append(movement_of(trade, right, booked))
    return [row for row in movements if row]


def batch_bytes(name, rows):
    text = io.StringIO(newline="")
    csv.writer(text, lineterminator="\n").writerows([["batch", name], *rows, ["end", len(rows)]])
    return text.getvalue().encode()


def print_batches(name, rows, movements, path):
    """Prints the batch of results, after the batch of movements is in its file, if there is one."""
    if movements:
        with open(path, "xb") as file:
            file.write(batch_bytes(f"{name}{CASH}", movements))
    try:
        reporting.print_bytes(io.BytesIO(batch_bytes(name, rows)))
    except OutputFailed:
        if movements:
            os.unlink(path)
        raise


def percent(text):
    if not re.fullmatch(r"[0-9]{1,4}", text):
        raise ValueError(text)
    return int(text)


def batch_name(text):
    if not NAME.fullmatch(text):
        raise ValueError(text)
    return text


def main():
    words = argparse.ArgumentParser(
        prog="fills.py", description=__doc__, formatter_class=argparse.RawDescriptionHelpFormatter, allow_abbrev=False
    )
    words.add_argument("file", metavar="FILE")
    words.add_argument("fills", metavar="FILLS")
    words.add_argument("name", type=reporting.typed(batch_name, "name of a batch"), metavar="NAME")
    words.add_argument("--columns", type=reporting.typed(lambda text: reporting.names_of(text, COLUMNS), "list of columns"), default={})
    words.add_argument("--within", type=reporting.typed(percent, "percent"), metavar="PERCENT")
    words.add_argument("--skip", action="store_true")
    words.add_argument("--round", metavar="MOVEMENTS")
    given = words.parse_args()
    names = [given.name]
    if given.round is not None:
        names.append(f"{given.name}{CASH}")
        if not NAME.fullmatch(names[1]):
            words.error(f"--round: the name {names[1]} is too long")
        if os.path.lexists(given.round):
            raise Refused(f"it exists: {given.round}")
    results, movements, wrong = [], [], []
    orders = fills_of(given.fills, given.columns)
    with reporting.opened(given.file) as conn:
        for name in names:
            if conn.execute("SELECT 1 FROM KEPT WHERE K_BATCH = ?", (name,)).fetchone():
                raise Refused(f"the desk has rows of a batch {name}: take another name")
        for text, lines in orders.items():
            try:
                results.append(result_of(conn, text, lines, given.within, given.round is not None))
            except Wrong as reason:
                wrong.append(f"trade {text}: {reason}")
        for reason in wrong:
            print(f"fills.py: {reason}", file=sys.stderr)
        if not results or (wrong and not given.skip):
            raise Refused(f"{len(wrong)} of {len(orders)} orders have wrong fills" if wrong else f"{given.fills} has no fill")
        if given.round is not None:
            movements = rounded(conn, results)
    rows = [["result", trade, amount_text(price)] for trade, price, _ in results]
    print_batches(given.name, rows, movements, given.round)
    if wrong:
        print(f"fills.py: {len(wrong)} of {len(orders)} orders were left out", file=sys.stderr)
        return DIFFERS
    return DONE


if __name__ == "__main__":
    sys.exit(reporting.run("fills.py", main))
