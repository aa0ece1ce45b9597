#!/usr/bin/env python3
"""Sets a small desk to practise with up, orders, cancels and sends a result, and prints the reply to each row: a program that uses
examples/desk_client.py.

    python3 examples/sandbox/client.py JOURNAL --db FILE [--new] [--at MS]
    python3 examples/sandbox/client.py JOURNAL --port P

Each row is in JOURNAL before it is sent. So the program may be killed at any moment and started again: it sends what has no reply,
takes the replies that are there, and goes on after them. A second run on the same journal sends nothing and prints the same.
With --new it makes the desk, and marks it as a sandbox (mark.py of this folder). Any other desk has to have the mark. Exit status: 0 if
all rows have a reply, 1 if a row cannot be sent, 2 if the arguments are wrong, 4 if the desk has no mark: nothing is sent then.
"""

import argparse
import os
import sqlite3
import sys
import urllib.parse

sys.dont_write_bytecode = True

import mark  # noqa: E402
import desk_client  # noqa: E402
from desk_client import amount, row  # noqa: E402

BATCH = "CLIENT-1"
ANN = {"FIRST": 'Ann "Nan"', "LAST": "Lee", "TAXID": "T10"}
ORDER = {"ACCOUNT": 100, "SYMBOL": "ABC", "CASH": "cash", "END": "fifo", **ANN}
SETTING = [
    row("broker", ID=1, NAME="Smith, Jones & Co"),
    row("customer", ID=10, TIER=1, **ANN),
    row("account", ID=100, CUSTOMER=10, BROKER=1, NAME="Main", TAXST=1, OPENING=amount(1_000_000)),
    row("account", ID=101, CUSTOMER=11, BROKER=1, NAME="Side", TAXST=0, OPENING=amount(0)),
    row("security", SYMBOL="ABC", NAME="Acme", EXCHANGE="NYSE", SECTOR="Tech", PRICE=amount(1000)),
    row("charge", TYPE="TMB", TIER=1, AMOUNT=amount(500)),
    row("charge", TYPE="TLB", TIER=1, AMOUNT=amount(500)),
    row("band", TIER=1, TYPE="TMB", EXCHANGE="NYSE", FROM=1, TO=999_999, RATE=100),
    row("band", TIER=1, TYPE="TMB", EXCHANGE="NYSE", FROM=1000, TO=2000, RATE=50),
    row("band", TIER=1, TYPE="TLB", EXCHANGE="NYSE", FROM=1, TO=999_999, RATE=100),
]


class Sender:
    """Sends the rows of one batch in their order, and prints their replies. Rows of the journal are not sent again."""

    def __init__(self, client):
        self.client, self.number = client, 0

    def send(self, fields):
        self.number += 1
        reply = self.client.reply(BATCH, self.number)
        if reply is None:
            (reply,) = self.client.send(BATCH, [fields])
        print(f"{self.number} {fields[0]}: {told(reply)}")
        return reply


def told(reply):
    """What a reply says."""
    if not reply.accepted:
        return f"refused with {desk_client.words_of(reply.fields)}"
    return " ".join([f"accepted at {reply['STAMP']}", *reply.fields[1:]])


def book(sender):
    for fields in SETTING:
        sender.send(fields)
    bought = sender.send(row("order", TYPE="TMB", QTY=100, PRICE="", **ORDER))
    waiting = sender.send(row("order", TYPE="TLB", QTY=10, PRICE=amount(950), **ORDER))
    # trades come from replies: of an order that was refused there is none
    sender.send(row("cancel", TRADE=bought.trade))
    sender.send(row("cancel", TRADE=waiting.trade))
    done = sender.send(row("result", TRADE=bought.trade, PRICE=amount(1010)))
    balance = desk_client.cents(done["CA_BAL"])
    print(f"the balance is {amount(balance)}, {amount(1_000_000 - balance)} less than at first")


def is_blank(path):
    """Whether a file is missing or empty, or is a desk without a row, as a run that was killed at its first row leaves."""
    if not os.path.exists(path) or not os.path.getsize(path):
        return True
    conn = sqlite3.connect(f"file:{urllib.parse.quote(os.path.abspath(path))}?mode=ro", uri=True)
    try:
        return conn.execute("SELECT D_LAST FROM DESK").fetchone() == (None,)
    except sqlite3.Error:
        return False
    finally:
        conn.close()


def main():
    words = argparse.ArgumentParser(description=__doc__, formatter_class=argparse.RawDescriptionHelpFormatter)
    words.add_argument("journal", metavar="JOURNAL")
    way = words.add_mutually_exclusive_group(required=True)
    way.add_argument("--db", metavar="FILE")
    way.add_argument("--port", type=int, metavar="P")
    words.add_argument("--new", action="store_true", help="make the desk of --db")
    words.add_argument("--at", type=int, metavar="MS", help="the clock reading, in place of the machine's")
    given = words.parse_args()
    desk = desk_client.Http(given.port, patience=60) if given.port else desk_client.File(given.db, patience=60, new=given.new)
    now = [lambda: given.at] if given.at is not None else []
    try:
        is_new = given.new and is_blank(given.db)
        if not is_new:
            mark.require(desk, given.db or f"the desk on port {given.port}")
        with desk_client.Client(given.journal, desk, *now) as client:
            client.resume()
            if is_new and client.reply(mark.TAXID, 1) is None:
                client.send(mark.TAXID, mark.rows())
            book(Sender(client))
    except (desk_client.ClientError, OSError) as error:
        print(f"client: {error}", file=sys.stderr)
        return getattr(error, "status", 1)
    return 0


if __name__ == "__main__":
    sys.exit(main())
