#!/usr/bin/env python3
"""Asks a desk to practise with for views over HTTP, and prints each as a table.

    brk batch --db box.db --at 1709251200000 < examples/sandbox/mark.csv
    brk serve --port 8199 --db box.db --existing --at 1709251200000 --streams 9 &
    python3 examples/sandbox/views.py 8199 --book-day
    python3 examples/sandbox/views.py 8199 status 100

Without a view it asks for all eleven. It books nothing but with --book-day: then it first sends the rows of examples/day.csv, each under
its key, so that a second run books nothing, and a result under the id that the reply to its order has. docs/formats/queries.md explains
the views and their numbers.

The desk has to have the mark of a sandbox (mark.py of this folder). Exit status: 0 if all was asked for, 1 if something could not be,
2 if the arguments are wrong, 4 if the desk has no mark: nothing is sent then.
"""

import argparse
import csv
import shlex
import sys

sys.dont_write_bytecode = True

import mark  # noqa: E402
import desk_client  # noqa: E402

DAY = desk_client.HERE / "day.csv"

HEADS = {
    "customer": ["ACCOUNT", "BALANCE", "HOLDINGS"],
    "taxid": ["ACCOUNT", "BALANCE", "HOLDINGS"],
    "submitted": ["TRADE", "TYPE", "SYMBOL", "QTY", "PRICE"],
    "estimate": ["PRICE", "BUY", "SELL", "TAX", "COMMISSION", "CHARGE", "ASSETS"],
    "lots": ["LOT", "TRADE", "BEFORE", "AFTER"],
    "volume": ["BROKER", "ID", "VOLUME"],
}

QUERIES = [
    ["customer", "10"],
    ["taxid", "T10"],
    ["recent", "100"],
    ["status", "100"],
    ["submitted"],
    ["estimate", "100", "TMS", "ABC", "60", "", "cash", "fifo", "Ann", "Lee", "T10"],
    ["trades", "5"],
    ["accounttrades", "100", "1709251200022", "1709251200022"],
    ["symboltrades", "ABC", "1709251200030", "253402300799999"],
    ["lots", "100", "1709251200022"],
    ["volume", "Tech", "Bo"],
]


def send(desk, target, texts):
    """The reply to a request: its word, and what it tells."""
    word, told = desk.post(target, texts)
    if word == "error":
        raise desk_client.NotSent(f"{target}: {told}")
    return word, told


def book(desk):
    """Books the day; a row that was booked before is answered again, and acts no more. In the file N in `result,N` is the
    N-th order of the day; the row has the id that the reply to this order has."""
    with open(DAY, newline="") as file:
        header, *rows, _ = csv.reader(file)
    counts, trades = {"ok": 0, "again": 0, "no": 0}, []
    for number, row in enumerate(rows, start=1):
        if row[0] == "result":
            row[1] = trades[int(row[1]) - 1]
            if not row[1]:
                raise desk_client.NotSent(f"row {number}: its order was refused")
        word, told = send(desk, f"/rows/{header[1]}/{number}", row)
        if row[0] == "order":
            trades.append("" if word == "no" else told[1])
        counts[word] += 1
    print(", ".join(f"{count} {word}" for word, count in counts.items()))


def show(desk, view, arguments):
    """Asks for a view, and prints its records in columns."""
    print(f"\n{shlex.join([view, *arguments])}")
    word, told = send(desk, f"/ask/{view}", arguments)
    if word == "no":
        print(f"  refused with {told[0]}")
        return
    records = [HEADS[view]] + told if view in HEADS and told else told
    most = max(map(len, records), default=0)
    widths = [max(len(record[at]) for record in records if at < len(record)) for at in range(most)]
    for record in records:
        print("  " + "  ".join(text.ljust(width) for text, width in zip(record, widths)).rstrip())
    if not records:
        print("  nothing")


def arguments():
    words = argparse.ArgumentParser(description=__doc__, formatter_class=argparse.RawDescriptionHelpFormatter)
    words.add_argument("port", metavar="PORT", type=int)
    words.add_argument("view", metavar="VIEW", nargs="*", help="the view to ask for, with its arguments; all eleven without it")
    words.add_argument("--book-day", action="store_true", help="first book examples/day.csv")
    return words.parse_args()


def main():
    given = arguments()
    desk = desk_client.Http(given.port, patience=5)
    try:
        mark.require(desk, f"the desk on port {given.port}")
        if given.book_day:
            book(desk)
        for view, *texts in [given.view] if given.view else QUERIES:
            show(desk, view, texts)
    except desk_client.ClientError as error:
        print(f"views: {error}", file=sys.stderr)
        return error.status
    finally:
        desk.close()
    return 0


if __name__ == "__main__":
    sys.exit(main())
