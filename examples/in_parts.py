#!/usr/bin/env python3
"""Sends a batch in parts, so that no result and no cancel is sent before a line has named its trade.

    python3 examples/in_parts.py [--new] --db FILE [--at MS] [--brk PROGRAM] < examples/day.csv

In the batch, N in `result,N,PRICE` and `cancel,N` is the N-th order of the batch, and not yet a trade of the desk. The
script cuts the batch NAME before each such row that follows an order, and sends the parts as batches NAME.1, NAME.2 and
so on. From the line of an order it learns the trade's id (T_ID), and writes it into the rows of that order. If an order
was refused, it stops before the part with its result or cancel: nothing from there on is sent, and its status is 1.

It prints the lines of brk with the numbers that the rows have in the whole batch, and `end` with the sums of the counts.
Sent again, the same text has the same parts under the same names, so no row is booked twice. With --new it makes the
desk; without it the file has to exist. The program is PROGRAM, or BRK, `brk` of the path, or ../brk.
"""

import argparse
import csv
import io
import os
import subprocess
import sys

sys.dont_write_bytecode = True

from desk_client import batch_text, program  # noqa: E402

NAMES_A_TRADE = ("result", "cancel")


def fail(status, what):
    print(f"in_parts: {what}", file=sys.stderr)
    sys.exit(status)


def batch_read(text):
    """The name and the rows of a batch; ends the script if it is no complete one."""
    records = [record for record in csv.reader(io.StringIO(text, newline="")) if record]
    if len(records) < 2 or records[0][:1] != ["batch"] or len(records[0]) != 2:
        fail(1, "the first record is not batch,NAME")
    rows = records[1:-1]
    if records[-1] != ["end", str(len(rows))]:
        fail(1, f"the last record is not end,{len(rows)}")
    orders = 0
    for number, row in enumerate(rows, 1):
        orders += row[0] == "order"
        if row[0] in NAMES_A_TRADE and row[1:2] not in [[str(n)] for n in range(1, orders + 1)]:
            fail(1, f"row {number}: it names no order of the batch before it")
    return records[0][1], rows


def parts_of(rows):
    """The parts of a batch: a new one begins at each result or cancel that follows an order of its part."""
    parts = [[]]
    for row in rows:
        if row[0] in NAMES_A_TRADE and any(earlier[0] == "order" for earlier in parts[-1]):
            parts.append([])
        parts[-1].append(row)
    return parts


def with_trades(rows, trades, before):
    """The rows of a part, with the ids that the desk gave; `trades` has one for each order so far, or None."""
    found = []
    for number, row in enumerate(rows, before + 1):
        if row[0] in NAMES_A_TRADE:
            trade = trades[int(row[1]) - 1]
            if trade is None:
                fail(1, f"row {number}: order {row[1]} was refused; this part and those after it are not sent")
            row = [row[0], trade, *row[2:]]
        found.append(row)
    return found


def send(brk, words, name, rows):
    """Sends a part; returns the fields of its lines."""
    done = subprocess.run([brk, "batch", *words], input=batch_text(name, rows), stdout=subprocess.PIPE)
    # a line is complete once its line feed is there
    whole, _, _ = done.stdout.rpartition(b"\n")
    return done.returncode, [line.split(",") for line in whole.decode("ascii").splitlines()]


def main():
    words = argparse.ArgumentParser(description=__doc__, formatter_class=argparse.RawDescriptionHelpFormatter)
    words.add_argument("--new", action="store_true")
    words.add_argument("--db", required=True, metavar="FILE")
    words.add_argument("--at", metavar="MS")
    words.add_argument("--brk", metavar="PROGRAM")
    given = words.parse_args()
    if not given.new and not (os.path.isfile(given.db) and os.path.getsize(given.db)):
        fail(1, f"{given.db}: no desk there; --new makes one")
    brk = given.brk or program()
    options = ["--db", given.db, *([] if given.new else ["--existing"]), *(["--at", given.at] if given.at else [])]
    name, rows = batch_read(sys.stdin.buffer.read().decode("utf-8-sig"))
    trades, counts, before = [], [0, 0, 0], 0
    for place, part in enumerate(parts_of(rows), 1):
        status, lines = send(brk, options, f"{name}.{place}", with_trades(part, trades, before))
        for number, word, *fields in (line for line in lines if line[0] != "end"):
            print(",".join([str(before + int(number)), word, *fields]), flush=True)
            if part[int(number) - 1][0] == "order":
                trades.append(None if word == "no" else fields[1])
        if status:
            return status
        counts = [count + int(more) for count, more in zip(counts, lines[-1][1:])]
        before += len(part)
    print(",".join(["end", *map(str, counts)]))
    return 0


if __name__ == "__main__":
    sys.exit(main())
