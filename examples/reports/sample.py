#!/usr/bin/env python3
"""Draws a sample of the books for an auditor, which anybody can draw again from the seed.

    python3 examples/reports/sample.py FILE --seed TEXT --count N [--of trades|movements] [--by-amount]
        [--day DAY] [--from DAY --to DAY] [--account ID] [--customer ID] [--broker ID]

The population is the completed trades, or with `--of movements` the deposits and withdrawals, of all
days or of those that are chosen. It prints CSV: on each line the seed, the method, the population's
number and amount and the last stamp of the desk; then the place in the sample, the item, and the batch
and the row of its order and of its result, or of the movement, which are empty if the row was sent
without a key. The amount of a trade is its settlement, without its sign.

- Without --by-amount each item has the same chance. Items are in ascending order of the SHA-256 of
  `SEED:ID`, and the sample is the first N: a larger one begins with a smaller one.

      printf '%s' 2024-Q1:5 | sha256sum

- With --by-amount each cent has the same chance. The items, by id, are laid end to end on a line of T
  cents, and the sample has the items at the points (S + I * T) / N without the remainder, for I from 0
  to N - 1, where S is the SHA-256 of the seed, as a number, modulo T. HITS is the number of points of
  an item: a large one may have several.

Exit status: 0 if the sample is complete; 1 if nothing was printed; 2 if the arguments are wrong; 3 if
standard output failed. FILE is read as by examples/reports/report.
"""

import argparse
import bisect
import collections
import hashlib
import itertools
import re
import sys

sys.dont_write_bytecode = True

import reporting  # noqa: E402
from reporting import DONE, Refused, amount_text  # noqa: E402

MOST_ITEMS = 1_000_000
# the batch and the row of each stamp
SOURCES = """
    CREATE TEMP TABLE SOURCE AS SELECT CAST(K_LINE AS INTEGER) AS STAMP, K_BATCH AS BATCH, K_N AS ROW FROM KEPT;
    CREATE INDEX temp.SOURCE_STAMP ON SOURCE (STAMP);
"""
# of each population its id, and a query whose first two columns are the id and the amount, without its sign
POPULATIONS = {
    "trades": ("TRADE", """
        SELECT TRADE, abs(SETTLEMENT) AS SIZE, time_text(C.STAMP) AS COMPLETED, ACCOUNT, CUSTOMER, BROKER,
            TYPE, SYMBOL, SHARES, amount_text(PRICE) AS PRICE, amount_text(COMMISSION) AS COMMISSION,
            amount_text(TAX) AS TAX, amount_text(SETTLEMENT) AS SETTLEMENT,
            PLACED.BATCH AS ORDER_BATCH, PLACED.ROW AS ORDER_ROW,
            DONE.BATCH AS RESULT_BATCH, DONE.ROW AS RESULT_ROW
        FROM ASKED JOIN COMPLETED AS C LEFT JOIN SOURCE AS DONE ON DONE.STAMP = C.STAMP
            LEFT JOIN SOURCE AS PLACED
                ON PLACED.STAMP = (SELECT min(TH_DTS) FROM TRADE_HISTORY WHERE TH_T_ID = TRADE)
        WHERE DAY BETWEEN FIRST_DAY AND LAST_DAY
    """),
    "movements": ("CASH_ROW", """
        SELECT CASH_ROW, abs(AMOUNT) AS SIZE, time_text(C.STAMP) AS POSTED, ACCOUNT, CUSTOMER, BROKER, NAME,
            amount_text(AMOUNT) AS AMOUNT, BATCH, ROW
        FROM ASKED JOIN CASH AS C LEFT JOIN SOURCE ON SOURCE.STAMP = C.STAMP
        WHERE TRADE IS NULL AND DAY BETWEEN FIRST_DAY AND LAST_DAY
    """),
}


def number_of(text):
    """Returns the SHA-256 of a text, as a number."""
    return int(hashlib.sha256(text.encode()).hexdigest(), 16)


def by_chance(items, seed, count):
    """Returns the places of a sample in which each item has the same chance, each with one hit."""
    order = sorted(range(len(items)), key=lambda place: number_of(f"{seed}:{items[place][0]}"))
    return [(place, 1) for place in order[:count]]


def by_amount(items, seed, count):
    """Returns the places of a sample in which each cent has the same chance, each with its hits."""
    ends = list(itertools.accumulate(item[1] for item in items))
    if not ends or not ends[-1]:
        raise Refused("the population has no amount")
    total = ends[-1]
    start = number_of(seed) % total
    hits = collections.Counter(bisect.bisect_right(ends, (start + point * total) // count) for point in range(count))
    return sorted(hits.items())


def seed_of_text(text):
    if not re.fullmatch(r"[!-~]{1,60}", text):
        raise ValueError(text)
    return text


def count_of_text(text):
    count = reporting.id_of_text(text)
    if count > MOST_ITEMS:
        raise ValueError(text)
    return count


def main():
    words = argparse.ArgumentParser(
        prog="sample.py", description=__doc__, formatter_class=argparse.RawDescriptionHelpFormatter, allow_abbrev=False
    )
    words.add_argument("file", metavar="FILE")
    words.add_argument("--seed", type=reporting.typed(seed_of_text, "seed"), metavar="TEXT", required=True)
    words.add_argument("--count", type=reporting.typed(count_of_text, "count"), metavar="N", required=True)
    words.add_argument("--of", choices=tuple(POPULATIONS), default="trades")
    words.add_argument("--by-amount", action="store_true")
    reporting.add_period(words)
    for option in ("account", "customer", "broker"):
        words.add_argument(f"--{option}", type=reporting.typed(reporting.id_of_text, "id"), metavar="ID")
    given = words.parse_args()
    chosen = {option: getattr(given, option) for option in ("account", "customer", "broker")}
    with reporting.opened(given.file) as conn:
        reporting.require(conn, given.file, chosen)
        reporting.choose(conn, **chosen, **reporting.period_of(words, given))
        conn.executescript(SOURCES)
        key, population = POPULATIONS[given.of]
        items = conn.execute(f"SELECT {key}, SIZE FROM ({population}) ORDER BY {key}").fetchall()
        if not items:
            raise Refused(f"{given.file} has no {given.of} there")
        if any(size is None for _, size in items):
            raise Refused("a completed trade has no settlement: run brk audit")
        draw, method = (by_amount, "by amount") if given.by_amount else (by_chance, "by chance")
        drawn = [(items[place][0], hits) for place, hits in draw(items, given.seed, given.count)]
        conn.execute("CREATE TEMP TABLE DRAWN (ID INTEGER PRIMARY KEY)")
        conn.executemany("INSERT INTO DRAWN VALUES (?)", [(one,) for one, _ in drawn])
        cursor = conn.execute(f"SELECT * FROM ({population}) WHERE {key} IN (SELECT ID FROM DRAWN)")
        heads = [column[0] for column in cursor.description]
        found = {row[0]: row[2:] for row in cursor}
        (last,) = conn.execute("SELECT D_LAST FROM DESK").fetchone()
    common = (given.seed, method, len(items), amount_text(sum(item[1] for item in items)), last)
    rows = [(*common, place, hits, one, *found[one]) for place, (one, hits) in enumerate(drawn, 1)]
    if given.count > len(items) and not given.by_amount:
        print(f"sample.py: the population has {len(items)} items, and all are in the sample", file=sys.stderr)
    reporting.print_csv(("SEED", "METHOD", "POPULATION", "AMOUNT_OF_ALL", "LAST_STAMP", "PLACE", "HITS", heads[0], *heads[2:]), rows)
    return DONE


if __name__ == "__main__":
    sys.exit(reporting.run("sample.py", main))
