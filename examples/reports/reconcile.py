#!/usr/bin/env python3
"""Compares the settled shares of a desk with the list of a custodian, and prints each security as CSV.

    python3 examples/reports/reconcile.py FILE LIST --day DAY [--columns symbol=HEAD,shares=HEAD,account=HEAD]
        [--account ID] [--customer ID] [--broker ID]

LIST is the custodian's list as of the end of DAY: CSV in UTF-8, with heads, among them `symbol` and
`shares`, or other names that --columns gives. With a column `account`, an id of the desk, accounts are
compared one by one, and otherwise all of them together, or those of --account, --customer or --broker.
Lines of one security are added up. Shares are whole; those of a short position are below 0.

A custodian has what has settled, and the desk what was traded. So the shares of the desk are those of
the trades that are due on DAY or before. It prints

| Column | Contents |
|---|---|
| ACCOUNT, SYMBOL | the account, if the list has them, and the security |
| CUSTODIAN | the shares of the list |
| SETTLED | the shares of the desk's trades that are due on DAY or before |
| DIFFERENCE | CUSTODIAN less SETTLED |
| RESULT | `match`, or `break` if DIFFERENCE is not 0 |
| TRADED | the shares of the trades that were completed on DAY or before, as HOLDING_SUMMARY had them |
| UNSETTLED | TRADED less SETTLED |
| TRADES | the trades that were completed on DAY or before and are due later |
| MAY_BE | what may explain a break |

MAY_BE is `trade date` if CUSTODIAN is TRADED. Otherwise it is `early` with the trades of which each
alone, delivered before its due day, makes the difference, and `late` with those, due in the seven days
up to DAY, of which each alone, not yet delivered, makes it.

Exit status: 0 if all match; 5 if there is a break; 1 if nothing was printed; 2 if the arguments are
wrong; 3 if standard output failed. FILE is read as by examples/reports/report.
"""

import argparse
import collections
import sys

sys.dont_write_bytecode = True

import reporting  # noqa: E402
from reporting import DIFFERS, DONE, Refused  # noqa: E402

COLUMNS = ("symbol", "shares", "account")
LATE_DAYS = 7
TRADES = "SELECT TRADE, ACCOUNT, SYMBOL, SHARES, DAY, DUE FROM COMPLETED WHERE DAY <= ? ORDER BY TRADE"
HEADS = ("SYMBOL", "CUSTODIAN", "SETTLED", "DIFFERENCE", "RESULT", "TRADED", "UNSETTLED", "TRADES", "MAY_BE")

Trade = collections.namedtuple("Trade", "id account symbol shares day due")


def listed(path, names):
    """Reads the custodian's list: whether it has accounts, and the shares of each account and security."""
    has_accounts = names.get("account", "account").lower() in reporting.heads_of(path)
    wanted = COLUMNS if has_accounts else COLUMNS[:2]
    if "account" in names and not has_accounts:
        raise Refused(f"{path}: no column is named {names['account']}")
    shares = collections.Counter()
    for line, fields in reporting.records_of(path, wanted, names):
        try:
            account = reporting.id_of_text(fields["account"]) if has_accounts else None
            number = reporting.whole_of_text(fields["shares"])
        except ValueError as error:
            raise Refused(f"{path}: line {line}: {error} is no id, or no whole number of shares") from None
        if not fields["symbol"]:
            raise Refused(f"{path}: line {line} has no symbol")
        shares[account, fields["symbol"]] += number
    return has_accounts, shares


def cause_of(difference, custodian, traded, day, trades):
    """Says what may explain a break."""
    if custodian == traded:
        return "trade date"
    early = [str(trade.id) for trade in trades if trade.due > day and trade.shares == difference]
    late = [str(trade.id) for trade in trades if day - LATE_DAYS < trade.due <= day and trade.shares == -difference]
    causes = [("early", early), ("late", late)]
    return "; ".join(f"{word} {' '.join(ids)}" for word, ids in causes if ids)


def records(day, shares, trades):
    """Yields the account and the fields of each security that one of the two sides has."""
    of_key = collections.defaultdict(list)
    for trade in trades:
        of_key[trade.account, trade.symbol].append(trade)
    for key in sorted({*shares, *of_key}, key=lambda key: (key[0] or 0, key[1])):
        settled = sum(trade.shares for trade in of_key[key] if trade.due <= day)
        traded = sum(trade.shares for trade in of_key[key])
        custodian = shares[key]
        open_trades = [trade for trade in of_key[key] if trade.due > day]
        if not (settled or traded or custodian or open_trades):
            continue
        difference = custodian - settled
        result = "break" if difference else "match"
        cause = cause_of(difference, custodian, traded, day, of_key[key]) if difference else ""
        ids = " ".join(str(trade.id) for trade in open_trades)
        yield key[0], (key[1], custodian, settled, difference, result, traded, traded - settled, ids, cause)


def main():
    words = argparse.ArgumentParser(
        prog="reconcile.py", description=__doc__, formatter_class=argparse.RawDescriptionHelpFormatter, allow_abbrev=False
    )
    words.add_argument("file", metavar="FILE")
    words.add_argument("list", metavar="LIST")
    words.add_argument("--day", type=reporting.typed(reporting.day_of_text, "day"), metavar="DAY", required=True)
    words.add_argument("--columns", type=reporting.typed(lambda text: reporting.names_of(text, COLUMNS), "list of columns"), default={})
    for option in ("account", "customer", "broker"):
        words.add_argument(f"--{option}", type=reporting.typed(reporting.id_of_text, "id"), metavar="ID")
    given = words.parse_args()
    chosen = {option: getattr(given, option) for option in ("account", "customer", "broker")}
    has_accounts, shares = listed(given.list, given.columns)
    with reporting.opened(given.file) as conn:
        reporting.require(conn, given.file, chosen)
        reporting.choose(conn, **chosen)
        trades = [Trade(*row) for row in conn.execute(TRADES, (given.day,))]
    if not has_accounts:
        trades = [trade._replace(account=None) for trade in trades]
    rows = list(records(given.day, shares, trades))
    heads = ("ACCOUNT", *HEADS) if has_accounts else HEADS
    reporting.print_csv(heads, [(account, *row) if has_accounts else row for account, row in rows])
    breaks = sum(row[4] == "break" for _, row in rows)
    if breaks:
        print(f"reconcile.py: {breaks} of {len(rows)} do not match", file=sys.stderr)
        return DIFFERS
    return DONE


if __name__ == "__main__":
    sys.exit(reporting.run("reconcile.py", main))
