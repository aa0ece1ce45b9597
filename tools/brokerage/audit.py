"""The audit: the first condition that fails. Each condition takes those before it for granted."""

from collections import Counter

from .amounts import (MOST_CHARGE, MOST_DAY, MOST_MONEY, MOST_PRICE, MOST_RATE, MOST_STAMP,
                      MOST_TAX_RATE)
from .books import due_day
from .database import read, schema_of
from .forms import ACL, BATCH, EXCHANGE, SYMBOL, TAX_ID, is_name
from .records import (CASH_WORDS, DEPOSIT, LIMITS, MARGIN_WORDS, MOST_ACCOUNTS, MOST_ID, MOST_MOVES,
                      NEXT_STATUSES, SHARES_WORDS, STATUSES, TYPES, WITHDRAWAL)
from .tables import TABLES, base_of, cash_rows_of, column, rows_of, statuses_of

MOST_CASH_ROWS = 2 * 10**12
STAMPS = [it.name for name, table in TABLES.items() if name != "DESK"
          for it in table.columns if it.form == "stamp"]
# the condition of each derived table, or of one column of it
DERIVED = (
    ("requests", "TRADE_REQUEST", None),
    ("lots", "HOLDING", None),
    ("history", "HOLDING_HISTORY", None),
    ("summary", "HOLDING_SUMMARY", None),
    ("count", "BROKER", "B_NUM_TRADES"),
    ("commission", "BROKER", "B_COMM_TOTAL"),
    ("settlement", "SETTLEMENT", None),
    ("cash", "CASH_TRANSACTION", None),
    ("cash", "CASH_MOVE", None),
    ("balance", "CUSTOMER_ACCOUNT", "CA_BAL"),
)


def between(least, most):
    return lambda value: least <= value <= most


def anything(value):
    return True


def column_forms(limits):
    """Returns the test of each form of a column."""
    return {
        "any": anything, "text": anything, "one": between(1, 1), "flag": between(0, 1),
        "id": between(1, MOST_ID), "place": between(1, MOST_CASH_ROWS), "name": is_name,
        "taxid": TAX_ID.fullmatch, "acl": ACL.fullmatch, "symbol": SYMBOL.fullmatch,
        "exchange": EXCHANGE.fullmatch, "batch": BATCH.fullmatch, "type": TYPES.__contains__,
        "status": STATUSES.__contains__, "tier": between(1, 3), "taxst": between(0, 2),
        "stamp": between(0, MOST_STAMP), "day": between(0, MOST_DAY),
        "price": between(1, MOST_PRICE), "charge": between(0, MOST_CHARGE),
        "rate": between(0, MOST_RATE), "taxrate": between(0, MOST_TAX_RATE),
        "money": between(-MOST_MONEY, MOST_MONEY), "total": between(0, MOST_MONEY),
        "quantity": between(1, limits.quantity),
        "summary": between(-limits.summary, limits.summary),
    }


def columns_have_form(rows, limits):
    """Returns whether each value has its form and limit, and names a row that exists."""
    tests = column_forms(limits)
    keys = {name: {row[0] for row in found} for name, found in rows.items()}

    def passes(it, value):
        return value is None or tests[it.form](value) and (not it.names or value in keys[it.names])
    return all(passes(it, row[place]) for name, found in rows.items()
               for place, it in enumerate(TABLES[name].columns) for row in found)


def stamps_are_past(rows):
    """Returns whether no stamp is above the last one."""
    last, stamps = rows["DESK"][0][2], [stamp for name in STAMPS for stamp in column(rows, name)]
    return not stamps or last is not None and max(stamps) <= last


def bands_overlap(rows):
    bands = sorted(rows["COMMISSION_RATE"])
    return any(band[:3] == other[:3] and other[3] <= band[4]
               for band, other in zip(bands, bands[1:]))


def words_have_form(base, rows, cash):
    """Returns whether settlements and cash rows have their words, and movements their sign."""
    settled = zip(column(rows, "SE_T_ID"), column(rows, "SE_CASH_TYPE"))
    named = [(base.trades[trade], name) for _, trade, _, _, name in cash if trade is not None]
    moves = [(name, amount) for _, trade, _, amount, name in cash if trade is None]
    return (all(word in (CASH_WORDS if base.trades[trade].cash else MARGIN_WORDS)
                for trade, word in settled)
            and all(name in [base.cash_name(trade, word) for word in SHARES_WORDS]
                    for trade, name in named)
            and all(name == DEPOSIT and amount > 0 or name == WITHDRAWAL and amount < 0
                    for name, amount in moves))


def has_form(rows, schema):
    if not columns_have_form(rows, LIMITS[schema]):
        return False
    base, cash = base_of(rows), cash_rows_of(rows)
    trades = base.trades.values()
    completions = {trade.ident: stamp for trade in trades
                   for stamp, status in trade.statuses if status == "CMPT"}
    traded = [trade for _, trade, *_ in cash if trade is not None]
    owned = Counter(account.customer for account in base.accounts.values())
    bands = [band for bands in base.bands.values() for band in bands]
    return (stamps_are_past(rows)
            and list(base.trades) == list(range(1, len(base.trades) + 1))
            and set(completions) == {trade.ident for trade in trades if trade.price is not None}
            and all(due_day(base, stamp) <= MOST_DAY for stamp in completions.values())
            and set(base.securities) == set(base.last_trades)
            and all(count <= MOST_ACCOUNTS for count in owned.values())
            and all(base.rates_of(customer) <= MOST_TAX_RATE for customer in base.customers)
            and all(band.first <= band.last for band in bands) and not bands_overlap(rows)
            and len(set(traded)) == len(traded) and len(cash) - len(traded) <= MOST_MOVES
            and len(column(rows, "SR_DAY")) <= 1
            and words_have_form(base, rows, cash))


def is_sequence(statuses):
    """Returns whether the statuses of a trade follow each other at rising stamps."""
    stamps, codes = [stamp for stamp, _ in statuses], [status for _, status in statuses]
    return (bool(codes) and len(set(stamps)) == len(stamps)
            and all(code in NEXT_STATUSES.get(before, ())
                    for before, code in zip([None, *codes], codes)))


def has_status(rows):
    statuses = statuses_of(rows)
    lasts = zip(column(rows, "T_ID"), column(rows, "T_DTS"), column(rows, "T_ST_ID"))
    booked = [stamp for changes in statuses.values() for stamp, code in changes if code == "CMPT"]
    booked += [stamp for _, trade, stamp, _, _ in cash_rows_of(rows) if trade is None]
    return (all(is_sequence(statuses.get(trade, ())) and statuses[trade][-1] == (stamp, status)
                for trade, stamp, status in lasts)
            and len(set(booked)) == len(booked))


def audit_rows(rows, schema):
    """Returns the first condition from `form` on that fails, or None."""
    if not has_form(rows, schema):
        return "form"
    if not has_status(rows):
        return "status"
    derived = rows_of(base_of(rows), schema=schema)
    for word, table, name in DERIVED:
        if name and column(rows, name) != column(derived, name):
            return word
        if not name and rows.get(table) != derived.get(table):
            return word
    return None


def audit(conn):
    """Returns the first condition that a database fails, or None, and its rows if they are read."""
    schema = schema_of(conn)
    if schema is None:
        return "schema", None
    rows = read(conn, schema)
    return ("form" if rows is None else audit_rows(rows, schema)), rows
