"""Parts of reports together, reports as of earlier days, and control totals."""

import collections
import subprocess
import sys

from desks import DAY_MS, FIRST, LATE, OFFSETS, PEERS, REPORTS, cents_of, date_of, day_of, facts_of, total

PERIODS = ("orders", "trades", "gains", "cash", "cash_by_day", "settlements", "settlements_by_day")
MOMENTS = ("accounts", "customers", "settled_cash", "positions_by_account", "positions_by_symbol", "lots", "pending", "submitted", "overdrawn")
# columns that are empty for an earlier day if a later tick came, and one that a later text update changes
LATER = ("HOLDINGS", "ASSETS", "LAST_PRICE", "WORTH", "UNREALISED")
TEXTS = ("EXECUTOR",)
# a change of a row, and the control totals that then differ
CHANGES = [
    ("UPDATE CUSTOMER_ACCOUNT SET CA_BAL = CA_BAL + 1 WHERE CA_ID = 101", ["balances"]),
    ("UPDATE BROKER SET B_COMM_TOTAL = B_COMM_TOTAL - 1 WHERE B_ID = 1", ["commissions of the brokers"]),
    ("UPDATE BROKER SET B_NUM_TRADES = B_NUM_TRADES + 1 WHERE B_ID = 2", ["number of completed trades"]),
    ("UPDATE SETTLEMENT SET SE_AMT = SE_AMT + 1 WHERE SE_T_ID = (SELECT max(SE_T_ID) FROM SETTLEMENT)", ["settlements"]),
    ("DELETE FROM CASH_MOVE WHERE CM_ID = (SELECT min(CM_ID) FROM CASH_MOVE WHERE CM_T_ID IS NOT NULL)", ["number of cash rows", "cash of trades", "balances"]),
    ("UPDATE HOLDING SET H_QTY = H_QTY + 1 WHERE H_T_ID = (SELECT max(H_T_ID) FROM HOLDING)", ["shares of lots", "cost of lots"]),
    ("UPDATE HOLDING_SUMMARY SET HS_QTY = HS_QTY + 1 WHERE rowid = 1", ["shares held", "holdings"]),
    ("DELETE FROM TRADE_REQUEST", ["number of pending trades"]),
]


def parts(desk):
    """The days of a period together, and the accounts, customers, brokers and symbols together."""
    for name in PERIODS:
        whole = desk.report(name)
        is_due = name.startswith("settlements")
        days = sorted({row["DUE"] for row in desk.report("settlements")}) if is_due else desk.days
        desk.tell(f"{name}: the days together", [row for day in days for row in desk.report(name, "--day", day)], whole)
        middle = days[len(days) // 2]
        before = date_of((day_of(middle) - 1) * DAY_MS)
        desk.tell(f"{name}: two periods together", desk.report(name, "--to", before) + desk.report(name, "--from", middle), whole)
    for name, key in (("commissions_by_month", "COMMISSION"), ("taxes_by_year", "TAX")):
        days = [row for day in desk.days for row in desk.report(name, "--day", day)]
        desk.tell(f"{name}: the days together", total(row[key] for row in days), total(row[key] for row in desk.report(name)))
    options = {"account": "CUSTOMER_ACCOUNT", "customer": "CUSTOMER", "broker": "BROKER", "symbol": "SECURITY"}
    for line in subprocess.run([sys.executable, REPORTS / "report", "--list"], capture_output=True, text=True, check=True).stdout.splitlines()[1:]:
        name, takes = line.split(",")[:2]
        if name in ("positions_by_symbol", "settlements_by_day"):
            continue
        whole = sorted(tuple(row.items()) for row in desk.report(name))
        for option, table in options.items():
            if f"--{option}" in takes:
                keys = [key for key in desk.ids[table] if table != "CUSTOMER_ACCOUNT" or key < 200]
                keys = [key for key in keys if table != "CUSTOMER" or key < 20]
                rows = sorted(tuple(row.items()) for key in keys for row in desk.report(name, f"--{option}", key))
                wanted = [row for row in whole if int(dict(row).get("ACCOUNT", 0)) < 200 and int(dict(row).get("CUSTOMER", 0)) < 20]
                desk.tell(f"{name}: --{option}: all together", rows, wanted if option in ("account", "customer") else whole)


def as_of(desk):
    """A report as of a day is that of the copy of this day."""
    days = list(desk.copies)
    for day in sorted({days[0], days[LATE], *desk.draw.sample(days, 2)}):
        copy = desk.copies[day]
        for name in MOMENTS:
            now, then = desk.report(name, "--day", day), desk.trial.report(name, copy)
            told = [{key: text for key, text in row.items() if key not in (*LATER, *TEXTS)} for row in now]
            wanted = [{key: text for key, text in row.items() if key not in (*LATER, *TEXTS)} for row in then]
            desk.tell(f"{name} as of {day}: the copy", told, wanted)
            wrong = [(one[key], other[key]) for one, other in zip(now, then) for key in LATER if key in one and one[key] not in ("", other[key])]
            desk.tell(f"{name} as of {day}: prices and values", wrong, [])
    for name in MOMENTS:
        desk.tell(f"{name} as of the last day", desk.report(name, "--day", max(days)), desk.report(name))


def at_midnight(desk):
    """Reports as of the day that ended within a batch: what has a time of this day or an earlier one."""
    day = date_of(FIRST + OFFSETS[LATE] * DAY_MS)
    balances = {row["ACCOUNT"]: cents_of(row["OPENING"]) for row in desk.report("accounts")}
    for row in desk.report("cash"):
        balances[row["ACCOUNT"]] += cents_of(row["AMOUNT"]) if row["POSTED"][:10] <= day else 0
    told = {row["ACCOUNT"]: cents_of(row["BALANCE"]) for row in desk.report("accounts", "--day", day)}
    desk.tell("accounts at midnight: cash", told, balances)
    shares = collections.Counter()
    for row in desk.report("trades"):
        shares[row["ACCOUNT"], row["SYMBOL"]] += int(row["SHARES"]) if row["COMPLETED"][:10] <= day else 0
    told = {(row["ACCOUNT"], row["SYMBOL"]): int(row["SHARES"]) for row in desk.report("positions_by_account", "--day", day)}
    desk.tell("positions at midnight: trades", told, {key: number for key, number in shares.items() if number})
    last = {}
    for trade, lines in desk.trades.items():
        for _, its_day, _, status, *_ in (line.split() for line in lines if line.startswith("Status ")):
            if its_day <= day:
                last[str(trade)] = status
    for word, name in (("PNDG", "pending"), ("SBMT", "submitted")):
        told = [row["TRADE"] for row in desk.report(name, "--day", day)]
        desk.tell(f"{name} at midnight: explain trade", told, [trade for trade, status in last.items() if status == word])


def totals(desk):
    """Control totals: they are those of other reports, and differ where a row was changed."""
    rows = {row["TOTAL"]: row for row in desk.report("totals")}
    value = {total: row["VALUE"] for total, row in rows.items()}
    trades, cash_rows = desk.report("trades"), desk.report("cash")
    wanted = {
        "number of trades": len(desk.trades), "number of completed trades": len(desk.completed), "number of cash rows": len(cash_rows),
        "number of pending trades": len(desk.report("pending")), "number of lots": len(desk.report("lots")),
        "shares held": sum(int(row["SHARES"]) for row in trades),
    }
    desk.tell("totals: numbers", {key: int(value[key]) for key in wanted}, wanted)
    held = [row[2] for rows in desk.customers.values() for row in rows]
    movements = [cents_of(row["AMOUNT"]) for row in cash_rows if not row["TRADE"]]
    wanted = {
        "openings": total(facts_of(lines)["Opening"] for lines in desk.accounts.values()),
        "deposits": sum(amount for amount in movements if amount > 0), "withdrawals": sum(amount for amount in movements if amount < 0),
        "cash of trades": total(row["AMOUNT"] for row in cash_rows if row["TRADE"]),
        "balances": total(row[1] for rows in desk.customers.values() for row in rows), "holdings": total(held),
        "settlements": total(desk.facts[trade]["Settlement"] for trade in desk.completed),
        "charges": -total(desk.facts[trade]["Charge"] for trade in desk.completed),
        "commissions of the brokers": total(facts_of(lines)["Commissions"] for lines in desk.brokers.values()),
        "taxes": total(desk.facts[trade]["Tax recorded"] for trade in desk.completed),
        "taxes withheld": -total(desk.facts[trade]["Tax withheld"] for trade in desk.completed),
        "realised gains": total(facts_of(lines)["Realised gain"] for lines in desk.holdings.values()),
        "cost of lots": total(facts_of(lines)["Cost basis"] for lines in desk.holdings.values()),
        "settlements on margin": total(row["MARGIN"] for row in desk.report("accounts")),
        "values of purchases": sum(min(cents_of(row["VALUE"]), 0) for row in trades),
        "values of sales": sum(max(cents_of(row["VALUE"]), 0) for row in trades),
    }
    desk.tell("totals: amounts", {key: cents_of(value[key]) for key in wanted}, wanted)
    desk.tell("totals: the second computations", {row["DIFFERENCE"] for row in rows.values()}, {"", "0", "0.00"})
    copy = desk.trial.folder / "changed.db"
    for sql, names in CHANGES:
        if PEERS.changed(desk.path, copy.as_posix(), sql) < 1:
            continue
        status, found, errors = desk.trial.script("report", "totals", copy)
        differing = [row["TOTAL"] for row in found if row["DIFFERENCE"] not in ("", "0", "0.00")]
        desk.tell(f"totals: {sql}", (status, set(names) <= set(differing), "run brk audit" in errors), (5, True, True))


ALL = (parts, as_of, at_midnight, totals)
