"""What each screen shows, read from a snapshot; SCREENS has the address of each."""

import os
import pathlib
import re
import time

import reporting
from flask import abort, url_for

from . import derive, plots, rows, tables, words
from .tables import record, records
from .words import DAY_MS, amount_text, day_text

LADDER_BEFORE, LADDER_AFTER, PLOT_DAYS = 3, 4, 30
# the nightly copy is too old after so many hours
COPY_HOURS = 26
ALL = {"first": 0, "last": reporting.LAST_DAY}
NAMES = {"account": "account", "customer": "customer", "broker": "broker", "trade": "trade",
         "security": "symbol", "batch": "batch"}


class Desk:
    """A snapshot as a screen reads it; the address sorts, filters and cuts its tables."""

    def __init__(self, conn, snapshot, today, now, arguments):
        self.conn, self.snapshot, self.today, self.now = conn, snapshot, today, now
        self.arguments, self.tables = arguments, {}

    def table(self, key, name=None, sql=None, most=tables.ROWS, **given):
        """A part of a table; all of it is CSV at the same address with csv=KEY."""
        sql = sql or tables.QUERIES[name or key].sql
        self.tables[key] = tables.Table(self.conn, sql, given, key, self.arguments)
        return self.tables[key].shown(most)

    def orders(self, key="orders", account=None, symbol=None, status=None, sql=None, **days):
        given = {"account": account, "symbol": symbol, "status": status, **(days or ALL)}
        return self.table(key, "orders", sql, **given)

    def all(self, name, **given):
        return records(self.conn, name, **given)

    def one(self, name, key):
        """The record of something that the address names: 404 if it is not there."""
        found = record(self.conn, name, **{NAMES[name]: key})
        if found is None:
            stamp = reporting.time_text(self.snapshot.stamp)
            abort(404, f"This desk has no {name} {key}, as of {stamp}. Find it in the field above.")
        return found

    def period(self):
        """The first and the last day of the month of the address, or of all days."""
        month = self.arguments.get("month")
        return dict(zip(ALL, words.days_of_month(month))) if month else ALL


def today(desk):
    day, working = desk.today, words.last_working_day(desk.today)
    due = {row["DAY"]: row for row in desk.all("due", first=working, last=day + LADDER_AFTER)}
    first = min(working + 1, day - LADDER_BEFORE)
    rungs = [(each, *(words.cents_of(due[each][side]) if each in due else 0
                      for side in ("RECEIVED", "PAID")))
             for each in range(first, day + LADDER_AFTER) if each in due or each >= day]
    days = desk.all("day_cash", first=day - PLOT_DAYS, last=day)
    total = record(desk.conn, "all_cash")
    balance, line = words.cents_of(total["BALANCE"]), []
    for row in reversed(days):
        line.insert(0, (row["DAY"], balance))
        balance -= words.cents_of(row["NET"])
    if line:
        line.insert(0, (line[0][0] - 1, balance))
    month = words.month_of(day)
    return {
        "submitted": desk.table("submitted", now=desk.now),
        "pending": desk.table("pending", now=desk.now, symbol=None, most=20),
        "below": desk.table("below", "below_zero", most=10),
        "due": due, "overdue": [due[each] for each in range(working + 1, day) if each in due],
        "ladder": plots.ladder(rungs, day), "plot": plots.over_time(line, "Cash of all accounts"),
        "cash": next((row for row in days if row["DAY"] == day), None), "total": total,
        "commissions": desk.table("commissions", "month_commissions",
                                  **dict(zip(ALL, words.days_of_month(month)))),
        "day": day, "month": month,
    }


def newest_copy(folder, name):
    """The newest nightly copy: its name, its age, whether it is too old; or why there is none."""
    form = re.compile(re.escape(name) + r"-\d{4}-\d\d-\d\d\.db")
    try:
        found = [path for path in pathlib.Path(folder).iterdir() if form.fullmatch(path.name)]
        newest = max(found, key=os.path.getmtime)
    except (OSError, ValueError) as error:
        return {"why": getattr(error, "strerror", None) or "the folder has none"}
    hours = (time.time() - newest.stat().st_mtime) / 3600
    return {"name": newest.name, "age": words.age(int(hours * 3_600_000)),
            "is_old": hours > COPY_HOURS}


def account(desk, account):
    head, days = desk.one("account", account), desk.period()
    points = [(row["DAY"], row["CENTS"]) for row in desk.all("balances", account=account)]
    points = points and [(points[0][0] - 1, head["CA_OPEN"]), *points]
    waiting = f"SELECT * FROM ({tables.QUERIES['orders'].sql}) WHERE STATUS IN ('SBMT', 'PNDG')"
    return {
        "head": head, "persons": ", ".join(
            f"{each['FIRST']} {each['LAST']} ({each['TAX_ID']}), {each['WHY']}"
            for each in desk.all("persons", account=account)),
        "positions": desk.table("positions", account=account),
        "open": desk.orders("open", account, sql=waiting),
        "cash": desk.table("cash", account=account, **days),
        "orders": desk.orders(account=account, **days),
        "months": [row["MONTH"] for row in desk.all("months", account=account)],
        "plot": plots.over_time(points, "Balance of the account"),
    }


def thing(title, *parts, whose=None, pairs=(), actions=(), explained=None):
    """A screen of heads and tables: the caption of each, and what it says if it is empty."""
    return {"title": title, "parts": parts, "whose": whose, "pairs": pairs, "actions": actions,
            "explained": explained, "template": "thing.html"}


def holding(desk, account, symbol):
    head, security = desk.one("account", account), desk.one("security", symbol)
    given = {"account": account, "symbol": symbol}
    facts = derive.facts(desk.conn, "holding", account, symbol)
    names = ("Shares", "Cost basis", "Worth", "Unrealised gain", "Realised gain", "Last price",
             "Purchases", "Sales")
    return thing(
        f"{symbol} {security['S_NAME']} of account {account}",
        ("Lots, the oldest first", desk.table("lots", **given), "No lot is open."),
        ("Completed trades, the newest first",
         desk.table("trades", "holding_trades", **given), "None."),
        whose=head, pairs=[(name, facts[name]) for name in names],
        explained=("holding", account, symbol))


def customer(desk, customer):
    head = desk.one("customer", customer)
    taxes = [f"{tax['TX_NAME']} {words.percent(tax['TX_RATE'], 100_000)}"
             for tax in desk.all("customer_taxes", customer=customer)]
    return thing(
        f"{head['C_F_NAME']} {head['C_L_NAME']}",
        ("Accounts", desk.table("accounts", "customer_accounts", customer=customer), "None."),
        pairs=[("Customer", str(customer)), ("Tax id", head["C_TAX_ID"]), ("Tier", head["C_TIER"]),
               ("Taxes on gains", ", ".join(taxes) or "none")])


def security(desk, symbol):
    head = desk.one("security", symbol)
    return thing(
        f"{symbol} {head['S_NAME']}",
        ("Pending, nearest to the last price first",
         desk.table("pending", symbol=symbol, now=desk.now), "No order waits for a price."),
        ("Accounts that hold it", desk.table("holders", symbol=symbol), "Nobody holds it."),
        ("Trades and orders, the newest first", desk.orders(symbol=symbol), "None."),
        pairs=[("Last price", head["LAST_PRICE"]), ("since", head["SINCE"][:19]),
               ("Volume", head["LT_VOL"]), ("Held by all", head["HELD"]),
               ("Exchange", head["S_EX_ID"]), ("Sector", head["S_SECTOR"])],
        actions=[("Tick", url_for("row", kind="feed", SYMBOL=symbol), False)])


def market(desk):
    return thing("Market", ("Securities", desk.table("securities"), "None."))


def orders(desk):
    status = desk.arguments.get("status") or None
    names = {None: "All", **words.STATUSES}
    chosen = [(name, url_for("orders", status=key), key == status) for key, name in names.items()]
    return thing("Orders", (f"{names.get(status, 'None')}, the newest first",
                            desk.orders(status=status), "None."), actions=chosen)


def broker(desk, broker):
    head = desk.one("broker", broker)
    return thing(
        head["B_NAME"],
        ("Completed trades, the newest first",
         desk.table("trades", "broker_trades", broker=broker), "None."),
        pairs=[("Broker", str(broker)), ("Commissions", head["COMMISSIONS"]),
               ("Trades", head["B_NUM_TRADES"]), ("Accounts", head["ACCOUNTS"])],
        explained=("broker", broker))


def brokers(desk):
    total = record(desk.conn, "volume_total")
    return thing(
        "Brokers", ("All brokers", desk.table("brokers"), "None."),
        ("Pending volume by sector", desk.table("volumes"), "No order is pending."),
        pairs=[("Pending volume of all brokers", total["VOLUME"]), ("Pending", total["ORDERS"])])


def batch(desk, batch):
    return thing(f"Batch {batch}", ("Accepted rows", desk.table("batch", batch=batch), "None."))


def trade(desk, trade):
    row = desk.one("trade", trade)
    return {"row": row, "made": derive.Trade(desk.conn, row) if row["T_ST_ID"] == "CMPT" else None,
            "lots": desk.table("lots", "trade_lots", trade=trade),
            "statuses": desk.table("statuses", trade=trade), "side": rows.side_of(row["T_TT_ID"])}


def find(desk):
    text = desk.arguments.get("q", "").strip()[:200]
    number = int(text) if text.isdecimal() and len(text) < 14 else None
    found = desk.all("find", text=text, number=number) if text else []
    return {"title": f"Found for “{text}”", "text": text, "template": "list.html", "links": [
        (f"{kind.capitalize()} {key}", url_for(kind, **{NAMES[kind]: key}), f"{name}; {more}")
        for _, kind, key, name, more in found]}


def reports(desk):
    return {"title": "Reports", "template": "list.html", "links": [
        (name, url_for("report", name=name), made.about) for name, made in tables.REPORTS.items()]}


def statement(desk, account):
    """The statement of an account for a month: cash by SQL, the lots as of its end."""
    head = desk.one("account", account)
    month = desk.arguments.get("month") or words.month_of(desk.today)
    first, last = words.days_of_month(month)
    given = {"account": account, "first": first, "last": last}
    before = record(desk.conn, "cash_before", account=account, stamp=first * DAY_MS)
    cash, opening = desk.all("cash", **given)[::-1], head["CA_OPEN"] + (before["CENTS"] or 0)
    closing = opening + sum(words.cents_of(row["AMOUNT"]) for row in cash)
    reporting.choose(desk.conn, day=min(last, reporting.last_day_of(desk.conn)), account=account)
    return {"head": head, "first": day_text(first), "last": day_text(last), "cash": cash,
            "opening": amount_text(opening), "closing": amount_text(closing), "month": month,
            "margin": desk.all("margin_of_month", **given), "lots": desk.all("lots_at"),
            "is_open": last >= desk.today}


def report(desk, name):
    """A report with the options of its command. Raises ValueError for a wrong one."""
    if name not in tables.REPORTS:
        abort(404, f"There is no report {name}: the list of reports has all.")
    made, options = tables.REPORTS[name], {}
    for option in made.options:
        text = desk.arguments.get(option, "").strip()
        is_day = option in ("day", "from", "to")
        read = str if option == "symbol" else reporting.id_of_text
        read = reporting.day_of_text if is_day else read
        try:
            options.update({option: read(text)} if text else {})
        except ValueError:
            wanted = "day, as 2026-03-31" if is_day else "id"
            raise ValueError(f"--{option}: {text} is no {wanted}.") from None
    reporting.require(desk.conn, "This desk", options)
    if "from" in made.options:
        day = options.pop("day", None)
        options["first"] = options.pop("from", day or 0)
        options["last"] = options.pop("to", day or reporting.LAST_DAY)
    reporting.choose(desk.conn, **options)
    return {"report": made, "name": name, "rows": desk.table("rows", sql=made.sql)}


# the address of each screen, and what reads it; its template has its name
SCREENS = {
    "/": today, "/account/<int:account>": account, "/account/<int:account>/<symbol>": holding,
    "/customer/<int:customer>": customer, "/security/<symbol>": security, "/market": market,
    "/orders": orders, "/broker/<int:broker>": broker, "/brokers": brokers, "/batch/<batch>": batch,
    "/trade/<int:trade>": trade, "/confirmation/<int:trade>": trade, "/find": find,
    "/statement/<int:account>": statement, "/reports": reports, "/report/<name>": report,
}
