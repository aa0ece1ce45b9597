"""The numbers of a trade, an account, a holding and a broker, compared with `brk explain`.

The lines have the labels of `brk explain`, so that the two texts are compared word by word."""

import collections
import os
import re
import subprocess

from desk_client import program

from . import tables, words
from .words import amount_text, day_text

SECONDS = 120
# a line: its label, its value as the program writes it, how it follows, another form of the value
Line = collections.namedtuple("Line", "label value how shown", defaults=("", ""))
# a lot that a trade closed or opened
Lot = collections.namedtuple("Lot", "change opened lot shares price bought sold left")
FACT = re.compile(r"(.{15}) {1,23}(-?[0-9]+(?:\.[0-9]{2})?|none)(?: (.*))?")
# how many fields of a row of the program's text are compared, by its first word
COMPARED = {"Closed": 8, "Opened": 5, "Posted": 6, "Trade": 7}
ROW = re.compile(r"(Closed|Opened|Posted|Trade) +([0-9-]{10} .*)")


def half_up(number, parts):
    return (number + parts // 2) // parts


def lots_of(conn, trade):
    """The lots that a trade closed and opened, in their order."""
    for row in tables.records(conn, "closing", trade=trade):
        shares, cents = row["SHARES"], [row["LOT_CENTS"], row["OWN_CENTS"]]
        bought, sold = [shares * price for price in (cents if row["BEFORE"] > 0 else cents[::-1])]
        if row["CHANGE"] == "opened":
            shares, bought, sold = row["AFTER"], None, None
        left = None if bought is None else row["AFTER"]
        yield Lot(row["CHANGE"], row["OPENED"], row["LOT"], shares, cents[0], bought, sold, left)


class Trade:
    """A completed trade: its lots and its lines."""

    def __init__(self, conn, row):
        self.row, self.lots = row, list(lots_of(conn, row["T_ID"]))
        closed = [lot for lot in self.lots if lot.bought is not None]
        self.buy, self.sell = (sum(lot[at] for lot in closed) for at in (5, 6))
        self.shares_closed = sum(lot.shares for lot in closed)
        sign = -1 if row["T_TT_ID"] in words.BUYS else 1
        self.value = sign * row["T_QTY"] * row["T_TRADE_PRICE"]
        self.withheld = row["T_TAX"] if row["CA_TAX_ST"] == 1 else 0
        self.settlement = self.value - row["T_CHRG"] - row["T_COMM"] - self.withheld
        before = tables.record(conn, "cash_before", account=row["CA_ID"], stamp=row["T_DTS"])
        self.rows_before, self.cash_before = before["N"], before["CENTS"] or 0
        self.moved = self.settlement if row["T_IS_CASH"] else 0

    @property
    def wrong(self):
        """Where the tables have another settlement or cash row than the lines."""
        recorded = (self.row["SE_AMT"], self.row["CM_AMT"] or 0)
        if recorded == (self.settlement, self.moved):
            return ""
        told = " and ".join("none" if cents is None else amount_text(cents) for cents in recorded)
        return f"The tables have the settlement and the cash row {told}: run brk audit on a copy."

    def parts(self):
        """The lines in groups, each with a heading."""
        row, gain, money, tax = self.row, self.sell - self.buy, amount_text, words.TAX
        rates, band, account_tax = row["RATES"] or 0, row["BAND"], tax[row["CA_TAX_ST"]]
        tax_now = half_up(gain * rates, 100_000) if gain > 0 and row["CA_TAX_ST"] else 0
        commission = band and half_up(band * row["T_QTY"] * row["T_TRADE_PRICE"], 10_000)
        completed, due = row["T_DTS"] // words.DAY_MS, row["SE_CASH_DUE_DATE"]
        days, before = due - completed, row["CA_OPEN"] + self.cash_before
        rule = row["RULE"] and f"; one day from {day_text(row['RULE'])} on" or ""
        has_band = band is not None
        return [
            ("Shares", [
                Line("Price", money(row["T_TRADE_PRICE"]), "of the result"),
                Line("Shares closed", str(self.shares_closed), "of the lots below"),
                Line("Shares opened", str(row["T_QTY"] - self.shares_closed), "they opened a lot"),
                Line("BUY", money(self.buy), "what the closed shares were bought for"),
                Line("SELL", money(self.sell), "what the closed shares were sold for"),
                Line("Realised gain", money(gain), "SELL less BUY")]),
            ("Tax and commission", [
                Line("Rates now", str(rates), "customer's taxes", words.percent(rates, 100_000)),
                Line("Tax now", money(tax_now), f"the gain at the rates of now; {account_tax}"),
                Line("Tax recorded", money(row["T_TAX"]), "with the trade"),
                Line("Band now", str(band) if has_band else "none", f"tier {row['C_TIER']}, "
                     f"{row['S_EX_ID']}", words.percent(band, 10_000) if has_band else "none"),
                Line("Commission now", money(commission) if has_band else "none", "at that band",
                     "" if has_band else "none")]),
            ("Settlement", [
                Line("Value", money(self.value), "shares times price; a purchase costs it"),
                Line("Charge", money(-row["T_CHRG"]), "of the type and the tier"),
                Line("Commission", money(-row["T_COMM"]), "recorded with the trade"),
                Line("Tax withheld", money(-self.withheld), account_tax),
                Line("Settlement", money(self.settlement), "the sum of the four lines above"),
                Line("Days to settle", str(days), f"completed on {day_text(completed)}, due on "
                     f"{day_text(due)}{rule}", f"T+{days}")]),
            ("Balance", [
                Line("Opening", money(row["CA_OPEN"]), "of the account"),
                Line("Cash before", money(self.cash_before), f"{self.rows_before} rows before"),
                Line("Balance before", money(before), "the sum of the two"),
                Line("Cash moved", money(self.moved),
                     f"cash row {row['CM_ID']}" if row["CM_ID"] else "none: it settles on margin"),
                Line("Balance after", money(before + self.moved), "right after this trade")]),
        ]

    def facts(self):
        found = {line.label: line.value for _, lines in self.parts() for line in lines}
        found["Due on"] = day_text(self.row["SE_CASH_DUE_DATE"])
        for place, lot in enumerate(self.lots):
            cents = [lot.price] if lot.left is None else [lot.price, lot.bought, lot.sold]
            fields = [lot.opened, lot.lot, lot.shares, *map(amount_text, cents), lot.left]
            text = " ".join(str(field) for field in fields if field is not None)
            found[f"{lot.change.capitalize()} {place}"] = text
        return found


def facts(conn, form, *keys):
    """The lines of an account, a holding, a broker or a trade that `brk explain` has too."""
    if form == "trade":
        row = tables.record(conn, "trade", trade=keys[0])
        return Trade(conn, row).facts() if row["T_ST_ID"] == "CMPT" else {
            "Charge": amount_text(row["T_CHRG"]), "Commission": amount_text(row["T_COMM"]),
            "Price asked": amount_text(row["T_BID_PRICE"]), "Shares": str(row["T_QTY"])}
    given = dict(zip(("account", "symbol") if form == "holding" else (form,), keys))
    return dict(map(tuple, tables.records(conn, f"{form}_facts", **given)))


def told_facts(text):
    """The lines of `brk explain` by their labels, its rows by their first word and their place."""
    found, counts, is_trade = {}, collections.Counter(), text.startswith("Trade ")
    for line in text.splitlines()[1:]:
        row, fact = ROW.fullmatch(line), FACT.fullmatch(line)
        if row:
            place = "lot" if is_trade else row[1]
            fields = row[2].split()[:COMPARED[row[1]]]
            found[f"{row[1]} {counts[place]}"] = " ".join(fields)
            counts[place] += 1
        elif line.startswith("Due on"):
            found["Due on"] = line.split()[-1]
        elif fact:
            found.setdefault(fact[1].strip(), fact[2])
    return found


def differences(shown, text):
    """What differs between the lines of the page and those of `brk explain`."""
    told = told_facts(text)
    rows = {label for label in told if re.fullmatch(rf"({'|'.join(COMPARED)}) [0-9]+", label)}
    for label in sorted({*shown, *rows}):
        if told.get(label) != shown.get(label):
            yield (f"{label}: this page has {shown.get(label, 'no such line')}, "
                   f"and brk explain {told.get(label, 'no such line')}")


def explained(file, form, *keys):
    """The text of `brk explain` over a copy, and why there is none."""
    line = [os.fspath(program()), "explain", "--db", os.fspath(file), "--", form, *map(str, keys)]
    try:
        done = subprocess.run(line, capture_output=True, text=True, timeout=SECONDS)
    except (OSError, subprocess.TimeoutExpired) as error:
        return "", f"brk explain did not run: {error}"
    why = "" if done.returncode == 0 else f"brk explain: {done.stderr.strip()}"
    return "" if why else done.stdout, why
