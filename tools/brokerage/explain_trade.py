"""The explanation of a trade."""

from .amounts import (WHOLE_RATE, WHOLE_TAX_RATE, cents_text, commission, day_of, day_text, tax)
from .books import settled_amount
from .lines import ID, PRICE, SHARES, TIME, VALUE, fact, heads, money, row, time_text, words
from .records import STATUSES, TYPES, UNTAXED, WITHHELD

WAITS = {"PNDG": "a tick at or {} {}", "SBMT": "a result", "CNCL": "nothing"}


def ordered(base, trade):
    """Yields the lines of a trade as it was ordered, and its statuses."""
    account, security = base.accounts[trade.account], base.securities[trade.symbol]
    yield f"Trade {trade.ident}, times in UTC\n"
    yield fact("Account", account.ident, account.name)
    yield fact("Customer", account.customer)
    yield fact("Broker", account.broker)
    yield words("Executor", trade.executor)
    yield words("Type", f"{trade.type} {TYPES[trade.type].name}")
    yield words("Security", f"{trade.symbol:<15} {security.name}")
    yield fact("Shares", trade.quantity)
    yield money("Price asked", trade.bid)
    yield words("Settles by", "cash" if trade.cash else "margin")
    yield words("Closes", f"{'last' if trade.lifo else 'first'} in first out")
    for stamp, status in trade.statuses:
        yield row("Status", time_text(stamp), status, STATUSES[status])


def waiting(trade):
    """Yields the lines of a trade that is not completed."""
    canceled = trade.status == "CNCL"
    side = "above" if trade.type == "TLS" else "below"
    yield money("Charge", trade.charge, "never charged" if canceled else "if completed")
    yield money("Commission", trade.commission, "never charged" if canceled else "estimated")
    yield words("Waits for", WAITS[trade.status].format(side, cents_text(trade.bid)))
    yield fact("Shares moved", 0)
    yield money("Cash moved", 0)
    yield f"Statuses {len(trade.statuses)}\n"


def closed_lots(base, books, trade):
    """Returns each lot of which a trade closed shares, as (trade that opened it, shares, left)."""
    return [(base.trades[lot], abs(before) - abs(after), after)
            for lot, closer, before, after in books.lot_changes if closer == trade.ident and before]


def lots(closed, opened, trade):
    """Yields the lines of the lots of a completed trade; `opened` is its own rest, signed."""
    yield heads(("opened", -TIME), ("lot", ID), ("shares", SHARES), ("price", PRICE),
                ("bought for", VALUE), ("sold for", VALUE), ("left", SHARES))
    for lot, shares, left in closed:
        values = shares * lot.price, shares * trade.price
        bought, sold = values if trade.sign < 0 else reversed(values)
        yield row("Closed", time_text(lot.stamp), (lot.ident, ID), (shares, SHARES),
                  (cents_text(lot.price), PRICE), (cents_text(bought), VALUE),
                  (cents_text(sold), VALUE), (left, SHARES))
    if opened:
        yield row("Opened", time_text(trade.stamp), (trade.ident, ID), (opened, SHARES),
                  (cents_text(trade.price), PRICE))
    yield fact("Shares closed", sum(shares for _, shares, _ in closed))
    yield fact("Shares opened", abs(opened))


def taxed(base, trade, gain):
    """Yields the lines of the tax: at the rates of now, and as it was recorded."""
    account = base.accounts[trade.account]
    rates = [(ident, base.taxes[ident]) for owner, ident in sorted(base.customer_taxes)
             if owner == account.customer]
    yield fact("Tax status", account.tax_status)
    for ident, rate in rates:
        yield row("Rate", (ident, ID), (rate.rate, SHARES), rate.name)
    total = sum(rate.rate for _, rate in rates)
    yield fact("Rates now", total, f"of {WHOLE_TAX_RATE}")
    yield money("Tax now", 0 if account.tax_status == UNTAXED else tax(gain, total))
    yield money("Tax recorded", trade.tax)


def banded(base, trade):
    """Yields the lines of the commission at the band of now."""
    tier, exchange = base.customer_of(trade.account).tier, base.securities[trade.symbol].exchange
    bands = [band for band in base.bands.get((tier, trade.type, exchange), ())
             if band.first <= trade.quantity <= band.last]
    if not bands:
        yield fact("Band now", "none")
        yield fact("Commission now", "none")
        return
    band = bands[0]
    yield fact("Band now", band.rate, f"of {WHOLE_RATE} for {band.first} to {band.last},"
               f" tier {tier}, {exchange}")
    yield money("Commission now", commission(band.rate, trade.quantity, trade.price))


def settled(base, trade):
    """Yields the lines of the settlement, and when it is due."""
    tax_status, today = base.accounts[trade.account].tax_status, day_of(trade.stamp)
    days = base.days_to_settle(today)
    yield money("Value", -trade.sign * trade.quantity * trade.price)
    yield money("Charge", -trade.charge)
    yield money("Commission", -trade.commission)
    yield money("Tax withheld", -trade.tax if tax_status == WITHHELD else 0)
    yield money("Settlement", settled_amount(trade, tax_status))
    yield words("Cash type", trade.settled_as)
    yield words("Completed on", day_text(today))
    yield words("One day from", "none" if base.one_day is None else day_text(base.one_day))
    yield fact("Days to settle", days)
    yield words("Due on", day_text(today + days))


def moved(base, books, account, stamp, amount):
    """Returns the lines of the cash around an amount at a stamp, and the count of rows before."""
    before = [row.amount for row in books.cash_rows()
              if row.account == account and row.stamp < stamp]
    opening, cash = base.accounts[account].opening, sum(before)
    lines = [money("Opening", opening), money("Cash before", cash),
             money("Balance before", opening + cash), money("Cash moved", amount),
             money("Balance after", opening + cash + amount)]
    return lines, len(before)


def completed(base, books, trade):
    """Yields the lines of a completed trade."""
    closed = closed_lots(base, books, trade)
    opened = sum(after for lot, closer, before, after in books.lot_changes
                 if closer == trade.ident and not before)
    yield money("Price", trade.price)
    yield from lots(closed, opened, trade)
    then = sum(shares * lot.price for lot, shares, _ in closed)
    now = sum(shares * trade.price for _, shares, _ in closed)
    buy, sell = (then, now) if trade.sign < 0 else (now, then)
    yield money("BUY", buy)
    yield money("SELL", sell)
    yield money("Realised gain", sell - buy)
    yield from taxed(base, trade, sell - buy)
    yield from banded(base, trade)
    yield from settled(base, trade)
    places = {cash.trade: place for place, cash in enumerate(books.cash_rows(), 1)}
    place = places.get(trade.ident)
    yield fact("Cash row", place, trade.cash_name) if place else fact("Cash row", "none")
    amount = settled_amount(trade, base.accounts[trade.account].tax_status) if trade.cash else 0
    lines, count = moved(base, books, trade.account, trade.stamp, amount)
    yield from lines
    yield (f"Statuses {len(trade.statuses)}, lots closed {len(closed)},"
           f" cash rows before {count}\n")


def explain_trade(base, books, trade):
    yield from ordered(base, trade)
    yield from completed(base, books, trade) if trade.completed else waiting(trade)
