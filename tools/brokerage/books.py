"""The derived numbers of a base: lots and their changes, summaries, settlements, cash, totals."""

from collections import deque
from typing import NamedTuple, Optional

from .amounts import day_of
from .lots import book, close
from .records import WITHHELD


class CashRow(NamedTuple):
    """A posting to the cash of an account; a movement has no trade."""
    account: int
    trade: Optional[int]
    stamp: int
    amount: int
    name: str


def due_day(base, stamp):
    return day_of(stamp) + base.days_to_settle(day_of(stamp))


def settled_amount(trade, tax_status):
    """Returns the settlement of a completed trade, from its recorded numbers."""
    value, costs = trade.quantity * trade.price, trade.charge + trade.commission
    amount = value - costs if trade.sign < 0 else -(value + costs)
    return amount - trade.tax if tax_status == WITHHELD else amount


class Books:
    """The fold of a base's completed trades, in the order of completion, and of its movements."""

    def __init__(self, base):
        self.base = base
        self.lots = {}  # by (account, symbol): a deque of lots, the oldest first
        self.lot_changes = []  # (lot, trade, before, after)
        self.summaries = {}  # by account, then by symbol
        self.settled = {}  # by trade: due day, amount
        self.moved, self.cash_count = {}, 0  # the sum of an account's cash rows; their number
        self.counts, self.commissions = {}, {}  # by broker
        completed = [trade for trade in base.trades.values() if trade.completed]
        for trade in sorted(completed, key=lambda trade: trade.stamp):
            self.complete(trade)
        for move in base.moves:
            self.add_cash(move.account, move.amount)

    def closing(self, trade, price):
        """Returns the closing that a trade at a price would make now."""
        return close(self.lots.get((trade.account, trade.symbol), ()), trade, price)

    def complete(self, trade):
        """Books a completed trade."""
        account, position = self.base.accounts[trade.account], (trade.account, trade.symbol)
        changes = self.closing(trade, trade.price).changes
        book(self.lots.setdefault(position, deque()), trade, changes)
        self.lot_changes += [(lot, trade.ident, before, after) for lot, before, after in changes]
        held = self.summaries.setdefault(trade.account, {})
        held[trade.symbol] = self.summary(*position) + trade.sign * trade.quantity
        amount = settled_amount(trade, account.tax_status)
        self.settled[trade.ident] = due_day(self.base, trade.stamp), amount
        if trade.cash:
            self.add_cash(trade.account, amount)
        self.counts[account.broker] = self.counts.get(account.broker, 0) + 1
        self.commissions[account.broker] = self.commission_total(account.broker) + trade.commission

    def add_cash(self, account, amount):
        """Books the amount of a cash row."""
        self.moved[account] = self.moved.get(account, 0) + amount
        self.cash_count += 1

    def summary(self, account, symbol):
        return self.summaries.get(account, {}).get(symbol, 0)

    def balance(self, account):
        return self.base.accounts[account].opening + self.moved.get(account, 0)

    def commission_total(self, broker):
        return self.commissions.get(broker, 0)

    def holdings(self, account):
        """Returns the value of an account's holdings at last prices."""
        held = self.summaries.get(account, {})
        return sum(quantity * self.base.last_trades[symbol].price
                   for symbol, quantity in held.items())

    def requests(self):
        """Returns the pending trades."""
        return [trade for trade in self.base.trades.values() if trade.status == "PNDG"]

    def cash_rows(self):
        """Returns all cash rows by stamp. The place of a row, from 1, is its number."""
        trades = (CashRow(trade.account, trade.ident, trade.stamp, self.settled[trade.ident][1],
                          trade.cash_name)
                  for trade in self.base.trades.values() if trade.completed and trade.cash)
        moves = (CashRow(move.account, None, move.stamp, move.amount, move.name)
                 for move in self.base.moves)
        return sorted((*trades, *moves), key=lambda row: row.stamp)
