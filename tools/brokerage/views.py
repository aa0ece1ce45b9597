"""Views: lists of records of texts over a base and its books."""

from .amounts import cents_text, day_text
from .records import STATUSES, TYPES
from .refusals import Refusal, require
from .step import estimate as estimate_of
from .step import oldest_first

MOST_RECENT = 10
MOST_RECENT_CHANGES = 30
MOST_STATUS = 50
MOST_FOUND = 20


def recent_first(trades):
    return oldest_first(trades)[::-1]


def trades_of(base, account):
    require(account in base.accounts, Refusal.NoAccount)
    return [trade for trade in base.trades.values() if trade.account == account]


def positions(base, books, chosen):
    owners = [owner.ident for owner in base.customers.values() if chosen(owner)]
    require(owners, Refusal.NoCustomer)
    held = sorted((books.holdings(account.ident), account.ident)
                  for account in base.accounts.values() if account.customer == owners[0])
    return [(str(account), cents_text(books.balance(account)), cents_text(value))
            for value, account in held]


def customer(base, books, ident):
    return positions(base, books, lambda owner: owner.ident == ident)


def taxid(base, books, tax_id):
    return positions(base, books, lambda owner: owner.tax_id == tax_id)


def recent(base, books, account):
    trades = recent_first(trades_of(base, account))[:MOST_RECENT]
    changes = sorted(((stamp, trade.ident, status) for trade in trades
                      for stamp, status in trade.statuses), reverse=True)[:MOST_RECENT_CHANGES]
    return [*(("trade", str(trade.ident), trade.symbol, str(trade.quantity)) for trade in trades),
            *(("history", str(ident), STATUSES[status], str(stamp))
              for stamp, ident, status in changes)]


def status(base, books, account):
    trades = recent_first(trades_of(base, account))[:MOST_STATUS]
    owner = base.customer_of(account)
    rows = [(owner.last, owner.first, base.brokers[base.accounts[account].broker])]
    for trade in trades:
        security = base.securities[trade.symbol]
        rows.append((str(trade.ident), str(trade.stamp), STATUSES[trade.status],
                     TYPES[trade.type].name, trade.symbol, str(trade.quantity), trade.executor,
                     cents_text(trade.charge), security.name, security.exchange))
    return rows


def submitted(base, books):
    trades = (trade for _, trade in sorted(base.trades.items()) if trade.status == "SBMT")
    return [(str(trade.ident), trade.type, trade.symbol, str(trade.quantity), cents_text(trade.bid))
            for trade in trades]


def estimate(base, books, order):
    return [tuple(estimate_of(base, books, order).fields)]


def records_of(base, books, trade):
    """Yields the records of a trade in a lookup."""
    yield ("trade", str(trade.ident), str(trade.stamp), trade.status, trade.type, trade.symbol,
           str(trade.quantity), cents_text(trade.bid), trade.executor,
           "" if trade.price is None else cents_text(trade.price), cents_text(trade.charge),
           cents_text(trade.commission), cents_text(trade.tax),
           "cash" if trade.cash else "margin", "lifo" if trade.lifo else "fifo")
    if trade.completed:
        due, amount = books.settled[trade.ident]
        yield "settlement", trade.settled_as, day_text(due), cents_text(amount)
        if trade.cash:
            yield "cash", str(trade.stamp), cents_text(amount), trade.cash_name
    for stamp, code in trade.statuses:
        yield "history", str(stamp), code


def found(base, books, trades):
    return [record for trade in oldest_first(trades)[:MOST_FOUND]
            for record in records_of(base, books, trade)]


def trades(base, books, idents):
    require(all(ident in base.trades for ident in idents), Refusal.NoTrade)
    return found(base, books, [base.trades[ident] for ident in idents])


def accounttrades(base, books, account, first, last):
    return found(base, books, [trade for trade in trades_of(base, account)
                               if first <= trade.stamp <= last])


def symboltrades(base, books, symbol, first, last):
    require(symbol in base.securities, Refusal.NoSecurity)
    return found(base, books, [trade for trade in base.trades.values()
                               if trade.symbol == symbol and first <= trade.stamp <= last])


def lots(base, books, account, first):
    """Returns the oldest trade from a stamp on, and the changes of all lots that it touched."""
    later = oldest_first(trade for trade in trades_of(base, account) if trade.stamp >= first)
    if not later:
        return []
    touched = {lot for lot, trade, _, _ in books.lot_changes if trade == later[0].ident}
    changes = sorted((base.trades[trade].stamp, lot, trade, before, after)
                     for lot, trade, before, after in books.lot_changes if lot in touched)
    return [(str(later[0].ident),), *(tuple(map(str, row)) for _, *row in changes[:MOST_FOUND])]


def volume(base, books, sector, names):
    """Returns the pending volume of named brokers in a sector."""
    volumes = {}
    for trade in books.requests():
        broker = base.accounts[trade.account].broker
        if base.securities[trade.symbol].sector == sector and base.brokers[broker] in names:
            volumes[broker] = volumes.get(broker, 0) + trade.quantity * trade.bid
    rows = sorted((-value, base.brokers[broker], broker) for broker, value in volumes.items())
    return [(name, str(broker), cents_text(-negative)) for negative, name, broker in rows]


VIEWS = {view.__name__: view for view in (
    customer, taxid, recent, status, submitted, estimate, trades, accounttrades, symboltrades, lots,
    volume)}
