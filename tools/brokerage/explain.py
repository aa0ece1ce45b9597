"""Explanations, as `brk explain` prints them. The rules do not know this command; its texts are
those of docs/formats/explanations.md."""

from .amounts import cents_text
from .explain_trade import explain_trade
from .forms import ident, symbol
from .lines import (AMOUNT, ID, PRICE, SHARES, SYMBOL, TIME, VALUE, fact, heads, money, row,
                    time_text, words)
from .refusals import Refusal, require


def trade(base, books, trade_id):
    require(trade_id in base.trades, Refusal.NoTrade)
    return explain_trade(base, books, base.trades[trade_id])


def posted(base, books, account_id):
    """Yields the lines of an account's cash rows, each with the balance after it."""
    balance = base.accounts[account_id].opening
    yield heads(("posted", -TIME), ("cash row", ID), ("trade", ID), ("amount", AMOUNT),
                ("balance", AMOUNT), "name")
    for place, cash in enumerate(books.cash_rows(), 1):
        if cash.account == account_id:
            balance += cash.amount
            yield row("Posted", time_text(cash.stamp), (place, ID), (cash.trade or "-", ID),
                      (cents_text(cash.amount), AMOUNT), (cents_text(balance), AMOUNT), cash.name)


def account(base, books, account_id):
    require(account_id in base.accounts, Refusal.NoAccount)
    return account_lines(base, books, base.accounts[account_id])


def account_lines(base, books, it):
    held = {symbol: quantity for symbol, quantity in books.summaries.get(it.ident, {}).items()
            if quantity}
    lots = [(symbol, lot) for symbol in sorted(held) for lot in books.lots[it.ident, symbol]]
    yield f"Account {it.ident}, times in UTC\n"
    yield words("Name", it.name)
    yield fact("Customer", it.customer)
    yield fact("Broker", it.broker)
    yield fact("Tax status", it.tax_status)
    yield money("Opening", it.opening)
    yield from posted(base, books, it.ident)
    yield money("Balance", books.balance(it.ident))
    yield heads(("symbol", SYMBOL), ("lot", ID), ("shares", SHARES), ("price", PRICE),
                ("worth", AMOUNT))
    for symbol_held, lot in lots:
        yield row("Lot", (symbol_held, SYMBOL), (lot.trade, ID), (lot.quantity, SHARES),
                  (cents_text(lot.price), PRICE))
    for symbol_held in sorted(held):
        last = base.last_trades[symbol_held].price
        yield row("Held", (symbol_held, SYMBOL), ("", ID), (held[symbol_held], SHARES),
                  (cents_text(last), PRICE), (cents_text(held[symbol_held] * last), AMOUNT))
    worth, count = books.holdings(it.ident), sum(it.ident == cash.account
                                                 for cash in books.cash_rows())
    yield money("Holdings", worth)
    yield money("Assets", books.balance(it.ident) + worth)
    yield f"Cash rows {count}, lots {len(lots)}, symbols {len(held)}\n"


def by_completion(trades):
    return sorted((it for it in trades if it.completed), key=lambda it: it.stamp)


def traded(trades):
    """Yields the lines of the trades of a holding, each with the shares held after it."""
    held = 0
    yield heads(("completed", -TIME), ("trade", ID), ("shares", SHARES), ("price", PRICE),
                ("value", VALUE), ("held", SHARES), "type")
    for it in trades:
        shares = it.sign * it.quantity
        held += shares
        yield row("Trade", time_text(it.stamp), (it.ident, ID), (shares, SHARES),
                  (cents_text(it.price), PRICE), (cents_text(shares * it.price), VALUE),
                  (held, SHARES), it.type)


def gain_of(lot, closer, before, after):
    """Returns the gain of a change of a lot: the shares that left it, times the rise in price."""
    return (before - after) * (closer.price - lot.price)


def changed(lots):
    """Yields the lines of lots, each with its changes as (later trade, before, after)."""
    yield heads(("opened or changed", -TIME), ("trade", ID), ("shares", SHARES), ("price", PRICE),
                ("cost or gain", VALUE), ("left", SHARES))
    for lot, opened, changes, left in lots:
        price = cents_text(lot.price), PRICE
        yield row("Lot", time_text(lot.stamp), (lot.ident, ID), (opened, SHARES), price,
                  (cents_text(opened * lot.price), VALUE))
        for closer, before, after in changes:
            yield row("Change", time_text(closer.stamp), (closer.ident, ID),
                      (after - before, SHARES), (cents_text(closer.price), PRICE),
                      (cents_text(gain_of(lot, closer, before, after)), VALUE), (after, SHARES))
        yield row("Left", ("", TIME), (lot.ident, ID), (left, SHARES), price,
                  (cents_text(left * lot.price), VALUE))


def lots_of(base, books, trades):
    """Returns each lot that a trade opened, as (trade, shares, later changes, what is left)."""
    changes = {}
    for lot, closer, before, after in books.lot_changes:
        changes.setdefault(lot, []).append((base.trades[closer], before, after))
    return [(it, changes[it.ident][0][2], changes[it.ident][1:], changes[it.ident][-1][2])
            for it in trades if it.ident in changes]


def holding(base, books, account_id, symbol_held):
    require(account_id in base.accounts, Refusal.NoAccount)
    require(symbol_held in base.securities, Refusal.NoSecurity)
    return holding_lines(base, books, base.accounts[account_id], symbol_held)


def holding_lines(base, books, owner, symbol_held):
    trades = by_completion(it for it in base.trades.values()
                           if (it.account, it.symbol) == (owner.ident, symbol_held))
    lots = lots_of(base, books, trades)
    values = [it.sign * it.quantity * it.price for it in trades]
    gains = [gain_of(lot, *change) for lot, _, changes, _ in lots for change in changes]
    basis = sum(left * lot.price for lot, _, _, left in lots)
    shares, last = books.summary(owner.ident, symbol_held), base.last_trades[symbol_held].price
    yield f"Holding of account {owner.ident} in {symbol_held}, times in UTC\n"
    yield words("Account name", owner.name)
    yield words("Security", base.securities[symbol_held].name)
    yield from traded(trades)
    yield from changed(lots)
    yield money("Purchases", sum(value for value in values if value > 0))
    yield money("Sales", sum(value for value in values if value < 0))
    yield money("Realised gain", sum(gains))
    yield money("Cost basis", basis)
    yield fact("Shares", shares)
    yield money("Last price", last)
    yield money("Worth", shares * last)
    yield money("Unrealised gain", shares * last - basis)
    yield (f"Trades {len(trades)}, lots {len(lots)},"
           f" open lots {sum(left != 0 for *_, left in lots)}, changes {len(gains)}\n")


def broker(base, books, broker_id):
    require(broker_id in base.brokers, Refusal.NoBroker)
    return broker_lines(base, books, broker_id)


def broker_lines(base, books, broker_id):
    accounts = {it.ident for it in base.accounts.values() if it.broker == broker_id}
    trades = by_completion(it for it in base.trades.values() if it.account in accounts)
    total = 0
    yield f"Broker {broker_id}, times in UTC\n"
    yield words("Name", base.brokers[broker_id])
    yield heads(("completed", -TIME), ("trade", ID), ("account", ID), ("commission", AMOUNT),
                ("total", AMOUNT))
    for it in trades:
        total += it.commission
        yield row("Trade", time_text(it.stamp), (it.ident, ID), (it.account, ID),
                  (cents_text(it.commission), AMOUNT), (cents_text(total), AMOUNT))
    yield money("Commissions", books.commission_total(broker_id))
    yield fact("Trades", books.counts.get(broker_id, 0))
    yield f"Accounts {len(accounts)}, trades {len(trades)}\n"


# what is explained, with the forms of its words
FORMS = {"trade": (trade, (ident,)), "account": (account, (ident,)),
         "holding": (holding, (ident, symbol)), "broker": (broker, (ident,))}


def explain(base, books, texts):
    """Returns the explanation that words ask for; wrong words are refused with 18."""
    require(texts and texts[0] in FORMS, Refusal.BadText)
    work, forms = FORMS[texts[0]]
    require(len(texts) == len(forms) + 1, Refusal.BadText)
    arguments = [form(text) for form, text in zip(forms, texts[1:])]
    return "".join(work(base, books, *arguments))
