"""The commands. Each kind is a function that raises the first refusal that holds, or returns `act`.

`act` changes the base at the command's stamp, and returns the fields of the reply after the stamp.
So a refused command changes nothing."""

from typing import NamedTuple

from .amounts import (MOST_DAY, MOST_MONEY, MOST_TAX_RATE, cents_text, commission, day_of, day_text,
                      stamp_after, tax)
from .books import due_day, settled_amount
from .records import (CASH_WORDS, DEPOSIT, LIMITS, MARGIN_WORDS, MOST_ACCOUNTS, MOST_MOVES,
                      MOST_TRADES, SCHEMA, SHARES_WORDS, TYPES, UNTAXED, WITHDRAWAL, Account, Band,
                      Customer, LastTrade, Move, Permission, Security, TaxRate, Trade)
from .refusals import Refusal, require

MOST_UPDATED = 20  # trades of an update


def put(table, key, record):
    """Adds a record under a key that has none."""
    require(key not in table, Refusal.Exists)

    def act(_):
        table[key] = record
        return []
    return act


def broker(base, books, ident, name):
    return put(base.brokers, ident, name)


def customer(base, books, ident, tier, tax_id, last, first):
    require(all(other.tax_id != tax_id for other in base.customers.values()), Refusal.Exists)
    return put(base.customers, ident, Customer(ident, tier, tax_id, last, first))


def account(base, books, ident, customer_id, broker_id, name, tax_status, opening):
    require(customer_id in base.customers, Refusal.NoCustomer)
    require(broker_id in base.brokers, Refusal.NoBroker)
    opened = Account(ident, customer_id, broker_id, name, tax_status, opening)
    act = put(base.accounts, ident, opened)
    owned = sum(other.customer == customer_id for other in base.accounts.values())
    require(owned < MOST_ACCOUNTS, Refusal.Range, "accounts")
    return act


def permission(base, books, account_id, acl, tax_id, last, first):
    require(account_id in base.accounts, Refusal.NoAccount)
    return put(base.permissions, (account_id, tax_id), Permission(acl, last, first))


def security(base, books, symbol, name, exchange, sector, price):
    put_security = put(base.securities, symbol, Security(symbol, name, exchange, sector))

    def act(stamp):
        base.last_trades[symbol] = LastTrade(stamp, price, 0)
        return put_security(stamp)
    return act


def charge(base, books, type_id, tier, amount):
    return put(base.charges, (type_id, tier), amount)


def band(base, books, tier, type_id, exchange, first, last, rate):
    others = base.bands.get((tier, type_id, exchange), [])
    require(all(last < other.first or other.last < first for other in others), Refusal.Overlap)

    def act(_):
        base.bands[tier, type_id, exchange] = [*others, Band(first, last, rate)]
        return []
    return act


def taxrate(base, books, ident, name, rate):
    return put(base.taxes, ident, TaxRate(name, rate))


def custtax(base, books, customer_id, tax_id):
    require(customer_id in base.customers, Refusal.NoCustomer)
    require(tax_id in base.taxes, Refusal.NoTax)
    require((customer_id, tax_id) not in base.customer_taxes, Refusal.Exists)
    total = base.rates_of(customer_id) + base.taxes[tax_id].rate
    require(total <= MOST_TAX_RATE, Refusal.TaxSum)

    def act(_):
        base.customer_taxes.add((customer_id, tax_id))
        return []
    return act


def permitted(base, order):
    """Returns whether both names and the tax id are the customer's, or those of a permission."""
    owner, names = base.customer_of(order.account), (order.first, order.last)
    if owner.tax_id == order.tax_id and (owner.first, owner.last) == names:
        return True
    other = base.permissions.get((order.account, order.tax_id))
    return other is not None and (other.first, other.last) == names


def commission_of(base, trade, price):
    """Returns the commission of a trade at a price, with the bands of now."""
    tier, exchange = base.customer_of(trade.account).tier, base.securities[trade.symbol].exchange
    bands = base.bands.get((tier, trade.type, exchange), ())
    rates = [band.rate for band in bands if band.first <= trade.quantity <= band.last]
    require(rates, Refusal.NoRate)
    return commission(rates[0], trade.quantity, price)


def tax_of(base, trade, closing):
    """Returns the tax of a closing's gain, with the rates of now."""
    account = base.accounts[trade.account]
    if account.tax_status == UNTAXED:
        return 0
    return tax(closing.sell_value - closing.buy_value, base.rates_of(account.customer))


class Estimate(NamedTuple):
    """A trade as it would be ordered, without a status, and the numbers of its reply."""
    trade: Trade
    fields: list


def estimate(base, books, order):
    require(order.account in base.accounts, Refusal.NoAccount)
    require(order.symbol in base.securities, Refusal.NoSecurity)
    require(permitted(base, order), Refusal.NotPermitted)
    cost = base.charges.get((order.type, base.customer_of(order.account).tier))
    require(cost is not None, Refusal.NoCharge)
    price = base.last_trades[order.symbol].price if TYPES[order.type].market else order.price
    trade = Trade(
        ident=len(base.trades) + 1, type=order.type, cash=order.cash, symbol=order.symbol,
        quantity=order.quantity, bid=price, account=order.account,
        executor=f"{order.first} {order.last}", charge=cost, commission=0, lifo=order.lifo,
        statuses=())
    trade = trade._replace(commission=commission_of(base, trade, price))
    closing = books.closing(trade, price)
    assets = books.balance(order.account) + books.holdings(order.account)
    numbers = (price, closing.buy_value, closing.sell_value, tax_of(base, trade, closing),
               trade.commission, cost, assets)
    return Estimate(trade, [cents_text(number) for number in numbers])


def order(base, books, asked):
    expected = estimate(base, books, asked)
    require(len(base.trades) < MOST_TRADES, Refusal.Range, "trades")
    status = "SBMT" if TYPES[asked.type].market else "PNDG"

    def act(stamp):
        trade = expected.trade._replace(statuses=((stamp, status),))
        base.trades[trade.ident] = trade
        return [str(trade.ident), status, *expected.fields]
    return act


def triggered(kind, bid, price):
    """Returns whether a last price submits a pending trade of a type."""
    if kind == "TLS":
        return bid <= price
    return kind in ("TSL", "TLB") and bid >= price


def advance(base, trade, stamp, status):
    """Adds the next status of a trade, and returns the trade."""
    base.trades[trade.ident] = trade._replace(statuses=(*trade.statuses, (stamp, status)))
    return base.trades[trade.ident]


def feed(base, books, entries):
    require(all(symbol in base.securities for symbol, _, _ in entries), Refusal.NoSecurity)
    added = {}
    for symbol, _, quantity in entries:
        added[symbol] = added.get(symbol, 0) + quantity
    volumes = [base.last_trades[symbol].volume + quantity for symbol, quantity in added.items()]
    require(all(volume <= MOST_MONEY for volume in volumes), Refusal.Range, "volume")

    def act(stamp):
        submitted = []
        for symbol, price, quantity in entries:
            volume = base.last_trades[symbol].volume + quantity
            base.last_trades[symbol] = LastTrade(stamp, price, volume)
            for trade in sorted(books.requests(), key=lambda trade: trade.ident):
                if trade.symbol == symbol and triggered(trade.type, trade.bid, price):
                    advance(base, trade, stamp, "SBMT")
                    submitted.append(str(trade.ident))
        return submitted
    return act


def with_status(base, trade_id, status):
    """Returns a trade that has this status."""
    require(trade_id in base.trades, Refusal.NoTrade)
    trade = base.trades[trade_id]
    require(trade.status == status, Refusal.WrongStatus, trade.status)
    return trade


def cancel(base, books, trade_id):
    trade = with_status(base, trade_id, "PNDG")

    def act(stamp):
        advance(base, trade, stamp, "CNCL")
        return ["CNCL"]
    return act


def result(base, books, trade_id, price):
    trade = with_status(base, trade_id, "SBMT")
    owner = base.accounts[trade.account]
    closing = books.closing(trade, price)
    done = trade._replace(
        price=price, commission=commission_of(base, trade, price), tax=tax_of(base, trade, closing),
        settled_as=(CASH_WORDS if trade.cash else MARGIN_WORDS)[0],
        cash_name=base.cash_name(trade) if trade.cash else "")
    amount = settled_amount(done, owner.tax_status)
    summary = books.summary(trade.account, trade.symbol) + trade.sign * trade.quantity
    balance = books.balance(trade.account) + (amount if trade.cash else 0)
    require(abs(summary) <= LIMITS[SCHEMA].summary, Refusal.Range, "summary")
    require(abs(balance) <= MOST_MONEY, Refusal.Range, "balance")
    total = books.commission_total(owner.broker) + done.commission
    require(total <= MOST_MONEY, Refusal.Range, "broker")

    def act(stamp):
        due = due_day(base, stamp)
        require(due <= MOST_DAY, Refusal.ClockEnd)
        books.complete(advance(base, done, stamp, "CMPT"))
        return [cents_text(done.commission), cents_text(done.tax), cents_text(amount),
                day_text(due), cents_text(closing.buy_value), cents_text(closing.sell_value),
                cents_text(balance)]
    return act


def oldest_first(trades):
    return sorted(trades, key=lambda trade: (trade.stamp, trade.ident))


def update(base, trades, change):
    """Changes words of the chosen trades; a trade counts even if its word stays the same."""
    def act(_):
        for trade in trades:
            base.trades[trade.ident] = change(trade)
        return [str(len(trades))]
    return act


def upname(base, books, trade_ids):
    require(all(ident in base.trades for ident in trade_ids), Refusal.NoTrade)

    def change(trade):
        old, new = (" X ", " ") if " X " in trade.executor else (" ", " X ")
        return trade._replace(executor=trade.executor.replace(old, new))
    return update(base, [base.trades[ident] for ident in trade_ids], change)


def completed_between(base, first, last, chosen):
    """Returns the first completed trades of a span that `chosen` accepts."""
    return oldest_first(trade for trade in base.trades.values() if trade.completed
                        and first <= trade.stamp <= last and chosen(trade))[:MOST_UPDATED]


def upcash(base, books, account_id, first, last):
    require(account_id in base.accounts, Refusal.NoAccount)

    def change(trade):
        usual, other = ("Cash Account", "Cash") if trade.cash else ("Margin Account", "Margin")
        return trade._replace(settled_as=other if trade.settled_as == usual else usual)
    trades = completed_between(base, first, last, lambda trade: trade.account == account_id)
    return update(base, trades, change)


def uptext(base, books, symbol, first, last):
    require(symbol in base.securities, Refusal.NoSecurity)

    def change(trade):
        small, great = SHARES_WORDS
        word = great if small in trade.cash_name else small
        return trade._replace(cash_name=base.cash_name(trade, word))

    def chosen(trade):
        return trade.cash and trade.symbol == symbol
    return update(base, completed_between(base, first, last, chosen), change)


def move(base, books, account_id, amount, name):
    require(account_id in base.accounts, Refusal.NoAccount)
    balance = books.balance(account_id) + amount
    require(abs(balance) <= MOST_MONEY, Refusal.Range, "balance")
    require(len(base.moves) < MOST_MOVES, Refusal.Range, "moves")

    def act(stamp):
        base.moves.append(Move(account_id, stamp, amount, name))
        books.add_cash(account_id, amount)
        return [str(books.cash_count), cents_text(balance)]
    return act


def deposit(base, books, account_id, amount):
    return move(base, books, account_id, amount, DEPOSIT)


def withdraw(base, books, account_id, amount):
    return move(base, books, account_id, -amount, WITHDRAWAL)


def oneday(base, books, day):
    require(base.one_day is None, Refusal.Exists)

    def act(stamp):
        require(day > day_of(stamp), Refusal.TooEarly)
        base.one_day = day
        return []
    return act


KINDS = {kind.__name__: kind for kind in (
    broker, customer, account, permission, security, charge, band, taxrate, custtax, order, feed,
    cancel, result, upname, upcash, uptext, deposit, withdraw, oneday)}


def step(base, books, moment, command):
    """Executes a command, and returns the fields of its reply, the stamp first."""
    act = KINDS[command.kind](base, books, *command.values)
    stamp = stamp_after(base.last_stamp, moment)
    require(stamp is not None, Refusal.ClockEnd)
    fields = act(stamp)
    base.last_stamp = stamp
    return [str(stamp), *fields]
