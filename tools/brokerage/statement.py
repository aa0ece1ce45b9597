"""The statement of an account for a span of days, both ends included."""

from .amounts import cents_text, day_of, day_text
from .refusals import Refusal, require


def total(word, cents):
    return f"{word:<10} {cents_text(cents):>22}\n"


def cash_line(row):
    return f"{day_text(day_of(row.stamp))} {cents_text(row.amount):>22} {row.name}\n"


def lot_line(symbol, lot):
    return f"{symbol:<15} {lot.trade:>13} {lot.quantity:>11} {cents_text(lot.price):>10}\n"


def statement(base, books, account, first, last):
    require(first <= last, Refusal.BadText)
    require(account in base.accounts, Refusal.NoAccount)
    rows = [row for row in books.cash_rows() if row.account == account]
    shown = [row for row in rows if first <= day_of(row.stamp) <= last]
    earlier = sum(row.amount for row in rows if day_of(row.stamp) < first)
    opening = base.accounts[account].opening + earlier
    symbols = sorted(symbol for holder, symbol in books.lots if holder == account)
    lots = [(symbol, lot) for symbol in symbols for lot in books.lots[account, symbol]]
    return "".join([
        f"Statement of account {account}\n",
        f"{base.accounts[account].name}\n",
        f"From {day_text(first)} to {day_text(last)}\n",
        total("Opening", opening),
        *map(cash_line, shown),
        total("Closing", opening + sum(row.amount for row in shown)),
        *(lot_line(symbol, lot) for symbol, lot in lots),
        total("Holdings", books.holdings(account)),
        f"Cash rows {len(shown)}, lots {len(lots)}\n",
    ])


def statements(base, books, first, last, customer=None):
    """Returns the statements of all accounts, or of those of a customer, by id.

    The rules do not know this command; docs/formats/statements.md has it."""
    require(first <= last, Refusal.BadText)
    require(customer is None or customer in base.customers, Refusal.NoCustomer)
    accounts = base.accounts.values()
    chosen = sorted(account.ident for account in accounts if customer in (None, account.customer))
    return "".join(statement(base, books, account, first, last) for account in chosen)
