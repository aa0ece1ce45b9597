"""The forms of fields, rows and queries: the texts of a row become a command, or are refused.

A byte that is no UTF-8 is a lone surrogate in a text ("surrogateescape")."""

import re
from typing import NamedTuple, Tuple

from .amounts import (MOST_CHARGE, MOST_MONEY, MOST_PRICE, MOST_RATE, MOST_STAMP, MOST_TAX_RATE,
                      parse_cents, parse_day, parse_whole)
from .records import LIMITS, MOST_ID, SCHEMA, TYPES
from .refusals import ORDER, Refusal, Refused, require

MOST_GROUPS = 20  # groups of a feed, ids of an update or a view, names of a view
MOST_NAME = 60  # bytes
CONTROL = re.compile("[\x00-\x1f\x7f-\x9f]")
SYMBOL = re.compile("[A-Z0-9.-]{1,15}")
EXCHANGE = re.compile("[A-Z]{1,6}")
TAX_ID = re.compile("[A-Za-z0-9-]{1,20}")
ACL = re.compile("[01]{4}")
BATCH = re.compile("[A-Za-z0-9._-]{1,40}")
SEPARATOR = "\x1f"  # between the fields of a kept row


def is_name(text):
    try:
        return 1 <= len(text.encode()) <= MOST_NAME and not CONTROL.search(text)
    except UnicodeEncodeError:
        return False


def given(value, refusal=Refusal.BadText):
    """Returns a parsed value, or refuses its field."""
    require(value is not None, refusal)
    return value


def matched(form):
    def read(text):
        require(form.fullmatch(text), Refusal.BadText)
        return text
    return read


def within(least, most, refusal=Refusal.BadText):
    def read(text):
        value = given(parse_whole(text, most), refusal)
        require(value >= least, refusal)
        return value
    return read


def cents_within(least, most, refusal=Refusal.BadText):
    def read(text):
        cents = given(parse_cents(text), refusal)
        require(least <= cents <= most, refusal)
        return cents
    return read


def one_of(words, refusal=Refusal.BadText):
    def read(text):
        require(text in words, refusal)
        return text
    return read


def name(text):
    require(is_name(text), Refusal.BadText)
    return text


def day(text):
    return given(parse_day(text))


ident = within(1, MOST_ID)
stamp = within(0, MOST_STAMP)
tier = within(1, 3)
tax_status = within(0, 2)
quantity = within(1, LIMITS[SCHEMA].quantity, Refusal.BadQty)
price = cents_within(1, MOST_PRICE, Refusal.BadPrice)
charge = cents_within(0, MOST_CHARGE)
opening = cents_within(-MOST_MONEY, MOST_MONEY)
amount = cents_within(1, MOST_MONEY)
rate = within(0, MOST_RATE)
tax_rate = within(0, MOST_TAX_RATE)
symbol = matched(SYMBOL)
exchange = matched(EXCHANGE)
tax_id = matched(TAX_ID)
acl = matched(ACL)
trade_type = one_of(TYPES, Refusal.BadType)


def read_all(forms, texts):
    """Returns the values of fields, or raises the first refusal by order. Each field has a form."""
    require(len(forms) == len(texts), Refusal.BadText)
    values, refusals = [], []
    for form, text in zip(forms, texts):
        try:
            values.append(form(text))
        except Refused as refused:
            refusals.append(refused.refusal)
    require(not refusals, min(refusals, key=ORDER.get, default=None))
    return values


def fields(*forms):
    return lambda texts: read_all(forms, texts)


def not_below(first_text):
    """Returns the form of a band's last quantity, which is refused below the first one."""
    def read(text):
        value, first = quantity(text), parse_whole(first_text, LIMITS[SCHEMA].quantity)
        require(first is None or first <= value, Refusal.BadQty)
        return value
    return read


def read_band(texts):
    first = texts[3] if len(texts) > 3 else ""
    return read_all((tier, trade_type, exchange, quantity, not_below(first), rate), texts)


def order_price(type_text):
    """Returns the form of an order's price: a market type has none, the other types have one.

    Of an unknown type the price may be both."""
    def read(text):
        if text == "":
            require(type_text not in TYPES or TYPES[type_text].market, Refusal.BadPrice)
            return None
        value = price(text)
        require(type_text not in TYPES or not TYPES[type_text].market, Refusal.BadPrice)
        return value
    return read


class Order(NamedTuple):
    account: int
    type: str
    symbol: str
    quantity: int
    price: int
    cash: bool
    lifo: bool
    first: str
    last: str
    tax_id: str


def read_order(texts):
    asked = order_price(texts[1] if len(texts) > 1 else "")
    cash, end = one_of(("cash", "margin")), one_of(("fifo", "lifo"))
    forms = ident, trade_type, symbol, quantity, asked, cash, end, name, name, tax_id
    order = Order(*read_all(forms, texts))
    return [order._replace(cash=order.cash == "cash", lifo=order.lifo == "lifo")]


def read_feed(texts):
    """Reads groups of a symbol, a price and a quantity. The number of groups is tested last."""
    require(texts and len(texts) % 3 == 0, Refusal.BadText)
    values = read_all((symbol, price, quantity) * (len(texts) // 3), texts)
    require(len(values) <= 3 * MOST_GROUPS, Refusal.TooMany)
    return [list(zip(values[0::3], values[1::3], values[2::3]))]


def read_ids(texts):
    """Reads different ids. The number of ids is tested last."""
    require(texts, Refusal.BadText)
    values = read_all((ident,) * len(texts), texts)
    require(len(set(values)) == len(values), Refusal.BadText)
    require(len(values) <= MOST_GROUPS, Refusal.TooMany)
    return [values]


def read_names(texts):
    """Reads a sector and names. A repeated name counts once."""
    require(len(texts) > 1, Refusal.BadText)
    sector, *names = read_all((name,) * len(texts), texts)
    require(len(set(names)) <= MOST_GROUPS, Refusal.TooMany)
    return [sector, set(names)]


ROWS = {
    "broker": fields(ident, name),
    "customer": fields(ident, tier, tax_id, name, name),
    "account": fields(ident, ident, ident, name, tax_status, opening),
    "permission": fields(ident, acl, tax_id, name, name),
    "security": fields(symbol, name, exchange, name, price),
    "charge": fields(trade_type, tier, charge),
    "band": read_band,
    "taxrate": fields(ident, name, tax_rate),
    "custtax": fields(ident, ident),
    "order": read_order,
    "feed": read_feed,
    "cancel": fields(ident),
    "result": fields(ident, price),
    "upname": read_ids,
    "upcash": fields(ident, stamp, stamp),
    "uptext": fields(symbol, stamp, stamp),
    "deposit": fields(ident, amount),
    "withdraw": fields(ident, amount),
    "oneday": fields(day),
}
QUERIES = {
    "customer": fields(ident),
    "taxid": fields(tax_id),
    "recent": fields(ident),
    "status": fields(ident),
    "submitted": fields(),
    "estimate": read_order,
    "trades": read_ids,
    "accounttrades": fields(ident, stamp, stamp),
    "symboltrades": fields(symbol, stamp, stamp),
    "lots": fields(ident, stamp),
    "volume": read_names,
}


class Command(NamedTuple):
    kind: str
    values: Tuple
    text: str  # its fields, which are kept with a key and compared


def parse_row(texts):
    """Returns the command of a row's fields."""
    require(texts and texts[0] in ROWS, Refusal.BadText)
    return Command(texts[0], ROWS[texts[0]](texts[1:]), SEPARATOR.join(texts))


def parse_query(view, texts):
    """Returns the arguments of a view."""
    require(view in QUERIES, Refusal.BadText)
    return QUERIES[view](texts)
