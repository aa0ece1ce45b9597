"""The words and the forms of numbers, times and names, and functions of SQL for them."""

import datetime
import re

from desk_books import DAY_MS, TYPES, amount_text, day_text

STATUSES = {"PNDG": "Pending", "SBMT": "Submitted", "CMPT": "Completed", "CNCL": "Canceled"}
TAX = {0: "no tax", 1: "tax withheld", 2: "tax reported, not withheld"}
ENDS = {"fifo": "first in first out", "lifo": "last in first out"}
BUYS = ("TMB", "TLB")
AMOUNT = re.compile(r"-?[0-9]+\.[0-9]{2}")
PERCENT = re.compile(r"(-?[0-9]+(?:\.[0-9]+)?) %")
TIME = re.compile(r"([0-9]{4}-[0-9]{2}-[0-9]{2} [0-9]{2}:[0-9]{2}:[0-9]{2})\.[0-9]{3}")
# what a spreadsheet takes for a formula
FORMULA = ("=", "+", "@", "-", "\t", "\r")
HEADS = {"ASKED": "Asked price", "DUE": "Due on", "N": "Row", "BUY_VALUE": "Bought for",
         "SELL_VALUE": "Sold for", "QTY": "Shares", "CASH": "Settles by", "END": "Closes"}


def head(name):
    return HEADS.get(name, name.replace("_", " ").capitalize())


def grouped(value):
    """A number with commas between thousands: `-1,025.10`. Its minus is a hyphen."""
    sign, digits, cents = re.fullmatch(r"(-?)([0-9]+)(.*)", str(value)).groups()
    return f"{sign}{int(digits):,}{cents}"


def percent(part, of):
    """A rate of so many parts of a whole, without zeros at its end: `20.625 %`."""
    whole = of // 100
    text = f"{part // whole}.{part % whole:0{len(str(whole)) - 1}}"
    return f"{text.rstrip('0').rstrip('.')} %"


def distance(price, last):
    """How far a price is above the last one, or below, in percent with one digit: `-3.2 %`."""
    tenths = (abs(price - last) * 2000 + last) // (2 * last)
    return f"{'-' if price < last and tenths else ''}{tenths // 10}.{tenths % 10} %"


def age(milliseconds):
    minutes = max(0, milliseconds) // 60_000
    days, hours = divmod(minutes // 60, 24)
    if days:
        return f"{days} d {hours} h"
    return f"{hours} h {minutes % 60} min" if hours else f"{minutes} min"


def moment(seconds):
    """A reading of the machine's clock in UTC, as text."""
    when = datetime.datetime.fromtimestamp(seconds, datetime.timezone.utc)
    return when.strftime("%Y-%m-%d %H:%M:%S")


def sort_key(value):
    """The number of an amount in cents, or of a percentage, and any other value as it is."""
    if isinstance(value, str) and AMOUNT.fullmatch(value):
        cents = int(value.replace(".", ""))
        return cents if abs(cents) < 1 << 62 else float(cents)
    found = PERCENT.fullmatch(value) if isinstance(value, str) else None
    return float(found[1]) if found else value


def cents_of(text):
    return int(text.replace(".", ""))


def plain_cell(value):
    """A cell of CSV: a text that a spreadsheet takes for a formula is marked as a text."""
    is_number = isinstance(value, int) or value is None or AMOUNT.fullmatch(str(value))
    return value if is_number or not str(value).startswith(FORMULA) else f"'{value}"


def sum_text(high, low):
    """The exact sum of amounts of which millions of cents and the rest were added up apart."""
    return amount_text((high or 0) * 1_000_000 + (low or 0))


def has_words(filter_text, *cells):
    """Whether each word of a filter is in one of the cells, without regard to case."""
    text = "\n".join("" if cell is None else str(cell) for cell in cells).lower()
    return all(word in text for word in filter_text.lower().split())


def add_functions(conn):
    for name, count, function in (
        ("sort_key", 1, sort_key), ("sum_text", 2, sum_text), ("has_words", -1, has_words),
        ("age_text", 1, age), ("distance_text", 2, distance),
    ):
        conn.create_function(name, count, function, deterministic=True)


def day_of(text):
    """The number of a day since 1970-01-01. Raises ValueError."""
    return (datetime.date.fromisoformat(text) - datetime.date(1970, 1, 1)).days


def month_of(day):
    return day_text(day)[:7]


def days_of_month(month):
    """The first and the last day of `2024-03`. Raises ValueError."""
    first = datetime.date.fromisoformat(f"{month}-01")
    after = (first.replace(day=28) + datetime.timedelta(days=4)).replace(day=1)
    return day_of(first.isoformat()), day_of(after.isoformat()) - 1


def last_working_day(day):
    """The working day before a day: no bank pays on a Saturday or a Sunday."""
    day -= 1
    # 1970-01-01 was a Thursday
    while (day + 3) % 7 > 4:
        day -= 1
    return day
