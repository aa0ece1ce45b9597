"""Figures that need no desk: each input line of the command `figures` has one.

The rules have the arithmetic, and crates/brk_tests_cases/README.md the forms of the lines."""

from .amounts import (MOST_DAY, cents_text, commission, day_of, day_text, half_up, parse_cents,
                      parse_day, parse_whole, stamp_after, tax)
from .records import MOST_ID, REPORTED, TYPES
from .step import triggered


def whole(text):
    return parse_whole(text, MOST_ID)


def numbered(day):
    return None if day is None or day > MOST_DAY else f"{day_text(day)} {day}"


def day(text):
    return numbered(parse_day(text))


def day_of_stamp(stamp):
    return numbered(day_of(int(stamp)))


def days_later(text, days):
    return numbered(parse_day(text) + int(days))


def next_stamp(last, moment):
    return stamp_after(None if last == "-" else int(last), int(moment))


def tax_status(text):
    return parse_whole(text, REPORTED)


def quotient(n, d):
    return half_up(int(n), int(d))


def commission_at(rate, quantity, price):
    return cents_text(commission(int(rate), int(quantity), parse_cents(price)))


def tax_at(gain, rate):
    return cents_text(tax(parse_cents(gain), int(rate)))


def trigger(kind, bid, price):
    return "true" if triggered(kind, parse_cents(bid), parse_cents(price)) else "false"


def type_of(text):
    if text not in TYPES:
        return None
    kind = TYPES[text]
    side, status = "sell" if kind.sells else "buy", "submitted" if kind.market else "pending"
    return f"{kind.name} {side} {status}"


# the figures by name, with the number of their arguments
FIGURES = {
    "cents": (parse_cents, 1), "whole": (whole, 1), "day": (day, 1), "day-of": (day_of_stamp, 1),
    "days-later": (days_later, 2), "stamp-after": (next_stamp, 2), "tax-status": (tax_status, 1),
    "half-up": (quotient, 2), "commission": (commission_at, 3), "tax": (tax_at, 2),
    "trigger": (trigger, 3), "type": (type_of, 1),
}


def figure(name, text):
    """Returns the figure of a line, or `none`."""
    work, count = FIGURES[name]
    arguments = text.split(" ")
    found = work(*arguments) if len(arguments) == count else None
    return "none" if found is None else str(found)
