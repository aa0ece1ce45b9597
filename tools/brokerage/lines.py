"""The forms of lines in explanations. docs/formats/explanations.md has them."""

import datetime

from .amounts import cents_text

BEGINNING = datetime.datetime(1970, 1, 1)
TIME = 23  # places of a time
ID, SHARES, PRICE, VALUE, AMOUNT = 13, 11, 10, 16, 22  # places of columns of numbers
SYMBOL = -15  # a width below 0 is that of a column to the left


def time_text(stamp):
    """Returns the time of a stamp in UTC, to the millisecond."""
    return (BEGINNING + datetime.timedelta(milliseconds=stamp)).isoformat(" ", "milliseconds")


def words(label, text):
    return f"{label:<15} {text}\n"


def fact(label, number, *rest):
    """Returns the line of a number, with the words that follow it."""
    return " ".join((f"{label:<15} {number:>22}", *rest)) + "\n"


def money(label, cents, *rest):
    return fact(label, cents_text(cents), *rest)


def column(value, width):
    return f"{value:<{-width}}" if width < 0 else f"{value:>{width}}"


def row(word, *columns):
    """Returns a row: a word, and columns as (value, width), or as a text of its own width."""
    texts = (it if isinstance(it, str) else column(*it) for it in columns)
    return " ".join((f"{word:<6}", *texts)) + "\n"


def heads(*columns):
    """Returns the names of the columns of the rows below."""
    return row("#", *columns)
