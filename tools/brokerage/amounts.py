"""Amounts, stamps and days: their arithmetic, their limits, and the one text of each value."""

import datetime
import re

MOST_MONEY = 10**17  # cents, either way
MOST_PRICE = 9_999_999  # cents
MOST_CHARGE = 1_000_000  # cents
WHOLE_RATE = 10_000  # 100 % of a commission rate, in hundredths of a percent
WHOLE_TAX_RATE = 100_000  # 100 % of a tax rate, in thousandths of a percent
MOST_RATE = WHOLE_RATE
MOST_TAX_RATE = WHOLE_TAX_RATE  # of one rate, and of a customer's sum
MOST_STAMP = 253_402_300_799_999  # milliseconds since 1970-01-01 UTC
DAY = 86_400_000  # milliseconds
MOST_DAY = MOST_STAMP // DAY  # 9999-12-31, in days since 1970-01-01
EPOCH = datetime.date(1970, 1, 1).toordinal()

WHOLE_FORM = re.compile("0|[1-9][0-9]*")
CENTS_FORM = re.compile(r"(-?)(0|[1-9][0-9]*)\.([0-9]{2})")
DAY_FORM = re.compile("([0-9]{4})-([0-9]{2})-([0-9]{2})")


def half_up(n, d):
    return (2 * n + d) // (2 * d)


def commission(rate, quantity, price):
    return half_up(rate * quantity * price, WHOLE_RATE)


def tax(gain, rates):
    """Returns the tax of a gain, rounded once for a trade. A loss has none."""
    return half_up(gain * rates, WHOLE_TAX_RATE) if gain > 0 else 0


def stamp_after(last, moment):
    """Returns the stamp of the next accepted command, or None at the end of the clock."""
    stamp = moment if last is None else max(moment, last + 1)
    return stamp if stamp <= MOST_STAMP else None


def day_of(stamp):
    return stamp // DAY


def parse_whole(text, most):
    """Returns a number from 0 to `most`, or None. A text of any length is read."""
    if not WHOLE_FORM.fullmatch(text) or len(text) > len(str(most)) or int(text) > most:
        return None
    return int(text)


def parse_cents(text):
    """Returns the cents of an amount, or None. 0.00 has no minus."""
    form = CENTS_FORM.fullmatch(text)
    if not form:
        return None
    minus, units, rest = form.groups()
    cents = parse_whole((units + rest).lstrip("0") or "0", MOST_MONEY)
    if cents is None or (minus and cents == 0):
        return None
    return -cents if minus else cents


def cents_text(cents):
    return f"{'-' * (cents < 0)}{abs(cents) // 100}.{abs(cents) % 100:02}"


def parse_day(text):
    """Returns the number of a day from 1970-01-01 to 9999-12-31, or None."""
    form = DAY_FORM.fullmatch(text)
    if not form:
        return None
    try:
        day = datetime.date(*map(int, form.groups())).toordinal() - EPOCH
    except ValueError:
        return None
    return day if day >= 0 else None


def day_text(day):
    return datetime.date.fromordinal(EPOCH + day).isoformat()
