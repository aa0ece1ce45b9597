"""What fills.py books for an order whose fills have no mean price in whole cents.

The cash of such an order is that of its fills at their own prices: their exact value, the charge of the
order, one commission on that value, and for tax status 1 the tax on the gain of the shares that it
closes, of which the first filled close the first lots. The desk books one result at the nearest cent,
half a cent up, with the commission and the tax of that price (docs/NUMBERS.md). The movement is the first
settlement less the second. A trade on margin moves no cash, and so has no movement.

The lots of an account in a security are those that the results before it in the batch leave.
"""

import collections

from reporting import amount_text

WITHHELD, REPORTED = 1, 2
TRADE = """
    SELECT T_ID, T_CA_ID, T_S_SYMB, T_TT_ID IN ('TMB', 'TLB'), T_QTY, T_IS_CASH, T_LIFO, T_CHRG, CA_TAX_ST,
           (SELECT CR_RATE FROM COMMISSION_RATE WHERE CR_C_TIER = C_TIER AND CR_TT_ID = T_TT_ID
                AND CR_EX_ID = S_EX_ID AND T_QTY BETWEEN CR_FROM_QTY AND CR_TO_QTY),
           (SELECT coalesce(sum(TX_RATE), 0) FROM CUSTOMER_TAXRATE JOIN TAXRATE ON TX_ID = CX_TX_ID
                WHERE CX_C_ID = CA_C_ID)
    FROM TRADE JOIN CUSTOMER_ACCOUNT ON CA_ID = T_CA_ID JOIN CUSTOMER ON C_ID = CA_C_ID
        JOIN SECURITY ON S_SYMB = T_S_SYMB
    WHERE T_ID = ?
"""
LOTS = "SELECT H_QTY, H_PRICE FROM HOLDING WHERE H_CA_ID = ? AND H_S_SYMB = ? ORDER BY H_DTS"

Trade = collections.namedtuple("Trade", "id account symbol is_buy qty is_cash is_lifo charge tax_status rate tax_rates")
# in cents; `opened` is the value of the shares that close no lot
Amounts = collections.namedtuple("Amounts", "settlement commission gain tax opened")


def half_up(number, divisor):
    return (2 * number + divisor) // (2 * divisor)


def nearest_cent(value, qty):
    """Returns the price in cents that is nearest to the mean of a value."""
    return half_up(value, qty)


def value_of_first(parts, qty):
    """Returns the value of the first shares of parts, each a number of shares and a price."""
    value = 0
    for shares, price in parts:
        value += min(shares, qty) * price
        qty -= min(shares, qty)
    return value


def closable(trade, lots):
    """Returns the lots that a trade closes, first to last."""
    sign = -1 if trade.is_buy else 1
    ordered = reversed(lots) if trade.is_lifo else lots
    return [(sign * shares, price) for shares, price in ordered if sign * shares > 0]


def amounts_of(trade, lots, parts):
    """Returns the amounts of a trade that is filled in these parts."""
    closed_lots = closable(trade, lots)
    closed = min(trade.qty, sum(shares for shares, _ in closed_lots))
    value, closed_value = value_of_first(parts, trade.qty), value_of_first(parts, closed)
    gain = (closed_value - value_of_first(closed_lots, closed)) * (-1 if trade.is_buy else 1)
    commission = half_up(trade.rate * value, 10_000)
    is_taxed = gain > 0 and trade.tax_status in (WITHHELD, REPORTED)
    tax = half_up(gain * trade.tax_rates, 100_000) if is_taxed else 0
    costs = trade.charge + commission + (tax if trade.tax_status == WITHHELD else 0)
    return Amounts((-value if trade.is_buy else value) - costs, commission, gain, tax, value - closed_value)


def lots_after(trade, lots, price):
    """Returns the lots that a result leaves, the oldest first."""
    left, kept = trade.qty, []
    sign = -1 if trade.is_buy else 1
    for shares, cost in reversed(lots) if trade.is_lifo else lots:
        closed = min(left, max(sign * shares, 0))
        left -= closed
        if sign * shares != closed:
            kept.append((shares - sign * closed, cost))
    if trade.is_lifo:
        kept.reverse()
    return kept + ([(-sign * left, price)] if left else [])


class Rounding:
    """Books results one after the other, and keeps the lots that they leave."""

    def __init__(self, conn):
        self.conn, self.lots = conn, {}

    def booked(self, trade_id, price, parts):
        """Books a result. Returns its trade, and the amounts of its parts and of the result."""
        trade = Trade(*self.conn.execute(TRADE, (trade_id,)).fetchone())
        place = trade.account, trade.symbol
        lots = self.lots[place] if place in self.lots else self.conn.execute(LOTS, place).fetchall()
        self.lots[place] = lots_after(trade, lots, price)
        return trade, amounts_of(trade, lots, parts), amounts_of(trade, lots, [(trade.qty, price)])


def movement_of(trade, right, booked):
    """Returns the row that makes the cash of a trade right, or None."""
    missing = right.settlement - booked.settlement
    if not trade.is_cash or not missing:
        return None
    return ["deposit" if missing > 0 else "withdraw", trade.account, amount_text(abs(missing))]


def wrong_text(right, booked):
    """Returns what stays wrong in the books of a trade, in words."""
    wrong = []
    for field, name in (("gain", "the gain"), ("commission", "the commission"), ("tax", "the tax"), ("opened", "the value of the lot that it opens")):
        over = getattr(booked, field) - getattr(right, field)
        if over:
            wrong.append(f"{name} is {amount_text(abs(over))} too {'large' if over > 0 else 'small'}")
    return ", ".join(wrong)


def told(trade, price, parts, right, booked):
    """Returns a rounded result in words: what moves, and what stays wrong."""
    fills = " and ".join(f"{shares} at {amount_text(cents)}" for shares, cents in parts)
    row, missing = movement_of(trade, right, booked), right.settlement - booked.settlement
    if row:
        moved = f"{'a deposit of' if row[0] == 'deposit' else 'a withdrawal of'} {row[2]} makes the cash of account {trade.account} right"
    elif missing:
        moved = f"on margin, so no movement: it settles {amount_text(booked.settlement)}, and {amount_text(right.settlement)} is right, a difference of {amount_text(missing)}"
    else:
        moved = "the cash is right"
    return f"trade {trade.id}: {fills}: the result is at {amount_text(price)}; {moved}; what stays wrong: {wrong_text(right, booked)}"
