"""Positions, as lots in the order of their opening, and the effect of a trade on them."""

from typing import List, NamedTuple, Tuple


class Lot(NamedTuple):
    """The open shares of one trade: a run of equal shares. A quantity below 0 is sold short."""
    trade: int
    price: int
    stamp: int
    quantity: int


class Closing(NamedTuple):
    """The lots that a trade changes, as (lot, before, after), and the closed shares' values."""
    changes: List[Tuple[int, int, int]]
    buy_value: int
    sell_value: int


def close(lots, trade, price):
    """Returns the closing by a trade at a price.

    The trade closes shares of the other sign from its end of the position. The rest opens a lot."""
    changes, needed, then, now = [], trade.quantity, 0, 0
    opposite = bool(lots) and (lots[0].quantity < 0) != (trade.sign < 0)
    for lot in (reversed(lots) if trade.lifo else lots) if opposite else ():
        if not needed:
            break
        count = min(needed, abs(lot.quantity))
        changes.append((lot.trade, lot.quantity, lot.quantity + trade.sign * count))
        then, now, needed = then + count * lot.price, now + count * price, needed - count
    if needed:
        changes.append((trade.ident, 0, trade.sign * needed))
    return Closing(changes, *((then, now) if trade.sign < 0 else (now, then)))


def book(lots, trade, changes):
    """Makes the changes of a completed trade in its position, a deque."""
    end = -1 if trade.lifo else 0
    for _, before, after in changes:
        if before == 0:
            lots.append(Lot(trade.ident, trade.price, trade.stamp, after))
        elif after == 0:
            del lots[end]
        else:
            lots[end] = lots[end]._replace(quantity=after)
