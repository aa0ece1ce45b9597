"""The rows that a clerk books, in two steps: a form, and the row in words with what it does."""

import re

import desk_client
from desk_client import KINDS, cents

from . import tables, words
from .derive import half_up
from .words import TYPES, amount_text, grouped

# each kind of row: its name, and the field that a screen gives it
ACTIONS = {"order": "Order", "result": "Result of a trade", "feed": "Tick of the market",
           "cancel": "Cancel of an order", "deposit": "Deposit", "withdraw": "Withdrawal"}
FIXED = {"order": "ACCOUNT", "result": "TRADE", "cancel": "TRADE", "deposit": "ACCOUNT",
         "withdraw": "ACCOUNT"}
TRADE_STATUS = {"result": "SBMT", "cancel": "PNDG"}
MONEY = ("amount", "price", "price or empty")


class Wrong(Exception):
    """A field that is not as it has to be: its name, and a line about it."""


def fields_of(kind, given):
    """The row of a form. Amounts may lack their cents. Raises Wrong."""
    row = [kind]
    for line in KINDS[kind]:
        name, form, text = line["field"], line["form"], given.get(line["field"], "").strip()
        if form in (*MONEY, "quantity"):
            text = text.replace(",", "")
        if form in MONEY and re.fullmatch(r"[0-9]+(\.[0-9])?", text):
            text = f"{text}0" if "." in text else f"{text}.00"
        text = text.upper() if form == "symbol" else text
        if not desk_client.has_form(text, line):
            limits = f", from {line['least']} to {line['greatest']}" if line["least"] else ""
            raise Wrong(name, f"{text or 'nothing'} is no {form}{limits}.")
        row.append(text)
    if kind == "order" and (row[5] == "") != (row[2] in ("TMB", "TMS")):
        raise Wrong("PRICE", "A market order has no price, and each other order has one.")
    return row


class Effect:
    """What a row does, as far as it is known before it is booked: the sentence, the lines with a
    value before and after, the warnings, and the words of the button."""

    def __init__(self, sentence, button):
        self.sentence, self.button, self.lines, self.warnings = sentence, button, [], []
        self.trades, self.told = [], None

    def change(self, label, before, after, is_cash):
        """A line with a value before and after. A fall below zero is a warning."""
        told = [grouped(amount_text(value) if is_cash else value) for value in (before, after)]
        self.lines.append((label, *told, after < 0))
        if after < 0 and after < before:
            what = told[1] if is_cash else f"{told[1]} shares"
            self.warn(f"{label} below zero: {what}.", f"leaving {what}")

    def warn(self, sentence, of_button):
        self.warnings.append(sentence)
        self.button += f", {of_button}"

    def compare(self, price, last, percent):
        """Says how far a price is from the last one, and warns beyond so many percent."""
        old, new = amount_text(last), amount_text(price)
        is_far = abs(price - last) * 100 > percent * last
        self.lines.append(("Price after the last price", grouped(old), grouped(new), is_far))
        if is_far:
            side = "above" if price > last else "below"
            far = f"{words.distance(price, last).lstrip('-')} {side} the last price"
            self.warn(f"{new} is {far} {old}.", far)

    def settle(self, conn, head, kind, symbol, qty, costs, is_cash):
        """The lines of a trade, for its price, BUY, SELL, tax, commission and charge."""
        price, buy, sell, tax, commission, charge = costs
        sign = 1 if kind in words.BUYS else -1
        withheld = tax if head["CA_TAX_ST"] == 1 else 0
        amount = -sign * qty * price - charge - commission - withheld
        self.told = [("Value", qty * price), ("Gain", sell - buy), ("Tax", tax),
                     ("Commission", commission), ("Charge", charge),
                     ("Cost" if sign > 0 else "Proceeds", abs(amount))]
        held = tables.record(conn, "held", account=head["CA_ID"], symbol=symbol)["SHARES"]
        self.change(f"{symbol} shares", held, held + sign * qty, False)
        self.change("Cash", head["CA_BAL"], head["CA_BAL"] + (amount if is_cash else 0), True)


def side_of(kind):
    return "Buy" if kind in words.BUYS else "Sell"


def of_account(head):
    return f"account {head['CA_ID']} {head['CA_NAME']} of {head['C_F_NAME']} {head['C_L_NAME']}"


def found_of(conn, name, field, key):
    found = tables.record(conn, name, **{field.lower(): key})
    if found is None:
        raise Wrong(field, f"There is no {name} {key}. Find it by name in the field above.")
    return found


def trade_of(conn, kind, trade):
    found, wanted = found_of(conn, "trade", "TRADE", int(trade)), TRADE_STATUS[kind]
    if found["T_ST_ID"] != wanted:
        now, then = (words.STATUSES[status].lower() for status in (found["T_ST_ID"], wanted))
        raise Wrong("TRADE", f"Trade {trade} is {now}: a {kind} is for an order that is {then}.")
    return found


def described(found):
    return (f"{side_of(found['T_TT_ID']).lower()} {grouped(found['T_QTY'])} {found['T_S_SYMB']} "
            f"({found['S_NAME']}) for {of_account(found)}, {TYPES[found['T_TT_ID']]}, asked "
            f"{amount_text(found['T_BID_PRICE'])}, last {amount_text(found['LT_PRICE'])}")


def order(conn, row, clerk, percent):
    _, account, kind, symbol, qty, price, cash, end, first, last, taxid = row
    head = found_of(conn, "account", "ACCOUNT", int(account))
    security = found_of(conn, "security", "SYMBOL", symbol)
    at = {"TLB": f"at {price} or below", "TLS": f"at {price} or above",
          "TSL": f"once the price is {price} or below"}.get(kind, "at the market")
    what = f"{side_of(kind)} {grouped(qty)} {symbol}"
    effect = Effect(f"{what} ({security['S_NAME']}) for {of_account(head)}, {at}; last "
                    f"{security['LAST_PRICE']}. {TYPES[kind]}, settles by {cash}, closes "
                    f"{words.ENDS[end]}, ordered by {first} {last} ({taxid}).",
                    f"{what} at {price}" if price else what)
    estimate = [cents(text) for text in clerk.estimate(row[1:])]
    if price:
        effect.compare(estimate[0], security["LT_PRICE"], percent)
    effect.settle(conn, head, kind, symbol, int(qty), estimate[:6], cash == "cash")
    return effect


def result(conn, row, clerk, percent):
    found, price = trade_of(conn, "result", row[1]), cents(row[2])
    effect = Effect(f"Book the result of trade {row[1]}: {described(found)}; executed at {row[2]}.",
                    f"Book {row[2]}")
    effect.compare(price, found["LT_PRICE"], percent)
    kind, symbol, qty, buy, sell = found["T_TT_ID"], found["T_S_SYMB"], found["T_QTY"], 0, 0
    is_buy, left = kind in words.BUYS, qty
    for lot in tables.records(conn, "to_close", account=found["CA_ID"], symbol=symbol,
                              is_buy=is_buy, is_lifo=found["T_LIFO"]):
        taken = min(lot["SHARES"], left)
        left -= taken
        buy += taken * (price if is_buy else lot["PRICE"])
        sell += taken * (lot["PRICE"] if is_buy else price)
    is_taxed = sell > buy and found["CA_TAX_ST"]
    tax = half_up((sell - buy) * (found["RATES"] or 0), 100_000) if is_taxed else 0
    commission = half_up((found["BAND"] or 0) * qty * price, 10_000)
    costs = (price, buy, sell, tax, commission, found["T_CHRG"])
    effect.settle(conn, found, kind, symbol, qty, costs, found["T_IS_CASH"])
    return effect


def feed(conn, row, clerk, percent):
    _, symbol, price, qty = row
    security = found_of(conn, "security", "SYMBOL", symbol)
    effect = Effect(f"A tick: {grouped(qty)} {symbol} ({security['S_NAME']}) were traded at "
                    f"{price}; last {security['LAST_PRICE']}.", f"Book {price} for {symbol}")
    effect.compare(cents(price), security["LT_PRICE"], percent)
    effect.trades = tables.records(conn, "reached", symbol=symbol, price=cents(price))
    count = len(effect.trades)
    if count:
        effect.warn(f"It submits {count} of the pending orders.", f"submitting {count}")
    return effect


def cancel(conn, row, clerk, percent):
    found = trade_of(conn, "cancel", row[1])
    name = f"Cancel trade {row[1]}"
    return Effect(f"{name}: {described(found)}. Its charge and commission are never charged.", name)


def movement(conn, row, clerk, percent):
    kind, account, amount = row
    head, sign = found_of(conn, "account", "ACCOUNT", int(account)), 1 if kind == "deposit" else -1
    name = f"{'Deposit' if sign > 0 else 'Withdraw'} {grouped(amount)}"
    effect = Effect(f"{name} {'into' if sign > 0 else 'from'} {of_account(head)}.", name)
    effect.change("Cash", head["CA_BAL"], head["CA_BAL"] + sign * cents(amount), True)
    return effect


# what a row would do, by the snapshot; of an order also by the estimate of the desk
EFFECTS = {"order": order, "result": result, "feed": feed, "cancel": cancel, "deposit": movement,
           "withdraw": movement}


def told(row, reply):
    """What a row did, in words, for its reply."""
    kind, fields = row[0], [grouped(text) if words.AMOUNT.fullmatch(text) else text
                            for text in reply.fields[1:]]
    if kind == "order":
        is_submitted = fields[1] == "SBMT"
        state = "submitted: the market has it" if is_submitted else "pending: it waits for a tick"
        return f"It is trade {fields[0]}, {state}, at {fields[2]}."
    if kind == "result":
        return (f"Trade {row[1]} is completed: commission {fields[0]}, tax {fields[1]}, settlement "
                f"{fields[2]} due on {fields[3]}, balance {fields[6]}.")
    if kind == "feed":
        return f"The last price is changed. It submitted {', '.join(fields) or 'no order'}."
    if kind == "cancel":
        return f"Trade {row[1]} is canceled."
    return f"It is cash row {fields[0]}; the balance of account {row[1]} is {fields[1]}."


def sentence(row):
    """A row in short words, without the books."""
    names = [line["field"].lower() for line in KINDS[row[0]]]
    told = ", ".join(f"{name} {text}" for name, text in zip(names, row[1:]) if text)
    return f"{ACTIONS.get(row[0], row[0])}: {told}"


def link_of(row, reply):
    """The screen of what a row changed, and its name in the address."""
    if row[0] in ("order", "result", "cancel"):
        return "trade", {"trade": reply.fields[1] if row[0] == "order" else row[1]}
    screen, name = ("security", "symbol") if row[0] == "feed" else ("account", "account")
    return screen, {name: row[1]}
