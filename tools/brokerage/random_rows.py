"""Random rows for a desk: of all kinds, some of them to be refused."""

import copy

from .amounts import MOST_DAY, MOST_PRICE, cents_text, day_of, day_text
from .forms import ROWS, parse_row
from .records import LIMITS, SCHEMA, TYPES
from .refusals import Refused
from .step import KINDS
from .tables import ADDED

FIRST = 1_709_251_200_000  # 2024-03-01
# a kind is drawn as often as it occurs
SETTING = ("broker", "customer", "account", "permission", "security", *["charge", "band"] * 3,
           "taxrate", "custtax")
TRADING = (*ROWS, *["order"] * 14, *["result"] * 12, *["feed"] * 4, *["deposit"] * 2, "cancel",
           "withdraw", "upcash", "uptext", "upname")
# the schema that adds a kind
LATER_KINDS = {"deposit": ADDED["CASH_MOVE"], "withdraw": ADDED["CASH_MOVE"],
               "oneday": ADDED["SETTLE_RULE"]}
REFUSED = 1 / 3  # of all rows
ASTRAY = 2 / 3  # of the rows to be refused; the others are malformed
UNKNOWN = 1 / 2  # of the keys in a row that goes astray
MOST_TRIES = 8
NAMES = ("Bo", "Lee", "Ann", "Acme", "A, B & Co", 'The "Old" House', "Zoë", "a|b\\",
         "Q shares of R", "An X Lee", "n" * 60)
SYMBOLS = ("ABC", "X.1", "B-2", "7", "ABCDEFGHIJKLMNO")
EXCHANGES = ("NYSE", "AMEX")
SECTORS = ("Tech", "Oil")
JUNK = ("", "0", "01", "-1", "+1", " 1", "1 ", "x", "9" * 30, "10.0", "0.00", "-0.00", "1000000",
        "10000000", "1000000000001", "1.005", "TMX", "abc", "a\x07", "é" * 31, "2024-02-30",
        "2024-3-1", "253402300800000", "\x85", "100000.00", "1e3")


def opening_rows(dice, schema):
    """Returns rows with which orders of all types are possible."""
    most, taxed = str(LIMITS[schema].quantity), [str(dice.randint(0, 2)) for _ in range(2)]
    rows = [
        ["broker", "1", "Bo"],
        ["customer", "10", "1", "T10", "Lee", "Ann"],
        ["customer", "11", "2", "T11", "Kim", "Kay"],
        ["account", "100", "10", "1", "Main", taxed[0], "10000.00"],
        ["account", "110", "11", "1", "Side", taxed[1], "-0.01"],
        ["security", "ABC", "Acme", "NYSE", "Tech", "10.00"],
        ["security", "X.1", 'A "B" C', "NYSE", "Oil", "0.05"],
        ["taxrate", "1", "State", "20000"],
        ["custtax", "10", "1"],
        ["permission", "100", "0101", "P1", "Poe", "Pam"],
    ]
    for kind in TYPES:
        rows += [
            ["charge", kind, "1", "5.00"],
            ["charge", kind, "2", "0.00"],
            ["band", "1", kind, "NYSE", "1", most, "100"],
            ["band", "2", kind, "NYSE", "1", "100", "33"],
            ["band", "2", kind, "NYSE", "102", most, "5"],
        ]
    return rows


class Rows:
    """Draws rows for a desk, and executes them on a copy of it.

    An older schema has its own kinds and quantities. There each row is meant to be accepted: its
    database shows nothing of those refused."""

    def __init__(self, dice, desk, schema):
        self.dice, self.desk, self.schema = dice, copy.deepcopy(desk), schema
        self.base = self.desk.base
        self.astray = False  # whether keys may be unknown

    def known(self, table, other="1"):
        """Returns a key of a table, as a text."""
        if not table or self.astray and self.dice.random() < UNKNOWN:
            return other
        return str(self.dice.choice(sorted(table)))

    def fresh(self):
        return str(self.dice.choice((self.dice.randint(1, 99), self.dice.randint(1, 10**12))))

    def account_id(self):
        return self.known(self.base.accounts)

    def listed(self):
        """Returns the symbol of a security."""
        return self.known(self.base.securities, "QQQ")

    def trade_id(self, status):
        trades = [trade.ident for trade in self.base.trades.values()
                  if trade.status == status or self.astray]
        return self.known(trades, "999")

    def name(self):
        return self.dice.choice(NAMES)

    def quantity(self):
        most = self.dice.randint(1, LIMITS[self.schema].quantity)
        some = self.dice.randint(1, 400)
        return str(self.dice.choice((1, 2, 3, 5, 10, 100, 100, some, most)))

    def price(self, symbol):
        last = self.base.last_trades.get(symbol)
        near = last.price if last else 1000
        move = self.dice.randint(-1, 1) * self.dice.randint(0, near // 5 + 1)
        return cents_text(min(MOST_PRICE, max(1, near + move)))

    def span(self):
        """Returns two stamps; the second one may be below the first."""
        last = self.base.last_stamp or FIRST
        first, second = last - self.dice.randint(0, 40), last + self.dice.randint(-3, 3)
        ends = self.dice.choice(((first, second), (first, second), (0, last), (second, first)))
        return [str(max(0, stamp)) for stamp in ends]

    def broker(self):
        return [self.fresh(), self.name()]

    def customer(self):
        tier, tax_id = str(self.dice.randint(1, 3)), f"T{self.dice.randint(1, 99)}"
        return [self.fresh(), tier, tax_id, self.name(), self.name()]

    def account(self):
        opening = self.dice.choice((0, 1, -1, 1_000_000, self.dice.randint(-10**9, 10**9)))
        return [self.fresh(), self.known(self.base.customers), self.known(self.base.brokers),
                self.name(), str(self.dice.randint(0, 2)), cents_text(opening)]

    def permission(self):
        acl, tax_id = f"{self.dice.randint(0, 15):04b}", f"P{self.dice.randint(1, 9)}"
        return [self.account_id(), acl, tax_id, self.name(), self.name()]

    def security(self):
        symbol = self.dice.choice(SYMBOLS)
        return [symbol, self.name(), self.dice.choice(EXCHANGES), self.dice.choice(SECTORS),
                self.price(symbol)]

    def charge(self):
        amount = self.dice.choice((0, 1, 500, 1_000_000))
        return [self.dice.choice(list(TYPES)), str(self.dice.randint(1, 3)), cents_text(amount)]

    def band(self):
        most = LIMITS[self.schema].quantity
        first = self.dice.choice((1, 1, 1, 10, 101, 1000))
        last = self.dice.choice((9, 100, 999, most, most))
        return [str(self.dice.randint(1, 3)), self.dice.choice(list(TYPES)),
                self.dice.choice(EXCHANGES), str(first), str(last),
                self.dice.choice(("0", "1", "33", "100", "10000"))]

    def taxrate(self):
        return [self.fresh(), self.name(), self.dice.choice(("0", "1", "20000", "33333", "60000"))]

    def custtax(self):
        return [self.known(self.base.customers), self.known(self.base.taxes)]

    def persons(self, account):
        """Returns who may order for an account: first name, last name, tax id."""
        found = [(other.first, other.last, tax_id)
                 for (holder, tax_id), other in self.base.permissions.items()
                 if holder == account or self.astray]
        if account in self.base.accounts:
            owner = self.base.customer_of(account)
            found += [(owner.first, owner.last, owner.tax_id)] * 3
        return found or [("Ann", "Lee", "T10")]

    def order(self):
        account, symbol = self.account_id(), self.listed()
        kind = self.dice.choice(list(TYPES))
        return [account, kind, symbol, self.quantity(),
                "" if TYPES[kind].market else self.price(symbol),
                self.dice.choice(("cash", "cash", "margin")), self.dice.choice(("fifo", "lifo")),
                *self.dice.choice(self.persons(int(account)))]

    def feed(self):
        groups = self.dice.choice((1, 1, 2, 3, 20, 21 if self.astray else 1))
        symbols = [self.listed() for _ in range(groups)]
        return [field for symbol in symbols
                for field in (symbol, self.price(symbol), self.quantity())]

    def cancel(self):
        return [self.trade_id("PNDG")]

    def result(self):
        trade = self.trade_id("SBMT")
        record = self.base.trades.get(int(trade))
        return [trade, self.price(record.symbol if record else "")]

    def upname(self):
        count = min(len(self.base.trades), self.dice.randint(1, 5))
        return [str(trade) for trade in self.dice.sample(sorted(self.base.trades), count)]

    def upcash(self):
        return [self.account_id(), *self.span()]

    def uptext(self):
        return [self.listed(), *self.span()]

    def deposit(self):
        amount = self.dice.choice((1, 10_000, self.dice.randint(1, 10**9), 10**17))
        return [self.account_id(), cents_text(amount)]

    withdraw = deposit

    def oneday(self):
        today = day_of(self.base.last_stamp or FIRST)
        return [day_text(min(MOST_DAY, today + self.dice.randint(0, 3)))]

    def malformed(self, row):
        """Returns a row with a field changed, one more, or one less."""
        place, how = self.dice.randrange(len(row)), self.dice.randrange(8)
        if how == 0:
            return [*row, self.dice.choice(JUNK)]
        if how == 1:
            return row[:-1] or ["none"]
        return [*row[:place], self.dice.choice(JUNK), *row[place + 1:]]

    def is_refused(self, row):
        """Returns whether a row would be refused, the end of the clock and TooEarly aside."""
        try:
            command = parse_row(row)
            KINDS[command.kind](self.base, self.desk.books, *command.values)
            return False
        except Refused:
            return True

    def row(self, kinds, moment, key=None):
        """Draws a row and executes it. A third of the rows is refused, if a few tries find one."""
        refused = self.schema == SCHEMA and self.dice.random() < REFUSED
        kinds = [kind for kind in kinds if LATER_KINDS.get(kind, 1) <= self.schema]
        for _ in range(MOST_TRIES):
            self.astray = refused and self.dice.random() < ASTRAY
            kind = self.dice.choice(kinds)
            row = [kind, *getattr(self, kind)()]
            row = self.malformed(row) if refused and not self.astray else row
            if self.is_refused(row) == refused:
                break
        self.astray = False
        self.desk.do(moment, row, key)
        return row
