"""What a desk keeps: reference records, trades, movements of cash, and the rows kept with keys."""

from typing import Dict, List, NamedTuple, Optional, Set, Tuple

SCHEMA = 3
MOST_ID = 10**12
MOST_TRADES = 10**12
MOST_MOVES = 10**12
MOST_ACCOUNTS = 10  # of a customer


class Limits(NamedTuple):
    """The limits of quantities in a schema."""
    quantity: int
    summary: int  # either way


LIMITS = {
    1: Limits(999_999, 999_999_999),
    2: Limits(999_999, 999_999_999),
    3: Limits(9_999_999, 9_999_999_999),
}


class Type(NamedTuple):
    name: str
    sells: bool
    market: bool


TYPES = {
    "TMB": Type("Market-Buy", False, True),
    "TMS": Type("Market-Sell", True, True),
    "TSL": Type("Stop-Loss", True, False),
    "TLS": Type("Limit-Sell", True, False),
    "TLB": Type("Limit-Buy", False, False),
}
STATUSES = {
    "CMPT": "Completed",
    "ACTV": "Active",
    "SBMT": "Submitted",
    "PNDG": "Pending",
    "CNCL": "Canceled",
}
# the statuses that may follow a status; None is before the first one
NEXT_STATUSES = {None: ("SBMT", "PNDG"), "PNDG": ("SBMT", "CNCL"), "SBMT": ("CMPT",)}

UNTAXED, WITHHELD, REPORTED = 0, 1, 2

# the cash types of a settlement, the first one first
CASH_WORDS = ("Cash Account", "Cash")
MARGIN_WORDS = ("Margin", "Margin Account")
# the words between the quantity and the security's name in a cash row, the first one first
SHARES_WORDS = (" shares of ", " Shares of ")
DEPOSIT, WITHDRAWAL = "Deposit", "Withdrawal"


class Customer(NamedTuple):
    ident: int
    tier: int
    tax_id: str
    last: str
    first: str


class Account(NamedTuple):
    ident: int
    customer: int
    broker: int
    name: str
    tax_status: int
    opening: int


class Permission(NamedTuple):
    acl: str
    last: str
    first: str


class Security(NamedTuple):
    symbol: str
    name: str
    exchange: str
    sector: str


class LastTrade(NamedTuple):
    stamp: int
    price: int
    volume: int


class Band(NamedTuple):
    """The commission rate of the quantities from `first` to `last`, both included."""
    first: int
    last: int
    rate: int


class TaxRate(NamedTuple):
    name: str
    rate: int


class Trade(NamedTuple):
    """A trade with its recorded numbers and words, and its statuses as (stamp, status)."""
    ident: int
    type: str
    cash: bool
    symbol: str
    quantity: int
    bid: int
    account: int
    executor: str
    charge: int
    commission: int
    lifo: bool
    statuses: Tuple[Tuple[int, str], ...]
    tax: int = 0
    price: Optional[int] = None
    settled_as: str = ""
    cash_name: str = ""

    @property
    def status(self):
        return self.statuses[-1][1]

    @property
    def stamp(self):
        return self.statuses[-1][0]

    @property
    def completed(self):
        return self.status == "CMPT"

    @property
    def sign(self):
        return -1 if TYPES[self.type].sells else 1


class Move(NamedTuple):
    """A deposit, or a withdrawal, whose amount is below 0."""
    account: int
    stamp: int
    amount: int
    name: str


class Base:
    """All that a desk keeps and does not derive."""

    def __init__(self):
        self.brokers: Dict[int, str] = {}
        self.customers: Dict[int, Customer] = {}
        self.accounts: Dict[int, Account] = {}
        self.permissions: Dict[Tuple[int, str], Permission] = {}  # by account and tax id
        self.securities: Dict[str, Security] = {}
        self.last_trades: Dict[str, LastTrade] = {}
        self.charges: Dict[Tuple[str, int], int] = {}  # by type and tier
        self.bands: Dict[Tuple[int, str, str], List[Band]] = {}  # by tier, type and exchange
        self.taxes: Dict[int, TaxRate] = {}
        self.customer_taxes: Set[Tuple[int, int]] = set()
        self.trades: Dict[int, Trade] = {}
        self.moves: List[Move] = []
        self.one_day: Optional[int] = None  # the first day of one-day settlement
        self.kept: Dict[Tuple[str, int], Tuple[str, str]] = {}  # by batch and number: row, line
        self.last_stamp: Optional[int] = None

    def customer_of(self, account):
        return self.customers[self.accounts[account].customer]

    def rates_of(self, customer):
        """Returns the sum of the customer's tax rates."""
        return sum(self.taxes[tax].rate for owner, tax in self.customer_taxes if owner == customer)

    def days_to_settle(self, day):
        """Returns the days from a completion on `day` to its due day."""
        return 1 if self.one_day is not None and day >= self.one_day else 2

    def cash_name(self, trade, word=SHARES_WORDS[0]):
        """Returns the text of a trade's cash row."""
        name = self.securities[trade.symbol].name
        return f"{TYPES[trade.type].name} {trade.quantity}{word}{name}"
