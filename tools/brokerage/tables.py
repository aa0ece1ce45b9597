"""The tables: their columns, the rows of a base, and the base of rows."""

import re
from typing import NamedTuple, Tuple

from .books import Books
from .records import (SCHEMA, Account, Band, Base, Customer, LastTrade, Move, Permission, Security,
                      TaxRate, Trade)

# A column is a name and a form (audit.py tests the forms). `*` marks a part of the key, `!` a
# unique column and `?` one that may be null. `>` is before the table whose key a column names.
COLUMNS = {
    "DESK": "*D_ID:one D_SCHEMA:any ?D_LAST:stamp",
    "KEPT": "*K_BATCH:batch *K_N:id K_ROW:text K_LINE:text",
    "BROKER": "*B_ID:id B_NAME:name B_NUM_TRADES:any B_COMM_TOTAL:total",
    "CUSTOMER": "*C_ID:id C_TIER:tier !C_TAX_ID:taxid C_L_NAME:name C_F_NAME:name",
    "CUSTOMER_ACCOUNT":
        "*CA_ID:id CA_C_ID:id>CUSTOMER CA_B_ID:id>BROKER CA_NAME:name CA_TAX_ST:taxst "
        "CA_OPEN:money CA_BAL:money",
    "ACCOUNT_PERMISSION":
        "*AP_CA_ID:id>CUSTOMER_ACCOUNT *AP_TAX_ID:taxid AP_ACL:acl AP_L_NAME:name AP_F_NAME:name",
    "SECURITY": "*S_SYMB:symbol S_NAME:name S_EX_ID:exchange S_SECTOR:name",
    "LAST_TRADE": "*LT_S_SYMB:symbol>SECURITY LT_DTS:stamp LT_PRICE:price LT_VOL:total",
    "CHARGE": "*CH_TT_ID:type *CH_C_TIER:tier CH_CHRG:charge",
    "COMMISSION_RATE":
        "*CR_C_TIER:tier *CR_TT_ID:type *CR_EX_ID:exchange *CR_FROM_QTY:quantity "
        "CR_TO_QTY:quantity CR_RATE:rate",
    "TAXRATE": "*TX_ID:id TX_NAME:name TX_RATE:taxrate",
    "CUSTOMER_TAXRATE": "*CX_C_ID:id>CUSTOMER *CX_TX_ID:id>TAXRATE",
    "TRADE":
        "*T_ID:id T_DTS:stamp T_ST_ID:status T_TT_ID:type T_IS_CASH:flag T_S_SYMB:symbol>SECURITY "
        "T_QTY:quantity T_BID_PRICE:price T_CA_ID:id>CUSTOMER_ACCOUNT T_EXEC_NAME:text "
        "?T_TRADE_PRICE:price T_CHRG:charge T_COMM:total T_TAX:total T_LIFO:flag",
    "TRADE_HISTORY": "*TH_T_ID:id>TRADE *TH_ST_ID:status TH_DTS:stamp",
    "TRADE_REQUEST":
        "*TR_T_ID:id>TRADE TR_TT_ID:type TR_S_SYMB:symbol>SECURITY TR_QTY:quantity "
        "TR_BID_PRICE:price TR_B_ID:id>BROKER",
    "HOLDING":
        "*H_T_ID:id>TRADE H_CA_ID:id>CUSTOMER_ACCOUNT H_S_SYMB:symbol>SECURITY H_DTS:stamp "
        "H_PRICE:price H_QTY:any",
    "HOLDING_SUMMARY": "*HS_CA_ID:id>CUSTOMER_ACCOUNT *HS_S_SYMB:symbol>SECURITY HS_QTY:summary",
    "HOLDING_HISTORY": "*HH_H_T_ID:id>TRADE *HH_T_ID:id>TRADE HH_BEFORE_QTY:any HH_AFTER_QTY:any",
    "SETTLEMENT": "*SE_T_ID:id>TRADE SE_CASH_TYPE:text SE_CASH_DUE_DATE:day SE_AMT:money",
    "CASH_TRANSACTION": "*CT_T_ID:id>TRADE CT_DTS:stamp CT_AMT:money CT_NAME:text",
    "CASH_MOVE":
        "*CM_ID:place CM_CA_ID:id>CUSTOMER_ACCOUNT ?CM_T_ID:id>TRADE CM_DTS:stamp CM_AMT:money "
        "CM_NAME:text",
    "SETTLE_RULE": "*SR_ID:one SR_DAY:day",
}
ADDED = {"CASH_MOVE": 2, "SETTLE_RULE": 3}  # the schema that adds a table
TEXT_FORMS = ("batch", "text", "name", "taxid", "acl", "symbol", "exchange", "type", "status")
COLUMN = re.compile(r"([*!?]?)(\w+):(\w+)(?:>(\w+))?")


class Column(NamedTuple):
    mark: str
    name: str
    form: str
    names: str  # the table whose key it names, or nothing

    @property
    def type(self):
        return "TEXT" if self.form in TEXT_FORMS else "INTEGER"


class Table(NamedTuple):
    name: str
    columns: Tuple[Column, ...]

    @property
    def key(self):
        """The columns of the key, which are the first ones."""
        return tuple(column.name for column in self.columns if column.mark == "*")

    def names(self):
        return tuple(column.name for column in self.columns)

    def definition(self, column):
        alone = column.mark == "*" and len(self.key) == 1
        key = TABLES[column.names].key[0] if column.names else None
        words = [column.name, column.type, "PRIMARY KEY" if alone else "",
                 "" if column.mark == "?" else "NOT NULL", "UNIQUE" if column.mark == "!" else "",
                 f"REFERENCES {column.names} ({key})" if key else ""]
        return " ".join(word for word in words if word)

    def sql(self):
        """Returns the statement that creates the table."""
        parts = [self.definition(column) for column in self.columns]
        if len(self.key) > 1:
            parts.append(f"PRIMARY KEY ({', '.join(self.key)})")
        return f"CREATE TABLE {self.name} ({', '.join(parts)}) STRICT"


TABLES = {name: Table(name, tuple(Column(*form.groups("")) for form in COLUMN.finditer(text)))
          for name, text in COLUMNS.items()}
PLACES = {name: (table.name, place)
          for table in TABLES.values() for place, name in enumerate(table.names())}


def tables_of(schema):
    return [table for name, table in TABLES.items() if ADDED.get(name, 1) <= schema]


def trade_row(trade):
    return (trade.ident, trade.stamp, trade.status, trade.type, int(trade.cash), trade.symbol,
            trade.quantity, trade.bid, trade.account, trade.executor, trade.price, trade.charge,
            trade.commission, trade.tax, int(trade.lifo))


def request_row(base, trade):
    return (trade.ident, trade.type, trade.symbol, trade.quantity, trade.bid,
            base.accounts[trade.account].broker)


def rows_of(base, books=None, schema=SCHEMA):
    """Returns the rows of each table of a schema, sorted by key."""
    books = books or Books(base)
    trades, cash = base.trades.values(), books.cash_rows()
    old = schema < ADDED["CASH_MOVE"]
    rows = {
        "DESK": [(1, schema, base.last_stamp)],
        "KEPT": [(*key, *kept) for key, kept in base.kept.items()],
        "BROKER": [(ident, name, books.counts.get(ident, 0), books.commission_total(ident))
                   for ident, name in base.brokers.items()],
        "CUSTOMER": base.customers.values(),
        "CUSTOMER_ACCOUNT": [(*account, books.balance(account.ident))
                             for account in base.accounts.values()],
        "ACCOUNT_PERMISSION": [(*key, *permission) for key, permission in base.permissions.items()],
        "SECURITY": base.securities.values(),
        "LAST_TRADE": [(symbol, *last) for symbol, last in base.last_trades.items()],
        "CHARGE": [(*key, amount) for key, amount in base.charges.items()],
        "COMMISSION_RATE": [(*key, *band) for key, bands in base.bands.items() for band in bands],
        "TAXRATE": [(ident, *rate) for ident, rate in base.taxes.items()],
        "CUSTOMER_TAXRATE": base.customer_taxes,
        "TRADE": map(trade_row, trades),
        "TRADE_HISTORY": [(trade.ident, status, stamp)
                          for trade in trades for stamp, status in trade.statuses],
        "TRADE_REQUEST": [request_row(base, trade) for trade in books.requests()],
        "HOLDING": [(lot.trade, account, symbol, lot.stamp, lot.price, lot.quantity)
                    for (account, symbol), lots in books.lots.items() for lot in lots],
        "HOLDING_SUMMARY": [(account, symbol, quantity) for account, held in books.summaries.items()
                            for symbol, quantity in held.items() if quantity],
        "HOLDING_HISTORY": books.lot_changes,
        "SETTLEMENT": [(trade, base.trades[trade].settled_as, due, amount)
                       for trade, (due, amount) in books.settled.items()],
        "CASH_TRANSACTION": [(row.trade, row.stamp, row.amount, row.name) for row in cash if old],
        "CASH_MOVE": [(place, *row) for place, row in enumerate(cash, 1)],
        "SETTLE_RULE": [] if base.one_day is None else [(1, base.one_day)],
    }
    return {table.name: sorted(map(tuple, rows[table.name]), key=lambda row: row[:len(table.key)])
            for table in tables_of(schema)}


def column(rows, name):
    """Returns the values of a column, by key. A table that an older schema lacks has none."""
    table, place = PLACES[name]
    return [row[place] for row in rows.get(table, ())]


def statuses_of(rows):
    """Returns the statuses of each trade as (stamp, status), by stamp."""
    statuses = {}
    for trade, status, stamp in rows["TRADE_HISTORY"]:
        statuses.setdefault(trade, []).append((stamp, status))
    return {trade: tuple(sorted(changes)) for trade, changes in statuses.items()}


def cash_rows_of(rows):
    """Returns the cash rows as (account, trade, stamp, amount, name), of any schema."""
    if "CASH_MOVE" in rows:
        return [row[1:] for row in rows["CASH_MOVE"]]
    accounts = dict(zip(column(rows, "T_ID"), column(rows, "T_CA_ID")))
    return [(accounts[trade], trade, *rest) for trade, *rest in rows["CASH_TRANSACTION"]]


def base_of(rows):
    """Returns the base that rows of any schema contain."""
    base, cash = Base(), cash_rows_of(rows)
    base.last_stamp = rows["DESK"][0][2]
    base.kept = {row[:2]: row[2:] for row in rows["KEPT"]}
    base.brokers = {row[0]: row[1] for row in rows["BROKER"]}
    base.customers = {row[0]: Customer(*row) for row in rows["CUSTOMER"]}
    base.accounts = {row[0]: Account(*row[:-1]) for row in rows["CUSTOMER_ACCOUNT"]}
    base.permissions = {row[:2]: Permission(*row[2:]) for row in rows["ACCOUNT_PERMISSION"]}
    base.securities = {row[0]: Security(*row) for row in rows["SECURITY"]}
    base.last_trades = {row[0]: LastTrade(*row[1:]) for row in rows["LAST_TRADE"]}
    base.charges = {row[:2]: row[2] for row in rows["CHARGE"]}
    for row in rows["COMMISSION_RATE"]:
        base.bands.setdefault(row[:3], []).append(Band(*row[3:]))
    base.taxes = {row[0]: TaxRate(*row[1:]) for row in rows["TAXRATE"]}
    base.customer_taxes = set(rows["CUSTOMER_TAXRATE"])
    base.trades = trades_of(rows, {trade: name for _, trade, _, _, name in cash})
    base.moves = [Move(account, stamp, amount, name)
                  for account, trade, stamp, amount, name in cash if trade is None]
    base.one_day = next(iter(column(rows, "SR_DAY")), None)
    return base


def trades_of(rows, cash_names):
    """Returns the trades by id. The words of a trade are those of its rows."""
    statuses = statuses_of(rows)
    settled_as = {row[0]: row[1] for row in rows["SETTLEMENT"]}
    trades = {}
    for (ident, _, _, kind, cash, symbol, quantity, bid, account, executor, price, charge,
         commission, tax, lifo) in rows["TRADE"]:
        trades[ident] = Trade(
            ident, kind, bool(cash), symbol, quantity, bid, account, executor, charge, commission,
            bool(lifo), statuses.get(ident, ()), tax, price, settled_as.get(ident, ""),
            cash_names.get(ident, ""))
    return trades
