"""The numbers of reports, row by row and in sum, against what the program prints."""

import collections
import csv
import io
import subprocess

from desks import DAY_MS, FIRST, PEERS, TOP, amount_of, cents_of, columns, date_of, day_of, facts_of, rows_of, stamp_of, total


def accounts(desk):
    """Accounts."""
    asked = {int(row[0]): (customer, row[1], row[2]) for customer, rows in desk.customers.items() for row in rows}
    report = {int(row["ACCOUNT"]): row for row in desk.report("accounts")}
    desk.tell("accounts: ask customer", {key: (int(row["CUSTOMER"]), row["BALANCE"], row["HOLDINGS"]) for key, row in report.items()}, asked)
    for account, lines in desk.accounts.items():
        row, facts = report[account], facts_of(lines)
        told = [row[name] for name in ("BROKER", "TAX_STATUS", "OPENING", "BALANCE", "HOLDINGS", "ASSETS", "CASH_ROWS", "NAME")]
        wanted = [facts[name] for name in ("Broker", "Tax status", "Opening", "Balance", "Holdings", "Assets")]
        desk.tell(f"accounts: explain account {account}", told, [*wanted, lines[-1].split()[2].rstrip(","), lines[1][16:]])
        margin = [desk.facts[trade]["Settlement"] for trade in desk.completed
                  if int(desk.facts[trade]["Account"]) == account and desk.facts[trade]["Settles by"] == "margin"]
        desk.tell(f"accounts: margin of {account}", cents_of(row["MARGIN"]), total(margin))
        desk.tell(f"accounts: added of {account}", row["ADDED"], date_of(FIRST - DAY_MS))
    copy = desk.trial.folder / "keyless.db"
    PEERS.changed(desk.path, copy.as_posix(), "DELETE FROM KEPT WHERE K_ROW LIKE 'account' || char(31) || '104%'")
    rows = [{**row, "ADDED": "" if row["ACCOUNT"] == "104" else row["ADDED"]} for row in desk.report("accounts")]
    desk.tell("accounts: a row without a key", desk.trial.report("accounts", copy), rows)


def customers(desk):
    """Customers."""
    for row in desk.report("customers"):
        rows = desk.customers[int(row["CUSTOMER"])]
        told = int(row["ACCOUNTS"]), cents_of(row["BALANCE"]), cents_of(row["HOLDINGS"]), cents_of(row["ASSETS"])
        balance, holdings = total(one[1] for one in rows), total(one[2] for one in rows)
        desk.tell(f"customers: {row['CUSTOMER']}", told, (len(rows), balance, holdings, balance + holdings))
    desk.tell("customers: all", [int(row["CUSTOMER"]) for row in desk.report("customers")], desk.ids["CUSTOMER"])
    for name in ("BALANCE", "HOLDINGS", "ASSETS", "MARGIN"):
        desk.tell(f"customers and accounts: {name}", *(total(row[name] for row in desk.report(one)) for one in ("customers", "accounts")))


def overdrawn(desk):
    """Balances below zero."""
    asked = {int(row[0]): row[1] for rows in desk.customers.values() for row in rows}
    below = {account: balance for account, balance in asked.items() if balance.startswith("-")}
    report = {int(row["ACCOUNT"]): row for row in desk.report("overdrawn")}
    desk.tell("overdrawn: ask customer", {account: row["BALANCE"] for account, row in report.items()}, below)
    for account, row in report.items():
        desk.tell(f"overdrawn: since, of {account}", row["SINCE"], since_of(desk.accounts[account]))


def since_of(lines):
    """The time of the cash row from which on the balance of an account is below 0; none if it was so from the opening on."""
    since = None if cents_of(facts_of(lines)["Opening"]) >= 0 else ""
    for _, day, time, _, _, _, rest in (line.split(None, 6) for line in lines if line.startswith("Posted ")):
        if cents_of(rest.split()[0]) >= 0:
            since = None
        elif since is None:
            since = f"{day} {time}"
    return since or ""


def held_of(desk):
    """What the program explains of each position that is not 0: open lots, shares, cost basis, last price, worth, unrealised gain."""
    held = {}
    for key, lines in desk.holdings.items():
        facts = facts_of(lines)
        if facts["Shares"] != "0":
            lots = lines[-1].split("open lots ")[1].split(",")[0]
            held[key] = [lots, *(facts[name] for name in ("Shares", "Cost basis", "Last price", "Worth", "Unrealised gain"))]
    return held


def positions(desk):
    """What accounts hold."""
    wanted = held_of(desk)
    report = desk.report("positions_by_account")
    names = ("LOTS", "SHARES", "COST", "LAST_PRICE", "WORTH", "UNREALISED")
    told = {(int(row["ACCOUNT"]), row["SYMBOL"]): [row[name] for name in names] for row in report}
    desk.tell("positions by account: explain holding", told, wanted)
    held = {(account, fields[1]): fields[2:5] for account, lines in desk.accounts.items()
            for fields in (line.split() for line in lines if line.startswith("Held "))}
    desk.tell("positions by account: explain account", {key: [row[1], row[3], row[4]] for key, row in told.items()}, held)


def symbols(desk):
    """What is held of each security."""
    wanted = held_of(desk)
    for row in desk.report("positions_by_symbol"):
        parts = [fields for (_, symbol), fields in wanted.items() if symbol == row["SYMBOL"]]
        shares = [int(fields[1]) for fields in parts]
        sums = (len(parts), sum(n for n in shares if n > 0), sum(n for n in shares if n < 0), sum(shares),
                *(total(fields[at] for fields in parts) for at in (2, 4, 5)))
        told = tuple(int(row[name]) for name in ("ACCOUNTS", "LONG", "SHORT", "SHARES"))
        desk.tell(f"positions by symbol: {row['SYMBOL']}", told + tuple(cents_of(row[name]) for name in ("COST", "WORTH", "UNREALISED")), sums)
    desk.tell("positions by symbol: all", [row["SYMBOL"] for row in desk.report("positions_by_symbol")], sorted({key[1] for key in wanted}))


def lots(desk):
    """Open lots."""
    wanted = held_of(desk)
    report = desk.report("lots")
    told = sorted((int(row["ACCOUNT"]), row["SYMBOL"], row["LOT"], row["SHARES"], row["PRICE"]) for row in report)
    explained = sorted((account, *fields[1:5]) for account, lines in desk.accounts.items()
                       for fields in (line.split() for line in lines if line.startswith("Lot ")))
    desk.tell("lots: explain account", told, explained)
    opened = {fields[3]: f"{fields[1]} {fields[2]}" for lines in desk.holdings.values() for fields in rows_of(lines, "Lot")}
    desk.tell("lots: opened", {row["LOT"]: row["OPENED"] for row in report}, {row["LOT"]: opened[row["LOT"]] for row in report})
    desk.tell("lots: cost", total(row["COST"] for row in report), total(fields[2] for fields in wanted.values()))
    desk.tell("lots: unrealised", total(row["UNREALISED"] for row in report), total(fields[5] for fields in wanted.values()))


def trades(desk):
    """Completed trades."""
    report = {int(row["TRADE"]): row for row in desk.report("trades")}
    desk.tell("trades: all that were completed", sorted(report), desk.completed)
    desk.tell("trades: the lines of results", {key: cents_of(row["SETTLEMENT"]) for key, row in report.items()},
              {key: numbers.get("amount", 0) for key, numbers in desk.booked.trades.items()})
    labels = ("Account", "Customer", "Broker", "Type", "Security", "Price", "Value", "Realised gain", "Tax recorded", "Settlement",
              "Due on", "Settles by")
    names = ("ACCOUNT", "CUSTOMER", "BROKER", "TYPE", "SYMBOL", "PRICE", "VALUE", "GAIN", "TAX", "SETTLEMENT", "DUE", "SETTLES_BY")
    for trade in desk.completed:
        row, facts, lines = report[trade], desk.facts[trade], desk.trades[trade]
        desk.tell(f"trades: explain trade {trade}", [row[name] for name in names], [facts[label] for label in labels])
        for name, label in (("CHARGE", "Charge"), ("COMMISSION", "Commission"), ("WITHHELD", "Tax withheld")):
            desk.tell(f"trades: {name} of {trade}", cents_of(row[name]), -cents_of(facts[label]))
        status = [line.split() for line in lines if line.startswith("Status ") and " CMPT " in line][0]
        desk.tell(f"trades: when {trade} was completed", row["COMPLETED"], f"{status[1]} {status[2]}")
        desk.tell(f"trades: who ordered {trade}", row["EXECUTOR"], [line[16:] for line in lines if line.startswith("Executor ")][0])
        signed = int(facts["Shares"]) * (1 if facts["Type"] in ("TMB", "TLB") else -1)
        desk.tell(f"trades: shares of {trade}", int(row["SHARES"]), signed)


def closed_of(desk):
    """The rows of the report of gains of each trade."""
    closed = collections.defaultdict(list)
    for row in desk.report("gains"):
        closed[int(row["TRADE"])].append(row)
    return closed


def gains(desk):
    """The shares that trades closed."""
    closed = closed_of(desk)
    for trade in desk.completed:
        lines = desk.trades[trade]
        told = [[one["OPENED"], one["LOT"], abs(int(one["SHARES"])), one["BUY_VALUE"], one["SELL_VALUE"]] for one in closed[trade]]
        wanted = [[f"{fields[1]} {fields[2]}", fields[3], int(fields[4]), *fields[6:8]] for fields in
                  (line.split() for line in lines if line.startswith("Closed "))]
        desk.tell(f"gains: explain trade {trade}", sorted(told), sorted(wanted))
    for (account, symbol), lines in desk.holdings.items():
        rows = [row for rows in closed.values() for row in rows if (int(row["ACCOUNT"]), row["SYMBOL"]) == (account, symbol)]
        desk.tell(f"gains: explain holding {account} {symbol}", total(row["GAIN"] for row in rows), cents_of(facts_of(lines)["Realised gain"]))


def commissions(desk):
    """Commissions of brokers and months."""
    report = {int(row["TRADE"]): row for row in desk.report("trades")}
    months = desk.report("commissions_by_month")
    for broker, lines in desk.brokers.items():
        rows = [row for row in months if int(row["BROKER"]) == broker]
        told = total(row["COMMISSION"] for row in rows), sum(int(row["TRADES"]) for row in rows)
        desk.tell(f"commissions: explain broker {broker}", told, (cents_of(facts_of(lines)["Commissions"]), int(facts_of(lines)["Trades"])))
        by_month = collections.Counter()
        for fields in rows_of(lines, "Trade"):
            by_month[fields[1][:7]] += cents_of(fields[5])
        desk.tell(f"commissions: the months of broker {broker}", {row["MONTH"]: cents_of(row["COMMISSION"]) for row in rows}, dict(by_month))
        mine = [row for row in report.values() if int(row["BROKER"]) == broker]
        desk.tell(f"commissions: turnover and charges of broker {broker}", [total(row[name] for row in rows) for name in ("TURNOVER", "CHARGES")],
                  [sum(abs(cents_of(row["VALUE"])) for row in mine), total(row["CHARGE"] for row in mine)])
    desk.tell("commissions: two years", len({row["MONTH"][:4] for row in months}), 2)


def taxes(desk):
    """Gains and taxes of customers and years."""
    closed = closed_of(desk)
    wanted = collections.defaultdict(lambda: [0, 0, 0, 0, 0])
    for trade in desk.completed:
        if closed[trade]:
            facts = desk.facts[trade]
            sums = wanted[facts["Completed on"][:4], facts["Customer"], facts["Tax status"]]
            gain = cents_of(facts["Realised gain"])
            for at, more in enumerate((1, max(gain, 0), min(gain, 0), cents_of(facts["Tax recorded"]), -cents_of(facts["Tax withheld"]))):
                sums[at] += more
    told = {(row["YEAR"], row["CUSTOMER"], row["TAX_STATUS"]): [int(row["TRADES"]), *(cents_of(row[name]) for name in
            ("PROFITS", "LOSSES", "TAX", "WITHHELD"))] for row in desk.report("taxes_by_year")}
    desk.tell("taxes: explain trade", told, dict(wanted))
    desk.tell("taxes: gains", total(row["GAIN"] for row in desk.report("taxes_by_year")),
              sum(cents_of(facts_of(lines)["Realised gain"]) for lines in desk.holdings.values()))


def bands(desk):
    """examples/commissions.sql."""
    with open(TOP / "examples" / "commissions.sql") as script:
        done = subprocess.run(["sqlite3", "-readonly", "-header", "-csv", desk.path], stdin=script, capture_output=True, text=True)
    rows = list(csv.DictReader(io.StringIO(done.stdout)))
    desk.tell("commissions.sql: recorded", columns(rows, "COMMISSION", "CHARGE"), columns(rows, "RECORDED", "CHARGED"))
    told = {int(row["TRADE"]): amount_of(int(row["COMMISSION"])) for row in rows}
    desk.tell("commissions.sql: explain trade", {trade: told[trade] for trade in desk.completed},
              {trade: desk.facts[trade]["Commission now"] for trade in desk.completed})
    desk.tell("commissions.sql: all trades", sorted(told), desk.ids["TRADE"])


def cash(desk):
    """Cash rows and days."""
    wanted = {}
    for account, lines in desk.accounts.items():
        for line in lines:
            if line.startswith("Posted "):
                _, day, time, number, trade, amount, balance, name = line.split(None, 7)
                wanted[number] = [f"{day} {time}", str(account), trade.replace("-", ""), amount, balance, name]
    report = desk.report("cash")
    names = ("POSTED", "ACCOUNT", "TRADE", "AMOUNT", "BALANCE", "NAME")
    desk.tell("cash: explain account", {row["CASH_ROW"]: [row[name] for name in names] for row in report}, wanted)
    by_day = desk.report("cash_by_day")
    desk.tell("cash by day: cash", total(row[name] for row in by_day for name in ("TRADES", "DEPOSITS", "WITHDRAWALS")), total(row["AMOUNT"] for row in report))
    for row in by_day:
        lines = desk.trial.program("statement", "--db", desk.path, "--account", row["ACCOUNT"], "--from", row["DAY"], "--to", row["DAY"]).splitlines()
        said = {line.split()[0]: line.split()[1] for line in lines if line.startswith(("Opening ", "Closing "))}
        moved = [line.split(None, 2) for line in lines if line.startswith(row["DAY"])]
        parts = [[amount for _, amount, name in moved if (name in ("Deposit", "Withdrawal")) != is_trade and (is_trade or amount.startswith("-") == is_below)]
                 for is_trade, is_below in ((True, False), (False, False), (False, True))]
        told = [row["OPENING"], row["CLOSING"], row["CASH_ROWS"], *(cents_of(row[name]) for name in ("TRADES", "DEPOSITS", "WITHDRAWALS"))]
        wanted = [said["Opening"], said["Closing"], lines[-1].split()[2].rstrip(","), *map(total, parts)]
        desk.tell(f"cash by day: statement of {row['ACCOUNT']} on {row['DAY']}", told, wanted)
    pairs = {(row["POSTED"][:10], row["ACCOUNT"]) for row in report}
    desk.tell("cash by day: days and accounts", sorted(columns(by_day, "DAY", "ACCOUNT")), sorted(pairs))


def settled_cash(desk):
    """Cash that has settled."""
    for day in (max(desk.copies), date_of((day_of(max(desk.copies)) + 1) * DAY_MS), date_of(FIRST + DAY_MS)):
        unsettled = collections.defaultdict(lambda: [0, 0])
        for facts in map(desk.facts.get, desk.completed):
            if facts["Settles by"] == "cash" and facts["Completed on"] <= day < facts["Due on"]:
                amount = cents_of(facts["Settlement"])
                unsettled[facts["Account"]][amount < 0] += amount
        for row in desk.report("settled_cash", "--day", day):
            told = [cents_of(row[name]) for name in ("TO_RECEIVE", "TO_PAY")]
            desk.tell(f"settled cash: explain trade, of {row['ACCOUNT']} on {day}", told, unsettled[row["ACCOUNT"]])
            desk.tell(f"settled cash: of {row['ACCOUNT']} on {day}", cents_of(row["SETTLED"]), cents_of(row["BALANCE"]) - sum(told))
    balances = {row["ACCOUNT"]: row["BALANCE"] for row in desk.report("settled_cash")}
    desk.tell("settled cash: ask customer", balances, {row[0]: row[1] for rows in desk.customers.values() for row in rows})


def orders(desk):
    """Orders, and those that are submitted or pending."""
    submitted = desk.report("submitted")
    desk.tell("submitted: ask submitted", [list(row) for row in columns(submitted, "TRADE", "TYPE", "SYMBOL", "SHARES", "PRICE")],
              desk.trial.ask(desk.path, "submitted"))
    pending = desk.report("pending")
    volumes = collections.Counter()
    for row in pending:
        volumes[row["BROKER"]] += cents_of(row["VALUE"])
    names = {lines[1][16:] for lines in desk.brokers.values()}
    asked = desk.trial.ask(desk.path, "volume", "Tech", *sorted(names))
    desk.tell("pending: ask volume", dict(volumes), {row[1]: cents_of(row[2]) for row in asked})
    last = {trade: [line.split() for line in lines if line.startswith("Status ")] for trade, lines in desk.trades.items()}
    for word, rows, since in (("PNDG", pending, "ORDERED"), ("SBMT", submitted, "SUBMITTED")):
        wanted = {str(trade): f"{steps[-1][1]} {steps[-1][2]}" for trade, steps in last.items() if steps[-1][3] == word}
        desk.tell(f"{word}: explain trade", {row["TRADE"]: row[since] for row in rows}, wanted)
        for row in rows:
            facts = desk.facts[int(row["TRADE"])]
            told = [row[name] for name in ("ACCOUNT", "CUSTOMER", "BROKER", "TYPE", "SYMBOL", "SHARES", "PRICE", "SETTLES_BY")]
            wanted = [facts[label] for label in ("Account", "Customer", "Broker", "Type", "Security", "Shares", "Price asked", "Settles by")]
            desk.tell(f"{word}: explain trade {row['TRADE']}", told, wanted)
            age = day_of(max(desk.copies)) - day_of(row[since][:10])
            desk.tell(f"{word}: days of {row['TRADE']}", int(row["DAYS"]), age)
    names = ("ORDERED", "STATUS", "SINCE", "ACCOUNT", "TYPE", "SYMBOL", "SHARES", "PRICE")
    told = {int(row["TRADE"]): [row[name] for name in names] for row in desk.report("orders")}
    wanted = {trade: [" ".join(steps[0][1:3]), steps[-1][3], " ".join(steps[-1][1:3]), *(desk.facts[trade][label] for label in
                      ("Account", "Type", "Security", "Shares", "Price asked"))] for trade, steps in last.items()}
    desk.tell("orders: explain trade", told, wanted)


def settlements(desk):
    """Trades by their due days."""
    report = desk.report("settlements")
    told = {int(row["TRADE"]): [row[name] for name in ("DUE", "COMPLETED", "SETTLEMENT", "SETTLES_BY", "ACCOUNT", "SYMBOL")] for row in report}
    labels = ("Due on", "Completed on", "Settlement", "Settles by", "Account", "Security")
    desk.tell("settlements: explain trade", told, {trade: [desk.facts[trade][label] for label in labels] for trade in desk.completed})
    types = {int(row["TRADE"]): row["CASH_TYPE"] for row in report}
    desk.tell("settlements: cash types", types, {trade: [line[16:] for line in desk.trades[trade] if line.startswith("Cash type ")][0] for trade in desk.completed})
    sums = collections.defaultdict(lambda: [0, 0, 0, 0])
    for row in report:
        amount = cents_of(row["SETTLEMENT"])
        for at, more in enumerate((1, int(row["SHARES"]), max(amount, 0), min(amount, 0))):
            sums[row["DUE"], row["SYMBOL"], row["SETTLES_BY"]][at] += more
    told = {(row["DUE"], row["SYMBOL"], row["SETTLES_BY"]): [int(row["TRADES"]), int(row["SHARES"]), cents_of(row["RECEIVED"]), cents_of(row["PAID"])]
            for row in desk.report("settlements_by_day")}
    desk.tell("settlements by day: settlements", told, dict(sums))
    for row in desk.report("settlements_by_day"):
        wanted = int(row["SHARES"]), cents_of(row["SETTLEMENT"])
        desk.tell("settlements by day: in and out", (int(row["SHARES_IN"]) + int(row["SHARES_OUT"]), cents_of(row["RECEIVED"]) + cents_of(row["PAID"])), wanted)


def batches(desk):
    """The batches: their lines, and the answers of a retry."""
    report = {row["BATCH"]: row for row in desk.report("batches")}
    accepted = {name: int(row["ACCEPTED"]) for name, row in report.items()}
    desk.tell("batches: their last lines", accepted, {name: int(end.split(",")[1]) for name, end in desk.ends.items()})
    copy = desk.trial.folder / "again.db"
    PEERS.changed(desk.path, copy.as_posix(), "UPDATE DESK SET D_ID = 1")
    again = {}
    for name, (moment, rows, _) in desk.batches.items():
        words = [desk.trial.brk, "batch", "--db", copy, "--at", str(moment)]
        again[name] = int(subprocess.run(words, input=PEERS.batch_of(name, rows), capture_output=True).stdout.split(b",")[-2])
    desk.tell("batches: again at a retry", accepted, again)
    kinds = {"order": "ORDERS", "result": "RESULTS", "cancel": "CANCELS", "feed": "FEEDS", "deposit": "DEPOSITS", "withdraw": "WITHDRAWALS"}
    for name, (_, rows, lines) in desk.batches.items():
        counts, numbers = collections.Counter(), []
        for number, (row, line) in enumerate(zip(rows, lines), 1):
            if line.split(",")[1] == "ok":
                counts[kinds.get(row[0], "OTHERS")] += 1
                numbers.append((number, line.split(",")[2]))
        row = report[name]
        desk.tell(f"batches: kinds of {name}", {kind: int(row[kind]) for kind in (*kinds.values(), "OTHERS")},
                  {kind: counts[kind] for kind in (*kinds.values(), "OTHERS")})
        told = int(row["FIRST_ROW"]), int(row["LAST_ROW"]), stamp_of(row["FIRST_TIME"]), stamp_of(row["LAST_TIME"])
        desk.tell(f"batches: rows of {name}", told, (numbers[0][0], numbers[-1][0], int(numbers[0][1]), int(numbers[-1][1])))
    days = [row for day in (date_of(FIRST - DAY_MS), *desk.days) for row in desk.report("batches", "--day", day)]
    desk.tell("batches: the days together", sum(int(row["ACCEPTED"]) for row in days), sum(accepted.values()))


ALL = (accounts, customers, overdrawn, positions, symbols, lots, trades, gains, commissions, taxes, bands, cash, settled_cash, orders,
       settlements, batches)
