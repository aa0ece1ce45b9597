"""Cases: the numbers of screens, against the program and the reports over the snapshot that each names, while another program books."""

import csv
import io
import json
import re
import shutil
import subprocess
import sys
import threading
import time

from books import AT_ONE_STAMP, CANCELED, LEE
from harness import plain

from cases import TOP

TRADES = (3, 4, 5, 9, 10, 11, 12, 19, 41)
ACCOUNTS = (100, 101, 110)
EARLIER = 604_800_000


class Another:
    """Another program that books without a pause: deposits, withdrawals, ticks, orders and results."""

    def __init__(self, trial):
        self.trial, self.ends, self.count = trial, False, 0
        self.thread = threading.Thread(target=self.run, daemon=True)

    def __enter__(self):
        self.thread.start()
        return self

    def __exit__(self, *_):
        self.ends = True
        self.thread.join()

    def run(self):
        while not self.ends:
            account = ("100", "101", "110")[self.count % 3]
            self.trial.other("deposit", account, f"{self.count % 90 + 1}.37")
            self.trial.other("withdraw", "100", "0.99")
            self.trial.other("feed", "ABC", f"10.{self.count % 30 + 10}", "3")
            reply = self.trial.other("order", "100", "TMS" if self.count % 3 else "TMB", "ABC", "3", "", "cash", "fifo", *LEE)
            self.trial.other("result", reply[1], f"10.{self.count % 60 + 10}")
            self.count += 1


def copied(trial, screen):
    """A copy of the snapshot that a screen names, for a run of the program: the snapshot itself is deleted once nobody uses it."""
    first, path = trial.folder / "named.db", trial.folder / "compared.db"
    if not screen.is_kept:
        shutil.copyfile(screen.snapshot, first)
        screen.is_kept = True
    shutil.copyfile(first, path)
    return path


def explained(trial, screen, *words):
    return trial.desk.run("explain", "--", *map(str, words), path=copied(trial, screen))[1].splitlines()


def asked(trial, screen, view, *words):
    return json.loads(trial.desk.run("ask", "--json", "--", view, *map(str, words), path=copied(trial, screen))[1])["view"]


def fact(lines, label):
    return next(line.split()[len(label.split())] for line in lines if line.startswith(label.ljust(16)))


def trades(trial):
    """Each line of a derivation, each lot, and the lookup of the desk."""
    for trade in TRADES:
        screen = trial.page.screen(f"/trade/{trade}")
        lines, name = explained(trial, screen, "trade", trade), f"trade {trade}"
        for label in ("Price", "Shares closed", "Shares opened", "BUY", "SELL", "Realised gain", "Tax now", "Tax recorded",
                      "Commission now", "Value", "Charge", "Commission", "Tax withheld", "Settlement", "Opening", "Cash before",
                      "Balance before", "Cash moved", "Balance after"):
            trial.tell(f"{name}: {label}", screen.line(label), fact(lines, label))
        trial.tell(f"{name}: the days to settle", screen.line("Days to settle"), "T+" + fact(lines, "Days to settle"))
        trial.tell(f"{name}: the rates", screen.line("Rates now"), f"{int(fact(lines, 'Rates now')) / 1000:g} %")
        lots = [line.split() for line in lines if re.match("Closed|Opened 2", line)]
        told = [[plain(text) for text in row.values() if text] for row in screen.rows("lots")]
        wanted = [[it[0].lower(), it[3], f"{it[1]} {it[2][:8]}", *it[4:8], *it[8:9]] for it in lots]
        trial.tell(f"{name}: its lots", told, wanted)
        view = asked(trial, screen, "trades", trade)
        record, settled = view[0], next(it for it in view if it[0] == "settlement")
        trial.tell(f"{name}: the view's commission", screen.line("Commission"), plain(f"-{record[11]}" if record[11] != "0.00" else "0.00"))
        trial.tell(f"{name}: the view's settlement", screen.line("Settlement"), settled[3])
        trial.tell(f"{name}: the view's due day", screen.pairs["Due on"], settled[2])


def accounts(trial):
    """The head, each cash row with its balance, and the positions."""
    for account in ACCOUNTS:
        screen = trial.page.screen(f"/account/{account}")
        lines, name = explained(trial, screen, "account", account), f"account {account}"
        for label in ("Balance", "Holdings", "Assets", "Opening"):
            trial.tell(f"{name}: {label}", plain(screen.pairs[label]), fact(lines, label))
        posted = [line.split() for line in lines if line.startswith("Posted")][::-1]
        for row, it in zip(screen.rows("cash"), posted):
            trial.tell(f"{name}: cash row {it[3]}", [row["Posted"], row["Cash row"], row["Trade"] or "-", plain(row["Amount"]), plain(row["Balance"])],
                       [f"{it[1]} {it[2][:8]}", it[3], it[4], it[5], it[6]])
        trial.tell(f"{name}: the newest 50 rows or all", len(screen.rows("cash")), min(50, len(posted)))
        held = [line.split() for line in lines if line.startswith("Held")]
        trial.tell(f"{name}: positions", [[row["Symbol"], plain(row["Shares"]), plain(row["Last price"]), plain(row["Worth"])]
                                          for row in screen.rows("positions")], [it[1:5] for it in held])
        customer = re.search(r'/customer/(\d+)', screen.text)[1]
        found = next(it for it in asked(trial, screen, "customer", customer) if it[0] == str(account))
        trial.tell(f"{name}: the view customer", [plain(screen.pairs["Balance"]), plain(screen.pairs["Holdings"])], found[1:])
        trial.tell(f"{name}: head and last row of one moment", plain(screen.pairs["Balance"]), plain(screen.rows("cash")[0]["Balance"]))


def holdings(trial):
    for account, symbol in ((100, "ABC"), (101, "ABC"), (110, "XYZ")):
        screen = trial.page.screen(f"/account/{account}/{symbol}")
        lines, name = explained(trial, screen, "holding", account, symbol), f"{symbol} of {account}"
        for label in ("Shares", "Cost basis", "Worth", "Unrealised gain", "Realised gain", "Last price", "Purchases", "Sales"):
            trial.tell(f"{name}: {label}", plain(screen.pairs[label]), fact(lines, label))
        told = [line.split() for line in lines if line.startswith("Trade ")][::-1]
        for row, it in zip(screen.rows("trades"), told):
            trial.tell(f"{name}: trade {it[3]}", [row["Trade"], plain(row["Shares"]), plain(row["Price"]), plain(row["Value"]), plain(row["Held"])],
                       it[3:8])


def brokers(trial):
    screen = trial.page.screen("/broker/1")
    lines = explained(trial, screen, "broker", 1)
    trial.tell("broker: commissions", plain(screen.pairs["Commissions"]), fact(lines, "Commissions"))
    trial.tell("broker: trades", plain(screen.pairs["Trades"]), fact(lines, "Trades"))
    screen = trial.page.screen("/brokers")
    names = {row["Broker"]: row["Name"] for row in screen.rows("brokers")}
    sums = {}
    for sector in ("Tech", "Food & <b>Drink</b>"):
        for at in range(0, len(names), 20):
            chosen = list(dict.fromkeys(list(names.values())[at:at + 20]))
            for name, number, volume in asked(trial, screen, "volume", sector, *chosen):
                sums[number] = sums.get(number, 0) + int(volume.replace(".", ""))
    total = int(plain(screen.pairs["Pending volume of all brokers"]).replace(".", ""))
    trial.tell("wrong number 5: the total has each of 22 brokers", total, sum(sums.values()))
    trial.tell("brokers: more than twenty with a pending order", len(sums) > 20)
    for row in screen.rows("brokers"):
        trial.tell(f"broker {row['Broker']}: volume", int(plain(row["Pending volume"]).replace(".", "")), sums.get(row["Broker"], 0))


def printed(trial, screen, name, *options):
    words = [sys.executable, TOP / "examples/reports/report", name, copied(trial, screen), *options]
    return list(csv.reader(io.StringIO(subprocess.run(words, capture_output=True, text=True).stdout)))


def reports(trial):
    """Each cell of each report's CSV, and the rows on the screen."""
    count = 0
    for name in sorted(path.stem for path in (TOP / "examples/reports").glob("*.sql") if path.stem != "views"):
        screen = trial.page.screen(f"/report/{name}")
        wanted = printed(trial, screen, name)
        _, text, _ = trial.page.ask("GET", f"/report/{name}?csv=rows")
        told = list(csv.reader(io.StringIO(text)))
        # the CSV may be of a later snapshot: the screen is compared cell by cell
        shown = [[plain(cell) for cell in row.values()] for row in screen.rows("rows")]
        trial.tell(f"report {name}: heads", told[0], wanted[0])
        for row, it in zip(shown, wanted[1:]):
            trial.tell(f"report {name}: {it[0]} {it[1]}", [brief(cell) for cell in row], [brief(plain(cell)) for cell in it])
            count += len(it)
        trial.tell(f"report {name}: rows", len(shown), min(50, len(wanted) - 1))
    trial.tell(f"reports: {count} cells were compared", count > 900)


TYPES = {"TMB": "Market-Buy", "TMS": "Market-Sell", "TSL": "Stop-Loss", "TLS": "Limit-Sell", "TLB": "Limit-Buy",
         "PNDG": "Pending", "SBMT": "Submitted", "CMPT": "Completed", "CNCL": "Canceled"}


def brief(cell):
    """A cell of a report as a screen has it: a time without its milliseconds, words for a type and a status."""
    return re.sub(r"^(\d{4}-\d\d-\d\d \d\d:\d\d:\d\d)\.\d{3}$", r"\1", " ".join(TYPES.get(cell, cell).split()))


def cents(text):
    return int(plain(text).replace(".", ""))


def today(trial):
    """The first screen against the reports over its snapshot."""
    screen = trial.page.screen("/")
    for section in ("submitted", "pending"):
        wanted = printed(trial, screen, section)
        ids = {row[0] for row in wanted[1:]}
        shown = screen.rows(section)
        trial.tell(f"today: {section}", {row["Trade"] for row in shown} <= ids and len(shown) == min(20 if section == "pending" else 50, len(ids)))
        heads = wanted[0]
        known = {row[0]: row for row in wanted[1:]}
        for row in shown:
            it = known[row["Trade"]]
            trial.tell(f"today: {section} {row['Trade']}", [row["Account"], row["Symbol"], plain(row["Shares"]), plain(row["Asked price"]), plain(row["Last price"])],
                       [it[heads.index(head)] for head in ("ACCOUNT", "SYMBOL", "SHARES", "PRICE", "LAST_PRICE")])
    day = re.search(r"Today, (\d{4}-\d\d-\d\d)", screen.text)[1]
    below = printed(trial, screen, "overdrawn")
    trial.tell("today: accounts below zero", sorted((row["Account"], plain(row["Balance"])) for row in screen.rows("below")),
               sorted((row[0], row[6]) for row in below[1:]))
    due = printed(trial, screen, "settlements_by_day", "--day", day)
    trial.tell("today: due today", cents(screen.sums("due")["Today"][2]), sum(cents(row[9]) for row in due[1:]))
    moved = printed(trial, screen, "cash_by_day", "--day", day)
    cash = screen.sums("cash")
    for name, at in (("Deposits", 7), ("Withdrawals", 8)):
        trial.tell(f"today: {name}", cents(cash[name]), sum(cents(row[at]) for row in moved[1:]))
    trial.tell("today: sales and purchases", cents(cash["Sales"]) + cents(cash["Purchases"]), sum(cents(row[6]) for row in moved[1:]))
    accounts_now = printed(trial, screen, "accounts")
    balance = next(value for head, value in cash.items() if head.startswith("Cash of all"))
    trial.tell("today: cash of all accounts", cents(balance), sum(cents(row[10]) for row in accounts_now[1:]))
    earned = printed(trial, screen, "commissions_by_month", "--from", f"{day[:7]}-01")
    trial.tell("today: commissions of the month", [(row["Broker"], plain(row["Charges"]), plain(row["Commission"])) for row in screen.rows("commissions")],
               [(row[1], row[5], row[6]) for row in earned[1:] if row[0] == day[:7]])


def statements(trial):
    for account in ACCOUNTS:
        month = time.strftime("%Y-%m", time.gmtime())
        screen = trial.page.screen(f"/statement/{account}?month={month}")
        last = re.search(r"to (\d{4}-\d\d-\d\d)", screen.text)[1]
        _, text, _ = trial.desk.run("statement", "--account", str(account), "--from", f"{month}-01", "--to", last, path=copied(trial, screen))
        lines = text.splitlines()
        amounts = [line.split()[1] for line in lines[3:] if re.match(r"Opening|Closing|\d{4}-", line)]
        shown = re.findall(r'<span class="amount[^"]*">([^<]*)</span>', screen.text)
        trial.tell(f"statement of {account}: opening, rows and closing", [plain(it) for it in shown[:len(amounts)]], amounts)


def together(trial):
    """All of the above while another program books."""
    with Another(trial) as another:
        for part in (today, trades, accounts, holdings, brokers, reports, statements):
            trial.tried(part)
    trial.tell(f"meanwhile another program booked {another.count * 5} rows", another.count > 5)


def one_moment(trial):
    """Wrong numbers 1, 3, 4 and 9: screens of one snapshot, however fast another program books."""
    with Another(trial):
        for turn in range(12):
            screen = trial.page.screen("/account/100?cash.sort=&orders.sort=")
            head, rows = plain(screen.pairs["Balance"]), screen.rows("cash")
            trial.tell(f"wrong numbers 3 and 4, turn {turn}: head and last row", head, plain(rows[0]["Balance"]))
            trial.tell(f"wrong number 3, turn {turn}: no words of a deposit that was none", "deposited or withdrawn" in screen.text, False)
            completed = [row["Trade"] for row in screen.rows("orders") if row["Status"] == "Completed" and row["Settles by"] == "cash"]
            cash = {row["Trade"] for row in rows}
            oldest = rows[-1]["Posted"]
            missing = [row["Trade"] for row in screen.rows("orders") if row["Trade"] in completed and row["Since"] > oldest and row["Trade"] not in cash]
            trial.tell(f"wrong number 9, turn {turn}: each completed trade has its cash", missing, [])
            time.sleep(0.3)
    reply = trial.other("order", "100", "TMB", "ABC", "7", "", "cash", "fifo", *LEE)
    trial.other("deposit", "100", "1000.00")
    booked = trial.other("result", reply[1], "10.40")
    time.sleep(5.5)
    screen = trial.page.screen(f"/trade/{reply[1]}")
    trial.tell("wrong number 1: the balance after a trade has the deposit before it", screen.line("Balance after"), booked[7])
    trial.tell("wrong number 1: the balance before", cents(screen.line("Balance before")), cents(booked[7]) - cents(booked[3]))


def never_charged(trial):
    """Wrong numbers 6 and 7: no charge where nothing was charged."""
    for path in ("/orders", "/account/100", f"/orders?orders.has={CANCELED}"):
        for row in trial.page.screen(path).rows("orders"):
            if row["Status"] != "Completed":
                trial.tell(f"wrong numbers 6 and 7: {path}: trade {row['Trade']}", (row["Charge"], row["Commission"], "charged" in row["Note"] or "if completed" in row["Note"]),
                           ("", "", True))
    _, text, _ = trial.page.ask("GET", "/account/100?csv=orders")
    rows = list(csv.DictReader(io.StringIO(text)))
    canceled = next(row for row in rows if row["TRADE"] == str(CANCELED))
    trial.tell("wrong number 7: its CSV", (canceled["CHARGE"], canceled["COMMISSION"]), ("", ""))
    screen = trial.page.screen(f"/trade/{CANCELED}")
    trial.tell("a canceled trade says that it was never charged", "never charged" in screen.text)


def rules_now(trial):
    """Wrong number 8: the settlement day and the rates are of the screen's own snapshot."""
    screen = trial.page.screen("/trade/1")
    trial.tell("wrong number 8: T+2 beside the day from which one day counts", (screen.line("Days to settle"), "one day from" in screen.text, "no settlement day" in screen.text),
               ("T+2", True, False))
    trial.other("custtax", "10", "2")
    time.sleep(5.5)
    screen = trial.page.screen("/trade/3")
    trial.tell("wrong number 8: a tax that was given since", screen.line("Rates now"), "21.25 %")


def cut_nothing(trial):
    """Wrong behaviours 9 and 11, and wrong behaviour 8: what is listed leads on."""
    screen = trial.page.screen("/account/101?orders.sort=TRADE&orders.down=1")
    shown = {row["Trade"] for row in screen.rows("orders")}
    trial.tell("wrong behaviour 11: twenty trades at one stamp", [trade for trade in AT_ONE_STAMP if str(trade) not in shown], [])
    trial.tell("wrong behaviour 11: nothing is told as cut off", "cut off" in screen.text, False)
    trial.tell("wrong behaviour 9: no legend without marks", "legend" in screen.text, False)
    for path in sorted({link for link in trial.page.screen("/orders").links if link.startswith("/trade/")})[:30]:
        trial.tell(f"wrong behaviour 8: {path} opens", trial.page.screen(path).status, 200)
    trial.other("account", "400", "11", "1", "New", "1", "5.00")
    time.sleep(5.5)
    screen = trial.page.screen("/account/400")
    trial.tell("wrong behaviour 7: an account made since the start", (screen.status, plain(screen.pairs["Balance"])), (200, "5.00"))


def tables(trial):
    """Sorting by cents, filters, CSV, what is older."""
    rows = trial.page.screen("/account/100?cash.sort=AMOUNT").rows("cash")
    amounts = [cents(row["Amount"]) for row in rows]
    trial.tell("a column of amounts is sorted by cents", amounts, sorted(amounts))
    rows = trial.page.screen("/account/100?cash.sort=AMOUNT&cash.down=1").rows("cash")
    amounts = [cents(row["Amount"]) for row in rows]
    trial.tell("and downwards", amounts, sorted(amounts, reverse=True))
    rows = trial.page.screen("/account/100?cash.has=deposit").rows("cash")
    trial.tell("a filter leaves its rows", {row["Name"] for row in rows}, {"Deposit"})
    first, later = (trial.page.screen(f"/orders?orders.sort=TRADE&orders.from={at}").rows("orders") for at in (0, 50))
    trial.tell("50 rows, and then more", (len(first), first[-1]["Trade"] != later[0]["Trade"]), (50, True))
    _, text, _ = trial.page.ask("GET", "/account/100?csv=cash&cash.has=withdrawal")
    rows = list(csv.DictReader(io.StringIO(text)))
    trial.tell("CSV has a plain minus", all(re.fullmatch(r"-[0-9]+\.[0-9]{2}", row["AMOUNT"]) for row in rows) and bool(rows))
    trial.other("security", "FORM", '=SUM(A1) "x"', "NYSE", "Tech", "1.00")
    time.sleep(5.5)
    _, text, _ = trial.page.ask("GET", "/market?csv=securities&securities.has=form")
    trial.tell("CSV marks a formula and doubles quotes", "\"'=SUM(A1) \"\"x\"\"\"" in text)


def found(trial):
    """What people know leads to what they look for."""
    for text, link in (("T10", "/customer/10"), ("lee", "/customer/10"), ("100", "/account/100"), ("abc", "/security/ABC"), ("acme", "/security/ABC"),
                       ("3", "/trade/3"), ("PENDING", "/batch/PENDING"), ("Main", "/account/100"), ("Bo", "/broker/1")):
        trial.tell(f"find {text}", link in trial.page.screen(f"/find?q={text}").links)


def derivations_agree(trial):
    """The page's own comparison with `brk explain`, within 10 s; and a difference is a red line."""
    for path in ("/explained/trade/3", "/explained/trade/14", "/explained/account/110", "/explained/holding/110/XYZ", "/explained/broker/1"):
        status, text, seconds = trial.page.ask("GET", path)
        trial.tell(f"{path} is checked", (status, "Checked by brk explain" in text), (200, True))
        trial.tell(f"{path} within 10 s ({seconds:.1f} s)", seconds < 10)
    import page.derive as derive
    status, text, _ = trial.desk.run("explain", "--", "trade", "3", path=copied(trial, trial.page.screen("/trade/3")))
    shown = {"Settlement": "1.00"}
    told = list(derive.differences(shown, text))
    trial.tell("a number that differs is told", any(it.startswith("Settlement: this page has 1.00, and brk explain") for it in told))


sys.path.insert(0, str(TOP))
PARTS = (together, one_moment, never_charged, rules_now, cut_nothing, tables, found, derivations_agree)
