"""What the parts of try_reports share: desks that were booked, and what the program and the reports print of them."""

import csv
import datetime
import hashlib
import io
import random
import shutil
import subprocess
import sys

from cases import Cases, TOP, script

REPORTS = TOP / "examples" / "reports"
OFFSETS = (0, 1, 2, 3, 30, 31, 305, 306)
# the batch of this day ends after midnight
LATE = 3

# the generator
PEERS = script("try_peers")
FIRST, DAY_MS = PEERS.FIRST, PEERS.DAY_MS
amount_of, cents_of, date_of = PEERS.amount_of, PEERS.cents_of, PEERS.date_of


def day_of(text):
    return (datetime.date.fromisoformat(text) - datetime.date(1970, 1, 1)).days


def stamp_of(text):
    moment = datetime.datetime.fromisoformat(text) - datetime.datetime(1970, 1, 1)
    return moment // datetime.timedelta(milliseconds=1)


def total(texts):
    return sum(map(cents_of, texts))


def columns(rows, *names):
    """The values of some columns."""
    return [tuple(row[name] for name in names) for row in rows]


def written(path, rows):
    with open(path, "w", newline="") as file:
        csv.writer(file).writerows(rows)


def content_of(path):
    return hashlib.sha256(path.read_bytes()).hexdigest()


def facts_of(lines):
    """The labels of an explanation, each with the first word after it."""
    facts = {}
    for line in lines:
        label, rest = line[:15].rstrip(), line[16:].split()
        if rest and not line.startswith("#"):
            facts.setdefault(label, rest[0])
    return facts


def rows_of(lines, word):
    return [line.split(None, 7) for line in lines if line.startswith(word + " ")]


class Market(PEERS.Market):
    """The desk of try_peers, with what has no trade, and of one desk with balances that exceed 64 bits together."""

    is_large = False

    def setting(self):
        rows = super().setting()
        rows += [
            ["broker", 3, "Di, the third"],
            ["customer", 12, 3, "T12", "Poe, \"Sr.\"", "=Cy"],
            ["account", 104, 11, 1, "Empty, yet", 2, "0.00"],
            ["permission", 100, "0101", "T12", "Poe, \"Sr.\"", "=Cy"],
        ]
        if self.is_large:
            for customer in range(20, 30):
                rows.append(["customer", customer, 1, f"L-{customer}", "Rich", "Al"])
                rows += [["account", customer * 10 + at, customer, 3, "Large", 0, "1000000000000000.00"] for at in range(10)]
        return rows


class Trial(Cases):
    """The cases so far, of which those that are right are only counted."""

    def program(self, *words):
        """What a command of the program prints."""
        done = subprocess.run([self.brk, *map(str, words)], capture_output=True, text=True)
        if done.returncode:
            raise ValueError(f"brk {words}: {done.returncode}, {done.stderr}")
        return done.stdout

    def ask(self, desk, *words):
        return list(csv.reader(io.StringIO(self.program("ask", "--db", desk, "--", *words))))

    def explain(self, desk, *words):
        return self.program("explain", "--db", desk, "--", *words).splitlines()

    def script(self, name, *words):
        """Runs a script of the reports: its exit status, its records by heads, and its messages."""
        done = subprocess.run([sys.executable, REPORTS / name, *map(str, words)], capture_output=True, text=True)
        return done.returncode, list(csv.DictReader(io.StringIO(done.stdout))), done.stderr

    def report(self, name, desk, *words):
        status, rows, errors = self.script("report", name, desk, *words)
        if (status, errors) != (0, ""):
            raise ValueError(f"report {name} {words}: {status}, {errors}")
        return rows


class Desk:
    """A desk that was booked: its file, what was sent and answered, its copies of the ends of days, and what the program explains."""

    def __init__(self, trial, seed, rows, is_large):
        self.trial, self.seed = trial, seed
        self.draw = random.Random(1000 + seed)
        self.path = trial.folder / f"{seed}.db"
        self.batches, self.ends, self.copies, self.reports = {}, {}, {}, {}
        self.booked = PEERS.Told()
        market = Market(seed, rows)
        market.is_large = is_large
        self.send("SET", FIRST - DAY_MS, market.setting())
        for number, offset in enumerate(OFFSETS):
            moment = FIRST + offset * DAY_MS + self.draw.randrange(DAY_MS - 10000)
            if number == LATE:
                moment = FIRST + (offset + 1) * DAY_MS - 20
            # the last batches begin with a row that is refused
            refused = [["cancel", 999999]] if number > LATE else []
            self.send(f"DAY-{number}", moment, [*refused, *market.day(number)])
            self.keep(number)

    def send(self, name, moment, rows):
        words = [self.trial.brk, "batch", "--db", self.path, "--at", str(moment)]
        done = subprocess.run(words, input=PEERS.batch_of(name, rows), capture_output=True)
        lines = done.stdout.decode().splitlines()
        if done.returncode or len(lines) != len(rows) + 1:
            raise ValueError(f"{name}: {done.returncode}, {done.stderr.decode()}")
        self.booked.hear(rows, lines)
        self.batches[name], self.ends[name] = (moment, rows, lines), lines[-1]

    def keep(self, number):
        """Keeps a copy of the file, under the day of its last stamp."""
        copy = self.trial.folder / f"{self.seed}-{number}.db"
        shutil.copyfile(self.path, copy)
        (last,) = PEERS.asked(copy, "SELECT D_LAST FROM DESK")[0]
        self.copies[date_of(last)] = copy

    def tell(self, name, told, wanted):
        self.trial.tell(f"seed {self.seed}: {name}", told, wanted)

    def report(self, name, *words):
        """The rows of a report, which is run once: the file does not change."""
        key = (name, *words)
        if key not in self.reports:
            self.reports[key] = self.trial.report(name, self.path, *words)
        return self.reports[key]

    def read(self):
        """Reads what the program says of the whole desk."""
        trial, path = self.trial, self.path
        self.ids = {table: [key for (key,) in PEERS.asked(path, f"SELECT {column} FROM {table} ORDER BY 1")]
                    for table, column in (("CUSTOMER", "C_ID"), ("CUSTOMER_ACCOUNT", "CA_ID"), ("BROKER", "B_ID"),
                                          ("SECURITY", "S_SYMB"), ("TRADE", "T_ID"))}
        self.customers = {customer: trial.ask(path, "customer", customer) for customer in self.ids["CUSTOMER"]}
        self.accounts = {account: trial.explain(path, "account", account) for account in self.ids["CUSTOMER_ACCOUNT"]}
        self.brokers = {broker: trial.explain(path, "broker", broker) for broker in self.ids["BROKER"]}
        self.trades = {trade: trial.explain(path, "trade", trade) for trade in self.ids["TRADE"]}
        held = [account for account in self.ids["CUSTOMER_ACCOUNT"] if account < 200]
        self.holdings = {(account, symbol): trial.explain(path, "holding", account, symbol)
                         for account in held for symbol in self.ids["SECURITY"]}
        self.days = sorted({*self.copies, *(date_of(FIRST + offset * DAY_MS) for offset in OFFSETS)})
        self.completed = [trade for trade, lines in self.trades.items() if any(line.startswith("Completed on") for line in lines)]
        self.facts = {trade: facts_of(lines) for trade, lines in self.trades.items()}
