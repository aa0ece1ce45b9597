"""The scripts beside the reports: a custodian's list, an exchange's fills, and samples."""

import collections
import csv
import hashlib
import io
import subprocess
import sys

from desks import DAY_MS, FIRST, PEERS, REPORTS, amount_of, cents_of, date_of, written


def custodians(desk):
    """Reconciliations with lists of each day, made of what the program explains."""
    path = desk.trial.folder / "list.csv"
    for day in sorted({*desk.days, date_of(FIRST + 10 * DAY_MS), date_of(FIRST - DAY_MS)}):
        settled, traded = collections.Counter(), collections.Counter()
        for trade in desk.completed:
            facts = desk.facts[trade]
            shares = int(facts["Shares"]) * (1 if facts["Type"] in ("TMB", "TLB") else -1)
            settled[facts["Account"], facts["Security"]] += shares if facts["Due on"] <= day else 0
            traded[facts["Account"], facts["Security"]] += shares if facts["Completed on"] <= day else 0
        for is_by_account in (True, False):
            lists = []
            for counts in (settled, traded):
                shares = collections.Counter()
                for (account, symbol), number in counts.items():
                    shares[(account, symbol) if is_by_account else (symbol,)] += number
                lists.append(shares)
            heads = ["Account", "Ticker", "Quantity"] if is_by_account else ["Ticker", "Quantity"]
            words = (desk.path, path, "--day", day, "--columns", "symbol=ticker,shares=quantity")
            listed(path, heads, lists[0])
            status, rows, errors = desk.trial.script("reconcile.py", *words)
            desk.tell(f"reconcile {day}: it matches", (status, errors, {row["RESULT"] for row in rows} <= {"match"}), (0, "", True))
            told = {tuple(row[name] for name in (("ACCOUNT", "SYMBOL") if is_by_account else ("SYMBOL",))): (int(row["SETTLED"]), int(row["TRADED"])) for row in rows}
            keys = [key for key in lists[0] if lists[0][key] or lists[1][key] or key in told]
            desk.tell(f"reconcile {day}: settled and traded", told, {key: (lists[0][key], lists[1][key]) for key in keys})
            if lists[0]:
                key = desk.draw.choice(sorted(lists[0]))
                changed = collections.Counter({**lists[0], key: lists[0][key] + 11})
                listed(path, heads, changed)
                status, rows, errors = desk.trial.script("reconcile.py", *words)
                breaks = [(row["SYMBOL"], row["DIFFERENCE"]) for row in rows if row["RESULT"] == "break"]
                desk.tell(f"reconcile {day}: one break", (status, breaks, "do not match" in errors), (5, [(key[-1], "11")], True))
            unsettled = [key for key in lists[0] if lists[0][key] != lists[1][key]]
            if unsettled:
                listed(path, heads, lists[1])
                _, rows, _ = desk.trial.script("reconcile.py", *words)
                desk.tell(f"reconcile {day}: a list by trade date", {row["MAY_BE"] for row in rows if row["RESULT"] == "break"}, {"trade date"})


def causes(desk):
    """A trade that was delivered early, and one that is late, make a break that names it."""
    path = desk.trial.folder / "list.csv"
    signed = {trade: int(facts["Shares"]) * (1 if facts["Type"] in ("TMB", "TLB") else -1) for trade, facts in desk.facts.items()}
    for trade in desk.draw.sample(desk.completed, 6):
        facts = desk.facts[trade]
        key = facts["Account"], facts["Security"]
        for word, day, sign in (("early", facts["Completed on"], 1), ("late", facts["Due on"], -1)):
            settled, traded = collections.Counter(), collections.Counter()
            for other in desk.completed:
                its = desk.facts[other]
                settled[its["Account"], its["Security"]] += signed[other] if its["Due on"] <= day else 0
                traded[its["Account"], its["Security"]] += signed[other] if its["Completed on"] <= day else 0
            settled[key] += sign * signed[trade]
            listed(path, ["account", "symbol", "shares"], settled)
            status, rows, _ = desk.trial.script("reconcile.py", desk.path, path, "--day", day)
            breaks = [(row["ACCOUNT"], row["SYMBOL"]) for row in rows if row["RESULT"] == "break"]
            desk.tell(f"reconcile {day}: {word} {trade}", (status, breaks), (5, [key]))
            told = [row["MAY_BE"] for row in rows if row["RESULT"] == "break"][0]
            if settled[key] == traded[key]:
                desk.tell(f"reconcile {day}: {word} {trade}: by trade date", told, "trade date")
            else:
                ids = [part.split()[1:] for part in told.split("; ") if part.startswith(word)]
                desk.tell(f"reconcile {day}: {word} {trade}: it is named", [str(trade) in one for one in ids], [True])


def listed(path, heads, shares):
    """Writes a custodian's list; some lines are split in two."""
    with open(path, "w", newline="") as file:
        rows = csv.writer(file)
        rows.writerow(heads)
        for key, number in shares.items():
            rows.writerow([*key, number - 3])
            rows.writerow([*key, "3.000"])


def fills(desk):
    """A batch of fills of all submitted orders is accepted; wrong fills are left out."""
    trial, path, copy = desk.trial, desk.trial.folder / "fills.csv", desk.trial.folder / "filled.db"
    submitted = desk.report("submitted")
    heads = ["ClOrdID", "Symbol", "Side", "LastQty", "LastPx"]
    names = "trade=clordid,shares=LastQty,price=LastPx"
    rows, wanted = [], []
    for row in submitted:
        price, shares = cents_of(row["PRICE"]), int(row["SHARES"])
        side = "1" if row["TYPE"] in ("TMB", "TLB") else "2"
        cuts = [shares] if shares < 2 or desk.draw.random() < 0.5 else [shares // 2, shares - shares // 2]
        rows += [[row["TRADE"], row["SYMBOL"], side, cut, f"{amount_of(price)}00"] for cut in cuts]
        wanted.append(["result", row["TRADE"], amount_of(price)])
    written(path, [heads, *rows])
    words = (desk.path, path, "FILLS", "--columns", names)
    done = subprocess.run([sys.executable, REPORTS / "fills.py", *words], capture_output=True, text=True)
    desk.tell("fills: the batch", (done.returncode, done.stderr, list(csv.reader(io.StringIO(done.stdout)))),
              (0, "", [["batch", "FILLS"], *wanted, ["end", str(len(wanted))]]))
    PEERS.changed(desk.path, copy.as_posix(), "UPDATE DESK SET D_ID = 1")
    end = subprocess.run([trial.brk, "batch", "--db", copy], input=done.stdout, capture_output=True, text=True).stdout.splitlines()[-1]
    desk.tell("fills: accepted", end, f"end,{len(wanted)},0,0")
    again = subprocess.run([sys.executable, REPORTS / "fills.py", copy, path, "FILLS-2", "--columns", names], capture_output=True, text=True)
    desk.tell("fills: booked before", (again.returncode, again.stdout, again.stderr.count("it is completed")), (1, "", len(wanted)))
    used = subprocess.run([sys.executable, REPORTS / "fills.py", copy, path, "FILLS", "--columns", names], capture_output=True, text=True)
    desk.tell("fills: a name that was used", (used.returncode, used.stdout, "take another name" in used.stderr), (1, "", True))
    good = [row for row in rows if row[0] == rows[0][0]]
    other = rows[-1]
    side = {"1": "2", "2": "1"}
    wrong = {
        "is a": [[other[0], other[1], side[other[2]], other[3], other[4]]],
        "and a fill is": [[other[0], "NONE", *other[2:]]],
        "shares are filled": [[other[0], other[1], other[2], int(other[3]) + 1, other[4]]],
        "the desk has no such trade": [["999999", *other[1:]]],
        "is no id": [["07", *other[1:]]],
        "no price in whole cents": [[*other[:4], "10.005"]],
        "no whole number of shares": [[*other[:3], "1.5", other[4]]],
        "out of the limits": [[*other[:4], "0.00"]],
        "is no side": [[*other[:2], "x", *other[3:]]],
        "further than 10 %": [[*row[:4], "99999.99"] for row in rows if row[0] == other[0]],
    }
    pending, completed = desk.report("pending"), desk.report("trades")
    wrong["pending: no tick"] = [[pending[0]["TRADE"], pending[0]["SYMBOL"], "1", pending[0]["SHARES"], "1.00"]]
    wrong["it is completed"] = [[completed[0]["TRADE"], completed[0]["SYMBOL"], "1", 1, "1.00"]]
    if rows[0][0] == other[0]:
        good = []
    for reason, lines in wrong.items():
        written(path, [heads, *good, *lines])
        words = (desk.path, path, "F", "--columns", names, "--within", "10")
        strict = subprocess.run([sys.executable, REPORTS / "fills.py", *words], capture_output=True, text=True)
        desk.tell(f"fills: {reason}", (strict.returncode, strict.stdout, reason in strict.stderr), (1, "", True))
    limits = [row for row in submitted if row["TYPE"] in ("TLB", "TLS")]
    for row in limits[:2]:
        worse = cents_of(row["PRICE"]) + (1 if row["TYPE"] == "TLB" else -1)
        written(path, [heads, [row["TRADE"], row["SYMBOL"], "b" if row["TYPE"] == "TLB" else "Sell", row["SHARES"], amount_of(worse)]])
        strict = subprocess.run([sys.executable, REPORTS / "fills.py", desk.path, path, "F", "--columns", names], capture_output=True, text=True)
        desk.tell("fills: worse than the limit", (strict.returncode, strict.stdout, "worse than the limit" in strict.stderr), (1, "", True))
    if good and int(good[0][3]) > 0:
        written(path, [heads, *good, ["999999", "X", "b", 1, "1.00"]])
        done = subprocess.run([sys.executable, REPORTS / "fills.py", desk.path, path, "F", "--columns", names, "--skip"], capture_output=True, text=True)
        desk.tell("fills: --skip", (done.returncode, len(done.stdout.splitlines()), "1 of 2 orders were left out" in done.stderr), (5, 3, True))


def samples(desk):
    """Samples: drawn again, by the rule that sample.py names, and traced to the rows that were sent."""
    trial = desk.trial
    for of, key in (("trades", "TRADE"), ("movements", "CASH_ROW")):
        population = [row for row in desk.report("trades" if of == "trades" else "cash") if of == "trades" or not row["TRADE"]]
        size = {row[key]: abs(cents_of(row["SETTLEMENT" if of == "trades" else "AMOUNT"])) for row in population}
        seed = f"{desk.seed}-{of}"
        count = min(7, len(size))
        order = sorted(size, key=lambda one: hashlib.sha256(f"{seed}:{one}".encode()).hexdigest())
        for number in (count, 3, len(size)):
            status, rows, errors = trial.script("sample.py", desk.path, "--of", of, "--seed", seed, "--count", number)
            told = status, errors, [row[key] for row in rows], {(row["POPULATION"], cents_of(row["AMOUNT_OF_ALL"])) for row in rows}
            desk.tell(f"sample of {of}: {number} by chance", told, (0, "", order[:number], {(str(len(size)), sum(size.values()))}))
        # so many points that some are at the end of an item
        for number in (300000, 9):
            status, rows, errors = trial.script("sample.py", desk.path, "--of", of, "--seed", seed, "--count", number, "--by-amount")
            told = status, errors, {row[key]: int(row["HITS"]) for row in rows}
            desk.tell(f"sample of {of}: {number} by amount", told, (0, "", by_amount(size, seed, number)))
        if of == "trades":
            traced(desk, rows)
        else:
            for row in rows:
                sent = desk.batches[row["BATCH"]][1][int(row["ROW"]) - 1]
                amount = cents_of(sent[2]) * (1 if sent[0] == "deposit" else -1)
                desk.tell(f"sample: the row of cash row {row[key]}", (row["ACCOUNT"], cents_of(row["AMOUNT"])), (str(sent[1]), amount))


def by_amount(size, seed, count):
    """The items at the points of a line of all amounts, each with its hits: the points below its end less those below its beginning."""
    line = sum(size.values())
    start = int(hashlib.sha256(seed.encode()).hexdigest(), 16) % line

    def points_below(place):
        return min(max(-((start - place * count) // line), 0), count)

    hits, end = {}, 0
    for one in sorted(size, key=int):
        hits[one] = points_below(end + size[one]) - points_below(end)
        end += size[one]
    return {one: number for one, number in hits.items() if number}


def traced(desk, rows):
    """The rows of the batches of sampled trades."""
    for row in rows:
        order = desk.batches[row["ORDER_BATCH"]][1][int(row["ORDER_ROW"]) - 1]
        told = [row["ACCOUNT"], row["TYPE"], row["SYMBOL"], str(abs(int(row["SHARES"])))]
        desk.tell(f"sample: the order of trade {row['TRADE']}", told, [str(field) for field in order[1:5]])
        result = desk.batches[row["RESULT_BATCH"]][1][int(row["RESULT_ROW"]) - 1]
        desk.tell(f"sample: the result of trade {row['TRADE']}", ["result", row["TRADE"], row["PRICE"]], [str(field) for field in result])


ALL = (custodians, causes, fills, samples)
