"""Random days for a desk that examples/setting.csv set up: rows that are answered alike however often the day is sent."""

PRICES = ("8.00", "9.50", "10.00", "10.01", "12.00", "14.37")
REFUSED = ("deposit,999,1.00", "order,100,TMB,XYZ,1,,cash,fifo,Ann,Lee,T10", "cancel,999")


class Day:
    """The rows so far, and the trades that wait for a result or for their price."""

    def __init__(self, rng):
        self.rng, self.rows = rng, []
        self.trades, self.submitted, self.pending = 0, [], {}

    def order(self):
        rng = self.rng
        self.trades += 1
        kind, price = rng.choice(["TMB", "TMB", "TMS", "TLB"]), ""
        if kind == "TLB":
            # below each price so far, so that it waits
            price = f"{7 + self.trades % 100 / 1000:.2f}"
            self.pending[self.trades] = price
        else:
            self.submitted.append(self.trades)
        cash, end = rng.choice(["cash", "cash", "margin"]), rng.choice(["fifo", "lifo"])
        return f"order,100,{kind},ABC,{rng.randint(1, 300)},{price},{cash},{end},Ann,Lee,T10"

    def feed(self):
        """A tick, sometimes at a price that submits all pending orders."""
        if self.pending and self.rng.random() < 0.5:
            self.submitted += self.pending
            self.pending = {}
            return "feed,ABC,5.00,100"
        return f"feed,ABC,{self.rng.choice(PRICES)},{self.rng.randint(1, 900)}"

    def result(self):
        if not self.submitted:
            return self.order()
        trade = self.submitted.pop(self.rng.randrange(len(self.submitted)))
        return f"result,{trade},{self.rng.choice(PRICES)}"

    def cancel(self):
        if not self.pending:
            return self.order()
        trade = self.rng.choice(sorted(self.pending))
        del self.pending[trade]
        return f"cancel,{trade}"

    def cash(self):
        return f"{self.rng.choice(['deposit', 'withdraw'])},100,{self.rng.randint(1, 99)}.{self.rng.randint(10, 99)}"

    def refused(self):
        return self.rng.choice(REFUSED)

    def add(self):
        kinds = [self.order, self.order, self.result, self.result, self.result, self.feed, self.cancel, self.cash, self.refused]
        self.rows.append(self.rng.choice(kinds)())


def day_of(rng, count):
    """A day of so many rows."""
    day = Day(rng)
    for _ in range(count):
        day.add()
    return day.rows
