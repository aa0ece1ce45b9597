"""Cases: the times of screens on a large desk, and what another program waits beside the page."""

import threading
import time

import desks
from books import MOMENT
from harness import Page

# seconds of the first screen, of an account of 4,000 trades, of a trade
FIRST, ACCOUNT, TRADE, WAIT = 0.5, 1.0, 0.5, 0.1
OWN, LOADS = 4000, 5


def own_day(first):
    """Yields orders of one account with their results."""
    for n in range(1, OWN + 1):
        price = 900 + n * 7 % 300
        fields = ["order", 100, "TMS" if n % 3 == 0 else "TMB", desks.symbol_of(n), n % 500 + 1, "", "cash", "fifo", "Ann", "Lee", "T10"]
        yield ",".join(map(str, fields))
        yield f"result,{first + n},{price // 100}.{price % 100:02}"


def made(trial, path, count):
    """A large desk: by the program, or a copy of one that was made before."""
    for name, rows, at in (("SET", desks.setting(500), MOMENT), ("DAY", desks.day(count, 500), MOMENT), ("OWN", own_day(count), MOMENT + 5 * 86_400_000)):
        desks.timed([trial.brk, "batch", "--db", str(path), "--at", str(at)], desks.lines_of(name, rows))


def large(trial):
    """A desk of many trades, and one account of 4,000: each screen in its time, read in the browser."""
    if not trial.given.trades and not trial.given.large:
        trial.leave("the times of a large desk: --trades N makes one")
        return
    folder = trial.folder / "large"
    folder.mkdir()
    path = trial.given.large or folder / "desk.db"
    if not trial.given.large:
        made(trial, path, trial.given.trades)
    page = Page(folder, trial.brk, "--db", path, "--journals", folder / "journals").start()
    try:
        page.enter("LA")
        tab = trial.browser.open(width=1600, height=1000)
        tab.call("Page.navigate", url=page.link("LB"))
        tab.wait("document.querySelector('h1')?.textContent.startsWith('Today')")
        last = int(page.screen("/account/100").rows("orders")[0]["Trade"])
        for path, most in (("/", FIRST), ("/account/100", ACCOUNT), (f"/trade/{last}", TRADE), ("/trade/5", TRADE), (f"/trade/{last // 2}", TRADE)):
            times = []
            for _ in range(LOADS):
                # as long as no snapshot is shared
                time.sleep(5.2)
                tab.call("Page.navigate", url="about:blank")
                tab.wait("location.href === 'about:blank'")
                begun = time.monotonic()
                tab.call("Page.navigate", url=page.address + path)
                tab.wait(f"document.querySelector('h1') && location.pathname === {path!r}")
                times.append(time.monotonic() - begun)
            trial.tell(f"{path} of a large desk within {most} s: {', '.join(f'{it:.2f}' for it in times)}", min(times) <= most)
    finally:
        page.stop()


def waits(trial, count, path):
    """The seconds of each of so many deposits of another program."""
    found = []
    for number in range(count):
        begun = time.monotonic()
        trial.desk.post(f"/rows/{path}/{number + 1}", ["deposit", "101", "1.00"])
        found.append(time.monotonic() - begun)
    return sorted(found)


def beside(trial):
    """What another program waits while the page is read without a pause, and without the page."""
    count = trial.given.deposits
    if not count:
        trial.leave("the waits of another program: --deposits N")
        return
    alone, ends = waits(trial, count, "ALONE"), threading.Event()

    def read():
        while not ends.is_set():
            for path in ("/", "/account/100", "/trade/3"):
                trial.page.ask("GET", path)

    reader = threading.Thread(target=read, daemon=True)
    reader.start()
    with_page = waits(trial, count, "BESIDE")
    ends.set()
    reader.join()
    told = [f"{it[count // 2] * 1000:.0f} ms, at most {it[-1] * 1000:.0f} ms" for it in (alone, with_page)]
    trial.tell(f"{count} deposits of another program: alone {told[0]}; beside the page {told[1]}", with_page[-1] <= alone[-1] + WAIT)


PARTS = (large, beside)
