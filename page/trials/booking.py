"""Cases: rows in two steps, replies that are lost, reloads, kills at each seam, and a desk that is away."""

import re
import sys
import time

from books import LEE
from harness import PYTHON, SLOW, killed_at, plain

SEAMS = ("before", "stored", "sent", "replied")


def booked(trial, wanted):
    """How many of the desk's stored rows have these fields, as a copy shows."""
    import contextlib
    import os
    import sqlite3
    import tempfile

    import desk_copy
    with tempfile.TemporaryDirectory() as folder:
        desk_copy.copy_live(str(trial.desk.path), os.path.join(folder, "copy.db"))
        with contextlib.closing(sqlite3.connect(os.path.join(folder, "copy.db"))) as conn:
            return conn.execute("SELECT count(*) FROM KEPT WHERE K_ROW = ?", ("\x1f".join(wanted),)).fetchone()[0]


def submitted(trial):
    """A new submitted order of another program: its trade."""
    return trial.other("order", "100", "TMB", "ABC", "10", "", "cash", "fifo", *LEE)[1]


def fill(trial, path, **fields):
    trial.show(path)
    for name, value in fields.items():
        selector = f".fields [name={name}]"
        if trial.tab.evaluate(f"document.querySelector('{selector}').tagName") == "SELECT":
            trial.tab.choose(selector, value)
        else:
            trial.tab.type(selector, value)


def step_two(trial, path, **fields):
    """Fills the first step in, and goes on by Enter in its last field."""
    fill(trial, path, **fields)
    trial.tab.evaluate("[...document.querySelectorAll('.fields input:not([type=hidden])')].at(-1)?.focus()")
    if trial.tab.evaluate("document.activeElement?.matches('.fields input') ?? false"):
        trial.tab.press("Enter")
    else:
        trial.tab.click(".fields button")
    trial.tab.wait("document.querySelector('.book button') || document.querySelector('#wrong')")


def book(trial):
    trial.tab.click(".book button")
    trial.tab.wait("document.querySelector('h1')?.textContent.match(/^(Booked|Refused|Without)/)")
    return trial.tab.evaluate("document.querySelector('h1').textContent")


def words(trial):
    return trial.tab.evaluate("document.querySelector('main').innerText")


def button(trial):
    return trial.tab.evaluate("document.querySelector('.book button')?.textContent.trim()")


def two_steps(trial):
    """Each kind of row: nothing is sent before the second step, and the screen after it has the row."""
    trade = submitted(trial)
    pending = trial.other("order", "100", "TLB", "ABC", "11", "5.00", "cash", "fifo", *LEE)[1]
    for kind, path, fields, wanted in (
        ("order", "/row/order?ACCOUNT=100", {"TYPE": "TMB", "SYMBOL": "abc", "QTY": "13"}, ["order", "100", "TMB", "ABC", "13", "", "cash", "fifo", *LEE]),
        ("result", f"/row/result?TRADE={trade}", {"PRICE": "10.4"}, ["result", trade, "10.40"]),
        ("feed", "/row/feed?SYMBOL=ABC", {"PRICE": "10.31", "QTY": "7"}, ["feed", "ABC", "10.31", "7"]),
        ("cancel", f"/row/cancel?TRADE={pending}", {}, ["cancel", pending]),
        ("deposit", "/row/deposit?ACCOUNT=100", {"AMOUNT": "123,456.78"}, ["deposit", "100", "123456.78"]),
        ("withdraw", "/row/withdraw?ACCOUNT=100", {"AMOUNT": "12"}, ["withdraw", "100", "12.00"]),
    ):
        before = len(trial.way.rows())
        step_two(trial, path, **fields)
        trial.tell(f"{kind}: Enter in a field leads to the second step", button(trial) is not None)
        trial.tell(f"{kind}: no row before the second step", len(trial.way.rows()), before)
        trial.tab.press("Enter")
        time.sleep(0.2)
        trial.tell(f"wrong behaviour 2: {kind}: Enter does not book", (len(trial.way.rows()), booked(trial, wanted)), (before, 0))
        if kind == "order":
            trial.picture("second-step")
        trial.tell(f"{kind}: booked by the button", book(trial), "Booked")
        trial.tell(f"{kind}: once, with these fields", (len(trial.way.rows()) - before, booked(trial, wanted)), (1, 1))
        key = trial.way.rows()[-1][0].split("/")
        trial.tell(f"{kind}: the initials are in the batch", (key[2].startswith("PAGE-MK-"), key[3]), (True, "1"))
        stamp = int(re.search(r"stamp (\d+)", words(trial))[1])
        screen = trial.page.screen("/")
        shown = int(time.mktime(time.strptime(screen.stamp, "%Y-%m-%d %H:%M:%S"))) - time.timezone
        trial.tell(f"{kind}: the next screen is not from before its reply", shown >= stamp // 1000)
        trial.tell(f"{kind}: it names the row", plain(wanted[1]) in plain(words(trial)))


def foreseen(trial):
    """The second step of a result says what the result does; that of an order what the desk estimates."""
    for price, kind in (("10.77", "TMS"), ("9.13", "TMB"), ("10.00", "TMS")):
        trade = trial.other("order", "100", kind, "ABC", "17", "", "cash", "fifo", *LEE)[1]
        time.sleep(5.2)
        step_two(trial, f"/row/result?TRADE={trade}", PRICE=price)
        told = dict(trial.tab.evaluate("[...document.querySelectorAll('.estimate tr')].map((row) => [row.cells[0].innerText.trim(), row.cells[1].innerText.trim()])"))
        cash = trial.tab.evaluate("[...document.querySelectorAll('.effect tr')].find((row) => row.cells[0].innerText === 'Cash').cells[2].innerText")
        reply = trial.other("result", trade, price)
        trial.tell(f"a result at {price}: commission, tax, cash after", [plain(told["Commission"]), plain(told["Tax"]), plain(cash)], [reply[1], reply[2], reply[7]])
        amount = plain(told["Cost" if kind == "TMB" else "Proceeds"])
        trial.tell(f"a result at {price}: cost or proceeds", amount, reply[3].lstrip("-"))
    step_two(trial, "/row/order?ACCOUNT=100", TYPE="TMS", SYMBOL="ABC", QTY="21")
    _, (estimate,) = trial.desk.post("/ask/estimate", ["100", "TMS", "ABC", "21", "", "cash", "fifo", *LEE])
    told = dict(trial.tab.evaluate("[...document.querySelectorAll('.estimate tr')].map((row) => [row.cells[0].innerText.trim(), row.cells[1].innerText.trim()])"))
    trial.tell("an order: the desk's own estimate", [plain(told[name]) for name in ("Tax", "Commission", "Charge")], estimate[3:6])


def warned(trial):
    """Far prices, shares and cash below zero: the button says so."""
    trade = submitted(trial)
    time.sleep(5.2)
    step_two(trial, f"/row/result?TRADE={trade}", PRICE="2133.90")
    trial.tell("a price far off: the button says so", re.search(r"^Book 2133\.90, [0-9.]+ % above the last price", button(trial)) is not None)
    trial.tell("and it is amber", trial.tab.evaluate("document.querySelector('.book button').classList.contains('amber')"))
    step_two(trial, "/row/order?ACCOUNT=110", TYPE="TMS", SYMBOL="XYZ", QTY="900000")
    trial.tell("shares below zero: the button says so", "leaving -" in button(trial) and "shares" in button(trial))
    step_two(trial, "/row/withdraw?ACCOUNT=303", AMOUNT="1000000")
    trial.tell("cash below zero: the button says so", "leaving -999,000.00" in button(trial))
    trial.other("order", "100", "TLB", "ABC", "12", "6.00", "cash", "fifo", *LEE)
    time.sleep(5.2)
    step_two(trial, "/row/feed?SYMBOL=ABC", PRICE="5.99", QTY="1")
    trial.tell("a tick says what it would submit", re.search(r"It submits [1-9] of the pending orders", words(trial)) is not None and "submitting" in button(trial))
    step_two(trial, "/row/deposit?ACCOUNT=100", AMOUNT="1.00.0")
    trial.tell("a field that is wrong is named", "is no amount" in words(trial))
    step_two(trial, "/row/order?ACCOUNT=100", TYPE="TMB", SYMBOL="ABC", QTY="5", PRICE="9.00")
    trial.tell("a market order has no price", "A market order has no price" in words(trial))
    people = trial.tab.texts(".fields [name=PERSON] option")
    trial.tell("who may order is a list", any("Ann Lee (T10), customer" in text for text in people))


def lost(trial):
    """Wrong behaviour 1: a reply is lost, the tab loaded anew, the row sent again: booked once."""
    wanted = ["deposit", "100", "77.01"]
    step_two(trial, "/row/deposit?ACCOUNT=100", AMOUNT="77.01")
    trial.way.fault = "lost"
    trial.tell("a reply is lost: the screen says that it is not known", book(trial), "Without a reply")
    trial.tell("and what to do", "Send it again there; do not type it again" in words(trial))
    for path in ("/", "/account/100", "/find?q=lee"):
        trial.show(path)
        line = trial.tab.evaluate("document.querySelector('#lines .red')?.innerText")
        trial.tell(f"{path}: a red line has the row", "Without a reply: Deposit: account 100, amount 77.01" in (line or ""))
    trial.tab.call("Page.reload")
    trial.tab.wait("document.querySelector('#lines .red button')")
    step_two(trial, "/row/deposit?ACCOUNT=100", AMOUNT="77.02")
    trial.tell("no further row while one has no reply", book(trial) == "Without a reply" and booked(trial, ["deposit", "100", "77.02"]) == 0)
    trial.tab.click("#lines .red button")
    trial.tab.wait("document.querySelector('h1')?.textContent.startsWith('Booked')")
    trial.tell("sent again: booked once", booked(trial, wanted), 1)
    trial.tell("and the line is gone", trial.tab.evaluate("document.querySelectorAll('#lines .red:not([hidden])').length"), 0)
    step_two(trial, "/row/deposit?ACCOUNT=100", AMOUNT="77.01")
    trial.tell("the same row again within ten minutes asks", "once more" in button(trial))


def twice(trial):
    """A double click, and the same form sent by two tabs: booked once."""
    wanted = ["deposit", "100", "88.01"]
    step_two(trial, "/row/deposit?ACCOUNT=100", AMOUNT="88.01")
    trial.tab.click(".book button", times=2)
    trial.tab.wait("document.querySelector('h1')?.textContent.startsWith('Booked')")
    trial.tell("a double click books once", booked(trial, wanted), 1)
    _, text, _ = trial.page.ask("GET", "/row/deposit?ACCOUNT=100&AMOUNT=88.02&step=2")
    batch = re.search(r'name="batch" value="([^"]+)"', text)[1]
    form = {"batch": batch, "field": ["deposit", "100", "88.02"]}
    replies = [trial.page.ask("POST", "/book", form)[1] for _ in range(2)]
    trial.tell("the same form twice books once", (booked(trial, ["deposit", "100", "88.02"]), ["Booked" in text for text in replies]), (1, [True, True]))
    form["field"] = ["deposit", "100", "88.03"]
    _, text, _ = trial.page.ask("POST", "/book", form)
    trial.tell("a form for another row is refused", ("used for another row" in text, booked(trial, ["deposit", "100", "88.03"])), (True, 0))


def silent(trial):
    """Wrong behaviour 6: a desk that takes its time is not silence."""
    step_two(trial, "/row/deposit?ACCOUNT=100", AMOUNT="66.01")
    trial.way.fault = "slow"
    trial.tab.click(".book button")
    time.sleep(1.5)
    told = trial.tab.evaluate("[document.querySelector('.book button')?.textContent, document.querySelector('.book button')?.disabled]")
    trial.tell("wrong behaviour 6: the button says that it sends, and rests", (told[0] or "").startswith("Sending, 1 s") and told[1])
    other = trial.page.screen("/")
    trial.tell("and another screen says so too", "Being sent: Deposit" in other.text)
    trial.tab.wait("document.querySelector('h1')?.textContent.startsWith('Booked')")
    trial.tell("a slow desk: booked once", booked(trial, ["deposit", "100", "66.01"]), 1)
    trial.tell("waited for", SLOW > 1)


def refused(trial):
    trade = submitted(trial)
    time.sleep(5.2)
    step_two(trial, f"/row/result?TRADE={trade}", PRICE="10.00")
    trial.other("result", trade, "10.10")
    trial.tell("a refusal says that nothing has changed", book(trial), "Refused: nothing has changed")
    trial.tell("in words", "WrongStatus" in words(trial))


def away(trial):
    """Wrong behaviour 7: a desk that is away, busy or started again is told as what it is."""
    step_two(trial, "/row/deposit?ACCOUNT=100", AMOUNT="55.01")
    trial.way.fault = "busy"
    told = book(trial)
    trial.tell("a busy door: told, and the row kept", told == "Without a reply" and "busy" in words(trial))
    trial.desk.stop()
    trial.tab.click("#lines .red button")
    trial.tab.wait("document.querySelector('h1')?.textContent.startsWith('Without')")
    trial.tell("a desk that is away: told", "booked" in words(trial))
    trial.tell("its numbers are shown all the same", trial.page.screen("/account/100").status, 200)
    step_two(trial, "/row/order?ACCOUNT=100", TYPE="TMB", SYMBOL="ABC", QTY="5")
    trial.tell("no estimate, nothing to book", "No estimate, so nothing to book yet" in words(trial))
    trial.desk.serve()
    trial.show("/")
    trial.tab.click("#lines .red button")
    trial.tab.wait("document.querySelector('h1')?.textContent.startsWith('Booked')")
    trial.tell("the desk is back: booked once", booked(trial, ["deposit", "100", "55.01"]), 1)


def killed(trial):
    """The page's program is killed at each seam of a row, and by no request of its own: booked once."""
    for number, seam in enumerate(SEAMS):
        wanted = ["deposit", "101", f"44.0{number + 1}"]
        trial.page.stop()
        program = trial.folder / f"killed-{seam}.py"
        program.write_text(killed_at(seam))
        trial.page.program, usual = program, trial.page.program
        trial.page.start()
        step_two(trial, "/row/deposit?ACCOUNT=101", AMOUNT=wanted[2])
        trial.tab.click(".book button")
        trial.tab.wait("!document.querySelector('#trouble').hidden")
        trial.tell(f"killed {seam}: the screen says that it is not known", "not known if this was booked" in trial.tab.evaluate("document.querySelector('#trouble').innerText"))
        trial.page.process.wait(20)
        trial.page.program = usual
        trial.page.start()
        trial.show("/")
        waits = trial.tab.evaluate("document.querySelector('#lines .red:not([hidden])')?.innerText ?? ''")
        trial.tell(f"killed {seam}: the journal has the row without a reply", wanted[2] in waits, seam in ("stored", "sent"))
        if wanted[2] in waits:
            trial.tab.click("#lines .red button")
            trial.tab.wait("document.querySelector('h1')?.textContent.startsWith('Booked')")
        else:
            rows = trial.page.screen("/account/101").rows("cash")
            is_there = any(plain(row["Amount"]) == wanted[2] for row in rows)
            trial.tell(f"killed {seam}: the account shows if it was booked", is_there, seam == "replied")
            if not is_there:
                step_two(trial, "/row/deposit?ACCOUNT=101", AMOUNT=wanted[2])
                book(trial)
        trial.tell(f"killed {seam}: booked once", booked(trial, wanted), 1)
    trial.page.stop(9)
    holders = [path for path in __import__("pathlib").Path("/proc").glob("[0-9]*/fd/*") if _leads(path, str(trial.desk.path))]
    processes = {path.parts[2] for path in holders} - {str(trial.desk.process.pid)}
    trial.tell("wrong behaviour 10: killed, the page leaves nobody with the file", processes & _ours(trial), set())
    trial.page.start()
    trial.show("/")


def _leads(path, name):
    try:
        return str(path.readlink()).startswith(name)
    except OSError:
        return False


def _ours(trial):
    return {str(trial.page.process.pid)}


def by_keyboard(trial):
    """An order and a result without the mouse."""
    trial.show("/account/100")
    trial.tab.evaluate("document.body.focus()")
    stops = 0
    while trial.tab.evaluate("document.activeElement?.textContent.trim()") != "Order" and stops < 40:
        trial.tab.press("Tab")
        stops += 1
    trial.tell(f"the button Order within 30 tab stops ({stops})", stops <= 30)
    trial.tab.press("Enter")
    trial.tab.wait("document.querySelector('.fields [name=SYMBOL]')")
    trial.tab.evaluate("document.querySelector('.fields [name=TYPE]').focus()")
    for text in ("ABC", "19"):
        trial.tab.press("Tab")
        trial.tab.call("Input.insertText", text=text)
    trial.tab.press("Enter")
    trial.tab.wait("document.querySelector('.book button')")
    stops = 0
    while not trial.tab.evaluate("document.activeElement?.matches('.book button') ?? false") and stops < 40:
        trial.tab.press("Tab")
        stops += 1
    trial.tell(f"the button that books within 30 tab stops ({stops})", stops <= 30)
    trial.tab.press("Space")
    trial.tab.wait("document.querySelector('h1')?.textContent.startsWith('Booked')")
    trial.tell("an order by keyboard alone", booked(trial, ["order", "100", "TMB", "ABC", "19", "", "cash", "fifo", *LEE]), 1)


PARTS = (two_steps, foreseen, warned, twice, silent, lost, refused, away, by_keyboard, killed)
assert PYTHON and sys
