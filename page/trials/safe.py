"""Cases: who gets in, other sites, names that are markup, and what goes wrong."""

import pathlib
import subprocess
import time

from cases import TOP
from harness import PYTHON, Page, plain

SECRET_ROUTES = ("/", "/account/100", "/trade/3", "/find?q=lee", "/report/trades?csv=rows", "/explained/trade/3")


def strangers(trial):
    """Wrong behaviour 5: without a key nothing is read and nothing booked."""
    for path in SECRET_ROUTES:
        _, text, _ = trial.page.ask("GET", path, key=None)
        trial.tell(f"wrong behaviour 5: {path} without a key has no data", "Lee" in text or "account" in text, False)
        status, text, _ = trial.page.ask("GET", path, key="guessed")
        trial.tell(f"{path} with a wrong key", (status, text), (401, "no key\n"))
    form = {"batch": "PAGE-MK-20260101-000000-00000000", "field": ["deposit", "100", "1.00"]}
    before = len(trial.way.rows())
    for heads in ({}, {"Origin": "http://evil.test"}, {"Sec_Fetch_Site": "cross-site"}):
        status, _, _ = trial.page.ask("POST", "/book", form, key=None, **heads)
        trial.tell(f"a POST without a key {heads}", status in (401, 403))
        status, _, _ = trial.page.ask("POST", "/book", form, Host="evil.test:80")
        trial.tell(f"a rebound name {heads}", status, 403)
    for heads in ({"Origin": "http://evil.test"}, {"Sec_Fetch_Site": "cross-site"}, {"Sec_Fetch_Site": "same-site"}):
        trial.tell(f"even with the key: {heads}", trial.page.ask("POST", "/book", form, **heads)[0], 403)
    trial.tell("nothing was sent to the desk", len(trial.way.rows()), before)


def links(trial):
    """A link opens once; its key ends when it is ended; a new link ends the older."""
    link = trial.page.link("AB")
    secret = link.split("#")[1]
    first = trial.page.ask("POST", "/enter", {"secret": secret}, key=None)
    second = trial.page.ask("POST", "/enter", {"secret": secret}, key=None)
    trial.tell("a link opens once", (first[0], second[0]), (200, 403))
    key = first[1].split('"')[3]
    trial.tell("its key reads", trial.page.ask("GET", "/account/100", key=key)[0], 200)
    trial.tell("the secret is in no file", any(secret in path.read_text() or key in path.read_text() for path in trial.page.runtime.rglob("*")
                                                if path.is_file() and path.suffix != ".db" and "snapshots" not in path.parts), False)
    trial.page.link("AB", "--end")
    trial.tell("and no longer once it is ended", trial.page.ask("GET", "/account/100", key=key)[0], 401)
    done = subprocess.run([PYTHON, str(TOP / "page"), "--link", "mk7", "--runtime", str(trial.page.runtime)], capture_output=True)
    trial.tell("initials are capital letters", done.returncode, 1)


def other_site(trial):
    """A page of another site in the same browser reads nothing and books nothing."""
    tab = trial.browser.open("about:blank")
    before = len(trial.way.rows())
    tab.call("Page.navigate", url=f"http://evil.test:{trial.page.port}/")
    time.sleep(0.5)
    trial.tell("a name that leads here gets no page", "This page is" in tab.evaluate("document.body.innerText"))
    told = tab.evaluate(f"""fetch("{trial.page.address}/book", {{ method: "POST", mode: "no-cors", body: "batch=PAGE-MK-1&field=deposit&field=100&field=1.00",
        headers: {{ "Content-Type": "application/x-www-form-urlencoded" }} }}).then((it) => it.type, (it) => "failed")""")
    trial.tell("a form of another site books nothing", (told in ("opaque", "failed"), len(trial.way.rows())), (True, before))
    told = tab.evaluate(f"""fetch("{trial.page.address}/account/100").then((it) => it.text(), () => "failed")""")
    trial.tell("and reads nothing", told, "failed")
    tab.close()


def escaped(trial):
    """Names that are markup stay names."""
    for path in ("/customer/11", "/account/110", "/security/XYZ", "/find?q=script", "/brokers", "/report/customers", "/find?q=%3Cb%3E%22%27"):
        trial.show(path)
        trial.tell(f"{path}: a name runs nothing", trial.tab.evaluate("document.title") != "taken"
                   and trial.tab.evaluate("document.querySelectorAll('main img, main script').length") == 0)
    status, _, _ = trial.page.ask("GET", "/account/100?cash.sort=1%3B%20DROP&cash.has=%27%22%25_")
    trial.tell("an argument is no SQL", status, 200)


def nowhere(trial):
    """Errors are lines that say what is so and what to do."""
    for path, words in (("/nowhere", "no such address"), ("/account/987654", "no account 987654"), ("/trade/987654", "no trade 987654"),
                        ("/report/nothing", "no report nothing"), ("/report/trades?from=1", "is no day"), ("/statement/100?month=7", "Invalid"),
                        ("/row/broker", "books no row"), ("/report/trades?account=999", "has no account 999")):
        screen = trial.page.screen(path)
        trial.tell(f"{path} says what is so", (screen.status in (400, 404), any(words in problem for problem in screen.problems)), (True, True))
    path = trial.desk.path
    away = path.with_suffix(".away")
    path.rename(away)
    try:
        time.sleep(5.5)
        screen = trial.page.screen("/")
        trial.tell("no snapshot: told, and tried again by itself", (screen.status, any("no snapshot" in it for it in screen.problems), "data-renew" in screen.text),
                   (503, True, True))
    finally:
        away.rename(path)
    trial.tell("and back", trial.page.screen("/").status, 200)
    trial.tell("no snapshot is left but those in use", len(list((trial.page.runtime / "snapshots").iterdir())) < 12)


def of_copy(trial):
    """A copy says that it is one, and books nothing."""
    folder = trial.folder / "of-copy"
    folder.mkdir()
    copy = folder / "copy.db"
    import desk_copy
    desk_copy.copy_live(str(trial.desk.path), str(copy))
    page = Page(folder, trial.given.brk, "--copy", copy, "--colour", "brown").start()
    try:
        page.enter("CD")
        screen = page.screen("/account/100")
        trial.tell("a copy says so", ("COPY OF" in screen.text and "read only" in screen.text, "Deposit</a>" in screen.text), (True, False))
        trial.tell("and has its numbers", plain(screen.pairs["Balance"]) != "")
        trial.tell("it books nothing", (page.screen("/row/deposit?ACCOUNT=100").status, page.ask("POST", "/book", {"batch": "PAGE-CD-1", "field": ["deposit", "100", "1.00"]})[0]), (403, 403))
        trial.tell("its colour is in the frame", 'data-colour="brown"' in page.ask("GET", "/", key=None)[1])
    finally:
        page.stop()


def started(trial):
    """What it says if it cannot start."""
    for words, told in ((["--db", "/nowhere/desk.db"], "missing or empty"), (["--db", str(trial.desk.path), "--port", str(trial.page.port)], "Address already in use")):
        done = subprocess.run([PYTHON, str(TOP / "page"), *words, "--runtime", str(trial.folder / "r"), "--journals", str(trial.folder / "j")],
                              capture_output=True, text=True, timeout=60)
        trial.tell(f"page {words[:2]}: {told}", (done.returncode, told in done.stderr), (1, True))


def newest_copy(trial):
    """The last copy, red above 26 h."""
    copies = trial.folder / "copies"
    screen = trial.page.screen("/")
    trial.tell("no copy: told", "none: " in screen.text and "brk-nightly" in screen.text)
    copies.mkdir()
    made = pathlib.Path(copies / "desk-2026-01-01.db")
    made.write_bytes(b"x")
    import os
    for hours, is_red in ((2, False), (27, True)):
        os.utime(made, (time.time() - hours * 3600,) * 2)
        screen = trial.page.screen("/")
        row = screen.text[screen.text.index("Last copy") - 60:screen.text.index("Last copy")]
        trial.tell(f"a copy of {hours} h ago", 'class="red"' in row, is_red)


PARTS = (strangers, links, other_site, escaped, nowhere, of_copy, started, newest_copy)
