"""Wrong arguments and files, a desk that a run has or that was killed, and desks without a trade."""

import os
import pathlib
import shutil
import signal
import sqlite3
import subprocess
import sys

from desks import FIRST, PEERS, REPORTS, TOP, Market, content_of, date_of, written


def refusals(trial, desk):
    """Wrong arguments, files that are no desk, a desk that a run has, and output that fails."""
    path, folder = desk.path, trial.folder
    (folder / "nothing.db").write_bytes(b"")
    (folder / "text.db").write_text("no database\n" * 1000)
    PEERS.changed(path, (folder / "later.db").as_posix(), "UPDATE DESK SET D_SCHEMA = 4")
    other = sqlite3.connect(folder / "other.db")
    other.execute("CREATE TABLE NOTE (A TEXT)")
    other.close()
    shutil.copyfile(TOP / "tools/trials/older/first.db", folder / "older.db")
    day = ("--day", date_of(FIRST))
    written(folder / "list.csv", [["symbol", "shares"], ["A", 1]])
    written(folder / "fills.csv", [["trade", "symbol", "side", "shares", "price"], [1, "A", "b", 1, "1.00"]])
    starts = {
        "report": lambda file: ("trades", file), "reconcile.py": lambda file: (file, folder / "list.csv", *day),
        "fills.py": lambda file: (file, folder / "fills.csv", "F"), "sample.py": lambda file: (file, "--seed", "s", "--count", "1"),
    }
    reasons = {"none.db": "is missing or empty", "nothing.db": "is missing or empty", "text.db": "no desk", "other.db": "has no table DESK",
               "later.db": "of schema 4", "older.db": "of schema 1", ".": "is missing or empty"}
    for script, words in starts.items():
        for name, reason in reasons.items():
            status, rows, errors = trial.script(script, *words(folder / name))
            trial.tell(f"{script}: {name}", (status, rows, reason in errors, errors.count("\n")), (1, [], True, 1))
        status, rows, _ = trial.script(script)
        trial.tell(f"{script}: no arguments", (status, rows), (2, []))
        with open("/dev/full", "wb") as full:
            done = subprocess.run([sys.executable, REPORTS / script, *map(str, starts[script](path))], stdout=full, stderr=subprocess.PIPE, text=True)
        if script != "fills.py":
            trial.tell(f"{script}: a full disk", (done.returncode, "standard output failed" in done.stderr), (3, True))
    trial.tell("it creates no file", (folder / "none.db").exists(), False)
    wrong = [
        ("trade", path), ("trades",), ("trades", path, "--day", "2024-02-30"), ("trades", path, "--day", "1969-12-31"), ("trades", path, "--day", "20240301"),
        ("trades", path, "--day", "2024-03-01", "--to", "2024-03-01"), ("trades", path, "--from", "2024-03-02", "--to", "2024-03-01"),
        ("lots", path, "--from", "2024-03-01"), ("totals", path, *day), ("lots", path, "--account", "0"), ("lots", path, "--account", "+1"),
        ("lots", path, "--account", "1000000000001"), ("batches", path, "--broker", "1"), ("views", path), ("lots", path, "--acc", "100"),
    ]
    for words in wrong:
        status, rows, errors = trial.script("report", *words)
        trial.tell(f"report {words}", (status, rows, "error: " in errors), (2, [], True))
    for words in (("--account", "999"), ("--customer", "999"), ("--broker", "999"), ("--symbol", "NONE")):
        status, rows, errors = trial.script("report", "lots", path, *words)
        trial.tell(f"report lots {words}", (status, rows, f"has no {words[0][2:]} {words[1]}" in errors), (1, [], True))
    for words in (("list.csv", "--day", "x"), ("list.csv",), ("list.csv", *day, "--columns", "a=b"), ("list.csv", *day, "--columns", "symbol")):
        status, rows, _ = trial.script("reconcile.py", path, folder / words[0], *words[1:])
        trial.tell(f"reconcile.py {words}", (status, rows), (2, []))
    lists = {"no column": [["symbol", "n"]], "two columns": [["symbol", "shares", "shares"]], "a fraction": [["symbol", "shares"], ["A", "1.5"]],
             "no symbol": [["symbol", "shares"], ["", 1]], "a short line": [["symbol", "shares"], ["A"]], "no account": [["account", "symbol", "shares"], ["x", "A", 1]]}
    for name, rows in lists.items():
        written(folder / "wrong.csv", rows)
        status, found, errors = trial.script("reconcile.py", path, folder / "wrong.csv", *day)
        trial.tell(f"reconcile.py: {name}", (status, found, errors.startswith("reconcile.py: nothing was printed: ")), (1, [], True))
    process = subprocess.Popen([trial.brk, "batch", "--db", path], stdin=subprocess.PIPE, stdout=subprocess.PIPE, text=True)
    process.stdin.write("batch,HELD\ndeposit,999,1.00\ndeposit,999,1.00\n")
    process.stdin.flush()
    process.stdout.readline()
    status, rows, errors = trial.script("report", "trades", path)
    trial.tell("a desk that brk has", (status, len(rows), errors), (0, len(desk.completed), ""))
    told, _ = process.communicate("end,2\n")
    trial.tell("the run goes on", told.splitlines()[-1:], ["end,0,0,2"])
    killed(trial, folder / "killed.db", path)


def killed(trial, copy, path):
    """A desk whose run was killed: a row that was answered is in its log only."""
    PEERS.changed(path, copy.as_posix(), "UPDATE DESK SET D_ID = 1")
    process = subprocess.Popen([trial.brk, "batch", "--db", copy], stdin=subprocess.PIPE, stdout=subprocess.PIPE, text=True, start_new_session=True)
    process.stdin.write("batch,KILLED\ndeposit,100,77.77\ndeposit,100,88.88\n")
    process.stdin.flush()
    line = process.stdout.readline()
    os.killpg(process.pid, signal.SIGKILL)
    process.wait()
    process.stdin.close()
    process.stdout.close()
    log = pathlib.Path(f"{copy}-wal")
    before = content_of(copy), content_of(log)
    rows = [row for row in trial.report("cash", copy) if row["AMOUNT"] == "77.77"]
    trial.tell("a run that was killed: its row", [row["ACCOUNT"] for row in rows], ["100"] if ",ok," in line else [])
    trial.tell("a run that was killed: the file and its log", (content_of(copy), content_of(log)), before)


def bare(trial):
    """A desk without a row, and one without a trade: each report is complete, and the totals agree."""
    path = trial.folder / "bare.db"
    names = [row["NAME"] for row in trial.script("report", "--list")[1]]
    for name, rows in (("NONE", []), ("SET", Market(1, 0).setting())):
        subprocess.run([trial.brk, "batch", "--db", path], input=PEERS.batch_of(name, rows), stdout=subprocess.DEVNULL, check=True)
        for report in names:
            status, found, errors = trial.script("report", report, path)
            trial.tell(f"a desk without a trade, after {name}: {report}", (status, errors), (0, ""))
            if report in ("orders", "trades", "gains", "cash", "lots", "settlements", "pending", "submitted"):
                trial.tell(f"a desk without a trade, after {name}: rows of {report}", found, [])
        status, rows, errors = trial.script("sample.py", path, "--seed", "s", "--count", "1")
        trial.tell(f"a desk without a trade, after {name}: a sample", (status, rows, "has no trades" in errors), (1, [], True))
