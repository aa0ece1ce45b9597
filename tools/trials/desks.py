"""Desks with many trades, which the program books itself, and runs of the program that are timed."""

import os
import subprocess
import tempfile
import time

from cases import MOMENT, SETTING

CUSTOMER, ACCOUNT, SYMBOLS = 10, 100, 20
MOST_LINE = 4096


def symbol_of(n):
    return f"S{n % SYMBOLS}"


def account_of(n, accounts):
    return ACCOUNT + n % accounts


def customer_of(account):
    """The customer of an account: each has ten."""
    return CUSTOMER + (account - ACCOUNT) // 10


def order(n, kind, qty, accounts):
    """The fields of a market order, for the accounts in turn, and then for the symbols."""
    account = account_of(n, accounts)
    end = "lifo" if n % 2 == 0 else "fifo"
    return ["order", account, kind, symbol_of(n // accounts), qty, "", "cash", end, "Ann", "Lee", f"T{customer_of(account)}"]


def setting(accounts):
    """examples/setting.csv with so many accounts, ten of each customer, and twenty securities."""
    last = customer_of(ACCOUNT + accounts - 1)
    rows = SETTING.decode().splitlines()[1:-1]
    for customer in range(CUSTOMER + 1, last + 1):
        rows += [f"customer,{customer},1,T{customer},Lee,Ann", f"custtax,{customer},1"]
    rows += [f"account,{account},{customer_of(account)},1,Main,1,10000.00" for account in range(ACCOUNT + 1, ACCOUNT + accounts)]
    return [*rows, *(f"security,{symbol_of(n)},Acme,NYSE,Tech,10.00" for n in range(SYMBOLS))]


def day(count, accounts):
    """Yields so many orders, a third of which sell, each with its result after it."""
    for n in range(1, count + 1):
        price = 900 + n * 7 % 300
        yield ",".join(map(str, order(n, "TMS" if n % 3 == 0 else "TMB", n % 500 + 1, accounts)))
        yield f"result,{n},{price // 100}.{price % 100:02}"


def lines_of(name, rows):
    """Yields the lines of a batch."""
    count = 0
    yield f"batch,{name}\n"
    for count, row in enumerate(rows, 1):
        yield f"{row}\n"
    yield f"end,{count}\n"


def timed(words, lines=()):
    """Runs a program on lines: its status, its last line, and what it took. Linux counts the memory of the process that starts a program as the
    program's, so this process holds neither the lines nor the output."""
    with tempfile.TemporaryFile() as put, tempfile.TemporaryFile() as got:
        put.writelines(line.encode() for line in lines)
        put.seek(0)
        began = time.monotonic()
        process = subprocess.Popen(words, stdin=put, stdout=got)
        _, status, used = os.wait4(process.pid, 0)
        process.returncode = os.waitstatus_to_exitcode(status)
        took = time.monotonic() - began
        got.seek(max(0, os.fstat(got.fileno()).st_size - MOST_LINE))
        last = got.read().decode(errors="replace").splitlines()[-1:]
    cost = f"{took:.2f} s by the clock, {used.ru_utime + used.ru_stime:.2f} s of a processor, {used.ru_maxrss / 1024:.0f} MB"
    return process.returncode, "".join(last), cost


def made(brk, path, count, accounts=1):
    """Books a setting and then so many trades on a new file: what came of the two batches."""
    words = [brk, "batch", "--db", path, "--at", MOMENT]
    return [timed(words, lines_of(name, rows)) for name, rows in (("SET", setting(accounts)), ("DAY", day(count, accounts)))]
