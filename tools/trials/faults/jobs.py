"""The sendings that the trials of this folder disturb, made from a seed, and the arguments of the trials."""

import os
import random
import sys
import tempfile

import cases
import states
from cases import OLDER, SETTING, WELL
from days import REFUSED, day_of
from sendings import Audit, Pair, Program, Sending, found, placed

DAY_ROWS, LONG_ROWS = 40, 150
# the orders that one tick submits, which makes one large commit
ORDERS = 200
TICK = "feed,ABC,500.00,10"
SMALL = [f"deposit,100,{n}.00" for n in range(1, 5)]


def arguments(doc, **numbers):
    """The arguments of a trial: the program, the folder, and numbers with their defaults."""
    words = cases.arguments(doc, **{"seed": 1, "workers": 2, **numbers})
    words.add_argument("--folder", default="/dev/shm" if os.path.isdir("/dev/shm") else None, metavar="FOLDER")
    words.add_argument("--cc", default="cc", metavar="COMPILER")
    given = words.parse_args()
    cases.require(given.cc)
    return given


def in_folder(trial, given):
    """Runs a trial in a new folder, which is deleted; returns its exit status."""
    with tempfile.TemporaryDirectory(prefix="brk-faults-", dir=given.folder) as folder:
        program = Program(given.brk, folder, given.cc)
        for worker in range(given.workers):
            os.mkdir(program.path(f"worker-{worker}"))
        return trial(program, given)


def desk_of(program):
    """The file of a desk that was set up, closed, and its log."""
    path = program.path("set.db")
    ended = program.batch(path, SETTING)
    if ended.how != WELL:
        sys.exit(f"the desk was not set up: {ended.how}")
    return found(path)


def desk_with_orders(program, desk):
    """The file of a desk with pending orders that one tick submits."""
    path = program.path("orders.db")
    placed(path, desk)
    rows = [f"order,100,TLS,ABC,{n % 9 + 1},20.00,cash,fifo,Ann,Lee,T10" for n in range(ORDERS)]
    ended = program.batch(path, cases.batch_of("ORDERS", rows))
    if ended.how != WELL or sum(",PNDG," in line for line in ended.lines) != ORDERS:
        sys.exit(f"the orders were not entered: {ended.how}")
    return found(path)


def day(program, name, rng, count, desk):
    """A day whose refused rows are refused at whatever moment they are sent."""
    made = Sending(program, name, day_of(rng, count), desk)
    for row, line in zip(made.rows, made.lines):
        if (",no," in line) != (row in REFUSED):
            sys.exit(f"{name}: {row}: {line}")
    return made


def jobs_of(program, seed):
    """A new desk, a day, two upgrades, a day with a checkpoint of its log in it, and a tick that is one large commit."""
    rng, desk = random.Random(seed), desk_of(program)
    large = [*SMALL[:2], TICK, *SMALL[2:]]
    return {
        "a new desk": Sending(program, "SET", SETTING.decode().splitlines()[1:-1]),
        "a day": day(program, "DAY", rng, DAY_ROWS, desk),
        "schema 1": Audit(program, "FIRST", {"d": (OLDER / "first.db").read_bytes()}),
        "schema 2": Audit(program, "SECOND", {"d": (OLDER / "second.db").read_bytes()}),
        "a long day": day(program, "LONG", rng, LONG_ROWS, desk),
        "a large commit": Sending(program, "LARGE", large, desk_with_orders(program, desk)),
    }


def pairs_of(program, made):
    """A large commit and small ones after it, and a checkpoint and small commits after it, each of another batch."""
    large, long = made["a large commit"], made["a long day"]
    return {
        "a large commit, then small ones": Pair(program, "TICK", [TICK], SMALL, large.before),
        "a long day, then another batch": Pair(program, "AFTER", long.rows, SMALL, long.before),
    }


def audit_of(job):
    """An audit of what an undisturbed run of a job leaves."""
    path = job.program.path("sent.db")
    placed(path, job.before)
    job.send(path)
    return Audit(job.program, f"AUDIT-{job.name}", found(path))


def counted_calls(program, job, letters):
    """How many of these calls an undisturbed run of a job makes."""
    path = program.path("counted.db")
    placed(path, job.before)
    ended = job.send(path, counting=True, calls=letters)
    if ended.how != WELL:
        sys.exit(f"{job.name}: counted: {ended.how}")
    return ended.calls


def recorded(program, job, letters, **faults):
    """The calls of an undisturbed run of a job; with `faults` of one that is lied to."""
    path = program.path("recorded.db")
    placed(path, job.before)
    ended = job.send(path, record=path + ".record", calls=letters, **faults)
    if ended.how != WELL:
        sys.exit(f"{job.name}: recorded: {ended.how}")
    return states.recorded(path + ".record")


def around_checkpoint(calls):
    """The places of recorded calls around the first writes to the file itself between two lines."""
    lines = [at for at, call in enumerate(calls) if call.letter == "1"]
    first = next((at for at in range(lines[0], lines[-2]) if calls[at].kind == "d"), None)
    if first is None:
        sys.exit("the long day has no checkpoint before its last row")
    after = next(at for at in lines if at > first)
    return range(first - 60, min(after + 60, len(calls)))
