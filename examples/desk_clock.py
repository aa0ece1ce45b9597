#!/usr/bin/env python3
"""Compares the last stamp of a desk with the machine's clock: the start check of brk.service and of examples/send.

    examples/desk_clock.py FILE

A clock that is ahead moves every later stamp behind it, for good; a clock that is behind gives trades the day of the last stamp
(docs/OPERATING.md, "The clock"). So the check fails

- if the last stamp is later than the clock;
- if it is more than BRK_IDLE_DAYS days (14) before the clock, a setting of docs/PACKAGE.md.

BRK_CLOCK=checked in the environment of one start, or of one `send`, lets that one through, after you compared the clock with
another one. It is no setting: the check also fails if the file of the settings has a line BRK_CLOCK.

Exit status: 0 if the clock may be used, 1 if not, 2 if the arguments are wrong, 3 if FILE or a setting cannot be read. A desk without
a row passes. It changes neither FILE nor its log, and needs Python 3.9.
"""

import contextlib
import os
import sqlite3
import sys
import time
import urllib.parse

sys.dont_write_bytecode = True

import desk_settings  # noqa: E402

IDLE_DAYS, DAY_MS = 14, 86_400_000
CHECKED = "checked"


class WrongClock(Exception):
    """The clock cannot be used for this desk, and what to do."""


def milliseconds():
    return time.time_ns() // 1_000_000


def time_text(stamp):
    return time.strftime("%Y-%m-%d %H:%M:%S UTC", time.gmtime(stamp // 1000))


def is_checked():
    """Whether the environment lets this run through."""
    if "BRK_CLOCK" in desk_settings.settings_of_file():
        raise WrongClock(f"{desk_settings.FILE} has a line BRK_CLOCK, which would let every start through: delete it")
    return os.environ.get("BRK_CLOCK") == CHECKED


def require_clock(last):
    """Raises WrongClock unless the clock may be used after a last stamp; None is that of a desk without a row."""
    idle_days = desk_settings.whole_setting("BRK_IDLE_DAYS", IDLE_DAYS)
    now = milliseconds()
    if is_checked() or last is None or last <= now <= last + idle_days * DAY_MS:
        return
    found = f"the last stamp of the desk is of {time_text(last)}, and the clock is at {time_text(now)}"
    todo = f"compare the clock with another one; if it is right, set BRK_CLOCK={CHECKED} for this run alone"
    if last > now:
        raise WrongClock(f"{found}, which is earlier by {last - now} ms: {todo}")
    raise WrongClock(f"{found}, more than {idle_days} days later (BRK_IDLE_DAYS): {todo}")


def last_stamp(file):
    """Returns the last stamp of a file and its log, or None if it has no row."""
    name = f"file:{urllib.parse.quote(os.path.abspath(file))}?mode=ro"
    with contextlib.closing(sqlite3.connect(name, uri=True, timeout=0)) as conn:
        (last,) = conn.execute("SELECT D_LAST FROM DESK").fetchone()
    return last


def main():
    if len(sys.argv) != 2 or sys.argv[1].startswith("-"):
        print("desk_clock: usage: desk_clock.py FILE", file=sys.stderr)
        return 2
    try:
        require_clock(last_stamp(sys.argv[1]))
    except WrongClock as why:
        print(f"desk_clock: {why}", file=sys.stderr)
        return 1
    except (OSError, sqlite3.Error, TypeError, desk_settings.WrongSetting) as error:
        print(f"desk_clock: the clock was not compared: {sys.argv[1]}: {error}", file=sys.stderr)
        return 3
    return 0


if __name__ == "__main__":
    sys.exit(main())
