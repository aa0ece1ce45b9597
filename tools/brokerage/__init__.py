"""A second brokerage in plain Python, written from the rules of the trade alone.

It shares no text with `brk` and starts none. It has no faults: memory and disks do not fail here.
A script of this tree imports it with the folder tools in sys.path:

    from brokerage import Desk, Refused

    desk = Desk()                                      # an empty desk of the third schema
    lines, fault = desk.batch(rows, 1709251200000)     # bytes in, bytes out; None or ("no end", 3)
    written, done = desk.serve(requests, moment)       # an HTTP stream, and how many were answered
    desk.do(moment, ["cancel", "1"], ("A", 7))         # ("ok", ["1709251200016", "CNCL"])
    desk.ask("volume", "Tech", "Bo")                   # [("Bo", "1", "300.00")], or Refused
    desk.statement("100", "2024-03-01", "2024-03-31")  # a text, or Refused
    desk.statements("2024-03-01", "2024-03-31", "10")  # of a customer; without "10" of all
    desk.explain("trade", "3")                         # a text, or Refused
    desk.tables()["HOLDING"]                           # rows as tuples, by key
    desk.audit()                                       # None, or the condition that fails
    desk.write(sqlite3.connect(path))                  # the tables in a database
    Desk.adopt(sqlite3.connect(path))                  # a desk again, or Damaged

Desk(base) is the desk of a base that a script makes of records itself, such as many trades.

    amounts      cents, rates, stamps and days        refusals    refusals in their order
    records      what a desk keeps                    forms       fields, rows and queries
    lots         positions, and what a trade closes   books       what follows from the records
    step         one command                          views       one query
    statement    the statement of an account          printed     views as `brk ask` prints them
    explain      explanations                         explain_trade  that of a trade
    lines        the forms of their lines
    batches      CSV in, lines out                    streams     HTTP in, HTTP out
    tables       rows of a base, and back             database    tables in sqlite3
    audit        the conditions of the audit          desk        the calls above
    transcripts  transcripts, worked out again        days        random days
    random_rows  their rows                           figures     figures that need no desk
"""

from .desk import Damaged, Desk
from .refusals import Refusal, Refused

__all__ = ["Damaged", "Desk", "Refusal", "Refused"]
