"""Refusals, in the order in which they are tested."""

import enum


class Refusal(enum.IntEnum):
    BadText = 18
    BadQty = 8
    BadPrice = 9
    BadType = 7
    TooMany = 20
    KeyReused = 19
    NoAccount = 1
    NoCustomer = 2
    NoBroker = 3
    NoSecurity = 4
    NoTrade = 5
    NoTax = 12
    WrongStatus = 13
    NotPermitted = 6
    Exists = 15
    Overlap = 16
    TaxSum = 17
    NoCharge = 10
    NoRate = 11
    Range = 14
    ClockEnd = 21
    TooEarly = 22


ORDER = {refusal: place for place, refusal in enumerate(Refusal)}


class Refused(Exception):
    """A refusal, with the status of a WrongStatus or the limit of a Range."""

    def __init__(self, refusal, *words):
        super().__init__(refusal, *words)
        self.refusal = refusal
        self.fields = [str(int(refusal)), *words]


def require(holds, refusal, *words):
    if not holds:
        raise Refused(refusal, *words)
