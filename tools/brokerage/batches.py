"""Batches: CSV rows in, lines out."""

import re

from .forms import BATCH
from .refusals import Refusal

MOST_BYTES = 67_108_864
BYTE_ORDER_MARK = b"\xef\xbb\xbf"
LINE_ENDS = re.compile(b"[\r\n]*")
PLAIN = re.compile(b"[^,\r\n]*")
QUOTED = re.compile(b'"([^"]*(?:""[^"]*)*)"?')

BAD_HEADER, NO_END, BAD_END = "bad header", "no end", "bad end"
WORDS = ("ok", "again", "no")


def records(data):
    """Yields the records of a CSV text as lists of fields. CR, LF or CR LF ends a record.

    Empty lines are skipped. After the closing quote of a field its other bytes are literal."""
    place = len(BYTE_ORDER_MARK) if data.startswith(BYTE_ORDER_MARK) else 0
    while True:
        place = LINE_ENDS.match(data, place).end()
        if place == len(data):
            return
        fields = []
        while True:
            value, quoted = b"", QUOTED.match(data, place)
            if quoted:
                value, place = quoted[1].replace(b'""', b'"'), quoted.end()
            rest = PLAIN.match(data, place)
            place = rest.end()
            fields.append((value + rest[0]).decode(errors="surrogateescape"))
            if data[place:place + 1] != b",":
                break
            place += 1
        yield fields


def run_batch(desk, data, moment):
    """Runs a batch; returns the written bytes, and (kind, rows) if it is not complete.

    A row is executed once the record after it is read; the last row of a cut input is refused."""
    rest = records(data[:MOST_BYTES])
    header = next(rest, [])
    if len(header) != 2 or header[0] != "batch" or not BATCH.fullmatch(header[1]):
        return b"", (BAD_HEADER, 0)
    lines, counts, waiting = [], dict.fromkeys(WORDS, 0), None

    def settle(word, fields):
        counts[word] += 1
        lines.append(",".join((str(len(lines) + 1), word, *fields)))

    for record in rest:
        if waiting is not None:
            settle(*desk.do(moment, waiting, (header[1], len(lines) + 1)))
        if record[0] == "end":
            fault = None if record == ["end", str(len(lines))] else (BAD_END, len(lines))
            break
        waiting = record
    else:
        if waiting is not None:
            settle("no", [str(int(Refusal.BadText))])
        fault = NO_END, len(lines)
    if fault is None:
        lines.append(",".join(("end", *map(str, counts.values()))))
    return "".join(line + "\n" for line in lines).encode(errors="surrogateescape"), fault
