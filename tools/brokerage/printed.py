"""Views as `brk ask` prints them: as CSV or JSON, with or without the names of their fields.

The rules do not know this command. Its forms are those of docs/formats/queries.md, the names of
fields those of the transcripts."""

import json

HEADS = {
    "customer": ("account", "balance", "holdings"),
    "taxid": ("account", "balance", "holdings"),
    "submitted": ("trade", "type", "symbol", "quantity", "price"),
    "estimate": ("price", "bought", "sold", "tax", "commission", "charge", "assets"),
    "volume": ("broker", "id", "volume"),
}


def csv_field(text):
    if not any(mark in text for mark in ',"\r\n'):
        return text
    return '"' + text.replace('"', '""') + '"'


def csv_line(record):
    return ",".join(map(csv_field, record)) if tuple(record) != ("",) else '""'


def printed(form, view, records):
    """Returns the text of a view in the form `csv`, `json`, `csv-heads` or `json-heads`."""
    kind, _, heads = form.partition("-")
    rows = [HEADS[view], *records] if heads and view in HEADS else records
    if kind == "json":
        return json.dumps({"view": rows}, ensure_ascii=False, separators=(",", ":")) + "\n"
    return "".join(csv_line(row) + "\n" for row in rows)
