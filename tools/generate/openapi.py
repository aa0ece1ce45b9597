#!/usr/bin/env python3
"""Prints the description of the desk's requests and replies in OpenAPI 3.1, made of the tables for programs in examples/: kinds.csv, replies.csv,
views.csv, refusals.csv and statuses.csv. A release has it.

    tools/generate/openapi.py > openapi.json

It ends with a message at a form that it does not know. It reads no clock."""

import csv
import json
import pathlib
import sys

TOP = pathlib.Path(__file__).resolve().parents[2]
EXAMPLES = TOP / "examples"
TABLES = ("kinds", "replies", "views", "refusals", "statuses")

WHOLE = "(0|[1-9][0-9]*)"
CENTS = r"(0|[1-9][0-9]*)\.[0-9]{2}"
NO_CONTROLS = r"[^\u0000-\u001f\u007f-\u009f]"
# the pattern of a whole text of each form
PATTERNS = {
    **dict.fromkeys(("id", "stamp", "quantity", "count", "rate", "tier", "tax status"), f"^{WHOLE}$"),
    "shares": "^(0|-?[1-9][0-9]*)$",
    "amount": rf"^(?!-0\.00$)-?{CENTS}$",
    "price": f"^{CENTS}$",
    "price or empty": f"^({CENTS})?$",
    "name": f"^{NO_CONTROLS}+$",
    "text": f"^{NO_CONTROLS}+$",
    "tax id": "^[A-Za-z0-9-]+$",
    "symbol": "^[A-Z0-9.-]+$",
    "exchange": "^[A-Z]+$",
    "acl": "^[01]+$",
    "day": "^[0-9]{4}-[0-9]{2}-[0-9]{2}$",
}
# forms whose limits are lengths
LENGTHS = ("name", "text", "tax id", "symbol", "exchange", "acl")
BATCH = {"type": "string", "pattern": "^[A-Za-z0-9._-]{1,40}$", "description": "the name of a batch"}
NUMBER = {"type": "string", "pattern": "^[1-9][0-9]*$", "description": "the number of the row in it, 1 to 1000000000000"}
NOTE = (
    "Numbers are texts; amounts have two digits after the point. Descriptions of fields have the limits that patterns have not. "
    "The door takes one request a connection, with its secret. docs/formats/http.md has the rest."
)


# the replies of the door itself, with the text of each
OF_DOOR = {
    "403": ("Another site, another Host, no secret or a wrong one: send the secret of the door", "forbidden"),
    "408": ("Not whole after 5 s: send it again", "too slow"),
    "502": ("The desk ended before its reply was whole: send it again under its key", "not known: send again under the key"),
    "503": ("No desk, or others were served for 10 s: send it again", "busy: never reached the desk"),
    "504": ("No reply within 25 s: send it again under its key", "not known: send again under the key"),
}


def fail(what):
    sys.exit(f"openapi.py: {what}")


def table(name):
    with open(EXAMPLES / f"{name}.csv", newline="", encoding="utf-8") as file:
        return list(csv.DictReader(file))


def grouped(lines, *columns):
    """The lines of a table by the values of columns, in their order."""
    found = {}
    for line in lines:
        found.setdefault(tuple(line[column] for column in columns), []).append(line)
    return found


def field_of(line):
    """The schema of a field."""
    form, least, greatest = line["form"], line["least"], line["greatest"]
    schema = {"title": line["field"], "type": "string"}
    if line["values"]:
        return {**schema, "enum": line["values"].split("|")}
    if form not in PATTERNS:
        fail(f"it knows no form {form}")
    schema["pattern"] = PATTERNS[form]
    if form in LENGTHS:
        # the limits are those of bytes, and a character has at least one
        return {**schema, "minLength": 1, "maxLength": int(greatest), "description": f"{form}, {least} to {greatest} bytes"}
    return {**schema, "description": f"{form}, {least} to {greatest}"}


def span_of(occurs):
    """The least and the greatest number of times that a field or a record occurs."""
    least, _, greatest = occurs.partition("-")
    return int(least), int(greatest or least)


def texts_of(fields, head=None):
    """The schema of a list of texts: a head, if there is one, the fields that occur once, and then those that are repeated together."""
    once = [field_of(line) for line in fields if line["occurs"] == "1"]
    again = [line for line in fields if line["occurs"] != "1"]
    first = ([{"const": head}] if head else []) + once
    schema = {"type": "array", "prefixItems": first, "items": False, "minItems": len(first)}
    if again:
        least, greatest = span_of(again[0]["occurs"])
        repeated = [field_of(line) for line in again]
        schema["items"] = repeated[0] if len(again) == 1 else {"anyOf": repeated}
        schema["minItems"] += least * len(again)
        schema["maxItems"] = len(first) + greatest * len(again)
    if not first:
        del schema["prefixItems"]
    return schema


def named(name):
    return {"$ref": f"#/components/schemas/{name}"}


def body_of(member, schema):
    return {"type": "object", "properties": {member: schema}, "required": [member], "additionalProperties": False}


def refusal_of(line):
    """The schema of the fields of a refusal."""
    fields = [{"const": line["number"]}] + ([{"const": line["word"]}] if line["word"] else [])
    later = "may be accepted" if line["unchanged"] == "may" else "is refused again"
    text = f"{line['name']}: {line['when']}. To do: {line['todo']}. Sent later and unchanged it {later}"
    return {"type": "array", "prefixItems": fields, "items": False, "minItems": len(fields), "description": text}


def components(tables):
    """The schemas that others name."""
    schemas = {}
    for (kind,), fields in grouped(tables["kinds"], "kind").items():
        schemas[f"row_{kind}"] = texts_of(fields, kind)
    for (kind,), fields in grouped(tables["replies"], "kind").items():
        schemas[f"reply_{kind}"] = texts_of(fields)
    for (view,), lines in grouped(tables["views"], "view").items():
        schemas[f"arguments_{view}"] = texts_of([line for line in lines if line["part"] == "argument"])
        records = grouped([line for line in lines if line["part"] == "record"], "record")
        for (record,), fields in records.items():
            schemas[f"record_{view}_{record}"] = texts_of([{**line, "occurs": "1"} for line in fields])
        kinds = [named(f"record_{view}_{record}") for (record,) in records]
        spans = [span_of(fields[0]["occurs"]) for fields in records.values()]
        schemas[f"view_{view}"] = {
            "type": "array",
            "items": kinds[0] if len(kinds) == 1 else {"anyOf": kinds},
            "minItems": sum(least for least, _ in spans),
            "maxItems": sum(greatest for _, greatest in spans),
        }
    for line in tables["refusals"]:
        schemas[f"refusal_{line['number']}{line['word']}"] = refusal_of(line)
    return schemas


def refusals_for(tables, column):
    """The schema of the body of a refusal, for a column of refusals.csv and one of its words."""
    name, word = column
    meant = [line for line in tables["refusals"] if line[name] and (word is None or word in line[name].split("|") or line[name] == "*")]
    return body_of("no", {"anyOf": [named(f"refusal_{line['number']}{line['word']}") for line in meant]})


def replies(tables, accepted, column):
    """The replies to a request, by status."""
    found = {}
    for (status,), lines in grouped(tables["statuses"], "status").items():
        texts = [line["text"] for line in lines]
        if status == "200":
            schema = accepted
        elif status == "409":
            schema = refusals_for(tables, column)
        else:
            schema = body_of("error", {"type": "string", "enum": texts + ([OF_DOOR[status][1]] if status in OF_DOOR else [])})
        ends = "; the last reply of its stream" if lines[0]["ends"] == "always" else ""
        todo = {"200": "Accepted, or the view", "409": "Refused"}.get(status, lines[0]["todo"])
        found[status] = {"description": f"{lines[0]['reason']}: {todo}{ends}", "content": {"application/json": {"schema": schema}}}
    for status, (text, word) in OF_DOOR.items():
        if status not in found:
            found[status] = {"description": text, "content": {"application/json": {"schema": body_of("error", {"const": word})}}}
    return found


def request(summary, body, answered, parameters=()):
    found = {"summary": summary}
    if parameters:
        found["parameters"] = list(parameters)
    found["requestBody"] = {"required": True, "content": {"application/json": {"schema": body}}}
    found["responses"] = answered
    return {"post": found}


def paths(tables):
    kinds = [kind for (kind,) in grouped(tables["kinds"], "kind")]
    rows = {"anyOf": [named(f"row_{kind}") for kind in kinds]}
    fields = {"anyOf": [named(f"reply_{kind}") for kind in kinds]}
    accepted = {"anyOf": [body_of("ok", fields), body_of("again", fields)]}
    key = [{"name": name, "in": "path", "required": True, "schema": schema} for name, schema in (("BATCH", BATCH), ("N", NUMBER))]
    found = {
        "/rows/{BATCH}/{N}": request("Runs a row under the key (BATCH, N)", rows, replies(tables, accepted, ("rows", None)), key),
        "/rows": request("Runs a row without a key: it cannot be sent again safely", rows, replies(tables, body_of("ok", fields), ("rows", None))),
    }
    for (view,) in grouped(tables["views"], "view"):
        answered = replies(tables, body_of("view", named(f"view_{view}")), ("views", view))
        found[f"/ask/{view}"] = request(f"The view {view}", named(f"arguments_{view}"), answered)
    return found


def main():
    tables = {name: table(name) for name in TABLES}
    kinds, answered = ({line["kind"] for line in tables[name]} for name in ("kinds", "replies"))
    if kinds != answered:
        fail(f"kinds.csv and replies.csv differ: {sorted(kinds ^ answered)}")
    description = {
        "x-written-by": "tools/generate/openapi.py, from kinds.csv, replies.csv, views.csv, refusals.csv and statuses.csv",
        "openapi": "3.1.0",
        "info": {"title": "brk serve", "version": "schema 3", "description": NOTE},
        "servers": [{"url": "http://127.0.0.1:8123"}],
        "paths": paths(tables),
        "security": [{"door": []}],
        "components": {"schemas": components(tables), "securitySchemes": {"door": {"type": "apiKey", "in": "header", "name": "X-Brk-Key"}}},
    }
    print(json.dumps(description, indent=1))


if __name__ == "__main__":
    main()
