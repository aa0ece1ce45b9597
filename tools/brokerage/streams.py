"""HTTP streams: bytes of requests in, bytes of replies out."""

import json
import re

from .amounts import parse_whole
from .forms import BATCH, QUERIES
from .records import MOST_ID
from .refusals import Refused

MOST_HEAD = 16_384
MOST_FIELDS = 100
MOST_BODY = 65_536
MOST_LENGTH_DIGITS = 9
MOST_REQUESTS = 1_000

EMPTY_LINE = re.compile(b"\n\r?\n")
TOKEN = rb"[!#$%&'*+\-.^_`|~0-9A-Za-z]+"
TARGET = rb"[\x21-\x7e\x80-\xff]+"
VALUE = rb"[\t\x20-\x7e\x80-\xff]*"
END = rb"\r?\n"
FIELD = re.compile(b"(" + TOKEN + b"):(" + VALUE + b")" + END)
HEAD = re.compile(b"(?:" + END + b")?(" + TOKEN + b") (" + TARGET + rb") HTTP/1\.([01])" + END
                  + b"((?:" + TOKEN + b":" + VALUE + END + b")*)" + END)
TEXT = r'"(?:[^"\\\x00-\x1f]|\\(?:["\\/bfnrt]|u[0-9a-fA-F]{4}))*"'
SPACE = r"[ \t\r\n]*"
TEXTS = re.compile(rf"{SPACE}\[{SPACE}(?:{TEXT}{SPACE}(?:,{SPACE}{TEXT}{SPACE})*)?\]{SPACE}")

OK = "200 OK", None
BAD_REQUEST = "400 Bad Request", "bad request"
NOT_FOUND = "404 Not Found", "not found"
NOT_ALLOWED = "405 Method Not Allowed", "method not allowed"
CONFLICT = "409 Conflict", None
TOO_LARGE = "413 Payload Too Large", "too large"
NOT_IMPLEMENTED = "501 Not Implemented", "not implemented"


class Ends(Exception):
    """A request that ends its stream: the status and the word of its reply."""


def list_of_texts(body):
    """Returns the texts of a JSON list, or None."""
    try:
        text = body.decode()
        if not TEXTS.fullmatch(text):
            return None
        texts = json.loads(text)
        "".join(texts).encode()  # no half of a surrogate pair
        return texts
    except UnicodeError:
        return None


def read_request(data, place):
    """Returns a request's method, target and body, whether it closes its stream, and its end."""
    empty = EMPTY_LINE.search(data, place, place + MOST_HEAD)
    if not empty:
        raise Ends(*(TOO_LARGE if len(data) - place >= MOST_HEAD else BAD_REQUEST))
    head = HEAD.fullmatch(data, place, empty.end())
    found = FIELD.findall(head[4]) if head else []
    if not head or len(found) > MOST_FIELDS or not is_text(head[2]):
        raise Ends(*BAD_REQUEST)
    fields = [(name.lower(), value.strip(b" \t")) for name, value in found]
    if any(name == b"transfer-encoding" for name, _ in fields):
        raise Ends(*NOT_IMPLEMENTED)
    lengths = [value for name, value in fields if name == b"content-length"]
    if len(lengths) > 1 or not all(re.fullmatch(b"[0-9]+", value) for value in lengths):
        raise Ends(*BAD_REQUEST)
    if any(len(value) > MOST_LENGTH_DIGITS or int(value) > MOST_BODY for value in lengths):
        raise Ends(*TOO_LARGE)
    end = empty.end() + sum(map(int, lengths))
    if end > len(data):
        raise Ends(*BAD_REQUEST)
    closes = head[3] == b"0" or any(name == b"connection" and value.lower() == b"close"
                                    for name, value in fields)
    return head[1], head[2].decode(), data[empty.end():end], closes, end


def is_text(target):
    try:
        target.decode()
        return True
    except UnicodeDecodeError:
        return False


def route(desk, target, moment):
    """Returns the function that answers the texts of a request, or None. No escape is decoded."""
    root, *words = target.split("/")
    if root or not 1 <= len(words) <= 3:
        return None
    if words == ["rows"]:
        return lambda texts: desk.do(moment, texts)
    if words[0] == "rows" and len(words) == 3:
        if BATCH.fullmatch(words[1]) and parse_whole(words[2], MOST_ID):
            return lambda texts: desk.do(moment, texts, (words[1], int(words[2])))
    if words[0] == "ask" and len(words) == 2 and words[1] in QUERIES:
        return lambda texts: ("view", desk.ask(words[1], *texts))
    return None


def answer(desk, method, target, body, moment):
    """Returns the status of a request, and the word of an error or the member of the reply."""
    act = route(desk, target, moment)
    if not act:
        return NOT_FOUND
    if method != b"POST":
        return NOT_ALLOWED
    texts = list_of_texts(body)
    if texts is None:
        return BAD_REQUEST
    try:
        word, fields = act(texts)
    except Refused as refused:
        word, fields = "no", refused.fields
    return (CONFLICT if word == "no" else OK)[0], {word: fields}


def reply(status, member, closes):
    told = member if isinstance(member, dict) else {"error": member}
    body = json.dumps(told, ensure_ascii=False, separators=(",", ":")).encode()
    lines = [f"HTTP/1.1 {status}", "Content-Type: application/json",
             f"Content-Length: {len(body)}"]
    lines += ["Allow: POST"] * (status == NOT_ALLOWED[0]) + ["Connection: close"] * closes
    return "".join(line + "\r\n" for line in (*lines, "")).encode() + body


def serve(desk, data, moment):
    """Serves a stream; returns the written bytes and the number of answered requests."""
    written, place, closes = [], 0, False
    while place < len(data) and not closes:
        try:
            method, target, body, closes, place = read_request(data, place)
            closes = closes or len(written) + 1 == MOST_REQUESTS
            status, member = answer(desk, method, target, body, moment)
        except Ends as ends:
            (status, member), closes = ends.args, True
        written.append(reply(status, member, closes))
    return b"".join(written), len(written)
