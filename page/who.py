"""Who may use the page: links that open it once, and the keys of the clerks who came by one.

A link is a file whose name is the sum of its secret: whoever may write the folder lets clerks in.
The first use of a link ends it, and makes a key in its place, which lasts as long."""

import hashlib
import json
import pathlib
import re
import secrets
import time

INITIALS = re.compile(r"[A-Z]{1,4}")


def sum_of(secret):
    return hashlib.sha256(secret.encode()).hexdigest()


class Who:
    """The links and the keys in a folder."""

    def __init__(self, folder):
        self.links, self.keys = (pathlib.Path(folder) / name for name in ("links", "keys"))
        for place in (self.links, self.keys):
            place.mkdir(parents=True, exist_ok=True, mode=0o700)

    def invite(self, initials, hours):
        """The secret of a new link, which lasts so many hours."""
        return self.made(self.links, initials, time.time() + hours * 3600)

    @staticmethod
    def made(place, initials, until):
        secret = secrets.token_urlsafe(24)
        part = place / f".{sum_of(secret)}"
        part.write_text(json.dumps({"initials": initials, "until": until}), encoding="utf-8")
        part.rename(place / sum_of(secret))
        return secret

    @staticmethod
    def read(path):
        """The initials and the end of a file that is there and has not ended."""
        try:
            told = json.loads(path.read_text(encoding="utf-8"))
        except (OSError, ValueError):
            return None
        return told if told["until"] > time.time() else None

    def enter(self, secret):
        """A key for a link, or none if the link was used or has ended."""
        path = self.links / sum_of(secret)
        told = self.read(path)
        try:
            path.unlink()
        except OSError:
            return None
        return self.made(self.keys, told["initials"], told["until"]) if told else None

    def clerk(self, key):
        """The initials of a key, or none."""
        told = self.read(self.keys / sum_of(key))
        return told and told["initials"]

    def end(self, initials):
        """Ends the links and the keys of a clerk; returns how many there were."""
        count = 0
        for path in [*self.links.iterdir(), *self.keys.iterdir()]:
            told = self.read(path)
            if told is None or told["initials"] == initials:
                path.unlink(missing_ok=True)
                count += told is not None
        return count
