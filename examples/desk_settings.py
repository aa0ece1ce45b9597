"""The settings of a desk, for the scripts beside this one.

    from desk_settings import text_setting, whole_setting

A setting is taken from the environment, then from FILE, which the services of the package read
(docs/PACKAGE.md, "Settings"), and is otherwise what the script takes without one. It needs Python 3.9.
"""

import os
import pathlib
import re

FILE = pathlib.Path("/etc/default/brk")
LINE = re.compile(r"([A-Za-z_][A-Za-z0-9_]*)=(.*)")


class WrongSetting(ValueError):
    """A setting that cannot be taken, and where it can be set."""


def settings_of_file():
    """Returns the settings of FILE, or none if there is no file. Its lines are NAME=VALUE; no shell reads them."""
    try:
        lines = FILE.read_text(encoding="utf-8", errors="replace").splitlines()
    except FileNotFoundError:
        return {}
    except OSError as error:
        raise WrongSetting(f"{FILE} cannot be read: {error.strerror}") from None
    found = (LINE.fullmatch(line.strip()) for line in lines)
    return {line[1]: line[2].strip().strip("\"'") for line in found if line}


def text_setting(name, default):
    """Returns a setting."""
    return os.environ.get(name) or settings_of_file().get(name) or default


def whole_setting(name, default):
    """Returns a setting that is a whole number."""
    text = text_setting(name, str(default))
    if not re.fullmatch(r"[0-9]{1,9}", text):
        raise WrongSetting(f"{name}={text} is no whole number: correct it in the environment or in {FILE}")
    return int(text)
