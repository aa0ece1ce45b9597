"""The mark of a desk to practise with: a customer with the tax id SANDBOX, which the batch mark.csv of this folder books. The scripts of
this folder refuse a desk without it, with status 4, so that none of them books on the desk of a firm."""

import pathlib
import sys

sys.dont_write_bytecode = True
HERE = pathlib.Path(__file__).resolve().parent
sys.path.insert(0, str(HERE.parent))

import desk_client  # noqa: E402

TAXID = "SANDBOX"
WHY = f'has no customer with the tax id {TAXID}, so it is no desk to practise with; nothing was sent: make one by examples/sandbox/make'


class NoSandbox(desk_client.ClientError):
    """The desk has no mark."""

    status = 4


def require(desk, name):
    """Raises NoSandbox unless a desk has the mark. `desk` is Http or File of desk_client."""
    word, told = desk.ask("taxid", [TAXID])
    if word == "no":
        raise NoSandbox(f"{name} {WHY}")
    if word != "view":
        raise desk_client.NotSent(f"{name}: {told}")


def rows():
    """The rows that mark a desk."""
    return desk_client.batch_read((HERE / "mark.csv").read_text("utf-8"))[1]
