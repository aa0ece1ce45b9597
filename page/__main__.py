"""The page that the staff of a desk work in: screens of live copies, and rows in two steps.

    python3 page --db FILE [--door P] [--key FILE] [--port P] [--runtime FOLDER] [--journals FOLDER]
        [--copies FOLDER] [--colour NAME] [--desk-clock] [--brk PROGRAM]
    python3 page --copy COPY [--port P] [--runtime FOLDER] [--colour NAME] [--brk PROGRAM]
    python3 page --link INITIALS [--runtime FOLDER] [--hours H]
    python3 page --end INITIALS [--runtime FOLDER]

With --db it reads the file of a desk that runs, and sends rows to the desk's door. With --copy it
shows a copy and books nothing. --link prints a link that opens the page once, for the clerk with
these one to four capital letters; --end ends what the clerk has (docs/PAGE.md)."""

import argparse
import os
import pathlib
import signal
import socket
import sys
import tempfile

sys.dont_write_bytecode = True
HERE = pathlib.Path(__file__).resolve().parent
sys.path[:0] = [str(HERE.parent / name) for name in (".", "examples", "examples/reports")]


def arguments():
    words = argparse.ArgumentParser(prog="page", description=__doc__,
                                    formatter_class=argparse.RawDescriptionHelpFormatter)
    which = words.add_mutually_exclusive_group(required=True)
    for name, what in (("db", "FILE"), ("copy", "COPY"), ("link", "INITIALS"), ("end", "INITIALS")):
        which.add_argument(f"--{name}", metavar=what)
    words.add_argument("--port", type=int, default=8124, metavar="P")
    words.add_argument("--door", type=int, default=8123, metavar="P")
    words.add_argument("--hours", type=int, default=12, metavar="H")
    for name in ("key", "brk"):
        words.add_argument(f"--{name}", metavar="FILE")
    for name in ("runtime", "journals", "copies"):
        words.add_argument(f"--{name}", metavar="FOLDER")
    words.add_argument("--colour", default="blue", metavar="NAME")
    words.add_argument("--desk-clock", action="store_true")
    return words.parse_args()


def fail(why):
    print(f"page: {why}", file=sys.stderr)
    return 1


def let_in(given, who):
    """Makes or ends links, in the runtime folder of a page that runs."""
    folder, initials = pathlib.Path(given.runtime or "/run/brk-page"), given.link or given.end
    if not who.INITIALS.fullmatch(initials):
        return fail(f"initials are one to four capital letters: {initials}")
    try:
        address, doors = (folder / "address").read_text(encoding="utf-8"), who.Who(folder)
        ended = doors.end(initials)
        print(f"{ended} links and keys of {initials} are ended" if given.end
              else f"{address}enter#{doors.invite(initials, given.hours)}")
    except OSError as error:
        return fail(f"{folder}: {error.strerror}: start the page first, and run this as its user")
    return 0


def served(given, who, host):
    """The program over a desk or a copy."""
    from page import app, door, live

    given.file, given.host = os.path.realpath(given.db or given.copy), host
    runtime = given.runtime or os.environ.get("RUNTIME_DIRECTORY") or tempfile.mkdtemp()
    journals = given.journals or os.environ.get("STATE_DIRECTORY") or f"{given.file}-page"
    snapshots = live.Snapshots(given.file, pathlib.Path(runtime) / "snapshots", bool(given.copy))
    with snapshots.used():
        # a file that cannot be read ends the start
        pass
    clerks = None if given.copy else door.Clerks(journals, given.door, given.key, given.file)
    doors = who.Who(runtime)
    (pathlib.Path(runtime) / "address").write_text(f"http://{host}/", encoding="utf-8")
    print(f"the page is http://{host}/", flush=True)
    print(f"a link: python3 {HERE} --link INITIALS --runtime {runtime}", flush=True)
    return app.create(given, snapshots, clerks, doors)


def main():
    given = arguments()
    from page import who

    if given.link or given.end:
        return let_in(given, who)
    if given.brk:
        os.environ["BRK"] = given.brk
    try:
        import waitress

        listener = socket.socket()
        listener.setsockopt(socket.SOL_SOCKET, socket.SO_REUSEADDR, 1)
        listener.bind(("127.0.0.1", given.port))
        listener.listen()
        program = served(given, who, f"127.0.0.1:{listener.getsockname()[1]}")
    except ImportError as error:
        return fail(f"{error}: apt-get install python3-flask python3-waitress")
    except OSError as error:
        return fail(f"{error.strerror}: port {given.port}, {given.runtime or 'the runtime folder'}")
    except Exception as error:
        return fail(str(error))
    signal.signal(signal.SIGTERM, lambda *_: sys.exit(0))
    try:
        waitress.serve(program, sockets=[listener], threads=8, ident=None)
    except (KeyboardInterrupt, SystemExit):
        pass
    return 0


if __name__ == "__main__":
    sys.exit(main())
