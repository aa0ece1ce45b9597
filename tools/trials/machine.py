"""A machine of its own for `try_package` and `try_service`: a Debian with systemd in a new folder, which systemd-nspawn starts, the
releases of a program in it, and the commands of docs/PACKAGE.md that it runs."""

import contextlib
import json
import os
import pathlib
import re
import shutil
import signal
import subprocess
import sys
import tempfile
import time

from cases import BUILT, TOP, Cases, arguments, left_out, require

PAGE = TOP / "docs/PACKAGE.md"
RUN_HERE = re.compile(r"<!-- not run: tools/trials/try_(?:package|service) -->")
# the day and the packages that the page names
DAY, PACKAGE = "2026-11-29", re.compile(r"brk_[\d.]+-(\d+)_amd64\.deb")
PORT = 8123
SECONDS = 120
# no python3 and no sqlite3: apt installs them with the package
PARTS, NEEDED = "systemd-sysv,dbus,sudo,ca-certificates,procps", ["haproxy", "python3", "sqlite3"]
DESK = "/var/lib/brk/desk.db"
KEY = "etc/brk/door.key"
# prints the status and the body of a reply, once the door has a desk
POST = """
import http.client, sys, time
port, target, body, until, key = int(sys.argv[1]), sys.argv[2], sys.argv[3], time.monotonic() + float(sys.argv[4]), sys.argv[5]
while True:
    try:
        stream = http.client.HTTPConnection("127.0.0.1", port, timeout=60)
        stream.request("POST", target, body, {"X-Brk-Key": key})
        reply = stream.getresponse()
        told = reply.read().decode()
        if reply.status not in (502, 503, 504):
            print(reply.status, told)
            break
    except (OSError, http.client.HTTPException):
        told = "it does not listen"
    if time.monotonic() > until:
        sys.exit(told)
    time.sleep(0.2)
"""


def fail(text):
    sys.exit(f"{pathlib.Path(sys.argv[0]).name}: {text}")


def last_line(text):
    return (text.strip().splitlines() or ["no message"])[-1]


def today():
    return time.strftime("%Y-%m-%d", time.gmtime())


def page_blocks(packages):
    """The blocks of the page that are run here: for each section the commands of each block, with the packages that were made and
    with today."""
    found = {}
    for section in PAGE.read_text(encoding="utf-8").split("\n## ")[1:]:
        title, _, text = section.partition("\n")
        for part in RUN_HERE.split(text)[1:]:
            block = part.lstrip("\n").partition("\n\n")[0].split("\n")
            lines = [line[4:] for line in block if line.startswith("    ")]
            found.setdefault(title, []).append([of_today(line, packages) for line in lines])
    return found


def of_today(line, packages):
    line = PACKAGE.sub(lambda package: packages[int(package[1]) - 1].name, line).replace(DAY, today())
    return re.sub(r"\bapt (install|remove|purge)", r"apt-get -qy \1", line)


class Machine:
    """A Debian in a folder, and its first process once it is started."""

    def __init__(self, root):
        self.root, self.process, self.first = pathlib.Path(root), None, None

    def make(self, suite):
        done = subprocess.run(["debootstrap", "--variant=minbase", f"--include={PARTS}", suite, self.root],
                              stdout=subprocess.PIPE, stderr=subprocess.STDOUT, text=True)
        if done.returncode:
            left_out(f"debootstrap: {last_line(done.stdout)}")

    def load(self):
        """Downloads what the package depends on: the machine has no network of its own."""
        done = subprocess.run(["chroot", self.root, "sh", "-c", "apt-get -q update && apt-get -qy --download-only install " + " ".join(NEEDED)],
                              stdout=subprocess.PIPE, stderr=subprocess.STDOUT, text=True)
        if done.returncode:
            left_out(f"apt-get: {last_line(done.stdout)}")

    def start(self):
        words = ["systemd-nspawn", "--quiet", "--register=no", "--keep-unit", "--console=pipe", "--private-network", f"--directory={self.root}", "--boot"]
        self.process = subprocess.Popen(words, stdin=subprocess.DEVNULL, stdout=subprocess.PIPE, stderr=subprocess.STDOUT, text=True, start_new_session=True)
        until = time.monotonic() + SECONDS
        while time.monotonic() < until:
            if self.process.poll() is not None:
                left_out(f"systemd-nspawn: {last_line(self.process.stdout.read())}")
            self.first = self.first_process()
            if self.first and self.run("systemctl is-system-running")[1].strip() in ("running", "degraded"):
                return
            time.sleep(0.5)
        left_out(f"systemd-nspawn: no machine after {SECONDS} seconds")

    def first_process(self):
        """The process that systemd-nspawn started as the first one of the machine."""
        for path in pathlib.Path("/proc").glob("[0-9]*"):
            with contextlib.suppress(OSError):
                parent = re.search(r"^PPid:\s*(\d+)$", (path / "status").read_text(), re.M)[1]
                if int(parent) == self.process.pid and (path / "comm").read_text().strip() == "systemd":
                    return path.name
        return None

    def run(self, command, folder="/root"):
        """The exit status of a command of the machine's shell, its standard output and its standard error."""
        words = ["nsenter", f"--target={self.first}", "--mount", "--uts", "--ipc", "--pid", "--net", "--root", "--wd", "env", "-i",
                 "PATH=/usr/sbin:/usr/bin:/sbin:/bin", "HOME=/root", "LC_ALL=C.UTF-8", "DEBIAN_FRONTEND=noninteractive", "SYSTEMD_PAGER=",
                 "sh", "-c", f"cd {folder}; {command}"]
        done = subprocess.run(words, stdin=subprocess.DEVNULL, capture_output=True, text=True, timeout=900)
        return done.returncode, done.stdout, done.stderr

    def told(self, command):
        """What a command prints, without the last line feed."""
        return self.run(command)[1].strip()

    def posted(self, target, body, port=PORT, key=None, seconds=SECONDS):
        """The status and the body of a reply of the machine's desk, over its door."""
        key = (self.root / KEY).read_text().strip() if key is None else key
        words = ["nsenter", f"--target={self.first}", "--net", sys.executable, "-c", POST, str(port), target, json.dumps(body), str(seconds), key]
        done = subprocess.run(words, stdin=subprocess.DEVNULL, capture_output=True, text=True)
        status, _, text = done.stdout.partition(" ")
        return (int(status), text) if done.returncode == 0 else (None, done.stderr)

    def write(self, path, text):
        (self.root / path.lstrip("/")).write_text(text)

    def stop(self):
        if self.process is None:
            return
        if self.process.poll() is None:
            with contextlib.suppress(Exception):
                self.run("systemctl --force --force poweroff")
            with contextlib.suppress(subprocess.TimeoutExpired):
                self.process.wait(20)
        if self.process.poll() is None:
            os.killpg(self.process.pid, signal.SIGKILL)
            self.process.wait()


class OnMachine(Cases):
    """The cases so far on a machine."""

    def __init__(self, machine):
        super().__init__()
        self.machine = machine

    def commands(self, block):
        """Runs the commands of a block of the page, and returns what the last one prints."""
        told = ""
        for command in block:
            status, told, errors = self.machine.run(command, "/root/release")
            self.tell(command, (status, "" if status == 0 else told + errors), (0, ""))
        return told

    def waits(self, name, command, wanted):
        """A command prints this within the time."""
        until = time.monotonic() + SECONDS
        told = self.machine.told(command)
        while told != wanted and time.monotonic() < until:
            time.sleep(0.5)
            told = self.machine.told(command)
        self.tell(name, told, wanted)

    def property(self, unit, name):
        return self.machine.told(f"systemctl show -P {name} {unit}")


def releases(program, machine):
    """Makes two releases of a program, with the revisions 1 and 2, and moves the files of the first and the package of the second to
    /root/release; the packages."""
    folder = machine.root / "root/release"
    folder.mkdir(parents=True)
    packages = []
    for revision in (1, 2):
        made = machine.root / f"root/made-{revision}"
        done = subprocess.run([TOP / "tools/build/pack", made, "--program", program, "--revision", str(revision)], capture_output=True, text=True)
        if done.returncode:
            fail(f"tools/build/pack: {done.stderr}")
        packages.append(next(made.glob("*.deb")))
        for path in made.iterdir():
            if revision == 1 or path.suffix == ".deb":
                shutil.move(path, folder / path.name)
    return packages


def given_to(text):
    words = arguments(text, program=BUILT)
    words.add_argument("--suite", default="bookworm")
    words.add_argument("--folder")
    words.add_argument("--machine", help="a folder with such a Debian, which is copied; without it one is made")
    words.add_argument("--keep", action="store_true", help="leaves the folder")
    return words.parse_args()


def tried(text, trial):
    """Runs a trial, which gets the cases and the blocks of the page, on a machine with releases of the program; returns the exit
    status."""
    given = given_to(text)
    require("rt", "git", "strip", "dpkg-deb", "debootstrap", "systemd-nspawn", "nsenter", root=True)
    folder = pathlib.Path(tempfile.mkdtemp(prefix="brk-machine.", dir=given.folder))
    machine = Machine(folder / "machine")
    try:
        if given.machine:
            subprocess.run(["cp", "-a", given.machine, machine.root], check=True)
        else:
            machine.make(given.suite)
        machine.load()
        packages = releases(given.brk, machine)
        machine.start()
        cases = OnMachine(machine)
        trial(cases, page_blocks(packages))
    finally:
        machine.stop()
        if not given.keep:
            shutil.rmtree(folder, ignore_errors=True)
    return cases.ended()
