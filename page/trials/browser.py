"""Drives headless Chromium by its DevTools protocol, with the standard library only. For examples/trials/try_browser.

    browser = Browser(program, folder)
    tab = browser.open("http://127.0.0.1:8124/")
    tab.click("button")
    tab.evaluate("document.title")
"""

import base64
import json
import os
import pathlib
import secrets
import socket
import struct
import subprocess
import time

SECONDS = 180
SWITCHES = [
    "--headless=new",
    "--remote-debugging-port=0",
    "--no-first-run",
    "--no-default-browser-check",
    "--disable-gpu",
    "--disable-dev-shm-usage",
    "--disable-background-networking",
    "--disable-component-update",
    "--disable-sync",
    "--disable-extensions",
    "--hide-scrollbars",
    "--font-render-hinting=none",
    "--force-color-profile=srgb",
]
KEYS = {"Tab": 9, "Enter": 13, "Space": 32, "End": 35, "Home": 36, "ArrowRight": 39}


class Socket:
    """A client of a web socket (RFC 6455) on this machine: texts in and out."""

    def __init__(self, port, path):
        self.stream = socket.create_connection(("127.0.0.1", port), timeout=SECONDS)
        key = base64.b64encode(secrets.token_bytes(16)).decode()
        head = [
            f"GET {path} HTTP/1.1",
            f"Host: 127.0.0.1:{port}",
            "Upgrade: websocket",
            "Connection: Upgrade",
            f"Sec-WebSocket-Key: {key}",
            "Sec-WebSocket-Version: 13",
            "",
            "",
        ]
        self.stream.sendall("\r\n".join(head).encode())
        self.bytes = b""
        while b"\r\n\r\n" not in self.bytes:
            self.more()
        reply, self.bytes = self.bytes.split(b"\r\n\r\n", 1)
        if b" 101 " not in reply.split(b"\r\n")[0]:
            raise ConnectionError(reply.decode("latin-1"))

    def more(self):
        got = self.stream.recv(1 << 16)
        if not got:
            raise ConnectionError("the browser has ended")
        self.bytes += got

    def take(self, count):
        while len(self.bytes) < count:
            self.more()
        taken, self.bytes = self.bytes[:count], self.bytes[count:]
        return taken

    def send(self, text):
        body = text.encode()
        mask = secrets.token_bytes(4)
        size = len(body)
        if size < 126:
            head = struct.pack(">BB", 0x81, 0x80 | size)
        elif size < 1 << 16:
            head = struct.pack(">BBH", 0x81, 0xFE, size)
        else:
            head = struct.pack(">BBQ", 0x81, 0xFF, size)
        masked = bytes(byte ^ mask[at % 4] for at, byte in enumerate(body))
        self.stream.sendall(head + mask + masked)

    def receive(self):
        """The next whole text. Frames of other kinds are skipped."""
        text = b""
        while True:
            first, second = self.take(2)
            size = second & 0x7F
            if size == 126:
                (size,) = struct.unpack(">H", self.take(2))
            elif size == 127:
                (size,) = struct.unpack(">Q", self.take(8))
            body = self.take(size)
            if first & 0x0F in (0, 1):
                text += body
                if first & 0x80:
                    return text.decode()

    def close(self):
        self.stream.close()


class Browser:
    """A headless browser with a profile of its own. It resolves no name but those in `names`."""

    def __init__(self, program, folder, names=()):
        self.profile = pathlib.Path(folder) / "profile"
        rules = [f"MAP {name} 127.0.0.1" for name in names] + ["MAP * ~NOTFOUND", "EXCLUDE 127.0.0.1"]
        switches = [*SWITCHES, f"--user-data-dir={self.profile}", f"--host-resolver-rules={', '.join(rules)}"]
        if os.geteuid() == 0:
            switches.append("--no-sandbox")
        self.process = subprocess.Popen(
            [program, *switches, "about:blank"],
            stdin=subprocess.DEVNULL,
            stdout=subprocess.DEVNULL,
            stderr=subprocess.DEVNULL,
        )
        port, path = self.address()
        self.socket, self.last = Socket(port, path), 0
        self.events = []

    def address(self):
        """The port and the path of the protocol, which the browser writes into its profile."""
        file = self.profile / "DevToolsActivePort"
        until = time.monotonic() + SECONDS
        while time.monotonic() < until:
            if self.process.poll() is not None:
                raise ConnectionError("the browser did not start")
            if file.exists() and file.read_text().count("\n") >= 1:
                port, path = file.read_text().split("\n")[:2]
                return int(port), path
            time.sleep(0.05)
        raise ConnectionError("the browser did not start in time")

    def call(self, method, session=None, **given):
        """Calls a method of the protocol; events that come meanwhile are kept."""
        self.last += 1
        message = {"id": self.last, "method": method, "params": given}
        if session:
            message["sessionId"] = session
        self.socket.send(json.dumps(message))
        while True:
            told = json.loads(self.socket.receive())
            if told.get("id") == self.last:
                if "error" in told:
                    raise RuntimeError(f"{method}: {told['error'].get('message')}")
                return told["result"]
            if "method" in told:
                self.events.append(told)

    def open(self, url="about:blank", width=1200, height=900):
        target = self.call("Target.createTarget", url="about:blank")["targetId"]
        session = self.call("Target.attachToTarget", targetId=target, flatten=True)["sessionId"]
        return Tab(self, target, session, url, width, height)

    def close(self):
        try:
            self.call("Browser.close")
        except (OSError, RuntimeError):
            pass
        self.socket.close()
        try:
            self.process.wait(SECONDS)
        except subprocess.TimeoutExpired:
            self.process.kill()
            self.process.wait()


class Tab:
    """A tab of the browser."""

    def __init__(self, browser, target, session, url, width, height):
        self.browser, self.target, self.session = browser, target, session
        for part in ("Page", "Runtime", "Network", "Log", "DOM", "Accessibility"):
            self.call(f"{part}.enable")
        self.resize(width, height)
        if url != "about:blank":
            self.go(url)

    def call(self, method, **given):
        return self.browser.call(method, self.session, **given)

    def events(self, name):
        """The parameters of all events of a name so far."""
        return [
            told["params"]
            for told in self.browser.events
            if told["method"] == name and told.get("sessionId") == self.session
        ]

    def go(self, url):
        self.call("Page.navigate", url=url)
        self.wait(f"document.readyState === 'complete' && location.href === {json.dumps(url)}")

    def resize(self, width, height=900):
        self.call("Emulation.setDeviceMetricsOverride", width=width, height=height, deviceScaleFactor=1, mobile=False)

    def evaluate(self, text):
        """The value of an expression of JavaScript; a promise is awaited."""
        told = self.call("Runtime.evaluate", expression=text, awaitPromise=True, returnByValue=True)
        if "exceptionDetails" in told:
            raise RuntimeError(f"{text}: {told['exceptionDetails'].get('exception', {}).get('description')}")
        return told["result"].get("value")

    def wait(self, text, seconds=SECONDS):
        """Waits until an expression is true."""
        until = time.monotonic() + seconds
        while time.monotonic() < until:
            try:
                if self.evaluate(f"Boolean({text})"):
                    return
            except RuntimeError:
                # the page is being replaced
                pass
            time.sleep(0.03)
        raise TimeoutError(f"not true after {seconds} s: {text}")

    def place(self, selector):
        """The middle of an element, which is scrolled into sight."""
        found = self.evaluate(
            f"""(() => {{
            const found = document.querySelector({json.dumps(selector)});
            if (!found) return null;
            found.scrollIntoView({{ block: "center" }});
            const box = found.getBoundingClientRect();
            return [box.x + box.width / 2, box.y + box.height / 2];
        }})()"""
        )
        if found is None:
            raise LookupError(selector)
        return found

    def click(self, selector, times=1):
        """Clicks with the mouse, once or several times in a row."""
        x, y = self.place(selector)
        for count in range(1, times + 1):
            for kind in ("mousePressed", "mouseReleased"):
                self.call("Input.dispatchMouseEvent", type=kind, x=x, y=y, button="left", clickCount=count)

    def press(self, key, shift=False):
        code = KEYS.get(key) or ord(key.upper())
        text = "\r" if key == "Enter" else " " if key == "Space" else key if len(key) == 1 else ""
        given = {"key": " " if key == "Space" else key, "windowsVirtualKeyCode": code, "modifiers": 8 if shift else 0}
        self.call("Input.dispatchKeyEvent", type="keyDown" if text else "rawKeyDown", text=text, **given)
        self.call("Input.dispatchKeyEvent", type="keyUp", **given)

    def type(self, selector, text):
        """Types a text into a field in place of what it has."""
        self.evaluate(
            f"(() => {{ const f = document.querySelector({json.dumps(selector)}); f.focus(); f.select?.(); }})()"
        )
        self.evaluate("document.execCommand('delete')")
        if text:
            self.call("Input.insertText", text=text)

    def choose(self, selector, value):
        self.evaluate(
            f"""(() => {{
            const field = document.querySelector({json.dumps(selector)});
            field.value = {json.dumps(value)};
            field.dispatchEvent(new Event("input", {{ bubbles: true }}));
            field.dispatchEvent(new Event("change", {{ bubbles: true }}));
        }})()"""
        )

    def texts(self, selector):
        """The texts of all elements that a selector finds, as they are shown."""
        return self.evaluate(f"[...document.querySelectorAll({json.dumps(selector)})].map((each) => each.textContent)")

    def table(self, selector):
        """The texts of the cells of a table's body, row by row."""
        return self.evaluate(
            f"""[...document.querySelectorAll({json.dumps(selector + ' > tbody > tr')})]
            .map((row) => [...row.cells].map((cell) => cell.textContent))"""
        )

    def picture(self, path, whole=True):
        """Writes a picture of the page, or of its window only."""
        given = {"format": "png", "captureBeyondViewport": whole}
        if whole:
            size = self.call("Page.getLayoutMetrics")["cssContentSize"]
            given["clip"] = {"x": 0, "y": 0, "width": size["width"], "height": size["height"], "scale": 1}
        told = self.call("Page.captureScreenshot", **given)
        pathlib.Path(path).write_bytes(base64.b64decode(told["data"]))

    def part(self, x, y, width, height):
        """The bytes of a picture of a part of the window: the same bytes if it looks the same."""
        clip = {"x": x, "y": y, "width": width, "height": height, "scale": 1}
        # a picture beyond the window would lay the page out anew, and scroll its frames back
        told = self.call("Page.captureScreenshot", format="png", captureBeyondViewport=False, clip=clip)
        return base64.b64decode(told["data"])

    def print(self, path):
        """Prints the page to a PDF; returns its bytes."""
        told = self.call(
            "Page.printToPDF", preferCSSPageSize=True, printBackground=False, paperWidth=8.27, paperHeight=11.69
        )
        pathlib.Path(path).write_bytes(base64.b64decode(told["data"]))
        return pathlib.Path(path).read_bytes()

    def close(self):
        self.browser.call("Target.closeTarget", targetId=self.target)
