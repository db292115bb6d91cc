"""Chromium and Firefox without a window, for tests of the page, by one protocol: WebDriver BiDi over a WebSocket.

    with open_browser("firefox", folder) as browser:
        browser.visit("http://127.0.0.1:8000/page/")
        browser.evaluate("document.title")

Chromium is started by its driver, and Firefox speaks the protocol itself. `folder` is where a browser keeps its profile.
"""
import base64
import contextlib
import json
import os
import re
import secrets
import socket
import struct
import subprocess
import time
import urllib.request

# The packages of Debian, by the names of the browsers.
PACKAGES = {"chromium": ["chromium", "chromium-driver"], "firefox": ["firefox-esr"]}
CHROMIUM = ["--headless=new", "--no-sandbox", "--disable-gpu", "--disable-dev-shm-usage", "--lang=en"]
SECONDS = 120


class WebSocket:
    """The part of RFC 6455 that a client of one server needs: whole texts, and no compression."""

    def __init__(self, address):
        host, port, path = re.fullmatch(r"ws://([^:/]+):(\d+)(/.*)?", address).groups()
        self.socket = socket.create_connection((host, int(port)), SECONDS)
        key = base64.b64encode(secrets.token_bytes(16)).decode()
        head = [f"GET {path or '/'} HTTP/1.1", f"Host: {host}:{port}", "Upgrade: websocket", "Connection: Upgrade"]
        head += [f"Sec-WebSocket-Key: {key}", "Sec-WebSocket-Version: 13"]
        self.socket.sendall("\r\n".join([*head, "", ""]).encode())
        self.stream = self.socket.makefile("rb")
        status = self.stream.readline()
        if b" 101 " not in status:
            raise OSError(f"no WebSocket at {address}: {status!r}")
        while self.stream.readline().strip():
            pass

    def send(self, text):
        data, mask = text.encode(), secrets.token_bytes(4)
        size = len(data)
        length = struct.pack(">B", 128 | size) if size < 126 else struct.pack(">BH", 254, size) if size < 65536 else struct.pack(">BQ", 255, size)
        masked = int.from_bytes(data, "big") ^ int.from_bytes((mask * (size // 4 + 1))[:size], "big") if size else 0
        self.socket.sendall(b"\x81" + length + mask + masked.to_bytes(size, "big"))

    def frame(self):
        first, second = self.stream.read(2)
        size = second & 127
        if size > 125:
            size = int.from_bytes(self.stream.read(2 if size == 126 else 8), "big")
        return first & 128, first & 15, self.stream.read(size)

    def receive(self):
        text = b""
        while True:
            is_last, kind, data = self.frame()
            if kind == 8:
                raise OSError("the browser closed the connection")
            if kind in (0, 1):
                text += data
                if is_last:
                    return text.decode()


class Browser:
    """A page of a browser."""

    def __init__(self, address, starts_session):
        self.socket, self.number = WebSocket(address), 0
        if starts_session:
            self.call("session.new", {"capabilities": {}})
        self.open_window()

    def call(self, method, params):
        self.number += 1
        self.socket.send(json.dumps({"id": self.number, "method": method, "params": params}))
        while True:
            reply = json.loads(self.socket.receive())
            if reply.get("id") == self.number:
                if reply["type"] == "error":
                    raise RuntimeError(f"{method}: {reply['message']}")
                return reply["result"]

    def open_window(self):
        """Goes on in a new window, which has the focus. The first window of Firefox has none, and one where much was done may have lost it."""
        self.context = self.call("browsingContext.create", {"type": "window"})["context"]

    def visit(self, address):
        self.call("browsingContext.navigate", {"context": self.context, "url": address, "wait": "complete"})

    def evaluate(self, script):
        """What a script gives, perhaps by a promise: it goes through JSON."""
        params = {"expression": f"(async () => JSON.stringify((await ({script})) ?? null))()", "target": {"context": self.context}}
        found = self.call("script.evaluate", params | {"awaitPromise": True})
        if found["type"] != "success":
            raise RuntimeError(found["exceptionDetails"]["text"])
        return json.loads(found["result"]["value"])

    def wait(self, script, seconds=SECONDS):
        """Waits until a script gives something true, and returns that."""
        end = time.time() + seconds
        while not (found := self.evaluate(script)):
            if time.time() > end:
                raise TimeoutError(script)
            time.sleep(0.05)
        return found

    def press(self, *keys):
        """Presses keys, each a character or a key's own code point of WebDriver."""
        actions = [{"type": kind, "value": key} for key in keys for kind in ("keyDown", "keyUp")]
        self.call("input.performActions", {"context": self.context, "actions": [{"type": "key", "id": "keys", "actions": actions}]})

    def press_with(self, held, key):
        actions = [{"type": "keyDown", "value": held}, {"type": "keyDown", "value": key}, {"type": "keyUp", "value": key}, {"type": "keyUp", "value": held}]
        self.call("input.performActions", {"context": self.context, "actions": [{"type": "key", "id": "keys", "actions": actions}]})

    def resize(self, width, height):
        self.call("browsingContext.setViewport", {"context": self.context, "viewport": {"width": width, "height": height}})

    def picture(self, path):
        found = self.call("browsingContext.captureScreenshot", {"context": self.context})["data"]
        with open(path, "wb") as it:
            it.write(base64.b64decode(found))


def free_port():
    with socket.socket() as it:
        it.bind(("127.0.0.1", 0))
        return it.getsockname()[1]


def wait_for_port(port):
    for _ in range(SECONDS * 10):
        with contextlib.suppress(OSError), socket.create_connection(("127.0.0.1", port), 1):
            return
        time.sleep(0.1)
    raise TimeoutError(f"nothing listens at port {port}")


@contextlib.contextmanager
def started(words, folder):
    """A process that is ended at last, with the folder as its home."""
    os.makedirs(folder, exist_ok=True)
    quiet = {"stdout": subprocess.DEVNULL, "stderr": subprocess.DEVNULL}
    process = subprocess.Popen(words, env={**os.environ, "HOME": folder, "XDG_CACHE_HOME": folder}, **quiet)
    try:
        yield process
    finally:
        process.terminate()
        process.wait()


def chromium_session(port, folder, arguments):
    """Starts Chromium by its driver, and returns the address of its WebSocket and the call that ends it."""
    options = {"args": [*CHROMIUM, f"--user-data-dir={folder}/profile", *arguments]}
    asked = {"capabilities": {"alwaysMatch": {"webSocketUrl": True, "goog:chromeOptions": options}}}
    address = f"http://127.0.0.1:{port}/session"
    with urllib.request.urlopen(urllib.request.Request(address, json.dumps(asked).encode()), timeout=SECONDS) as reply:
        made = json.load(reply)["value"]
    end = urllib.request.Request(f"{address}/{made['sessionId']}", method="DELETE")
    return made["capabilities"]["webSocketUrl"], lambda: urllib.request.urlopen(end, timeout=SECONDS).close()


@contextlib.contextmanager
def open_browser(name, folder, is_dark=False):
    """A browser, which is closed at last."""
    port = free_port()
    if name == "chromium":
        with started(["chromedriver", f"--port={port}"], folder):
            wait_for_port(port)
            address, end = chromium_session(port, folder, ["--force-dark-mode"] if is_dark else [])
            try:
                yield Browser(address, starts_session=False)
            finally:
                end()
        return
    profile = f"{folder}/profile"
    os.makedirs(profile, exist_ok=True)
    settings = {"ui.systemUsesDarkTheme": int(is_dark), "layout.css.prefers-color-scheme.content-override": 1 - is_dark}
    with open(f"{profile}/user.js", "w", encoding="utf-8") as it:
        it.writelines(f'user_pref("{name}", {value});\n' for name, value in settings.items())
    words = ["firefox-esr", "--headless", "--no-remote", "--profile", profile, f"--remote-debugging-port={port}", "about:blank"]
    with started(words, folder):
        wait_for_port(port)
        browser = Browser(f"ws://127.0.0.1:{port}/session", starts_session=True)
        try:
            yield browser
        finally:
            browser.call("browser.close", {})
