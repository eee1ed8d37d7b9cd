"""Chromium without a window, driven by its DevTools protocol over a pipe, and a server of files."""
import base64
import contextlib
import functools
import http.server
import json
import os
import select
import shutil
import subprocess
import tempfile
import threading
import time

# The time limit of the browser in seconds, also on a busy machine.
LIMIT = 300

NAMES = ("chromium", "chromium-browser", "google-chrome")


def found():
    """Returns the path of the browser, or None."""
    return next(filter(None, map(shutil.which, NAMES)), None)


class Wrong(Exception):
    """The browser reports that a command failed, or doesn't answer."""


class Browser:
    """A browser with one page."""

    def __init__(self, path, size=(1280, 900)):
        self.folder = tempfile.mkdtemp(prefix="rtr-browser-")
        taken, self.written = os.pipe()
        self.read, answered = os.pipe()
        words = [path, "--headless=new", "--no-sandbox", "--disable-gpu", "--no-first-run",
                 "--disable-dev-shm-usage", "--mute-audio", "--remote-debugging-pipe",
                 f"--user-data-dir={self.folder}", f"--window-size={size[0]},{size[1]}",
                 "about:blank"]
        self.process = subprocess.Popen(
            ["sh", "-c", f'exec 3<&{taken} 4>&{answered}; exec "$@"', "sh", *words],
            pass_fds=(taken, answered), stdout=subprocess.DEVNULL, stderr=subprocess.DEVNULL)
        os.close(taken)
        os.close(answered)
        self.left, self.number, self.events, self.session = b"", 0, [], None
        targets = self.call("Target.getTargets")["targetInfos"]
        page = next(target for target in targets if target["type"] == "page")
        self.session = self.call("Target.attachToTarget", targetId=page["targetId"],
                                 flatten=True)["sessionId"]
        for domain in ("Page", "Runtime", "Log"):
            self.call(f"{domain}.enable")

    def message(self, until):
        """Returns the next message of the browser."""
        while b"\0" not in self.left:
            if not select.select([self.read], [], [], max(0, until - time.monotonic()))[0]:
                raise Wrong("the browser doesn't answer")
            piece = os.read(self.read, 1 << 16)
            if not piece:
                raise Wrong("the browser ended")
            self.left += piece
        content, self.left = self.left.split(b"\0", 1)
        return json.loads(content)

    def call(self, method, **parameters):
        """Sends a command, and returns its result."""
        self.number += 1
        request = {"id": self.number, "method": method, "params": parameters}
        if self.session:
            request["sessionId"] = self.session
        data = json.dumps(request).encode() + b"\0"
        while data:
            data = data[os.write(self.written, data):]
        until = time.monotonic() + LIMIT
        while True:
            message = self.message(until)
            if message.get("id") == self.number:
                if "error" in message:
                    raise Wrong(f"{method}: {message['error']['message']}")
                return message["result"]
            self.events.append(message)

    def run(self, code):
        """Returns the value of an expression of the page, also of a promise."""
        answer = self.call("Runtime.evaluate", expression=code, returnByValue=True,
                           awaitPromise=True)
        if "exceptionDetails" in answer:
            raise Wrong(answer["exceptionDetails"].get("exception", {}).get("description", code))
        return answer["result"].get("value")

    def wait(self, code, seconds=LIMIT):
        """Waits until an expression holds, and returns its value."""
        until = time.monotonic() + seconds
        while not (value := self.run(code)):
            if time.monotonic() > until:
                raise Wrong(f"in vain: {code}")
            time.sleep(0.02)
        return value

    def open(self, url):
        self.call("Page.navigate", url=url)

    def drop(self, *files):
        """Drops files on the middle of the page, as a person does."""
        data = {"items": [], "files": [os.path.abspath(file) for file in files],
                "dragOperationsMask": 1}
        for kind in ("dragEnter", "dragOver", "drop"):
            self.call("Input.dispatchDragEvent", type=kind, x=400, y=300, data=data)

    def press(self, key):
        """Presses a key."""
        codes = {"Home": 36, "End": 35, "PageDown": 34, "PageUp": 33, "ArrowDown": 40,
                 "ArrowUp": 38, "ArrowRight": 39, "ArrowLeft": 37, "Tab": 9, "Enter": 13}
        more = {"text": "\r"} if key == "Enter" else {}
        for kind in ("keyDown", "keyUp"):
            self.call("Input.dispatchKeyEvent", type=kind, key=key, code=key,
                      windowsVirtualKeyCode=codes[key], **(more if kind == "keyDown" else {}))

    def dark(self, is_dark):
        """Makes the page dark, or light."""
        self.call("Emulation.setEmulatedMedia", features=[
            {"name": "prefers-color-scheme", "value": "dark" if is_dark else "light"}])

    def resize(self, width, height):
        self.call("Emulation.setDeviceMetricsOverride", width=width, height=height,
                  deviceScaleFactor=1, mobile=False)

    def screenshot(self, path):
        with open(path, "wb") as file:
            file.write(base64.b64decode(self.call("Page.captureScreenshot", format="png")["data"]))

    def complaints(self):
        """Returns the errors of the page's console and the browser's log."""
        self.run("1")
        found_wrong = []
        for event in self.events:
            details = event.get("params", {})
            if event.get("method") == "Runtime.exceptionThrown":
                exception = details["exceptionDetails"].get("exception", {})
                found_wrong.append(exception.get("description"))
            if event.get("method") == "Log.entryAdded" and details["entry"]["level"] == "error":
                found_wrong.append(details["entry"]["text"] + " " + details["entry"].get("url", ""))
        return found_wrong

    def close(self):
        with contextlib.suppress(Wrong, OSError):
            self.session = None
            self.call("Browser.close")
        try:
            self.process.wait(10)
        except subprocess.TimeoutExpired:
            self.process.kill()
            self.process.wait()
        shutil.rmtree(self.folder, ignore_errors=True)


class Files(http.server.SimpleHTTPRequestHandler):
    """Serves the files of a folder, with some paths replaced, without logging."""

    others = {}
    extensions_map = {**http.server.SimpleHTTPRequestHandler.extensions_map,
                      ".js": "text/javascript", ".wasm": "application/wasm"}

    def translate_path(self, path):
        return self.others.get(path.split("?")[0]) or super().translate_path(path)

    def log_message(self, *_):
        pass


@contextlib.contextmanager
def serving(folder, others, files=Files):
    """Serves a folder on the loopback interface, and returns its URL."""
    handler = functools.partial(type("Served", (files,), {"others": others}), directory=folder)
    with http.server.ThreadingHTTPServer(("127.0.0.1", 0), handler) as server:
        threading.Thread(target=server.serve_forever, daemon=True).start()
        yield f"http://127.0.0.1:{server.server_address[1]}"
        server.shutdown()
