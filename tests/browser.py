"""Chromium without a window, steered through chromedriver's HTTP interface, with Python's standard library alone."""

import base64
import json
import os
import pathlib
import shutil
import socket
import subprocess
import tempfile
import time
import urllib.error
import urllib.request

ELEMENT = "element-6066-11e4-a52e-4f735466cecf"
# Keys that have no letter, as WebDriver names them.
BACKSPACE, ENTER, ESCAPE, LEFT, UP, RIGHT, DOWN = "\ue003", "\ue007", "\ue00c", "\ue012", "\ue013", "\ue014", "\ue015"


def programs():
    """Chromium and chromedriver, if both are there."""
    chromium = shutil.which("chromium") or shutil.which("chromium-browser") or shutil.which("google-chrome")
    driver = shutil.which("chromedriver")
    return (chromium, driver) if chromium and driver else None


def free_port():
    with socket.socket() as one:
        one.bind(("127.0.0.1", 0))
        return one.getsockname()[1]


class Browser:
    """One window. Used in a `with`, at whose end the driver and the browser are ended."""

    def __init__(self, chromium, driver, scripts=True, size=(1280, 800)):
        self.folder = tempfile.mkdtemp(prefix="zorambi-browser-")
        port = free_port()
        self.root = f"http://127.0.0.1:{port}"
        self.driver = subprocess.Popen(
            [driver, f"--port={port}", "--log-level=OFF"],
            stdout=subprocess.DEVNULL,
            stderr=subprocess.DEVNULL,
            env={**os.environ, "HOME": self.folder},
        )
        self.session = ""
        try:
            self.open_session(chromium, scripts, size)
        except BaseException:
            self.close()
            raise

    def open_session(self, chromium, scripts, size):
        options = {
            "binary": chromium,
            "args": [
                "--headless=new",
                "--no-sandbox",
                "--disable-gpu",
                "--disable-dev-shm-usage",
                "--no-first-run",
                f"--user-data-dir={self.folder}/profile",
                f"--window-size={size[0]},{size[1]}",
            ],
        }
        if not scripts:
            options["prefs"] = {"profile.managed_default_content_settings.javascript": 2}
        wanted = {"browserName": "chrome", "goog:chromeOptions": options, "goog:loggingPrefs": {"browser": "ALL"}}
        for _ in range(100):
            try:
                made = self.call("POST", "/session", {"capabilities": {"alwaysMatch": wanted}})
                self.session = "/session/" + made["sessionId"]
                return
            except (urllib.error.URLError, ConnectionError) as error:
                if isinstance(error, urllib.error.HTTPError):
                    raise RuntimeError(error.read().decode()[:500]) from error
                time.sleep(0.1)
        raise RuntimeError("chromedriver does not answer")

    def __enter__(self):
        return self

    def __exit__(self, *_):
        self.close()

    def close(self):
        if self.session:
            try:
                self.call("DELETE", self.session)
            except (urllib.error.URLError, ConnectionError):
                pass
        self.driver.terminate()
        self.driver.wait(10)
        shutil.rmtree(self.folder, ignore_errors=True)

    def call(self, method, path, body=None):
        data = None if body is None else json.dumps(body).encode()
        request = urllib.request.Request(self.root + path, data, {"Content-Type": "application/json"}, method=method)
        with urllib.request.urlopen(request, timeout=60) as answer:
            return json.load(answer)["value"]

    def post(self, path, body):
        return self.call("POST", self.session + path, body)

    def open(self, path):
        """Opens a file."""
        self.post("/url", {"url": pathlib.Path(path).absolute().as_uri()})

    def run(self, script, *given):
        """What a script returns; it has what it is given as arguments[0] and on."""
        return self.post("/execute/sync", {"script": script, "args": list(given)})

    def element(self, selector):
        return self.post("/element", {"using": "css selector", "value": selector})[ELEMENT]

    def click(self, selector):
        """A click with the mouse, as its user would."""
        self.post(f"/element/{self.element(selector)}/click", {})

    def keys(self, *keys):
        """Keys that go to what has the focus."""
        actions = [{"type": kind, "value": key} for key in keys for kind in ("keyDown", "keyUp")]
        self.post("/actions", {"actions": [{"type": "key", "id": "keys", "actions": actions}]})

    def mouse(self, steps):
        """The mouse: (pointerMove, x, y), (pointerDown,), (pointerUp,)."""
        actions = []
        for kind, *place in steps:
            actions.append({"type": kind, "button": 0} if not place else {"type": kind, "duration": 20, "x": place[0], "y": place[1]})
        self.post("/actions", {"actions": [{"type": "pointer", "id": "mouse", "parameters": {"pointerType": "mouse"}, "actions": actions}]})

    def wheel(self, x, y, down):
        scroll = {"type": "scroll", "x": x, "y": y, "deltaX": 0, "deltaY": down, "duration": 0}
        self.post("/actions", {"actions": [{"type": "wheel", "id": "wheel", "actions": [scroll]}]})

    def count(self, selector):
        """How many elements there are, also where no script may run."""
        root = self.devtools("DOM.getDocument", {"depth": 0})["root"]["nodeId"]
        return len(self.devtools("DOM.querySelectorAll", {"nodeId": root, "selector": selector})["nodeIds"])

    def wait(self, look, until, seconds=5):
        """What is seen once it is as it should be, or after some seconds."""
        end = time.monotonic() + seconds
        while True:
            found = look()
            if until(found) or time.monotonic() > end:
                return found
            time.sleep(0.05)

    def devtools(self, command, given):
        return self.post("/goog/cdp/execute", {"cmd": command, "params": given})

    def scheme(self, name):
        """What the reader prefers: light or dark."""
        self.devtools("Emulation.setEmulatedMedia", {"features": [{"name": "prefers-color-scheme", "value": name}]})

    def size(self, width, height):
        self.devtools("Emulation.setDeviceMetricsOverride", {"width": width, "height": height, "deviceScaleFactor": 1, "mobile": False})

    def screenshot(self, path):
        with open(path, "wb") as file:
            file.write(base64.b64decode(self.call("GET", self.session + "/screenshot")))

    def printed(self):
        """The page as it is printed, a PDF."""
        return base64.b64decode(self.post("/print", {}))

    def logged(self):
        """What was logged to the console since the last time."""
        return [entry["message"] for entry in self.post("/se/log", {"type": "browser"})]
