"""A headless Chromium, driven by its driver through the WebDriver protocol, with the standard library alone."""

import contextlib
import json
import os
import shutil
import socket
import subprocess
import tempfile
import time
import urllib.error
import urllib.request

ELEMENT = "element-6066-11e4-a52e-4f735466cecf"
KEYS = {"enter": "\ue007", "tab": "\ue004", "escape": "\ue00c", "right": "\ue014", "left": "\ue012"}
# So many seconds a browser may take to start on a busy machine.
PATIENCE = 300
# A window has bars above the page.
BARS = 143
IS_HERE = shutil.which("chromium") is not None and shutil.which("chromedriver") is not None


class Browser:
    """One window after another of a browser that is ended by `close`."""

    def __init__(self, width=1280, height=800, *words, is_phone=False):
        with socket.socket() as probe:
            probe.bind(("127.0.0.1", 0))
            port = probe.getsockname()[1]
        self._folder = tempfile.TemporaryDirectory(prefix="diag-browser-")
        self._driver = subprocess.Popen(
            ["chromedriver", f"--port={port}"], stdout=subprocess.DEVNULL, stderr=subprocess.DEVNULL, start_new_session=True
        )
        self._base = f"http://127.0.0.1:{port}"
        # As root a browser has no sandbox. What it opens here are our own pages.
        size, data = f"--window-size={width},{height + BARS}", f"--user-data-dir={self._folder.name}"
        words = [*words, "--headless=new", "--disable-gpu", size, data]
        words += ["--no-sandbox"] if os.geteuid() == 0 else []
        options = {"goog:chromeOptions": {"args": words, "binary": shutil.which("chromium")}, "goog:loggingPrefs": {"browser": "ALL"}}
        if is_phone:
            screen = {"width": width, "height": height, "pixelRatio": 2, "touch": True, "mobile": True}
            options["goog:chromeOptions"]["mobileEmulation"] = {"deviceMetrics": screen}
        for _ in range(200):
            with contextlib.suppress(urllib.error.URLError, ConnectionError):
                if self._ask("GET", "/status")["ready"]:
                    break
            time.sleep(0.05)
        try:
            session = self._ask("POST", "/session", {"capabilities": {"alwaysMatch": options}})["sessionId"]
        except BaseException:
            self.close()
            raise
        self._base += f"/session/{session}"

    def close(self):
        """Ends the browser and its driver."""
        with contextlib.suppress(OSError, urllib.error.URLError):
            self._ask("DELETE", "")
        self._driver.terminate()
        self._driver.wait()
        with contextlib.suppress(OSError):
            self._folder.cleanup()

    def _ask(self, method, path, body=None):
        data = None if method != "POST" else json.dumps(body or {}).encode()
        request = urllib.request.Request(self._base + path, data, {"Content-Type": "application/json"}, method=method)
        try:
            # Not by a proxy of this machine.
            with urllib.request.build_opener(urllib.request.ProxyHandler({})).open(request, timeout=PATIENCE) as answer:
                return json.load(answer)["value"]
        except urllib.error.HTTPError as error:
            raise RuntimeError(json.load(error)["value"]["message"].split("\n")[0]) from None

    def go(self, url):
        """Opens an address."""
        self._ask("POST", "/url", {"url": url})

    @property
    def url(self):
        """The address that is open."""
        return self._ask("GET", "/url")

    def run(self, script, *arguments):
        """What a script gives that runs in the page."""
        return self._ask("POST", "/execute/sync", {"script": script, "args": list(arguments)})

    def wait(self, script, *arguments, seconds=30):
        """Waits until a script gives something that is true, and gives that."""
        end = time.monotonic() + seconds
        while time.monotonic() < end:
            with contextlib.suppress(RuntimeError):
                if found := self.run(script, *arguments):
                    return found
            time.sleep(0.05)
        raise AssertionError(f"never true in the page: {script} {arguments}")

    def click(self, script, *arguments):
        """Clicks what a script gives, with the pointer, as a person does."""
        element = self.wait(script, *arguments)
        origin = {ELEMENT: element[ELEMENT]}
        steps = [
            {"type": "pointerMove", "duration": 0, "origin": origin, "x": 0, "y": 0},
            {"type": "pointerDown", "button": 0},
            {"type": "pointerUp", "button": 0},
        ]
        self._ask("POST", "/actions", {"actions": [{"type": "pointer", "id": "mouse", "actions": steps}]})

    def press(self, *keys):
        """Presses keys, one after the other, wherever the focus is."""
        steps = [{"type": kind, "value": KEYS.get(key, key)} for key in keys for kind in ("keyDown", "keyUp")]
        self._ask("POST", "/actions", {"actions": [{"type": "key", "id": "keys", "actions": steps}]})

    def choose_file(self, script, path):
        """Gives a file to an element that asks for one."""
        element = self.wait(script)[ELEMENT]
        self._ask("POST", f"/element/{element}/value", {"text": str(path)})

    def new_tab(self):
        """Opens a tab, and gives the one that was open and the new one. The new one is used from now on."""
        before = self._ask("GET", "/window")
        handle = self._ask("POST", "/window/new", {"type": "tab"})["handle"]
        self.use(handle)
        return before, handle

    def use(self, handle):
        """Goes to a tab."""
        self._ask("POST", "/window", {"handle": handle})

    def picture(self):
        """The page as a PNG, in base 64."""
        return self._ask("GET", "/screenshot")

    def complaints(self):
        """What the page wrote to its console as an error."""
        return [row["message"] for row in self._ask("POST", "/se/log", {"type": "browser"}) if row["level"] == "SEVERE"]
