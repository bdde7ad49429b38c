"""A headless Chromium that trials drive by WebDriver over HTTP, with Python's own library."""
import base64
import json
import os
import re
import subprocess
import time
import urllib.error
import urllib.request

KEYS = {"Left": "\ue012", "Up": "\ue013", "Right": "\ue014", "Down": "\ue015", "Enter": "\ue007", "Escape": "\ue00c"}
ELEMENT = "element-6066-11e4-a52e-4f735466cecf"


class Browser:
    """A window of the browser. It is opened by `with`, and closed after it."""

    def __init__(self, width=1200, height=800):
        self.driver = subprocess.Popen(["chromedriver", "--port=0"], stdout=subprocess.PIPE, stderr=subprocess.DEVNULL,
                                       text=True)
        self.size = f"--window-size={width},{height}"

    def __enter__(self):
        port = next(found[1] for line in self.driver.stdout if (found := re.search(r"success.* on port (\d+)", line)))
        self.base = f"http://127.0.0.1:{port}/session"
        options = ["--headless=new", "--disable-gpu", "--hide-scrollbars", self.size]
        if os.geteuid() == 0:
            options.append("--no-sandbox")
        capabilities = {"alwaysMatch": {"browserName": "chrome", "goog:chromeOptions": {"args": options},
                                        "goog:loggingPrefs": {"browser": "ALL"}, "timeouts": {"script": 100000}}}
        self.base += "/" + self.ask("POST", "", {"capabilities": capabilities})["sessionId"]
        return self

    def __exit__(self, *_):
        try:
            self.ask("DELETE", "")
        except OSError:
            pass
        self.driver.terminate()
        self.driver.wait()

    def ask(self, method, path, data=None):
        """The value of an answer."""
        body = None if data is None else json.dumps(data).encode()
        request = urllib.request.Request(self.base + path, body, {"Content-Type": "application/json"}, method=method)
        opener = urllib.request.build_opener(urllib.request.ProxyHandler({}))
        try:
            with opener.open(request, timeout=120) as answer:
                return json.load(answer)["value"]
        except urllib.error.HTTPError as error:
            raise RuntimeError(json.load(error)["value"]["message"]) from None

    def open(self, path):
        """Opens a file; gives the milliseconds until its page was drawn whole."""
        self.ask("POST", "/url", {"url": path.resolve().as_uri()})
        self.until("return window.chipPage && chipPage.opened > 0")
        return self.run("return chipPage.opened")

    def run(self, code, *given):
        return self.ask("POST", "/execute/sync", {"script": code, "args": list(given)})

    def run_async(self, code, *given):
        """Runs code that calls `done` with its value."""
        wrapped = f"const done = arguments[arguments.length - 1]; {code}"
        return self.ask("POST", "/execute/async", {"script": wrapped, "args": list(given)})

    def until(self, code, seconds=30):
        """Waits until code says something true; false where that takes too long."""
        ended = time.monotonic() + seconds
        while time.monotonic() < ended:
            if self.run(code):
                return True
            time.sleep(0.05)
        return False

    def act(self, kind, actions):
        source = {"type": kind, "id": kind, "actions": actions}
        if kind == "pointer":
            source["parameters"] = {"pointerType": "mouse"}
        self.ask("POST", "/actions", {"actions": [source]})

    def press(self, *keys):
        """Presses keys one after another: names of KEYS, or texts letter by letter."""
        for letter in (letter for key in keys for letter in ([KEYS[key]] if key in KEYS else key)):
            self.act("key", [{"type": "keyDown", "value": letter}, {"type": "keyUp", "value": letter}])

    def move(self, x, y, *steps):
        """Moves the mouse to a place of the window, and does what steps say there: down, up, or another place."""
        actions = [{"type": "pointerMove", "duration": 0, "x": round(x), "y": round(y)}]
        for step in steps:
            actions.append({"type": f"pointer{step.title()}", "button": 0} if isinstance(step, str) else
                           {"type": "pointerMove", "duration": 100, "x": round(step[0]), "y": round(step[1])})
        self.act("pointer", actions)

    def wheel(self, x, y, by):
        self.act("wheel", [{"type": "scroll", "x": round(x), "y": round(y), "deltaX": 0, "deltaY": by, "duration": 0}])

    def click(self, selector):
        found = self.ask("POST", "/element", {"using": "css selector", "value": selector})
        self.ask("POST", f"/element/{found[ELEMENT]}/click", {})

    def picture(self):
        """The window as the bytes of a PNG."""
        return base64.b64decode(self.ask("GET", "/screenshot"))

    def errors(self):
        """What the page has said is wrong."""
        lines = self.ask("POST", "/se/log", {"type": "browser"})
        return [line["message"] for line in lines if line["level"] == "SEVERE"]
