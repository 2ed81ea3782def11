"""Chromium without a window, driven by its DevTools protocol through a pipe: what a user does in a page, and what the page then has."""
import base64
import fcntl
import json
import os
import select
import shutil
import subprocess
import time

LIMIT = 600.0  # seconds of any answer, also on a slow and busy machine
CTRL = 2
# No service of the browser's own goes to the network, and nothing looks for a graphics processor or a large /dev/shm.
FLAGS = ["--headless=new", "--no-sandbox", "--no-first-run", "--disable-background-networking", "--disable-component-update", "--disable-sync",
         "--disable-extensions", "--disable-gpu", "--disable-dev-shm-usage", "--disable-smooth-scrolling", "--disable-frame-rate-limit",
         "--disable-gpu-vsync", "--remote-debugging-pipe"]
CODES = {"ArrowLeft": 37, "ArrowUp": 38, "ArrowRight": 39, "ArrowDown": 40, "Home": 36, "End": 35, "Escape": 27, "Enter": 13}


def installed():
    """The path of a Chromium that is installed, or None."""
    return next(filter(None, map(shutil.which, ("chromium", "chromium-browser", "google-chrome"))), None)


class Browser:
    """A browser that ends with its block. It keeps all its files in one folder."""

    def __init__(self, program, folder):
        # the browser has its pipes as 3 and 4, so neither may be one of those before
        near, far = os.pipe(), os.pipe()
        given, taken = fcntl.fcntl(near[0], fcntl.F_DUPFD, 10), fcntl.fcntl(far[1], fcntl.F_DUPFD, 10)
        words = [program, *FLAGS, f"--user-data-dir={folder}/profile", "about:blank"]
        self.process = subprocess.Popen(["bash", "-c", f'exec "$@" 3<&{given} 4>&{taken}', "bash", *words], pass_fds=(given, taken), cwd=folder,
                                        env={**os.environ, "HOME": str(folder)}, stdin=subprocess.DEVNULL, stdout=subprocess.DEVNULL,
                                        stderr=subprocess.DEVNULL)
        for end in (near[0], far[1], given, taken):
            os.close(end)
        self.near, self.far, self.rest, self.count, self.pages = near[1], far[0], b"", 0, {}

    def __enter__(self):
        return self

    def __exit__(self, *_):
        os.close(self.near)
        os.close(self.far)
        try:
            self.process.wait(20)
        except subprocess.TimeoutExpired:
            self.process.kill()
            self.process.wait()

    def receive(self, until):
        """The next message. Raises an error where none comes."""
        while b"\0" not in self.rest:
            ready, _, _ = select.select([self.far], [], [], max(until - time.monotonic(), 0))
            more = os.read(self.far, 1 << 20) if ready else b""
            if not more:
                raise TimeoutError("the browser doesn't answer")
            self.rest += more
        message, self.rest = self.rest.split(b"\0", 1)
        return json.loads(message)

    def call(self, method, session=None, **words):
        """What the browser answers to a command. What it tells before goes to its pages."""
        self.count += 1
        message = {"id": self.count, "method": method, "params": words, **({"sessionId": session} if session else {})}
        rest, until = json.dumps(message).encode() + b"\0", time.monotonic() + LIMIT
        while rest:
            rest = rest[os.write(self.near, rest):]
        while True:
            got = self.receive(until)
            if got.get("id") == self.count:
                if "error" in got:
                    raise ValueError(f"{method}: {got['error']['message']}")
                return got["result"]
            if got.get("sessionId") in self.pages:
                self.pages[got["sessionId"]].told.append((got["method"], got["params"]))

    def page(self, width=1000, height=560):
        """An empty page of this size."""
        target = self.call("Target.createTarget", url="about:blank")["targetId"]
        page = Page(self, self.call("Target.attachToTarget", targetId=target, flatten=True)["sessionId"], target)
        for part in ("Page", "Runtime", "Network", "Log"):
            page.call(f"{part}.enable")
        page.call("Performance.enable", timeDomain="threadTicks")
        page.call("Emulation.setDeviceMetricsOverride", width=width, height=height, deviceScaleFactor=1, mobile=False)
        page.call("Emulation.setFocusEmulationEnabled", enabled=True)
        page.call("Input.setInterceptDrags", enabled=True)
        return page


class Page:
    """A page, what the browser told of it since it was opened, and the hands of its user."""

    def __init__(self, browser, session, target):
        self.browser, self.session, self.target, self.told, self.before = browser, session, target, [], None
        browser.pages[session] = self

    def call(self, method, **words):
        return self.browser.call(method, self.session, **words)

    def close(self):
        del self.browser.pages[self.session]
        self.browser.call("Target.closeTarget", targetId=self.target)

    def ask(self, expression):
        """The value of an expression in the page, behind its promises. An error there is one here."""
        answer = self.call("Runtime.evaluate", expression=expression, returnByValue=True, awaitPromise=True)
        if "exceptionDetails" in answer:
            raise ValueError(f"{expression[:80]}: {answer['exceptionDetails'].get('exception', {}).get('description')}")
        return answer["result"].get("value")

    def settle(self):
        """Waits until what was done is seen."""
        self.ask("new Promise((done) => requestAnimationFrame(() => done(0)))")

    def open(self, path, first=""):
        """Opens a file, before whose scripts another one runs."""
        if self.before:
            self.call("Page.removeScriptToEvaluateOnNewDocument", identifier=self.before)
        self.before = self.call("Page.addScriptToEvaluateOnNewDocument", source=first)["identifier"]
        self.told, self.url = [], path.absolute().as_uri()
        self.call("Page.navigate", url=self.url)
        self.ask("new Promise((done) => document.readyState === 'complete' ? done(0) : addEventListener('load', () => done(0)))")
        # a wheel that goes on at the left end would be a gesture that means the page before
        self.call("Page.resetNavigationHistory")

    def faults(self):
        """What went wrong in the page: errors that nothing caught, and those of the console."""
        thrown = [words["exceptionDetails"] for method, words in self.told if method == "Runtime.exceptionThrown"]
        logged = [words["entry"]["text"] for method, words in self.told if method == "Log.entryAdded" and words["entry"]["level"] == "error"]
        return [fault.get("exception", {}).get("description", fault["text"]) for fault in thrown] + logged

    def requests(self):
        """The addresses of what the page asked for, but for itself."""
        return [words["request"]["url"] for method, words in self.told
                if method == "Network.requestWillBeSent" and words["request"]["url"] != self.url]

    def time(self):
        """The seconds that the page has taken of the processor."""
        return next(it["value"] for it in self.call("Performance.getMetrics")["metrics"] if it["name"] == "ThreadTime")

    def press(self, key, modifiers=0):
        """Presses a key and lets it go."""
        words = {"key": key, "modifiers": modifiers, "windowsVirtualKeyCode": CODES.get(key) or (ord(key.upper()) if key.isalnum() else 0)}
        text = {"text": key} if len(key) == 1 else {}
        self.call("Input.dispatchKeyEvent", type="keyDown", **words, **text)
        self.call("Input.dispatchKeyEvent", type="keyUp", **words)

    def mouse(self, kind, x, y, **words):
        self.call("Input.dispatchMouseEvent", type=kind, x=x, y=y, **words)

    def move(self, x, y):
        self.mouse("mouseMoved", x, y)

    def click(self, x, y):
        self.move(x, y)
        self.mouse("mousePressed", x, y, button="left", clickCount=1)
        self.mouse("mouseReleased", x, y, button="left", clickCount=1)

    def wheel(self, x, y, by=(0, 0), modifiers=0):
        self.mouse("mouseWheel", x, y, deltaX=by[0], deltaY=by[1], modifiers=modifiers)

    def drag(self, start, end):
        """Drags what can be dragged from one place to another."""
        self.move(*start)
        self.mouse("mousePressed", *start, button="left", clickCount=1)
        self.mouse("mouseMoved", start[0] + 4, start[1] + 4, button="left", buttons=1)
        self.mouse("mouseMoved", *end, button="left", buttons=1)
        self.settle()
        data = [words["data"] for method, words in self.told if method == "Input.dragIntercepted"]
        for kind in ("dragEnter", "dragOver", "drop") if data else ():
            self.call("Input.dispatchDragEvent", type=kind, x=end[0], y=end[1], data=data[-1])
        self.mouse("mouseReleased", *end, button="left", clickCount=1)

    def picture(self, path):
        """Writes what is seen of the page as PNG."""
        path.write_bytes(base64.b64decode(self.call("Page.captureScreenshot", format="png")["data"]))
