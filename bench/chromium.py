"""A headless Chromium that is told what to do through a pipe, by the standard library alone."""
import base64
import json
import os
import shutil
import subprocess
import tempfile


class Browser:
    """One page of a browser. Names of methods and events are those of Chromium's DevTools protocol."""

    def __init__(self, width=1280, height=800):
        program = shutil.which("chromium") or shutil.which("chromium-browser")
        if program is None:
            raise SystemExit("chromium isn't here: apt-get install chromium")
        self.room = tempfile.mkdtemp()
        to_browser, self.writing = os.pipe()
        self.reading, from_browser = os.pipe()
        self.kept = b""
        self.count = 0
        self.events = []
        words = [program, "--headless", "--no-sandbox", "--disable-gpu", "--remote-debugging-pipe", "--no-first-run",
                 "--hide-scrollbars", f"--user-data-dir={self.room}", f"--window-size={width},{height}", "about:blank"]

        def lay_pipes():
            os.dup2(to_browser, 103), os.dup2(from_browser, 104)
            os.dup2(103, 3), os.dup2(104, 4)

        self.process = subprocess.Popen(words, preexec_fn=lay_pipes, close_fds=False,
                                        stdout=subprocess.DEVNULL, stderr=subprocess.DEVNULL)
        os.close(to_browser), os.close(from_browser)
        self.session = None
        pages = [target for target in self.send("Target.getTargets")["targetInfos"] if target["type"] == "page"]
        attached = self.send("Target.attachToTarget", targetId=pages[0]["targetId"], flatten=True)
        self.session = attached["sessionId"]
        for part in ("Page", "Runtime", "Network", "Log"):
            self.send(f"{part}.enable")
        self.send("Emulation.setDeviceMetricsOverride", width=width, height=height, deviceScaleFactor=1, mobile=False)

    def read(self):
        """The next message."""
        while b"\0" not in self.kept:
            piece = os.read(self.reading, 1 << 16)
            if not piece:
                raise SystemExit("chromium has ended")
            self.kept += piece
        line, self.kept = self.kept.split(b"\0", 1)
        return json.loads(line)

    def send(self, method, **parameters):
        """What a method gives; events that come before are kept."""
        self.count += 1
        message = {"id": self.count, "method": method, "params": parameters}
        if self.session:
            message["sessionId"] = self.session
        os.write(self.writing, json.dumps(message).encode() + b"\0")
        while True:
            got = self.read()
            if got.get("id") == self.count:
                if "error" in got:
                    raise SystemExit(f"{method}: {got['error']}")
                return got["result"]
            self.events.append(got)

    def wait_for(self, event):
        """Waits until the event has come."""
        while not any(got.get("method") == event for got in self.events):
            self.events.append(self.read())

    def visit(self, address):
        """Opens an address, and waits until it is loaded and drawn."""
        for place in ("about:blank", address):
            self.events.clear()
            self.send("Page.navigate", url=place)
            self.wait_for("Page.loadEventFired")
        self.draw()

    def draw(self):
        """Waits until the page has drawn what it has to."""
        self.value("new Promise(done => requestAnimationFrame(() => requestAnimationFrame(done)))")

    def value(self, expression):
        """The value of an expression of JavaScript on the page."""
        got = self.send("Runtime.evaluate", expression=expression, returnByValue=True, awaitPromise=True)
        if "exceptionDetails" in got:
            raise SystemExit(f"{expression}: {got['exceptionDetails']}")
        return got["result"].get("value")

    def busy(self):
        """How many seconds of processor time the page has taken so far."""
        self.send("Performance.enable", timeDomain="threadTicks")
        return next(got["value"] for got in self.send("Performance.getMetrics")["metrics"] if got["name"] == "TaskDuration")

    def press(self, key, text=None):
        """Presses a key."""
        more = {"text": text} if text else {}
        self.send("Input.dispatchKeyEvent", type="keyDown", key=key, **more)
        self.send("Input.dispatchKeyEvent", type="keyUp", key=key)

    def picture(self, path, dark=False):
        """Writes a picture of what is seen, in the light or the dark scheme."""
        scheme = {"name": "prefers-color-scheme", "value": "dark" if dark else "light"}
        self.send("Emulation.setEmulatedMedia", features=[scheme])
        self.draw()
        height = self.value("Math.min(innerHeight, Math.ceil(document.body.getBoundingClientRect().bottom))")
        seen = {"x": 0, "y": self.value("scrollY"), "width": self.value("innerWidth"), "height": height, "scale": 1}
        shot = self.send("Page.captureScreenshot", format="png", clip=seen)
        with open(path, "wb") as file:
            file.write(base64.b64decode(shot["data"]))

    def asked_outside(self):
        """The addresses that the page has asked for besides its own."""
        sent = [got["params"]["request"]["url"] for got in self.events if got.get("method") == "Network.requestWillBeSent"]
        return [address for address in sent[1:] if not address.startswith("data:")]

    def faults(self):
        """What the page has thrown or complained of."""
        return [got for got in self.events if got.get("method") in ("Runtime.exceptionThrown", "Log.entryAdded")]

    def close(self):
        self.session = None
        try:
            self.send("Browser.close")
        finally:
            self.process.wait()
            shutil.rmtree(self.room, ignore_errors=True)
