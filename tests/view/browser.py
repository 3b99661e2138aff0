"""A headless Chromium, spoken to through two pipes."""
import base64
import json
import os
import shutil
import subprocess
import tempfile
import threading

SECONDS = 60
NAMES = ("chromium", "chromium-browser", "google-chrome")


def found():
    """The path of a Chromium, or None."""
    return next(filter(None, map(shutil.which, NAMES)), None)


class Browser:
    """One page in a browser. complaints has what its console was told, and what was thrown."""

    def __init__(self, width=1280, height=800, scheme="light"):
        self._folder = tempfile.mkdtemp()
        asked, answered = os.pipe(), os.pipe()
        words = [found(), "--headless", "--no-sandbox", "--disable-gpu", "--remote-debugging-pipe", "--no-first-run"]
        words += [f"--user-data-dir={self._folder}", f"--window-size={width},{height}", "--hide-scrollbars"]
        # Chromium reads what it is asked from number 3, and answers into number 4.
        line = f'exec "$@" 3<&{asked[0]} 4>&{answered[1]}'
        self._process = subprocess.Popen(
            ["bash", "-c", line, "bash", *words],
            pass_fds=(asked[0], answered[1]),
            stdin=subprocess.DEVNULL,
            stdout=subprocess.DEVNULL,
            stderr=subprocess.DEVNULL,
        )
        os.close(asked[0])
        os.close(answered[1])
        self._into, self._out = os.fdopen(asked[1], "wb"), os.fdopen(answered[0], "rb")
        self._timer = threading.Timer(SECONDS, self._process.kill)
        self._timer.start()
        self._rest, self._count, self._session = b"", 0, None
        self.complaints = []
        target = self.ask("Target.createTarget", url="about:blank")["targetId"]
        self._session = self.ask("Target.attachToTarget", targetId=target, flatten=True)["sessionId"]
        for domain in ("Runtime", "Log", "Page", "Network"):
            self.ask(f"{domain}.enable")
        size = {"width": width, "height": height, "deviceScaleFactor": 1, "mobile": False}
        self.ask("Emulation.setDeviceMetricsOverride", **size)
        self.ask("Emulation.setEmulatedMedia", features=[{"name": "prefers-color-scheme", "value": scheme}])
        self.requests = []

    def __enter__(self):
        return self

    def __exit__(self, *_):
        self._timer.cancel()
        self._process.kill()
        self._process.wait()
        self._into.close()
        self._out.close()
        shutil.rmtree(self._folder, ignore_errors=True)

    def _next(self):
        """The next message of the browser."""
        while b"\0" not in self._rest:
            part = os.read(self._out.fileno(), 1 << 20)
            if not part:
                raise EOFError("the browser has ended")
            self._rest += part
        text, self._rest = self._rest.split(b"\0", 1)
        return json.loads(text)

    def _note(self, message):
        method, params = message.get("method"), message.get("params")
        if method == "Runtime.exceptionThrown":
            self.complaints.append(params["exceptionDetails"]["exception"]["description"])
        elif method == "Log.entryAdded" and params["entry"]["level"] in ("error", "warning"):
            self.complaints.append(params["entry"]["text"])
        elif method == "Runtime.consoleAPICalled":
            self.complaints.append(str(params["args"]))
        elif method == "Network.requestWillBeSent":
            self.requests.append(params["request"]["url"])
        return method

    def ask(self, method, **params):
        self._count += 1
        message = {"id": self._count, "method": method, "params": params}
        if self._session:
            message["sessionId"] = self._session
        self._into.write(json.dumps(message).encode() + b"\0")
        self._into.flush()
        while True:
            came = self._next()
            if came.get("id") == self._count:
                if "error" in came:
                    raise RuntimeError(f"{method}: {came['error']}")
                return came["result"]
            self._note(came)

    def open(self, path):
        """Opens a file, and returns once it was loaded."""
        self.ask("Page.navigate", url=f"file://{path}")
        while self._note(self._next()) != "Page.loadEventFired":
            pass

    def value(self, script):
        """What a script gives; one that gives a promise is waited for."""
        answer = self.ask("Runtime.evaluate", expression=script, returnByValue=True, awaitPromise=True)
        if "exceptionDetails" in answer:
            raise RuntimeError(answer["exceptionDetails"]["exception"]["description"])
        return answer["result"].get("value")

    def press(self, key):
        for kind in ("keyDown", "keyUp"):
            self.ask("Input.dispatchKeyEvent", type=kind, key=key)

    def drawn(self):
        """Returns once the page has drawn what was asked of it."""
        self.value("new Promise((done) => requestAnimationFrame(() => requestAnimationFrame(done)))")

    def picture(self):
        self.drawn()
        return base64.b64decode(self.ask("Page.captureScreenshot", format="png")["data"])
