"""A headless browser that is driven by the DevTools protocol of Chromium over two pipes: messages of JSON, each ended by a zero byte."""
import base64
import json
import os
import select
import shutil
import subprocess
import tempfile
import time

NAMES = ("chromium", "chromium-browser", "google-chrome", "google-chrome-stable")
SECONDS = 300


def browser():
    """The path of a browser, or None."""
    return next(filter(None, map(shutil.which, NAMES)), None)


class Fault(Exception):
    """The browser does not answer, or a script of the page failed."""


class Browser:
    """A browser with one page."""

    def __init__(self, width=1280, height=900):
        self.folder, self.number, self.left, self.told = tempfile.mkdtemp(), 0, b"", []
        to_browser, self.write = os.pipe()
        self.read, from_browser = os.pipe()
        words = [browser(), "--headless=new", "--remote-debugging-pipe", f"--user-data-dir={self.folder}", "--no-first-run", "--hide-scrollbars", "--disable-gpu"]
        words += ["--no-sandbox"] if os.geteuid() == 0 else []
        self.process = subprocess.Popen([*words, "about:blank"], stdin=subprocess.DEVNULL, stdout=subprocess.DEVNULL, stderr=subprocess.DEVNULL, pass_fds=(3, 4),
                                        preexec_fn=lambda: (os.dup2(to_browser, 3), os.dup2(from_browser, 4)))
        os.close(to_browser)
        os.close(from_browser)
        self.session = None
        page = next(each for each in self.ask("Target.getTargets")["targetInfos"] if each["type"] == "page")
        self.session = self.ask("Target.attachToTarget", targetId=page["targetId"], flatten=True)["sessionId"]
        for domain in ("Page", "Runtime", "Log", "Network"):
            self.ask(f"{domain}.enable")
        self.ask("Performance.enable", timeDomain="threadTicks")
        self.window(width, height)

    def close(self):
        self.session = None
        try:
            self.ask("Browser.close")
            self.process.wait(SECONDS)
        except (Fault, OSError, subprocess.TimeoutExpired):
            self.process.kill()
            self.process.wait()
        os.close(self.write)
        shutil.rmtree(self.folder, ignore_errors=True)

    def message(self):
        end = time.monotonic() + SECONDS
        while b"\0" not in self.left:
            if not select.select([self.read], [], [], max(0, end - time.monotonic()))[0]:
                raise Fault("the browser does not answer")
            more = os.read(self.read, 1 << 20)
            if not more:
                raise Fault("the browser has ended")
            self.left += more
        text, _, self.left = self.left.partition(b"\0")
        return json.loads(text)

    def ask(self, method, **words):
        """The answer to a command. What the browser tells meanwhile is kept."""
        self.number += 1
        asked = {"id": self.number, "method": method, "params": words, **({"sessionId": self.session} if self.session else {})}
        os.write(self.write, json.dumps(asked).encode() + b"\0")
        while (found := self.message()).get("id") != self.number:
            self.told.append(found)
        if "error" in found:
            raise Fault(f"{method}: {found['error']}")
        return found["result"]

    def window(self, width, height, dark=False, media=""):
        self.ask("Emulation.setDeviceMetricsOverride", width=width, height=height, deviceScaleFactor=1, mobile=False)
        self.ask("Emulation.setEmulatedMedia", media=media, features=[{"name": "prefers-color-scheme", "value": "dark" if dark else "light"}])

    def open(self, path, scripts=True):
        """Opens a file, and gives the seconds of processor time that its page took, since the machine may do other work."""
        self.ask("Emulation.setScriptExecutionDisabled", value=not scripts)
        self.told = []
        self.ask("Page.navigate", url=f"file://{os.path.abspath(path)}")
        while not any(each.get("method") == "Page.loadEventFired" for each in self.told):
            self.told.append(self.message())
        self.value("document.body.offsetHeight")
        return next(each["value"] for each in self.ask("Performance.getMetrics")["metrics"] if each["name"] == "TaskDuration")

    def value(self, expression):
        """The value of an expression in the page."""
        found = self.ask("Runtime.evaluate", expression=expression, returnByValue=True, awaitPromise=True)
        if "exceptionDetails" in found:
            raise Fault(f"{expression}: {found['exceptionDetails']}")
        return found["result"].get("value")

    def key(self, name, text=""):
        """A key that is pressed and let go."""
        code = {"ArrowRight": 39, "ArrowLeft": 37, "Home": 36, "End": 35, " ": 32, "Enter": 13, "Tab": 9}.get(name, 0)
        self.ask("Input.dispatchKeyEvent", type="keyDown", key=name, windowsVirtualKeyCode=code, **({"text": text} if text else {}))
        self.ask("Input.dispatchKeyEvent", type="keyUp", key=name, windowsVirtualKeyCode=code)

    def faults(self):
        """What went wrong in the page: exceptions, messages of its console, and what it tried to load beside itself."""
        self.ask("Runtime.evaluate", expression="0")
        loaded = [each["params"]["request"]["url"] for each in self.told if each.get("method") == "Network.requestWillBeSent"][1:]
        said = [str(each["params"])[:300] for each in self.told if each.get("method") in ("Runtime.exceptionThrown", "Log.entryAdded", "Runtime.consoleAPICalled")]
        return said + [f"it loads {url}" for url in loaded]

    def picture(self, path, whole=False):
        """Writes what the window shows, or the whole page, as PNG."""
        found = self.ask("Page.captureScreenshot", format="png", captureBeyondViewport=whole)
        with open(path, "wb") as file:
            file.write(base64.b64decode(found["data"]))
