"""Chromium without a window, for the scripts in this folder: it opens pages, moves the mouse, presses keys, runs scripts.

    with browser.Browser(browser.found(), 1280, 900) as page:
        page.open("file:///some/page.html")
        page.move(100, 200)
        print(page.run("document.title"))

It speaks the browser's DevTools protocol over a pair of pipes: a message is JSON, and ends with a zero byte.
"""
import base64
import json
import os
import select
import shutil
import subprocess
import tempfile
import time

NAMES = ("chromium", "chromium-browser", "google-chrome", "chrome")


class Failed(Exception):
    """What the browser couldn't do, in one line."""


def found():
    """The path of a Chromium, or None."""
    return next(filter(None, map(shutil.which, NAMES)), None)


class Browser:
    """One page of a browser of its own, whose folder is removed at the end."""

    def __init__(self, program, width, height):
        self.folder = tempfile.TemporaryDirectory(prefix="arnold-browser-", ignore_cleanup_errors=True)
        self.sent, self.buffer, self.errors, self.session = 0, b"", [], None
        theirs, self.to = os.pipe()
        self.back, mine = os.pipe()
        words = [program, "--headless=new", "--remote-debugging-pipe", f"--user-data-dir={self.folder.name}", "--no-first-run",
                 "--disable-gpu", "--hide-scrollbars", f"--window-size={width},{height}", "about:blank"]
        if os.geteuid() == 0:
            words.insert(1, "--no-sandbox")
        # The browser takes messages from descriptor 3 and gives them to 4.
        shell = ["sh", "-c", f'exec "$@" 3<&{theirs} 4>&{mine}', "sh", *words]
        self.running = subprocess.Popen(shell, pass_fds=(theirs, mine), stdout=subprocess.DEVNULL, stderr=subprocess.DEVNULL)
        os.close(theirs)
        os.close(mine)
        self.attach(width, height)

    def attach(self, width, height):
        try:
            targets = self.call("Target.getTargets")["targetInfos"]
            page = next(target["targetId"] for target in targets if target["type"] == "page")
            self.session = self.call("Target.attachToTarget", targetId=page, flatten=True)["sessionId"]
            for part in ("Page", "Runtime", "Log"):
                self.call(part + ".enable")
            self.call("Emulation.setDeviceMetricsOverride", width=width, height=height, deviceScaleFactor=1, mobile=False)
        except BaseException:
            self.__exit__()
            raise

    def __enter__(self):
        return self

    def __exit__(self, *failure):
        os.close(self.to)
        os.close(self.back)
        try:
            self.running.wait(10)
        except subprocess.TimeoutExpired:
            self.running.kill()
            self.running.wait()
        self.folder.cleanup()

    def receive(self, seconds):
        """The next message."""
        until = time.monotonic() + seconds
        while b"\0" not in self.buffer:
            if not select.select([self.back], [], [], max(0, until - time.monotonic()))[0]:
                raise Failed(f"the browser said nothing for {seconds} seconds")
            got = os.read(self.back, 65536)
            if not got:
                raise Failed("the browser ended")
            self.buffer += got
        message, _, self.buffer = self.buffer.partition(b"\0")
        return json.loads(message)

    def note(self, message):
        """Keeps what the page did wrong."""
        parameters = message.get("params", {})
        if message.get("method") == "Runtime.exceptionThrown":
            details = parameters["exceptionDetails"]
            self.errors.append(details.get("exception", {}).get("description", details["text"]).split("\n")[0])
        elif message.get("method") == "Log.entryAdded" and parameters["entry"]["level"] == "error":
            self.errors.append(parameters["entry"]["text"])

    def call(self, method, **parameters):
        """Asks for something, and waits for the answer."""
        self.sent += 1
        message = {"id": self.sent, "method": method, "params": parameters}
        if self.session:
            message["sessionId"] = self.session
        try:
            os.write(self.to, json.dumps(message).encode() + b"\0")
        except BrokenPipeError:
            raise Failed("the browser ended") from None
        while True:
            answer = self.receive(60)
            if answer.get("id") == self.sent:
                if "error" in answer:
                    raise Failed(f"{method}: {answer['error']['message']}")
                return answer["result"]
            self.note(answer)

    def open(self, address):
        """Opens a page, and waits until it is there."""
        self.call("Page.navigate", url="about:blank")
        self.call("Page.navigate", url=address)
        for _ in range(600):
            if self.run("location.href !== 'about:blank' && document.readyState === 'complete'"):
                return
            time.sleep(0.05)
        raise Failed(f"{address} doesn't open")

    def run(self, script):
        """The value of a script, in the page."""
        answer = self.call("Runtime.evaluate", expression=script, returnByValue=True)
        if "exceptionDetails" in answer:
            raise Failed(answer["exceptionDetails"].get("exception", {}).get("description", "a script failed").split("\n")[0])
        return answer["result"].get("value")

    def move(self, x, y):
        self.call("Input.dispatchMouseEvent", type="mouseMoved", x=x, y=y)

    def click(self, x, y):
        for kind in ("mousePressed", "mouseReleased"):
            self.call("Input.dispatchMouseEvent", type=kind, x=x, y=y, button="left", clickCount=1)

    def press(self, key, shift=False):
        for kind in ("keyDown", "keyUp"):
            self.call("Input.dispatchKeyEvent", type=kind, key=key, code=key, modifiers=8 if shift else 0)

    def picture(self):
        """A PNG of what is seen."""
        return base64.b64decode(self.call("Page.captureScreenshot", format="png")["data"])
