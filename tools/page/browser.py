"""Drives chromium, without a window, by its DevTools protocol over a pipe: no port is opened and no library is needed.

    with Browser() as browser:
        page = browser.open("/some/page.html")
        page.evaluate("document.title")

A page notes what it asks of a network (`asked`) and what goes wrong in it (`errors`); its workers are noted with it.
"""

import base64
import json
import os
import select
import shutil
import signal
import socket
import subprocess
import tempfile
import time
from pathlib import Path

# no network of its own accord, nothing kept, and a picture drawn by the processor
FLAGS = """
--headless=new --remote-debugging-pipe --hide-scrollbars --force-color-profile=srgb --force-device-scale-factor=1
--use-angle=swiftshader --enable-unsafe-swiftshader --ignore-gpu-blocklist --disable-gpu-compositing
--disable-dev-shm-usage --disable-background-networking --disable-component-update --disable-default-apps --disable-domain-reliability --disable-sync
--disable-client-side-phishing-detection --disable-extensions --disable-breakpad --disable-features=OptimizationHints,Translate,MediaRouter
--disable-renderer-backgrounding --disable-backgrounding-occluded-windows --disable-background-timer-throttling
--no-first-run --no-default-browser-check --no-pings --metrics-recording-only --password-store=basic --use-mock-keychain
""".split()
# no name of a host is looked up, and only this machine's own address is reached
FLAGS.append("--host-resolver-rules=MAP * ~NOTFOUND, EXCLUDE 127.0.0.1")

KEYS = {
    "Tab": (9, ""),
    "Enter": (13, "\r"),
    "Escape": (27, ""),
    " ": (32, " "),
    "End": (35, ""),
    "Home": (36, ""),
    "ArrowLeft": (37, ""),
    "ArrowUp": (38, ""),
    "ArrowRight": (39, ""),
    "ArrowDown": (40, ""),
}


class Fault(Exception):
    """Something is not as it should be; the text says what."""


def find():
    """The path of chromium, or None."""
    return shutil.which("chromium")


class Browser:
    """One run of chromium, with a home of its own that is gone afterwards."""

    def __init__(self, size=(1120, 720)):
        self.home = tempfile.TemporaryDirectory(prefix="inspect-browser-", ignore_cleanup_errors=True)
        self.pages, self.answers, self.left, self.number = {}, {}, b"", 0
        ours, theirs = socket.socketpair()
        words = [find() or "chromium", *FLAGS, f"--user-data-dir={self.home.name}", "--window-size={},{}".format(*size)]
        if os.geteuid() == 0:
            words.append("--no-sandbox")
        # chromium reads its commands at 3 and writes its answers at 4
        shell = ["bash", "-c", f'exec "$@" 3<&{theirs.fileno()} 4>&{theirs.fileno()}', "bash", *words]
        self.log = open(Path(self.home.name) / "log", "w+b")
        self.process = subprocess.Popen(
            shell,
            pass_fds=[theirs.fileno()],
            stdin=subprocess.DEVNULL,
            stdout=subprocess.DEVNULL,
            stderr=self.log,
            env={**os.environ, "HOME": self.home.name, "XDG_CONFIG_HOME": self.home.name, "XDG_CACHE_HOME": self.home.name},
            start_new_session=True,
        )
        theirs.close()
        self.socket = ours
        self.call("Browser.getVersion", seconds=30)

    def __enter__(self):
        return self

    def __exit__(self, *_):
        self.close()

    def close(self):
        try:
            self.send("Browser.close")
            self.process.wait(5)
        except (OSError, subprocess.TimeoutExpired):
            pass
        try:
            os.killpg(self.process.pid, signal.SIGKILL)  # only what it has left running: the group is its own
        except ProcessLookupError:
            pass
        self.process.wait()
        self.socket.close()
        self.log.close()
        self.home.cleanup()

    def send(self, method, session=None, **params):
        """Sends a command and waits for nothing; answers its number."""
        self.number += 1
        command = {"id": self.number, "method": method, "params": params}
        if session:
            command["sessionId"] = session
        self.socket.sendall(json.dumps(command).encode() + b"\0")
        return self.number

    def call(self, method, session=None, seconds=20, **params):
        """Sends a command and waits for its answer."""
        number = self.send(method, session, **params)
        end = time.monotonic() + seconds
        self.answers[number] = None
        while self.answers[number] is None:
            if not self.pump(end - time.monotonic()):
                raise Fault(f"{method}: no answer in {seconds} seconds")
        answer = self.answers.pop(number)
        if "error" in answer:
            raise Fault(f"{method}: {answer['error'].get('message')}")
        return answer["result"]

    def pump(self, seconds):
        """Takes what has come, or waits so long for it; false where nothing comes."""
        ready, _, _ = select.select([self.socket], [], [], max(seconds, 0))
        if not ready:
            return False
        came = self.socket.recv(1 << 20)
        if not came:
            self.log.seek(0)
            raise Fault("chromium has ended: " + self.log.read().decode(errors="replace")[-2000:])
        *whole, self.left = (self.left + came).split(b"\0")
        for one in whole:
            message = json.loads(one)
            if "id" not in message:
                page = self.pages.get(message.get("sessionId"))
                if page:
                    page.note(message["method"], message["params"], message["sessionId"])
            elif message["id"] in self.answers:
                self.answers[message["id"]] = message
        return True

    def open(self, path="", fragment="", before=""):
        """A new page with this file in it (none: an empty page); `before` is run in it before all else."""
        target = self.call("Target.createTarget", url="about:blank")["targetId"]
        session = self.call("Target.attachToTarget", targetId=target, flatten=True)["sessionId"]
        page = Page(self, target, session)
        if before:
            page.call("Page.addScriptToEvaluateOnNewDocument", source=before)
        if path:
            page.address = Path(path).resolve().as_uri()
            page.call("Page.navigate", url=page.address + fragment)
        return page


class Page:
    def __init__(self, browser, target, session):
        self.browser, self.target, self.session = browser, target, session
        self.address, self.asked, self.errors, self.opened = "about:blank", [], [], 0
        browser.pages[session] = self
        self.call("Page.enable")
        self.call("DOM.enable")
        self.call("Emulation.setFocusEmulationEnabled", enabled=True)
        self.watch(session, self.call)

    def watch(self, session, call):
        """Has this page, or one of its workers, tell what it asks and what goes wrong."""
        for method in ("Network.enable", "Runtime.enable", "Log.enable"):
            call(method)
        if session == self.session:
            call("Audits.enable")
        call("Target.setAutoAttach", autoAttach=True, waitForDebuggerOnStart=True, flatten=True)

    def note(self, method, params, session):
        """Notes what the browser tells."""
        if method == "Target.attachedToTarget":
            inner = params["sessionId"]
            self.browser.pages[inner] = self
            send = lambda method, **words: self.browser.send(method, inner, **words)
            self.watch(inner, send)
            send("Runtime.runIfWaitingForDebugger")
        elif method == "Network.requestWillBeSent":
            self.ask(params["request"]["url"])
        elif method in ("Network.webSocketCreated", "Network.webTransportCreated"):
            self.ask(params["url"])
        elif method == "Runtime.exceptionThrown":
            details = params["exceptionDetails"]
            self.errors.append(details.get("exception", {}).get("description") or details["text"])
        elif method == "Runtime.consoleAPICalled" and params["type"] in ("error", "assert", "warning"):
            self.errors.append(params["type"] + ": " + " ".join(str(it.get("value", it.get("description"))) for it in params["args"]))
        elif method == "Log.entryAdded" and params["entry"]["level"] in ("error", "warning"):
            if "GL Driver Message (OpenGL, Performance" not in params["entry"]["text"]:  # of how pictures are taken here
                self.errors.append(params["entry"]["text"])
        elif method == "Audits.issueAdded" and "ContentSecurityPolicy" in params["issue"]["code"]:
            self.errors.append("content policy: " + json.dumps(params["issue"]["details"])[:500])
        elif method == "Inspector.targetCrashed":
            self.errors.append("the page has crashed")

    def ask(self, url):
        """The file itself, and what is made in the page, is no network."""
        if url.split("#")[0] != self.address and not url.startswith(("blob:", "data:", "about:")):
            self.asked.append(url)

    def call(self, method, **params):
        return self.browser.call(method, self.session, **params)

    def show(self):
        """Brings the page to the front: what stands behind another is not drawn."""
        self.call("Page.bringToFront")

    def close(self):
        self.browser.call("Target.closeTarget", targetId=self.target)

    def evaluate(self, expression, *values, seconds=20):
        """The value of an expression, also of a promise; with values, of a function that is called with them."""
        if values:
            expression = f"({expression})({', '.join(json.dumps(it) for it in values)})"
        words = {"expression": expression, "awaitPromise": True, "returnByValue": True, "userGesture": True}
        answer = self.call("Runtime.evaluate", **words, seconds=seconds)
        if "exceptionDetails" in answer:
            details = answer["exceptionDetails"]
            raise Fault(details.get("exception", {}).get("description") or details["text"])
        return answer["result"].get("value")

    def wait(self, expression, seconds=20):
        """Waits until an expression is true, and answers its value."""
        return self.until(expression, lambda: self.evaluate(expression), seconds)

    def until(self, what, holds, seconds=20):
        """Takes what the browser tells until this holds, and answers its value."""
        end = time.monotonic() + seconds
        while not (value := holds()):
            if time.monotonic() > end:
                raise Fault(f"not in {seconds} seconds: {what}")
            self.browser.pump(0.005)
        return value

    def node(self, selector):
        root = self.call("DOM.getDocument", depth=0)["root"]["nodeId"]
        node = self.call("DOM.querySelector", nodeId=root, selector=selector)["nodeId"]
        if not node:
            raise Fault(f"the page has no {selector}")
        return node

    def choose_files(self, selector, paths):
        """Chooses files on an input, as its dialog does."""
        self.call("DOM.setFileInputFiles", nodeId=self.node(selector), files=[str(Path(it).resolve()) for it in paths])

    def box(self, selector):
        """Where an element is seen, as x, y, width and height."""
        return self.evaluate("(s) => { const b = document.querySelector(s).getBoundingClientRect(); return [b.x, b.y, b.width, b.height]; }", selector)

    def drop_files(self, selector, paths):
        """Drags files, or folders, from the disk onto an element, and drops them."""
        x, y, width, height = self.box(selector)
        data = {"items": [], "files": [str(Path(it).resolve()) for it in paths], "dragOperationsMask": 1}
        for kind in ("dragEnter", "dragOver", "drop"):
            self.call("Input.dispatchDragEvent", type=kind, x=x + width / 2, y=y + height / 2, data=data)

    def press(self, key):
        """Presses a key and lets it go."""
        code, text = KEYS[key]
        words = {"key": key, "code": "Space" if key == " " else key, "windowsVirtualKeyCode": code}
        self.call("Input.dispatchKeyEvent", type="keyDown", **words, **({"text": text} if text else {}))
        self.call("Input.dispatchKeyEvent", type="keyUp", **words)

    def drag(self, selector, across, down):
        """Drags with the mouse from the middle of an element."""
        x, y, width, height = self.box(selector)
        x, y = x + width / 2, y + height / 2
        mouse = lambda kind, **words: self.call("Input.dispatchMouseEvent", type=kind, **words)
        mouse("mousePressed", x=x, y=y, button="left", buttons=1, clickCount=1)
        for part in (0.5, 1):
            mouse("mouseMoved", x=x + part * across, y=y + part * down, button="left", buttons=1)
        mouse("mouseReleased", x=x + across, y=y + down, button="left", clickCount=1)

    def screenshot(self, selector=None):
        """The page as it is seen, or a part of it, as the bytes of a PNG."""
        words = {}
        if selector:
            x, y, width, height = self.box(selector)
            right, down = self.evaluate("[scrollX, scrollY]")
            words["clip"] = {"x": x + right, "y": y + down, "width": width, "height": height, "scale": 1}
        return base64.b64decode(self.call("Page.captureScreenshot", format="png", **words)["data"])
