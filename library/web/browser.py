"""Drives a headless Chromium by its pipe (file descriptors 3 and 4), with Python's standard library alone."""

import base64
import contextlib
import json
import os
import select
import shutil
import signal
import subprocess
import tempfile
import time

NAMES = ("chromium", "chromium-browser", "google-chrome")
FLAGS = ["--headless", "--no-sandbox", "--disable-gpu", "--disable-dev-shm-usage", "--no-first-run", "--disable-extensions",
         "--disable-background-networking", "--disable-component-update", "--disable-sync", "--hide-scrollbars", "--disable-smooth-scrolling",
         "--host-resolver-rules=MAP * ~NOTFOUND", "--remote-debugging-pipe"]
SECONDS = 120  # for one reply
# of keys for which the browser itself does something
NUMBERS = {"Tab": 9, "Enter": 13, " ": 32, "PageUp": 33, "PageDown": 34, "End": 35, "Home": 36, "ArrowLeft": 37, "ArrowUp": 38,
           "ArrowRight": 39, "ArrowDown": 40}


def program():
    """The browser's path, or None if there is none."""
    return next(filter(None, map(shutil.which, NAMES)), None)


class Browser:
    """A browser with one page, in a folder of its own that is removed in the end. Files that are saved go to `saved`."""

    def __init__(self, size):
        self.room = tempfile.mkdtemp(prefix="stlslice-browser-")
        self.saved = os.path.join(self.room, "saved")
        os.mkdir(self.saved)
        self.number, self.rest, self.session, self.events = 0, b"", None, []
        self.process = self.begun(size)
        target = self.ask("Target.createTarget", url="about:blank")["targetId"]
        self.session = self.ask("Target.attachToTarget", targetId=target, flatten=True)["sessionId"]
        for domain in ("Page", "Runtime", "DOM", "Log", "Network"):
            self.ask(f"{domain}.enable")
        self.ask("Target.setAutoAttach", autoAttach=True, waitForDebuggerOnStart=False, flatten=True)
        self.ask("Page.setDownloadBehavior", behavior="allow", downloadPath=self.saved)

    def begun(self, size):
        to_them, self.write_to = os.pipe()
        self.read_from, from_them = os.pipe()

        def place():
            # both are copied first, as one of them may be 3 or 4
            there, back = os.dup(to_them), os.dup(from_them)
            os.dup2(there, 3)
            os.dup2(back, 4)

        words = [program(), *FLAGS, f"--window-size={size[0]},{size[1]}", f"--user-data-dir={self.room}/profile", "about:blank"]
        with open(os.path.join(self.room, "log"), "w", encoding="utf-8") as log:
            process = subprocess.Popen(words, preexec_fn=place, pass_fds=(3, 4), stdin=subprocess.DEVNULL,
                                       stdout=subprocess.DEVNULL, stderr=log, start_new_session=True)
        os.close(to_them)
        os.close(from_them)
        return process

    def __enter__(self):
        return self

    def __exit__(self, *_):
        with contextlib.suppress(Exception):
            self.session = None
            self.ask("Browser.close")
            self.process.wait(10)
        # what is left of the browser's own group of processes ends with it
        with contextlib.suppress(ProcessLookupError):
            os.killpg(self.process.pid, signal.SIGKILL)
        self.process.wait()
        os.close(self.read_from)
        os.close(self.write_to)
        shutil.rmtree(self.room, ignore_errors=True)

    def message(self):
        while b"\0" not in self.rest:
            if not select.select([self.read_from], [], [], SECONDS)[0]:
                raise TimeoutError("the browser does not reply")
            got = os.read(self.read_from, 1 << 20)
            if not got:
                with open(os.path.join(self.room, "log"), encoding="utf-8", errors="replace") as log:
                    raise EOFError(f"the browser has ended: {log.read()[-2000:]}")
            self.rest += got
        one, _, self.rest = self.rest.partition(b"\0")
        return json.loads(one)

    def ask(self, method, of=None, **params):
        """The result of a command to the page, or to the worker with this session."""
        self.number += 1
        sent = {"id": self.number, "method": method, "params": params}
        if of or self.session:
            sent["sessionId"] = of or self.session
        data = json.dumps(sent).encode() + b"\0"
        while data:
            data = data[os.write(self.write_to, data):]
        while True:
            got = self.message()
            if got.get("id") == self.number:
                if "error" in got:
                    raise RuntimeError(f"{method}: {got['error']}")
                return got["result"]
            self.events.append(got)

    def open(self, url, size, dense=1):
        """Loads a page from nothing in a window of this size, with so many dots for each of its pixels along a side."""
        self.ask("Emulation.setDeviceMetricsOverride", width=size[0], height=size[1], deviceScaleFactor=dense, mobile=False)
        self.ask("Page.navigate", url="about:blank")
        self.ask("Page.navigate", url=url)
        self.until("document.readyState === 'complete'")

    def value(self, expression, of=None):
        told = self.ask("Runtime.evaluate", of, expression=expression, awaitPromise=True, returnByValue=True)
        if "exceptionDetails" in told:
            raise RuntimeError(json.dumps(told["exceptionDetails"])[:2000])
        return told["result"].get("value")

    def worker(self):
        """The session of the worker that began last."""
        self.value("0")
        found = [it["params"]["sessionId"] for it in self.events
                 if it["method"] == "Target.attachedToTarget" and it["params"]["targetInfo"]["type"] == "worker"]
        return found[-1]

    def in_worker(self, expression):
        return self.value(expression, self.worker())

    def until(self, expression, seconds=90):
        end = time.time() + seconds
        while not self.value(expression):
            if time.time() > end:
                raise TimeoutError(expression)
            time.sleep(0.02)

    def media(self, **features):
        """Sets what the page is told of its user's wishes, as prefers_color_scheme="dark"."""
        told = [{"name": name.replace("_", "-"), "value": value} for name, value in features.items()]
        self.ask("Emulation.setEmulatedMedia", features=told)

    def choose(self, selector, path):
        root = self.ask("DOM.getDocument")["root"]["nodeId"]
        node = self.ask("DOM.querySelector", nodeId=root, selector=selector)["nodeId"]
        self.ask("DOM.setFileInputFiles", nodeId=node, files=[path])

    def choose_in_window(self, press, path):
        """Chooses a file in the browser's window for files, which `press` opens. The window itself is not seen."""
        self.ask("Page.setInterceptFileChooserDialog", enabled=True)
        since = len(self.events)
        press()
        self.ask("DOM.setFileInputFiles", backendNodeId=self.event("Page.fileChooserOpened", since)["backendNodeId"], files=[path])
        self.ask("Page.setInterceptFileChooserDialog", enabled=False)

    def event(self, method, since):
        """What the first such event told, after so many events."""
        end = time.time() + SECONDS
        while time.time() < end:
            self.value("new Promise((done) => setTimeout(done, 20))")
            for it in self.events[since:]:
                if it["method"] == method:
                    return it["params"]
        raise TimeoutError(method)

    def drag(self, paths, x, y, kinds=("dragEnter", "dragOver")):
        for kind in kinds:
            self.ask("Input.dispatchDragEvent", type=kind, x=x, y=y, data={"items": [], "files": paths, "dragOperationsMask": 1})

    def drop(self, paths, x, y):
        self.drag(paths, x, y, ("dragEnter", "dragOver", "drop"))

    def key(self, name, code=None, text=None, modifiers=0):
        """Presses a key and lets it go; `text` is what it writes, and modifiers are 8 for Shift."""
        number = NUMBERS.get(name, 0)
        how = {"key": name, "code": code or name, "modifiers": modifiers, "windowsVirtualKeyCode": number, **({"text": text} if text else {})}
        self.ask("Input.dispatchKeyEvent", type="keyDown", **how)
        self.ask("Input.dispatchKeyEvent", type="keyUp", key=name, code=code or name, modifiers=modifiers, windowsVirtualKeyCode=number)

    def mouse(self, kind, x, y, **how):
        self.ask("Input.dispatchMouseEvent", type=kind, x=x, y=y, **how)

    def click(self, x, y):
        for kind in ("mousePressed", "mouseReleased"):
            self.mouse(kind, x, y, button="left", buttons=1, clickCount=1)

    def swipe(self, begin, end, steps=20):
        """Moves a finger from a place to another."""
        self.ask("Input.dispatchTouchEvent", type="touchStart", touchPoints=[{"x": begin[0], "y": begin[1]}])
        for step in range(1, steps + 1):
            x, y = (here + (there - here) * step / steps for here, there in zip(begin, end))
            self.ask("Input.dispatchTouchEvent", type="touchMove", touchPoints=[{"x": x, "y": y}])
        self.ask("Input.dispatchTouchEvent", type="touchEnd", touchPoints=[])

    def place(self, selector):
        """An element's left, top, width and height in the window."""
        return self.value(f"(({{ left, top, width, height }}) => [left, top, width, height])"
                          f"(document.querySelector({json.dumps(selector)}).getBoundingClientRect())")

    def picture(self, path):
        with open(path, "wb") as file:
            file.write(base64.b64decode(self.ask("Page.captureScreenshot", format="png")["data"]))
