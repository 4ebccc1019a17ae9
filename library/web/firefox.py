"""Drives a headless Firefox by Marionette, its protocol for tests, with Python's standard library alone.

It has the calls of browser.Browser that the tests of both browsers use. Nothing can be asked of a worker. A page's policy has to
allow `eval`, by which the tests look into it.
"""

import base64
import contextlib
import json
import os
import shutil
import signal
import socket
import subprocess
import tempfile
import time

NAMES = ("firefox-esr", "firefox")
FLAGS = ["--headless", "--marionette", "--no-remote", "--remote-allow-system-access"]
SECONDS = 120  # for one reply
SETTINGS = {
    "browser.download.folderList": 2, "browser.download.always_ask_before_handling_new_types": False,
    "browser.shell.checkDefaultBrowser": False, "browser.startup.page": 0,
    "datareporting.policy.dataSubmissionEnabled": False, "toolkit.telemetry.enabled": False, "app.normandy.enabled": False,
    # no page of the network is reached: port 9 has no server
    "network.proxy.type": 1, "network.proxy.http": "127.0.0.1", "network.proxy.http_port": 9, "network.proxy.ssl": "127.0.0.1",
    "network.proxy.ssl_port": 9, "browser.helperApps.neverAsk.saveToDisk": "application/octet-stream,image/png",
}
# Runs a script of the page, whose value may be promised, and passes its value on as JSON
ASK = """const done = arguments[arguments.length - 1];
window.eval(arguments[0]).then((value) => done({ value }), (fault) => done({ fault: String(fault) }));"""
# Makes what stands in the place of the window for files: it gives this file at once
WINDOW = """const { classes, interfaces, manager } = Components, of = (name) => ChromeUtils.generateQI([name]), nothing = () => {};
const file = classes["@mozilla.org/file/local;1"].createInstance(interfaces.nsIFile);
file.initWithPath(arguments[0]);
const made = { QueryInterface: of("nsIFilePicker"), init: nothing, appendFilter: nothing, appendFilters: nothing, file,
    open: (told) => Services.tm.dispatchToMainThread(() => told.done(interfaces.nsIFilePicker.returnOK)) };
manager.QueryInterface(interfaces.nsIComponentRegistrar).registerFactory(Services.uuid.generateUUID(), "", "@mozilla.org/filepicker;1",
    { QueryInterface: of("nsIFactory"), createInstance: (it) => made.QueryInterface(it) });"""
KEYS = {"ArrowLeft": "\ue012", "ArrowUp": "\ue013", "ArrowRight": "\ue014", "ArrowDown": "\ue015", "Tab": "\ue004", "Enter": "\ue007"}


def program():
    """The browser's path, or None if there is none."""
    return next(filter(None, map(shutil.which, NAMES)), None)


def free_port():
    with socket.create_server(("127.0.0.1", 0)) as server:
        return server.getsockname()[1]


class Browser:
    """A browser with one page, in a folder of its own that is removed in the end. Files that are saved go to `saved`."""

    def __init__(self, size):
        self.room = tempfile.mkdtemp(prefix="stlslice-firefox-")
        self.saved, profile = os.path.join(self.room, "saved"), os.path.join(self.room, "profile")
        os.mkdir(self.saved)
        os.mkdir(profile)
        port = free_port()
        with open(os.path.join(profile, "user.js"), "w", encoding="utf-8") as file:
            for name, value in {**SETTINGS, "marionette.port": port, "browser.download.dir": self.saved}.items():
                file.write(f"user_pref({json.dumps(name)}, {json.dumps(value)});\n")
        with open(os.path.join(self.room, "log"), "w", encoding="utf-8") as log:
            self.process = subprocess.Popen([program(), *FLAGS, "--profile", profile, "about:blank"], env={**os.environ, "HOME": self.room},
                                            stdin=subprocess.DEVNULL, stdout=log, stderr=log, start_new_session=True)
        self.number, self.rest = 0, b""
        self.socket = self.connected(port)
        self.message()  # its greeting
        self.ask("WebDriver:NewSession", capabilities={})
        self.ask("WebDriver:SetTimeouts", script=1000 * SECONDS)
        self.ask("WebDriver:SetWindowRect", width=size[0], height=size[1] + 85)  # with the height of its bars

    def connected(self, port):
        end = time.monotonic() + SECONDS
        while time.monotonic() < end and self.process.poll() is None:
            with contextlib.suppress(OSError):
                return socket.create_connection(("127.0.0.1", port), SECONDS)
            time.sleep(0.1)
        raise TimeoutError("the browser does not listen")

    def __enter__(self):
        return self

    def __exit__(self, *_):
        with contextlib.suppress(Exception):
            self.ask("Marionette:Quit", flags=["eForceQuit"])
            self.process.wait(10)
        # what is left of the browser's own group of processes ends with it
        with contextlib.suppress(ProcessLookupError):
            os.killpg(self.process.pid, signal.SIGKILL)
        self.process.wait()
        self.socket.close()
        shutil.rmtree(self.room, ignore_errors=True)

    def message(self):
        while True:
            head, colon, body = self.rest.partition(b":")
            if colon and len(body) >= int(head):
                self.rest = body[int(head):]
                return json.loads(body[:int(head)])
            got = self.socket.recv(1 << 20)
            if not got:
                raise EOFError("the browser has ended")
            self.rest += got

    def ask(self, command, **words):
        self.number += 1
        data = json.dumps([0, self.number, command, words]).encode()
        self.socket.sendall(b"%d:%s" % (len(data), data))
        _, _, fault, result = self.message()
        if fault:
            raise RuntimeError(f"{command}: {json.dumps(fault)[:2000]}")
        return result

    def open(self, url, _=None):
        """Loads a page from nothing."""
        self.ask("WebDriver:Navigate", url="about:blank")
        self.ask("WebDriver:Navigate", url=url)

    def value(self, expression):
        words = f"(async () => JSON.stringify(await (0, eval)({json.dumps(expression)})))()"
        told = self.ask("WebDriver:ExecuteAsyncScript", script=ASK, args=[words], newSandbox=False, sandbox=None)["value"]
        if "fault" in told:
            raise RuntimeError(told["fault"])
        return json.loads(told["value"]) if told.get("value") else None

    def in_worker(self, expression):
        """The same in the worker, of a page whose worker evaluates what it is sent."""
        return self.value(f"slicer.call('evaluate', {json.dumps(expression)})")

    def until(self, expression, seconds=90):
        end = time.time() + seconds
        while not self.value(expression):
            if time.time() > end:
                raise TimeoutError(expression)
            time.sleep(0.02)

    def choose(self, selector, path):
        found = self.ask("WebDriver:FindElement", using="css selector", value=selector)["value"]
        self.ask("WebDriver:ElementSendKeys", id=next(iter(found.values())), text=path)

    def choose_in_window(self, press, path):
        """Chooses a file in the browser's window for files, which `press` opens. The window itself is not seen."""
        self.ask("Marionette:SetContext", value="chrome")
        self.ask("WebDriver:ExecuteScript", script=WINDOW, args=[path], sandbox="system")
        self.ask("Marionette:SetContext", value="content")
        press()

    def key(self, name, *_):
        """Presses a key and lets it go."""
        value = KEYS.get(name, name)
        actions = [{"type": kind, "value": value} for kind in ("keyDown", "keyUp")]
        self.ask("WebDriver:PerformActions", actions=[{"type": "key", "id": "keys", "actions": actions}])

    def picture(self, path):
        with open(path, "wb") as file:
            file.write(base64.b64decode(self.ask("WebDriver:TakeScreenshot", full=False, hash=False)["value"]))
