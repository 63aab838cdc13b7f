"""Browsers that tests drive: Chromium by selenium, and Firefox, for which Debian has no driver, by WebDriver BiDi.

On Debian the packages are chromium, chromium-driver, python3-selenium and firefox-esr. BiDi is a remote protocol that Firefox
has itself: JSON over a web socket.
"""

import base64
import json
import os
import shutil
import socket
import struct
import subprocess
import sys
import tempfile
import time

try:
    from selenium import webdriver
    from selenium.common.exceptions import SessionNotCreatedException
    from selenium.webdriver.chrome.service import Service
except ImportError:
    webdriver = None
    DEBIAN = "/usr/bin/python3"  # Debian's packages are for its own Python, under which the runner begins again
    has_selenium = [DEBIAN, "-c", "import selenium"]
    if os.path.realpath(sys.executable) != os.path.realpath(DEBIAN) and os.access(DEBIAN, os.X_OK):
        if subprocess.run(has_selenium, stderr=subprocess.DEVNULL).returncode == 0:
            os.execv(DEBIAN, [DEBIAN, *sys.argv])

SECONDS = 300  # so long may a call take on a machine that is busy

# Without a window, and without what a browser does beside showing a page.
QUIET = ["--headless=new", "--no-sandbox", "--hide-scrollbars", "--disable-gpu", "--disable-extensions"]
QUIET += ["--disable-background-networking", "--disable-component-update", "--disable-sync", "--no-first-run"]
OWN = ("file:", "about:", "data:", "blob:")  # what is loaded without a network

# A script that ends with the value of another one, as JSON; that may wait.
VALUE = "(async () => {{ {} }})().then((it) => JSON.stringify(it ?? null))"

# ---- Chromium ---------------------------------------------------------------------------------------------------


def lack_of_chromium():
    """What Chromium needs and isn't there; None if all is."""
    if webdriver is None:
        return "Python has no selenium"
    return next((f"there is no {it}" for it in ("chromium", "chromedriver") if not shutil.which(it)), None)


def started(options):
    """A browser; it is tried again if the machine is so busy that it takes more than a minute to start."""
    for left in (2, 1, 0):
        try:
            return webdriver.Chrome(service=Service(shutil.which("chromedriver")), options=options)
        except SessionNotCreatedException:
            if not left:
                raise


class Chromium:
    """A page in Chromium."""

    name = "Chromium"

    def __init__(self, width=1440, height=860):
        options = webdriver.ChromeOptions()
        options.binary_location = shutil.which("chromium")
        for word in (*QUIET, f"--window-size={width},{height}"):
            options.add_argument(word)
        options.set_capability("goog:loggingPrefs", {"browser": "ALL", "performance": "ALL"})
        self.driver = started(options)
        self.driver.set_script_timeout(SECONDS)
        self.driver.set_page_load_timeout(SECONDS)

    def open(self, address):
        self.driver.get(address)

    def value(self, script):
        """What a script of the page returns, by JSON; it may wait."""
        told = self.driver.execute_async_script(
            f"const done = arguments[0]; {VALUE.format(script)}.then(done, (error) => done(`failed: ${{error}}`))")
        return value_of(told)

    def command(self, name, **words):
        return self.driver.execute_cdp_cmd(name, words)

    def faults(self):
        """What the browser complains of, and what it loaded from elsewhere, since this was last asked."""
        told = [it["message"] for it in self.driver.get_log("browser")]
        events = [json.loads(it["message"])["message"] for it in self.driver.get_log("performance")]
        sent = [it["params"]["request"]["url"] for it in events if it["method"] == "Network.requestWillBeSent"]
        return told + [url for url in sent if not url.startswith(OWN)]

    def close(self):
        self.driver.quit()


def value_of(told):
    if told.startswith("failed: "):
        raise RuntimeError(told)
    return json.loads(told)


# ---- Firefox ----------------------------------------------------------------------------------------------------


class WebSocket:
    """A connection over which messages go as RFC 6455 has them."""

    def __init__(self, host, port, path):
        self.socket = socket.create_connection((host, port), timeout=SECONDS)
        self.file = self.socket.makefile("rb")
        key = base64.b64encode(os.urandom(16)).decode()
        head = [f"GET {path} HTTP/1.1", f"Host: {host}:{port}", "Connection: Upgrade", "Upgrade: websocket"]
        head += [f"Sec-WebSocket-Key: {key}", "Sec-WebSocket-Version: 13"]
        self.socket.sendall("".join(f"{line}\r\n" for line in [*head, ""]).encode())
        if " 101 " not in self.file.readline().decode():
            raise RuntimeError(f"{host}:{port} opens no web socket")
        while self.file.readline().strip():
            pass

    def send(self, text, kind=1):
        """Sends a message in one frame, masked, as a client has to."""
        data, mask = text.encode(), os.urandom(4)
        size = len(data)
        form, mark = (">BB", size) if size < 126 else (">BBH", 126) if size < 65536 else (">BBQ", 127)
        head = struct.pack(form, 0x80 | kind, 0x80 | mark, *([size] if mark > 125 else []))
        self.socket.sendall(head + mask + masked(data, mask))

    def receive(self):
        """The next message, whose frames are joined; a ping is answered."""
        text, is_last = b"", False
        while not is_last:
            first, second = self.file.read(2)
            size = second & 0x7F
            if size > 125:
                form = ">H" if size == 126 else ">Q"
                size = struct.unpack(form, self.file.read(struct.calcsize(form)))[0]
            data, kind = self.file.read(size), first & 0x0F
            if kind == 8:
                raise RuntimeError("the browser closed the web socket")
            if kind == 9:
                self.send(data.decode(), 10)
            else:
                text, is_last = text + data, bool(first & 0x80)
        return json.loads(text)


def masked(data, mask):
    """Bytes, each with one of a mask's bytes in turn."""
    turns = (mask * (len(data) // len(mask) + 1))[: len(data)]
    return (int.from_bytes(data, "big") ^ int.from_bytes(turns, "big")).to_bytes(len(data), "big")


def lack_of_firefox():
    """What Firefox needs and isn't there; None if all is."""
    return None if shutil.which("firefox-esr") else "there is no firefox-esr"


PREFERENCES = {  # what the browser does on its own, and how exact its clock is
    "browser.shell.checkDefaultBrowser": False,
    "datareporting.policy.dataSubmissionEnabled": False,
    "dom.max_script_run_time": 0,
    "network.proxy.type": 0,
    "privacy.reduceTimerPrecision": False,
}


class Firefox:
    """A page in Firefox."""

    name = "Firefox"

    def __init__(self, width=1440, height=860):
        self.profile = tempfile.TemporaryDirectory(ignore_cleanup_errors=True)
        with open(f"{self.profile.name}/user.js", "w", encoding="ascii") as file:
            file.writelines(f'user_pref("{name}", {json.dumps(value)});\n' for name, value in PREFERENCES.items())
        words = ["--headless", "--no-remote", "--profile", self.profile.name, "--remote-debugging-port", "0"]
        size = ["--width", str(width), "--height", str(height)]
        how = {"stdout": subprocess.DEVNULL, "stderr": subprocess.DEVNULL}
        self.process = subprocess.Popen([shutil.which("firefox-esr"), *words, *size], **how)
        self.socket, self.events, self.asked = None, [], 0
        try:
            self.begin()
        except BaseException:
            self.process.kill()
            raise

    def begin(self):
        """Begins a session, in the browser's first tab."""
        self.socket = self._connected()
        self.call("session.new", capabilities={})
        self.call("session.subscribe", events=["log.entryAdded", "network.beforeRequestSent"])
        self.tab = self.call("browsingContext.getTree")["contexts"][0]["context"]

    def _connected(self):
        """A web socket to the browser, which says in a file where it listens."""
        end = time.monotonic() + SECONDS
        while time.monotonic() < end and self.process.poll() is None:
            try:
                with open(f"{self.profile.name}/WebDriverBiDiServer.json", encoding="utf-8") as file:
                    told = json.load(file)
                return WebSocket(told["ws_host"], told["ws_port"], "/session")
            except (OSError, ValueError):
                time.sleep(0.1)  # it isn't written, or not whole
        raise RuntimeError("firefox-esr doesn't start")

    def call(self, method, **params):
        """What the browser answers to a command; the events that come meanwhile are kept."""
        self.asked += 1
        self.socket.send(json.dumps({"id": self.asked, "method": method, "params": params}))
        while True:
            told = self.socket.receive()
            if told.get("id") == self.asked:
                break
            self.events.append(told)
        if told["type"] == "error":
            raise RuntimeError(f"{told['error']}: {told['message']}")
        return told["result"]

    def open(self, address):
        self.call("browsingContext.navigate", context=self.tab, url=address, wait="complete")

    def value(self, script):
        """What a script of the page returns, by JSON; it may wait."""
        how = {"target": {"context": self.tab}, "awaitPromise": True, "resultOwnership": "none"}
        told = self.call("script.evaluate", expression=VALUE.format(script), **how)
        if told["type"] == "exception":
            raise RuntimeError(f"failed: {told['exceptionDetails']['text']}")
        return value_of(told["result"]["value"])

    def faults(self):
        """What the browser complains of, and what it loaded from elsewhere, since this was last asked."""
        events, self.events = self.events, []
        told = [it["params"]["text"] for it in events if it["method"] == "log.entryAdded"]
        sent = [it["params"]["request"]["url"] for it in events if it["method"] == "network.beforeRequestSent"]
        return told + [url for url in sent if not url.startswith(OWN)]

    def close(self):
        try:
            self.call("browser.close")
        except (RuntimeError, OSError, ValueError):
            self.process.terminate()
        self.process.wait(SECONDS)
        self.profile.cleanup()


BROWSERS = {"Chromium": (Chromium, lack_of_chromium), "Firefox": (Firefox, lack_of_firefox)}
