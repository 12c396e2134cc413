"""A headless Firefox that tests drive by its Marionette protocol, with the standard library alone."""

import contextlib
import json
import os
import socket
import subprocess
import time

from .chromium import Failed

PROGRAM = "firefox"
FLAGS = ("--headless", "--no-remote", "--marionette")
SETTINGS = {
    "marionette.port": 0,  # some free one
    "datareporting.policy.dataSubmissionEnabled": False,
    "browser.shell.checkDefaultBrowser": False,
    "network.captive-portal-service.enabled": False,
    "network.connectivity-service.enabled": False,
    "app.normandy.enabled": False,
}
SECONDS = 300
PATIENCE = 300  # seconds until a page has what is waited for

# Runs a module in the page, outside the sandbox of the protocol, and hands what it has found over in an attribute.
IN_PAGE = """
const [code, done] = arguments
const [root, script] = [document.documentElement, document.createElement('script')]
root.addEventListener('answered', () => { script.remove(); done(root.dataset.answer) }, { once: true })
script.type = 'module'
script.textContent = `
    const answer = (it) => {
        document.documentElement.dataset.answer = JSON.stringify(it)
        document.documentElement.dispatchEvent(new Event('answered'))
    }
    (async () => {${code}})().then((value) => answer({ value }), (error) => answer({ error: error + ' ' + error?.stack }))`
document.head.append(script)
"""

# The same in the sandbox of the protocol.
IN_SANDBOX = """
const done = arguments[arguments.length - 1]
const answer = (async () => {CODE})()
answer.then((value) => done(JSON.stringify({ value })), (error) => done(JSON.stringify({ error: String(error) })))
"""


class Firefox:
    """A page of a browser. Commands and answers are JSON texts, each with its length and a colon before it."""

    def __init__(self, profile):
        os.makedirs(profile, exist_ok=True)
        with open(os.path.join(profile, "user.js"), "w", encoding="ascii") as file:
            file.writelines(f"user_pref({json.dumps(name)}, {json.dumps(it)});\n" for name, it in SETTINGS.items())
        silent = {it: subprocess.DEVNULL for it in ("stdin", "stdout", "stderr")}
        variables = {**os.environ, "HOME": str(profile)}
        self.process = subprocess.Popen([PROGRAM, *FLAGS, "--profile", profile], env=variables, **silent)
        self.read, self.count = b"", 0
        try:
            self.connection = socket.create_connection(("127.0.0.1", self.port(profile)), SECONDS)
            self.message()
            self.call("WebDriver:NewSession")
            self.call("WebDriver:SetTimeouts", script=SECONDS * 1000)
        except BaseException:
            self.process.kill()
            self.process.wait()
            raise

    def port(self, profile):
        """The port that the browser listens on, which it writes to a file."""
        path, end = os.path.join(profile, "MarionetteActivePort"), time.monotonic() + SECONDS
        while time.monotonic() < end and self.process.poll() is None:
            with contextlib.suppress(OSError, ValueError), open(path, encoding="ascii") as file:
                return int(file.read())
            time.sleep(0.05)
        raise Failed("the browser does not listen")

    def message(self):
        while True:
            length, colon, rest = self.read.partition(b":")
            if colon and len(rest) >= int(length):
                self.read = rest[int(length) :]
                return json.loads(rest[: int(length)])
            data = self.connection.recv(1 << 20)
            if not data:
                raise Failed("the browser has ended")
            self.read += data

    def call(self, name, **parameters):
        """Calls a command of WebDriver, and returns its result."""
        self.count += 1
        data = json.dumps([0, self.count, name, parameters]).encode()
        self.connection.sendall(b"%d:%s" % (len(data), data))
        _, _, error, result = self.message()
        if error:
            raise Failed(f"{name}: {error['error']}: {error['message']}")
        return result

    def value(self, code):
        """The value of the body of an async function, in the page."""
        return self.answer(IN_PAGE, code)

    def answer(self, script, *words):
        found = json.loads(self.call("WebDriver:ExecuteAsyncScript", script=script, args=words)["value"])
        if "error" in found:
            raise Failed(found["error"])
        return found.get("value")

    def until(self, code):
        """The value of the body of a function, once it is one."""
        end = time.monotonic() + PATIENCE
        while time.monotonic() < end:
            found = self.value(code)
            if found:
                return found
            time.sleep(0.05)
        raise Failed(f"it takes too long: {code}")

    def open(self, url):
        self.call("WebDriver:Navigate", url=url)

    def find(self, selector):
        """The reference of an element."""
        found = self.call("WebDriver:FindElement", using="css selector", value=selector)["value"]
        return next(iter(found.values()))

    def click(self, selector):
        self.call("WebDriver:ElementClick", id=self.find(selector))

    def type(self, selector, text):
        self.call("WebDriver:ElementSendKeys", id=self.find(selector), text=text)

    def close(self):
        with contextlib.suppress(Failed, OSError):
            self.call("Marionette:Quit", flags=["eForceQuit"])
        try:
            self.process.wait(20)
        except subprocess.TimeoutExpired:
            self.process.kill()
            self.process.wait()
        self.connection.close()


class StrictFirefox(Firefox):
    """A page of a browser whose policy lets no script run but the page's own: it sees only what is in the document."""

    def value(self, code):
        return self.answer(IN_SANDBOX.replace("CODE", code))
