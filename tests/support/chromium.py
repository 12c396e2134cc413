"""A headless Chromium that tests drive over the pipe of its DevTools, with the standard library alone."""

import contextlib
import json
import os
import subprocess

PROGRAM = "chromium"
FLAGS = (
    "--headless=new", "--no-sandbox", "--disable-gpu", "--disable-dev-shm-usage", "--no-first-run",
    "--disable-background-networking", "--disable-component-update", "--remote-debugging-pipe",
)  # fmt: skip
LOADED = """while (document.readyState !== 'complete' || location.protocol === 'about:') {
    await new Promise((it) => setTimeout(it, 20))
}"""


class Failed(Exception):
    """What a page threw, or why the browser answers no more."""


class Chromium:
    """A page of a browser. Commands and answers are JSON texts, each with a 0 behind it, at the descriptors 3 and 4."""

    def __init__(self, profile):
        commands, self.commands = os.pipe()
        self.answers, answers = os.pipe()
        words = [PROGRAM, *FLAGS, f"--user-data-dir={profile}", "about:blank"]
        # The shell puts both where the browser looks for them. The first is the least descriptor of the four.
        script = f'exec "$@" 3<&{commands} 4>&{answers}'
        silent = {it: subprocess.DEVNULL for it in ("stdin", "stdout", "stderr")}
        words = ["bash", "-c", script, "bash", *words]
        self.process = subprocess.Popen(
            words, pass_fds=(commands, answers), env={**os.environ, "HOME": str(profile)}, **silent
        )
        os.close(commands)
        os.close(answers)
        self.read, self.count, self.session = b"", 0, None
        page = next(it for it in self.call("Target.getTargets")["targetInfos"] if it["type"] == "page")
        self.session = self.call("Target.attachToTarget", targetId=page["targetId"], flatten=True)["sessionId"]

    def message(self):
        while b"\0" not in self.read:
            data = os.read(self.answers, 1 << 16)
            if not data:
                raise Failed("the browser has ended")
            self.read += data
        line, _, self.read = self.read.partition(b"\0")
        return json.loads(line)

    def call(self, method, **parameters):
        """Calls a method of the DevTools, and returns its result."""
        self.count += 1
        command = {"id": self.count, "method": method, "params": parameters}
        if self.session:
            command["sessionId"] = self.session
        os.write(self.commands, json.dumps(command).encode() + b"\0")
        answer = self.message()
        while answer.get("id") != self.count:
            answer = self.message()
        if "error" in answer:
            raise Failed(f"{method}: {answer['error']}")
        return answer["result"]

    def value(self, code):
        """The value of the body of an async function, in the page."""
        given = {"expression": f"(async () => {{{code}}})()", "awaitPromise": True, "returnByValue": True}
        found = self.call("Runtime.evaluate", **given)
        if "exceptionDetails" in found:
            details = found["exceptionDetails"]
            raise Failed(details.get("exception", {}).get("description", details["text"]))
        return found["result"].get("value")

    def open(self, url):
        self.call("Page.enable")
        self.call("Page.navigate", url=url)
        self.value(LOADED)

    def close(self):
        with contextlib.suppress(Failed, OSError):
            self.call("Browser.close")
        try:
            self.process.wait(20)
        except subprocess.TimeoutExpired:
            self.process.kill()
            self.process.wait()
        os.close(self.commands)
        os.close(self.answers)
