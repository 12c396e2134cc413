"""What a person does with a page in Chromium: presses keys, types, points, opens files, looks at it."""

import base64

from support.chromium import Chromium

# The number of a key, and the text that it types.
KEYS = {
    "Tab": (9, ""), "Enter": (13, "\r"), "Escape": (27, ""), " ": (32, " "), "ArrowLeft": (37, ""), "ArrowUp": (38, ""),
    "ArrowRight": (39, ""), "ArrowDown": (40, ""), "Backspace": (8, ""), "End": (35, ""), "Home": (36, ""), "Delete": (46, ""),
}  # fmt: skip
SHIFT = 8
CONTROL = 2
WAIT = """
const begun = performance.now()
for (;;) {
  const found = await (async () => { CODE })()
  if (found) return found
  if (performance.now() - begun > 120000) throw new Error('it takes too long')
  await new Promise((it) => setTimeout(it, 4))
}"""


class Browser(Chromium):
    """A page of Chromium that a person uses."""

    def __init__(self, profile):
        super().__init__(profile)
        self.call("Emulation.setFocusEmulationEnabled", enabled=True)

    def press(self, key, times=1, modifiers=0):
        code, text = KEYS[key] if key in KEYS else (ord(key.upper()), key)
        typed = "" if modifiers & CONTROL else text
        about = {"key": key, "code": key, "windowsVirtualKeyCode": code, "modifiers": modifiers}
        for _ in range(times):
            self.call("Input.dispatchKeyEvent", type="keyDown", text=typed, **about)
            self.call("Input.dispatchKeyEvent", type="keyUp", **about)

    def type(self, text):
        for letter in text:
            self.call("Input.dispatchKeyEvent", type="char", text=letter)

    def until(self, code):
        """The value of the body of a function, once it is one."""
        return self.value(WAIT.replace("CODE", code))

    def text(self, id):
        return self.value(f"return document.getElementById('{id}').textContent")

    def size(self, width, height):
        self.call("Emulation.setDeviceMetricsOverride", width=width, height=height, deviceScaleFactor=1, mobile=False)

    def scheme(self, name):
        """Has the page be dark or light."""
        self.call("Emulation.setEmulatedMedia", features=[{"name": "prefers-color-scheme", "value": name}])

    def point(self, selector):
        """Moves the mouse to an element."""
        x, y = self.value(f"""const {{ left, top, width, height }} = document.querySelector({selector!r}).getBoundingClientRect()
            return [left + width / 2, top + height / 2]""")
        self.call("Input.dispatchMouseEvent", type="mouseMoved", x=x, y=y)

    def open_file(self, id, path):
        """Opens a file in a field for files."""
        root = self.call("DOM.getDocument", depth=0)["root"]["nodeId"]
        node = self.call("DOM.querySelector", nodeId=root, selector=f"#{id}")["nodeId"]
        self.call("DOM.setFileInputFiles", nodeId=node, files=[str(path)])

    def picture(self):
        """The page as it is seen, as a PNG."""
        return base64.b64decode(self.call("Page.captureScreenshot", format="png")["data"])

    def focused(self):
        """The name of what has the focus."""
        return self.value("const it = document.activeElement; return it.getAttribute('aria-label') ?? it.id ?? it.tagName")
