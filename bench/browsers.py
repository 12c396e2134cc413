#!/usr/bin/env python3
"""Times in Chromium, headless: `browsers.py [LIBRARY [WASM]]`.

LIBRARY is what `bin/odb_library` has written and WASM what `bin/odb_wasm` has, `dist/library` and `dist/wasm` unless they
are given. Prints the least time of a check of a megabyte by the WebAssembly module, and by the addon for Node; the time
from a key to the picture in a plan of 997 requests; and the longest time in which the page does one thing alone, while a
batch is opened and run, pasted, or edited.
"""

import contextlib
import json
import os
import shutil
import subprocess
import sys
import tempfile
from pathlib import Path

ROOT = os.path.dirname(os.path.dirname(os.path.abspath(__file__)))
FOLDERS = [os.path.join(ROOT, "dist", name) for name in ("library", "wasm")]
LIBRARY, WASM = map(os.path.abspath, [*sys.argv[1:], *FOLDERS[len(sys.argv) - 1 :]])
sys.path.insert(0, os.path.join(ROOT, "tests"))

from support.browsers import page_of  # noqa: E402
from support.chromium import PROGRAM  # noqa: E402
from support.contents import batch_of_a_megabyte  # noqa: E402
from support.keys import Browser  # noqa: E402
from support.page import great_batch, has_verdict, paste, play, show_thousand  # noqa: E402
from support.program import MODULE32  # noqa: E402

TURNS = 3
LEAST_TIME = """
let least = Infinity
for (let i = 0; i < 40; i++) {
  const begun = performance.now()
  check(batch)
  least = Math.min(least, performance.now() - begun)
}
"""
TIME_OF_KEYS = """const window = document.querySelector('#picture .scroll')
    window.focus()
    const begun = performance.now()
    for (const key of ['ArrowRight', 'ArrowDown', 'ArrowRight', 'ArrowRight', '+', '-', '0']) {
      window.dispatchEvent(new KeyboardEvent('keydown', { key, bubbles: true }))
      await new Promise((it) => requestAnimationFrame(() => setTimeout(it)))
    }
    return (performance.now() - begun) / 7"""
# Measures the longest time in which the page does nothing else.
WATCH = """window.longest = 0
window.tick = performance.now()
window.watch = setInterval(() => {
  const now = performance.now()
  window.longest = Math.max(window.longest, now - window.tick)
  window.tick = now
}, 1)"""
LONGEST = "clearInterval(window.watch); return window.longest"
CARET = "const field = document.getElementById('text'); field.focus(); field.setSelectionRange(1, 1)"


def copy_of_node(folder):
    """A copy of the package for JavaScript with its addon and with what a browser loads."""
    shutil.copytree(os.path.join(ROOT, "node"), folder / "node", ignore=shutil.ignore_patterns("*.node", "*.mjs", "build"))
    shutil.copytree(os.path.join(ROOT, "include"), folder / "include")
    for words in (["compile", LIBRARY], ["bundle", WASM]):
        subprocess.run([folder / "node" / words[0], words[1]], check=True)
    return folder / "node"


def checks(folder):
    """The milliseconds of a check of a megabyte in Node by the addon, and in the browser."""
    node, batch = copy_of_node(folder), batch_of_a_megabyte()
    (folder / "batch").write_bytes(batch)
    given = f"const batch = require('fs').readFileSync({json.dumps(str(folder / 'batch'))})"
    code = f"const {{ check }} = require({json.dumps(str(node))}); {given}; {LEAST_TIME}; console.log(least)"
    native = float(subprocess.run(["node", "-e", code], stdout=subprocess.PIPE, check=True).stdout)
    files = {f"/{name}": (node / name).read_bytes() for name in ("odb_batch.mjs", MODULE32)}
    with page_of(PROGRAM, {**files, "/batch": batch}, folder / "profile of checks") as page:
        found = page.value(f"""
            const {{ check }} = await import('/odb_batch.mjs')
            const batch = new Uint8Array(await (await fetch('/batch')).arrayBuffer())
            {LEAST_TIME}
            return least""")
    return native, found


def longest_pause(page, act):
    """The longest time in which the page does one thing alone, in milliseconds: the least of some turns."""
    found = []
    for _ in range(TURNS):
        page.value(WATCH)
        act()
        found.append(page.value(LONGEST))
    return min(found)


def of_the_page(page, folder):
    """What is measured in the page, each with its milliseconds."""
    show_thousand(page)
    yield "from a key to the picture of 997 requests", min(page.value(TIME_OF_KEYS) for _ in range(TURNS))
    great, long = folder / "great.json", folder / "long.json"
    great.write_text(great_batch(), encoding="utf-8")
    long.write_text(great_batch(300), encoding="utf-8")

    def open_and_run():
        page.open_file("file", great)
        page.until("return document.getElementById('said').textContent.startsWith('May start')")
        has_verdict(page, "ok 9000 requests")
        play(page)

    def paste_all():
        paste(page)
        has_verdict(page, "fault F40 UnknownName /requests/7000")

    def edit():
        page.open_file("file", long)
        has_verdict(page, "ok 300 requests")
        page.value(CARET)
        page.type("xy")
        has_verdict(page, "F02")

    yield "the longest pause while 10 MB are opened and run", longest_pause(page, open_and_run)
    page.value(f"window.pasted = {json.dumps(great_batch(fault=7000))}")
    yield "the longest pause while 10 MB are pasted", longest_pause(page, paste_all)
    yield "the longest pause while 300 KB are opened and edited", longest_pause(page, edit)


def main():
    """Prints the table."""
    print("| in Chromium | ms |\n| --- | ---: |")
    with tempfile.TemporaryDirectory() as name:
        folder = Path(name)
        native, found = checks(folder)
        print(f"| a check of 1 MB ({found / native:.2f} times the {native:.1f} ms of the addon) | {found:.1f} |", flush=True)
        path = folder / "odb_batch.html"
        subprocess.run([sys.executable, os.path.join(ROOT, "bin", "odb_page"), WASM, path], check=True)
        with contextlib.closing(Browser(folder / "profile of the page")) as page:
            page.size(1400, 1000)
            page.open(f"file://{path}")
            page.until("return (await page).count > 0")
            for what, milliseconds in of_the_page(page, folder):
                print(f"| {what} | {milliseconds:.0f} |", flush=True)


if __name__ == "__main__":
    main()
