"""The page as one file, and browsers that have opened it."""

import contextlib
import os
import subprocess
import sys

import pytest

from support.chromium import PROGRAM
from support.keys import Browser
from support.program import EXAMPLES, ROOT

WIDE = (1400, 1000)


@pytest.fixture(scope="session")
def page_file(wasm, tmp_path_factory):
    """The path of the page, which the script has packed."""
    path = tmp_path_factory.mktemp("page") / "odb_batch.html"
    subprocess.run([sys.executable, os.path.join(ROOT, "bin", "odb_page"), wasm, path], check=True)
    return path


@pytest.fixture(scope="session")
def browser(page_file, need, tmp_path_factory):
    """A browser for all tests of the page."""
    need(PROGRAM)
    with contextlib.closing(Browser(tmp_path_factory.mktemp("profile"))) as made:
        yield made


@pytest.fixture
def page(browser, page_file):
    """The page with its first example, just opened, in a wide window."""
    browser.size(*WIDE)
    browser.call("Page.enable")
    browser.open(f"file://{page_file}?{os.urandom(4).hex()}")
    browser.until("return (await page).count > 0")
    return browser


@pytest.fixture
def example():
    """Reads an example."""

    def read(name):
        with open(os.path.join(EXAMPLES, name), encoding="utf-8") as file:
            return file.read()

    return read
