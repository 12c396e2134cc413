"""Pictures of the page in four states. With PAGE_PICTURES=docs/pictures in the environment they are written there."""

import os
import struct

import pytest

from support.page import SETTLED, answer, choose, play
from support.program import ROOT

SIZE = (1000, 720)
MOST_BYTES = 200_000


def show(page, selector):
    page.value(f"document.querySelector({selector!r}).scrollIntoView(); {SETTLED}")


def fault(page):
    choose(page, "examples", 2)
    page.until("return document.getElementById('verdict').textContent.includes('F41')")


def running(page):
    for wanted in ("Started book", "Reported book", "Started mark", "Started loan", "Reported mark"):
        page.value("document.getElementById('step').click()")
        page.until(f"return document.getElementById('said').textContent.startsWith('{wanted}')")
    show(page, ".plan")
    page.point("#picture .box[data-position='3']")


def finished(page):
    answer(page, "loan", 409)
    play(page)
    show(page, ".run")


def shops(page):
    choose(page, "examples", 4)
    page.until("return document.getElementById('verdict').textContent.includes('ok 25 requests')")
    page.scheme("dark")
    answer(page, "sell2", 503)
    play(page)
    show(page, ".plan")
    page.point("#picture .box[data-position='7']")


STATES = {"page-fault": fault, "page-running": running, "page-finished": finished, "page-dark": shops}


@pytest.mark.parametrize("name", STATES)
def test_a_picture(page, name, tmp_path):
    page.size(*SIZE)
    STATES[name](page)
    page.value(SETTLED)
    data = page.picture()
    page.scheme("light")
    folder = os.environ.get("PAGE_PICTURES")
    path = os.path.join(ROOT, folder, f"{name}.png") if folder else tmp_path / f"{name}.png"
    with open(path, "wb") as file:
        file.write(data)
    assert data[:8] == b"\x89PNG\r\n\x1a\n" and struct.unpack(">2I", data[16:24]) == SIZE
    # A page that shows nothing is much smaller.
    assert 20_000 < len(data) < MOST_BYTES
    assert os.path.exists(os.path.join(ROOT, "docs", "pictures", f"{name}.png"))
