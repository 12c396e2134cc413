"""The page in Firefox: a fault that is typed is marked, and a run is played."""

import contextlib

import pytest

from support.firefox import PROGRAM, StrictFirefox


@pytest.fixture(scope="module")
def firefox(need, tmp_path_factory):
    need(PROGRAM)
    with contextlib.closing(StrictFirefox(tmp_path_factory.mktemp("firefox"))) as made:
        yield made


@pytest.mark.slow
@pytest.mark.needs(PROGRAM)
def test_the_page_in_firefox(firefox, page_file):
    firefox.open(f"file://{page_file}")
    verdict = "return document.getElementById('verdict').textContent"
    firefox.until(f"{verdict}.includes('ok 4 requests 1 groups')")
    firefox.type("#text", "x")
    firefox.until(f"{verdict}.includes('fault F02 NotJson batch')")
    assert firefox.value("return document.querySelector('#batch-editor mark.part').textContent") == "x"
    firefox.type("#text", "\ue003")  # the key that deletes what is before the cursor
    firefox.until(f"{verdict}.includes('ok 4 requests 1 groups')")
    for _ in range(3):
        firefox.type("""[aria-label="The status that loan is answered"]""", "\ue003")
    firefox.type("""[aria-label="The status that loan is answered"]""", "409")
    firefox.type("#speed", "all")
    firefox.click("#play")
    said = firefox.until("const { textContent } = document.getElementById('said'); return textContent.includes('finished') && textContent")
    assert "1 request to be undone: mark" in said
    assert firefox.value("return document.querySelectorAll('#picture .box').length") == 4
    assert '{"id":"list","status":424}' in firefox.value("return document.getElementById('response-text').textContent")
