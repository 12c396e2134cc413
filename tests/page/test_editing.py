"""A batch is typed, pasted, opened and linked; each fault is marked in the text, and is gone once it is mended."""

import base64
import os
import zlib

import pytest

from support.keys import CONTROL
from support.page import write

# What is marked: the text of each strong mark in the field of the batch.
MARKED = "return Array.from(document.querySelectorAll('#batch-editor mark.part'), (it) => it.textContent)"


def verdict(page):
    return page.text("verdict")


def test_a_fault_is_typed_and_mended(page):
    assert verdict(page).startswith("Accepted: ok 4 requests 1 groups.")
    # After "id": "book" the cursor is in the first request.
    page.value("""const field = document.getElementById('text')
        field.focus()
        const at = field.value.indexOf('"method"')
        field.setSelectionRange(at, at)""")
    word = '"dependsOn": ["list"], '
    page.type(word)
    page.until("return document.getElementById('verdict').textContent.includes('F41')")
    assert verdict(page).startswith("Refused: fault F41 ForwardName /requests/0. Line 2, column 3.")
    assert page.value(MARKED) == ['"dependsOn": ["list"]']
    assert "remove a dependency of the cycle" in page.text("faults")
    assert page.value("return document.querySelector('#batch-editor .has-fault').textContent") == "2"
    assert "There is no plan" in page.text("picture")
    page.press("Backspace", times=len(word))
    page.until("return document.getElementById('verdict').textContent.includes('Accepted')")
    assert page.value(MARKED) == [] and page.text("faults") == ""


def test_a_click_leads_to_the_place(page, example):
    write(page, example("batch_too_early.json") + "\n" * 200)
    page.value("document.getElementById('text').scrollTop = 3000; document.querySelector('#faults .link').click()")
    found = page.value("""const { selectionStart, selectionEnd, scrollTop, value } = document.getElementById('text')
        return [value.slice(selectionStart, selectionEnd), scrollTop, document.activeElement.id]""")
    assert found == ['"dependsOn": ["order"]', 0, "text"]


# A text that is not JSON, and what is marked: from the word or the number that goes wrong to the end of what cannot be there.
BROKEN = [
    ('{"requests": [],}', "}"),
    ('{"requests": [}', "}"),
    ('{"requests": []', " "),
    ('{"requests": [{"id": "a" "url": "b"}]}', '"url"'),
    ('{"requests": [], "@a": 1e999}', "1e999"),
    ('{"requests": [], "@a": 01}', "01"),
    ('{"requests": [], "@a": 1.e5}', "1.e5"),
    ('{"requests": [], "@a": "\\x"}', "x"),
    ('{"requests": [], "@a": "\\u00g"}', 'u00g"}'),
    ('{"requests": [], "@a": "\\ud800"}', '"\\ud800"'),
    ('{"requests": [], "@ä𝄞": tru}', "tru}"),
    ('{"requests": []} 𝄞', "𝄞"),
]


@pytest.mark.parametrize("text, marked", BROKEN)
def test_what_is_not_json_is_marked(page, text, marked):
    write(page, text)
    assert "fault F02 NotJson batch" in verdict(page)
    assert page.value(MARKED) == [marked]


def test_lines_and_columns_count_characters(page):
    write(page, '{"requests": [\n  {"id": "a", "method": "get", "url": "𝄞ä"}, {"id": 7, "method": "get", "url": ""}]}')
    assert "Line 2, column 46." in verdict(page)


def test_examples_are_chosen_by_keys(page):
    page.value("document.getElementById('examples').focus()")
    page.press("ArrowDown", times=2)
    page.until("return document.getElementById('verdict').textContent.includes('F41')")
    page.press("ArrowUp")
    page.until("return document.getElementById('verdict').textContent.includes('ok 3 requests')")


def test_a_file_is_opened(page, tmp_path, example):
    path = tmp_path / "batch.json"
    for data, wanted in [
        (example("batch_references.json").encode(), "ok 3 requests 0 groups"),
        (b'\xef\xbb\xbf{"requests":[]}', "fault F02 NotJson batch"),
        (b'{"requests":[],"@a":"\xff"}', "fault F02 NotJson batch"),
        (b'{"requests":\r\n[]}', "ok 0 requests 0 groups"),
    ]:
        path.write_bytes(data)
        before = page.value("return (await page).count")
        page.open_file("file", path)
        page.until(f"return (await page).count > {before}")
        assert wanted in verdict(page)


def test_a_link_carries_a_batch(page, page_file, example):
    write(page, example("batch_references.json"))
    page.value("document.getElementById('share').click()")
    link = page.until("return location.hash && location.href")
    assert len(link) < 400
    page.call("Page.navigate", url="about:blank")
    page.open(link)
    page.until("return (await page).count > 0")
    assert page.value("return document.getElementById('text').value") == example("batch_references.json")
    assert "ok 3 requests" in verdict(page)


def test_a_damaged_link_says_so(page):
    page.value("location.hash = '#batch=AAAA'")
    page.until("return document.getElementById('shared').textContent.includes('The link is damaged')")
    assert "ok 4 requests" in verdict(page)


def packed(text):
    """The part of a link that carries a text, also one that the page makes no link of."""
    press = zlib.compressobj(9, zlib.DEFLATED, -15)
    return "#batch=" + base64.urlsafe_b64encode(press.compress(text) + press.flush()).decode().rstrip("=")


@pytest.mark.parametrize("text", [b" " * 5_000_000, b" " * 500_000, os.urandom(15_000)], ids=["bytes", "characters", "packed"])
def test_a_link_that_unpacks_to_too_much_says_so(page, text):
    before = page.value("return document.getElementById('text').value")
    page.value(f"location.hash = '{packed(text)}'")
    page.until("return document.getElementById('shared').textContent.includes('The link is refused: it carries more than')")
    assert page.value("return document.getElementById('text').value") == before
    assert "ok 4 requests" in verdict(page)


def test_a_link_of_a_long_text_is_read(page):
    text = '{"requests": []}'.ljust(400_000)
    page.value(f"location.hash = '{packed(text.encode())}'")
    page.until("return document.getElementById('verdict').textContent.includes('ok 0 requests')")
    assert page.value("return document.getElementById('text').value.length") == 400_000


def test_a_link_that_cannot_be_copied_is_in_the_address_bar(page):
    page.value("""const clipboard = { writeText: () => Promise.reject(new Error('no')) }
        Object.defineProperty(navigator, 'clipboard', { value: clipboard, configurable: true })
        document.execCommand = () => false
        document.getElementById('share').click()""")
    said = page.until("return document.getElementById('shared').textContent")
    assert said == "The browser does not allow it. The link is in the address bar."
    assert page.value("return location.hash.length") > len("#batch=")


def test_no_other_script_or_style_is_taken(page):
    found = page.value("""const script = document.createElement('script')
        script.textContent = 'window.taken = 1'
        document.body.append(script)
        const styled = '<p id="styled" style="color: red" onclick="window.taken = 2">x</p>'
        document.body.insertAdjacentHTML('beforeend', styled + '<style>#styled { font-size: 99px }</style>')
        document.getElementById('styled').click()
        const { color, fontSize } = getComputedStyle(document.getElementById('styled'))
        return [window.taken ?? 'none', color, fontSize]""")
    assert found[0] == "none" and found[1] != "rgb(255, 0, 0)" and found[2] != "99px"


def test_the_page_can_send_nothing(page):
    assert page.value("""return fetch('http://127.0.0.1:9/').then(() => 'sent', (error) => error.name)""") == "TypeError"
    found = page.value("return document.querySelector('meta[http-equiv=Content-Security-Policy]').content")
    assert "default-src 'none'" in found and "connect-src 'none'" in found


def test_undo_in_the_text_works(page):
    page.value("const field = document.getElementById('text'); field.focus(); field.setSelectionRange(0, 0)")
    page.type("x")
    page.until("return document.getElementById('verdict').textContent.includes('F02')")
    page.press("z", modifiers=CONTROL)
    page.value("document.execCommand('undo')")
    page.until("return document.getElementById('verdict').textContent.includes('Accepted')")
