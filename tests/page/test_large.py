"""A batch of ten megabytes, opened and pasted: the page answers while it is checked, and shows a part of it. How long the page
does nothing else is measured by bench/browsers.py.
"""

import json

import pytest

from support.page import great_batch, has_verdict, paste, play

# Turns of the page while its worker does a job, and what the page has then: a batch of ten megabytes has 9,000 requests.
LEAST_TURNS, MOST_ELEMENTS = 10, 9000

# Counts the turns that the page takes while its worker is at each job.
WATCH = """window.turns = 0
window.jobs = []
const { port1, port2 } = new MessageChannel()
port1.onmessage = () => {
  window.turns += 1
  if (window.jobs !== undefined) port2.postMessage(0)
}
port2.postMessage(0)
window.post ??= Worker.prototype.postMessage
Worker.prototype.postMessage = function (message) {
  const job = { name: message.job, begun: window.turns }
  window.jobs?.push(job)
  this.addEventListener('message', ({ data }) => {
    if (data.number === message.number) job.turns = window.turns - job.begun
  })
  return window.post.call(this, message)
}"""
WATCHED = """const { jobs } = window
window.jobs = undefined
const turns = jobs.filter(({ name }) => name === 'check').map(({ turns }) => turns)
return [turns, document.querySelectorAll('*').length]"""


def watched(page, act):
    """The turns that the page took while each batch was checked, and how many elements it has then."""
    page.value(WATCH)
    act()
    turns, elements = page.value(WATCHED)
    print(f"turns of the page: {turns}, elements: {elements}")
    return turns, elements


@pytest.mark.slow
def test_ten_megabytes_are_opened_and_run(page, tmp_path):
    path = tmp_path / "great.json"
    path.write_text(great_batch(), encoding="utf-8")
    assert path.stat().st_size > 10_000_000

    def opened_and_run():
        page.open_file("file", path)
        has_verdict(page, "ok 9000 requests")
        assert play(page).endswith("9,000 requests succeeded.")
        assert "too long to be edited here" in page.text("batch-editor")

    (turns,), elements = watched(page, opened_and_run)
    assert turns > LEAST_TURNS and elements < MOST_ELEMENTS


@pytest.mark.slow
def test_ten_megabytes_are_pasted(page):
    page.value(f"window.pasted = {json.dumps(great_batch(fault=7000))}")

    def pasted():
        paste(page)
        has_verdict(page, "fault F40 UnknownName /requests/7000")

    (turns,), elements = watched(page, pasted)
    assert turns > LEAST_TURNS and elements < MOST_ELEMENTS
    assert page.value("return document.querySelector('#batch-editor mark.part').textContent") == '"dependsOn": ["none"]'
    assert page.value("return document.querySelector('#batch-editor .has-fault').textContent") == "7002"


SAID = """window.said = []
const verdict = document.getElementById('verdict')
new MutationObserver(() => window.said.push(verdict.textContent)).observe(verdict, { childList: true, subtree: true })
const field = document.getElementById('text')
field.focus()
field.setSelectionRange(1, 1)"""


def test_a_long_text_is_edited(page, tmp_path):
    """Some 300 KB: a letter that is typed is there at once, and the verdict a moment later."""
    path = tmp_path / "long.json"
    path.write_text(great_batch(300), encoding="utf-8")
    page.open_file("file", path)
    has_verdict(page, "ok 300 requests")

    def typed():
        page.value(SAID)
        page.type("xy")
        assert page.value("return document.getElementById('text').value.slice(0, 3)") == "{xy"
        has_verdict(page, "F02")
        assert "Checking" in page.value("return window.said[0]")

    _, elements = watched(page, typed)
    assert elements < MOST_ELEMENTS
