"""The plan as a picture: boxes, frames and arrows, what lights up, keys, and plans of many requests."""

import json

import pytest

from support.page import show_thousand, write

REQUESTS, MOST_CHANGES = 997, 100  # of a plan, and of the page by a key

# How many changes of the page come of each key, with the nodes that it adds.
CHANGES = """const nodes = (it) => 1 + (it.querySelectorAll?.('*').length ?? 0)
    const size = ({ addedNodes }) => Array.from(addedNodes, nodes).reduce((sum, it) => sum + it, 1)
    const window = document.querySelector('#picture .scroll')
    window.focus()
    const watch = new MutationObserver(() => {})
    watch.observe(document, { attributes: true, characterData: true, childList: true, subtree: true })
    return ['ArrowRight', 'ArrowDown', 'ArrowRight', 'ArrowRight', '+', '-', '0'].map((key) => {
      window.dispatchEvent(new KeyboardEvent('keydown', { key, bubbles: true }))
      return watch.takeRecords().map(size).reduce((sum, it) => sum + it, 0)
    })"""

BOXES = """return Array.from(document.querySelectorAll('#picture .box'), (it) => {
    const { x, y, width, height } = it.querySelector('rect').getBBox()
    return { name: it.querySelector('text').textContent, x, y, width, height }
})"""
FRAMES = """return Array.from(document.querySelectorAll('#picture rect.frame'), (it) => {
    const { x, y, width, height } = it.getBBox()
    return { x, y, width, height }
})"""


def overlap(a, b):
    return (
        a["x"] < b["x"] + b["width"] and b["x"] < a["x"] + a["width"]
        and a["y"] < b["y"] + b["height"] and b["y"] < a["y"] + a["height"]
    )  # fmt: skip


def inside(a, b):
    right, low = a["x"] + a["width"] <= b["x"] + b["width"], a["y"] + a["height"] <= b["y"] + b["height"]
    return a["x"] >= b["x"] and a["y"] >= b["y"] and right and low


def batch(requests):
    return json.dumps({"requests": [{"method": "get", "url": "A", **it} for it in requests]})


def chain(number):
    return [{"id": f"r{at}", **({"dependsOn": [f"r{at - 1}"]} if at else {})} for at in range(number)]


def test_the_usual_plan(page):
    boxes = {it["name"]: it for it in page.value(BOXES)}
    assert list(boxes) == ["book", "mark", "loan", "list"]
    assert boxes["book"]["x"] < boxes["mark"]["x"] == boxes["loan"]["x"] < boxes["list"]["x"]
    (frame,) = page.value(FRAMES)
    assert inside(boxes["mark"], frame) and inside(boxes["loan"], frame)
    assert not overlap(boxes["book"], frame) and not overlap(boxes["list"], frame)
    # Two arrows from the book, and one from the frame.
    assert page.value("return document.querySelector('#picture .arrow.plain').getAttribute('d').match(/M/g).length") == 3


def test_references_are_dashed(page, example):
    write(page, example("batch_references.json"))
    assert page.value("""const it = document.querySelector('#picture .arrow.reference')
        return [it.getAttribute('d').match(/M/g).length, getComputedStyle(it).strokeDasharray !== 'none']""") == [1, True]


def test_no_boxes_overlap(page):
    """Groups with members of several levels, of one level and of many requests, beside requests alone."""
    requests = [{"id": f"a{at}"} for at in range(40)]
    requests += [{"id": f"g{at}", "atomicityGroup": "g", "dependsOn": [f"g{at - 1}"] if at % 3 else []} for at in range(9)]
    requests += [{"id": f"h{at}", "atomicityGroup": "h", "dependsOn": ["g", "a1"]} for at in range(30)]
    requests += [{"id": f"b{at}", "dependsOn": [f"a{at}", "h"]} for at in range(30)]
    write(page, batch(requests))
    boxes, frames = page.value(BOXES), page.value(FRAMES)
    assert len(boxes) == len(requests) and len(frames) == 2
    for at, box in enumerate(boxes):
        assert not any(overlap(box, other) for other in boxes[:at]), box
        for frame, group in zip(frames, "gh"):
            assert inside(box, frame) if box["name"].startswith(group) else not overlap(box, frame), box


def test_what_a_request_needs_lights_up(page):
    page.point("#picture .box[data-position='2']")
    lit = "return ['needed', 'dependent', 'chosen'].map((it) => document.querySelector(`#picture .box.${it} text`)?.textContent)"
    assert page.value(lit) == ["book", "list", "loan"]
    about = page.text("about")
    assert about.startswith("loan POST /library/Loans · level 1 · group lend · needs book · 1 request needs it · may run beside mark · waiting")


def test_the_plan_by_keys(page):
    page.value("document.querySelector('#picture .scroll').focus()")
    assert page.text("about").startswith("book GET")
    for key, wanted in [("ArrowRight", "mark"), ("ArrowDown", "loan"), ("ArrowRight", "list"), ("ArrowLeft", "mark"), ("ArrowLeft", "book")]:
        page.press(key)
        assert page.text("about").startswith(wanted + " "), key
    width = "return document.querySelector('#picture svg').width.baseVal.value"
    before = page.value(width)
    page.press("+")
    assert page.value(width) > before
    page.press("0")
    assert page.value(width) == before
    page.press("Enter")
    assert page.focused() == "Start book"


def test_a_thousand_requests_stay_usable(page):
    """A key changes the boxes that it lights up, and draws none anew. bench/browsers.py measures how long that takes."""
    show_thousand(page)
    assert len(page.value(BOXES)) == REQUESTS
    changes = page.value(CHANGES)
    print("changes of the page by each key:", changes)
    assert 0 < min(changes) and max(changes) < MOST_CHANGES


@pytest.mark.slow
def test_ten_thousand_requests_are_shown_by_levels(page, tmp_path):
    requests = [{"id": f"r{at}", "dependsOn": [f"r{at - 2500}"] if at >= 2500 else []} for at in range(10_000)]
    path = tmp_path / "many.json"
    path.write_text(batch(requests))
    page.open_file("file", path)
    page.until("return document.getElementById('verdict').textContent.includes('ok 10000 requests')")
    boxes = "return Array.from(document.querySelectorAll('#picture .box'), (it) => it.textContent)"
    found = page.value(boxes)
    assert [it.startswith(f"level {at}2,500 requests") for at, it in enumerate(found)] == [True] * 4
    assert "2,500 may start" in found[0] and "may start" not in found[1]
    page.value("document.getElementById('speed').value = '1000'; document.getElementById('play').click()")
    page.until("return document.getElementById('said').textContent.includes('finished')")
    assert "2,500 succeeded" in page.value(boxes)[3]


def test_a_long_chain_is_shown_by_ranges_of_levels(page, tmp_path):
    path = tmp_path / "chain.json"
    path.write_text(batch(chain(10_000)))
    page.open_file("file", path)
    page.until("return document.getElementById('verdict').textContent.includes('ok 10000 requests')")
    assert page.value("return document.querySelectorAll('#picture .box').length") == 200
    assert "levels 0 to 49" in page.text("picture")
