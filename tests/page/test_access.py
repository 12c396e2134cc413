"""The page for all people: names and roles, live regions, contrast in light and in dark, narrow windows, keys."""

import re

import pytest

from support.page import answer, play

# Pairs of colours of which the first is text on the second, and those of which the first is a border or a sign.
TEXTS = [
    *[("text", on) for on in ("page", "panel", "waiting", "ready", "running", "success", "failure", "skipped", "mark", "strong-mark")],
    ("quiet", "page"), ("quiet", "panel"), ("good-text", "good"), ("bad-text", "bad"), ("bad-text", "panel"),
    ("accent", "page"), ("accent", "panel"), ("on-accent", "accent"), ("group", "panel"), *[("quiet", on) for on in ("ready", "running", "success", "failure", "skipped")],
]  # fmt: skip
SIGNS = [("line", "page"), ("line", "panel"), ("focus", "page"), ("focus", "panel"), ("needed", "panel"), ("dependent", "panel"), ("bad-text", "strong-mark")]


def luminance(colour):
    """The relative luminance of a colour (WCAG 2.1)."""
    parts = [int(colour[at : at + 2], 16) / 255 for at in (1, 3, 5)]
    red, green, blue = (it / 12.92 if it <= 0.03928 else ((it + 0.055) / 1.055) ** 2.4 for it in parts)
    return 0.2126 * red + 0.7152 * green + 0.0722 * blue


def contrast(one, other):
    low, high = sorted([luminance(one), luminance(other)])
    return (high + 0.05) / (low + 0.05)


@pytest.mark.parametrize("scheme", ["light", "dark"])
def test_contrast(page, scheme):
    page.scheme(scheme)
    names = {it for pair in [*TEXTS, *SIGNS] for it in pair}
    colours = page.value(f"""const style = getComputedStyle(document.documentElement)
        return Object.fromEntries({sorted(names)!r}.map((it) => [it, style.getPropertyValue('--' + it).trim()]))""")
    assert all(re.fullmatch("#[0-9a-f]{6}", it) for it in colours.values())
    for pairs, least in [(TEXTS, 4.5), (SIGNS, 3)]:
        for one, other in pairs:
            found = contrast(colours[one], colours[other])
            assert found >= least, f"{one} on {other}: {found:.2f}"
    page.scheme("light")


def nodes(page):
    """What a reader of the screen finds."""
    page.call("Accessibility.enable")
    return [it for it in page.call("Accessibility.getFullAXTree")["nodes"] if not it.get("ignored")]


def value(node, name):
    return node.get(name, {}).get("value", "")


def test_everything_that_is_used_has_a_name(page):
    used = ("button", "textbox", "combobox", "checkbox", "application", "table", "region", "img")
    found = [it for it in nodes(page) if value(it, "role") in used]
    assert {value(it, "role") for it in found} >= {"button", "textbox", "combobox", "checkbox", "application", "table", "region"}
    assert [it for it in found if not value(it, "name")] == []
    assert value(next(it for it in nodes(page) if value(it, "role") == "heading"), "name") == "odb_batch"


def test_what_changes_is_told(page):
    for id in ("verdict", "said", "about", "second-verdict"):
        assert page.value(f"const it = document.getElementById('{id}'); return [it.role, it.ariaLive]") == ["status", "polite"]
    answer(page, "loan", 409)
    play(page)
    assert "1 request to be undone: mark" in page.text("said")
    told = [value(it, "name") for it in nodes(page)]
    assert any("2 requests started" in it or "3 requests started. To be undone, in this order: mark." in it for it in told)


@pytest.mark.parametrize("width", [320, 400, 768, 1100, 1400])
def test_windows(page, width):
    """Nothing but the text, the picture and tables is wider than the window (WCAG 2.1, 1.4.10)."""
    page.size(width, 800)
    assert page.value("return document.documentElement.scrollWidth - innerWidth") <= 0
    wide = page.value("""return Array.from(document.querySelectorAll('button, select, input:not([hidden]), h1, h2, p, .editor, .verdict'))
        .filter((it) => it.offsetParent && !it.closest('.table') && it.getBoundingClientRect().right > innerWidth + 1)
        .map((it) => it.id || it.className || it.textContent)""")
    assert [it for it in wide if it != "skip"] == []


def test_the_tab_key_goes_through_the_page(page):
    page.value("document.activeElement.blur()")
    page.press("Tab")
    assert page.value("return document.activeElement.textContent") == "Skip to the batch"
    page.press("Tab")
    assert page.value("return document.activeElement.textContent") == "Skip to the run"
    page.press("Enter")
    page.until("return document.activeElement.id === 'play'")
    page.value("document.querySelector('.skip').focus()")
    seen = []
    for _ in range(80):
        page.press("Tab")
        seen.append(page.focused())
        if seen[-1] == "second-text" or "Events, outcomes or responses" in seen[-1]:
            break
    wanted = ["examples", "open-file", "share", "The batch", "Zoom in", "play", "step", "undo", "Start book", "Report list"]
    assert [it for it in seen if it in wanted] == wanted
    # What has the focus can be seen to have it.
    assert page.value("return getComputedStyle(document.querySelector('.editor.low')).outlineStyle") == "solid"


def test_no_sign_is_a_colour_alone(page):
    answer(page, "loan", 409)
    play(page)
    signs = page.value("return Array.from(document.querySelectorAll('#picture .box text:last-child'), (it) => it.textContent)")
    assert signs == ["✓ 200", "↶ 424", "✕ 409", "– 424"]
