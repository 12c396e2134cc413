"""Where the URLs of requests lead: the table that C, Python and Node share, what messages say, and roots."""

import json

import pytest

from odb_batch import Refusal, perform
from odb_batch.driver.targets import targets_of
from support import urls


@pytest.mark.parametrize("case", urls.CASES, ids=urls.name)
def test_the_table(case):
    sent = []

    def send(request):
        sent.append(request.url)
        return 201, ({"Location": case["location"]} if case.get("location") else {})

    request, before = {"id": "r", "method": "get", "url": case.get("url")}, []
    if "rest" in case:
        request.update(url=f"$a{case['rest']}", dependsOn=["a"])
        before = [{"id": "a", "method": case.get("method", "post"), "url": urls.ENTITIES}]
    base, roots = urls.places(case)
    found = json.loads(perform({"requests": [*before, request]}, send, base=base, roots=roots if "roots" in case else None))
    last = found["responses"][-1]["status"], sent[len(before) :]
    assert last == ((201, [case["target"]]) if "target" in case else (404, []))


def test_long_urls():
    assert targets_of(urls.BASE, None).target("\u00e4" * 5000) == urls.BASE + "%C3%A4" * 5000


@pytest.mark.parametrize("base", ["http://host/", ""])
def test_half_of_a_surrogate_pair(base):
    with pytest.raises(Refusal) as refused:
        targets_of(base, None).target("http://host/\ud800")
    assert refused.value.answer.status == 400


@pytest.mark.parametrize("url, has_hint", [("/Orders", True), ("/odata/../x", False), ("//evil/x", False), ("../x", False)])
def test_a_url_that_begins_with_a_slash_is_answered_what_to_drop(url, has_hint):
    batch = {"requests": [{"id": "a", "method": "get", "url": url}]}
    [found] = json.loads(perform(batch, lambda _: (200,), base="http://host/odata/"))["responses"]
    message = found["body"]["error"]["message"]
    assert message.startswith("The URL leads out of http://host/odata/") and message.endswith("begins with") == has_hint


@pytest.mark.parametrize("url", [
    "http://u@host/", "http://u:p@host/", "/odata/", "host/odata/", "http:///odata/", "http://h\u00f6st/", "http://host/?/",
    "http://host/#/",
])  # fmt: skip
def test_what_is_no_root(url):
    for options in ({"base": url}, {"base": "http://host/", "roots": [url]}):
        with pytest.raises(ValueError, match="a base or a root must be "):
            perform({"requests": []}, lambda _: (200,), **options)


@pytest.mark.parametrize("root, sent", [
    ("http://host/B\u00fccher [x]/", "http://host/B%C3%BCcher%20%5Bx%5D/"), ("http://host/\nhttp://evil/", "http://host/%0Ahttp://evil/"),
    ("HTTP://HOST:80/", "HTTP://HOST:80/"),
])  # fmt: skip
def test_roots_are_sent_in_ascii(root, sent):
    targets = targets_of("", [root])
    with pytest.raises(Refusal):
        targets.target("http://evil/Books")
    if "%0A" in sent:
        with pytest.raises(Refusal):
            targets.target(f"{sent}Books")
    else:
        assert targets.target(f"{sent}Books") == f"{sent}Books"


def test_what_follows_a_reference_that_stays_in_a_group():
    targets = targets_of("http://host/odata/", None)
    for rest in ("", "/Lines", "?$top=1", "/Lines('..')"):
        targets.require_below(rest)
    for rest in ("/../Lines", "/%2e%2e/Lines", "/a\\b", "/\n"):
        with pytest.raises(Refusal):
            targets.require_below(rest)


def test_what_a_context_leads_to():
    """An `@id` is relative to `@context`, which may lie beside the roots, on one of their hosts."""
    targets = targets_of("http://host/odata/", None)
    below = lambda place, context: targets.below("http://host/odata/Orders", place, context, "/Lines")
    assert below("Orders(7)", "$metadata#Orders") == "http://host/odata/Orders(7)/Lines"
    assert below("odata/Orders(7)", "/$metadata") == "http://host/odata/Orders(7)/Lines"
    assert below("http://host/odata/Orders(7)", "http://evil/$metadata") == "http://host/odata/Orders(7)/Lines"
    for place, context in (("Orders(7)", "http://evil/odata/$metadata"), ("Orders(7)", "/$metadata"), ("../Orders(7)", "$metadata")):
        with pytest.raises(Refusal):
            below(place, context)
