"""Which service a URL leads to, where nothing is sent, and what the URLs in answers become."""

import pytest

from odb_batch import Refusal
from odb_batch.gateway._options import options_of
from odb_batch.gateway._routes import Routes, normalize_path

WORDS = [
    "--upstream", "http://main:8101/odata/", "--route", "/odata/Orders=https://orders/v2/Orders",
    "--route", "/odata/Orders/Old=http://main:8101/old", "--route", "/a%27b/=http://main:8101/quoted/",
]  # fmt: skip
ROUTES = Routes(options_of(WORDS).routes)
BASE = "http://public/odata/"


@pytest.mark.parametrize("url, wanted", [
    ("http://public/odata/Books?$filter=a%20eq%20'b'", "http://main:8101/odata/Books?$filter=a%20eq%20'b'"),
    ("http://public/odata/Orders", "https://orders/v2/Orders"),
    ("http://public/odata/Orders(1)/Lines?x=1", "https://orders/v2/Orders(1)/Lines?x=1"),
    ("http://public/odata/Orders%281%29", "https://orders/v2/Orders(1)"),
    ("http://public/odata/%4Frders/1", "https://orders/v2/Orders/1"),
    ("http://public/odata/Orders%2f1", "http://main:8101/odata/Orders%2F1"),
    ("http://public/odata/OrdersOld", "http://main:8101/odata/OrdersOld"),
    ("http://public/odata/Orders/Old/x", "http://main:8101/old/x"),
    ("http://public/odata/", "http://main:8101/odata/"),
    ("http://public/a'b/c", "http://main:8101/quoted/c"),
])  # fmt: skip
def test_the_longest_prefix_counts(url, wanted):
    assert ROUTES.target(url)[1] == wanted


@pytest.mark.parametrize("path, code", [
    ("/odata", "NoRoute"), ("/Odata/Books", "NoRoute"), ("/", "NoRoute"), ("/x/odata/", "NoRoute"),
    ("/odata/$batch", "NestedBatch"), ("/odata/%24batch", "NestedBatch"), ("/odata/Orders/$batch", "NestedBatch"),
    ("/odata/$batch/", "NestedBatch"), ("/odata/$batch;x=1", "NestedBatch"), ("/odata/$batch%3bx//", "NestedBatch"),
])  # fmt: skip
def test_what_no_route_takes(path, code):
    with pytest.raises(Refusal) as refused:
        ROUTES.target("http://public" + path)
    assert refused.value.answer.body["error"]["code"] == code


SENT = "https://orders/v2/Orders"


@pytest.mark.parametrize("sent, place, wanted", [
    (SENT, "https://orders/v2/Orders(1)?x=1", "http://public/odata/Orders(1)?x=1"),
    (SENT, "https://orders:443/v2/Orders(1)", "http://public/odata/Orders(1)"),
    (SENT, "/v2/Orders(1)", "/odata/Orders(1)"),
    (SENT, "Orders(1)", "/odata/Orders(1)"),
    (SENT, "http://main:8101/old/7", "http://public/odata/Orders/Old/7"),
    (SENT, "http://public/odata/Orders(1)", "http://public/odata/Orders(1)"),
    (SENT, "http://public/v2/Orders(1)", "http://public/odata/Orders(1)"),
    (SENT, "https://orders/v3/Orders(1)", "https://orders/v3/Orders(1)"),
    (SENT, "http://elsewhere/v2/Orders(1)", "http://elsewhere/v2/Orders(1)"),
    (SENT, "http://[bad", "http://[bad"),
    ("http://main:8101/odata/Books", "Books('%C3%BC')", "/odata/Books('%C3%BC')"),
])  # fmt: skip
def test_what_a_service_calls_by_its_own_urls(sent, place, wanted):
    assert ROUTES.public(BASE, sent, place) == wanted


@pytest.mark.parametrize("place", ["/v2//evil/x", "/v2/.//evil/x"])
def test_a_path_of_a_service_is_not_shown_as_another_host(place):
    routes = Routes(options_of(["--route", "/=http://main/v2/"]).routes)
    assert routes.public(BASE, "http://main/v2/x", place) == "http://public//evil/x"


def test_a_path_is_normalized_but_for_what_has_a_meaning():
    assert normalize_path("/%41%2f%3f%23%25%3B%c3%bc%27%28%29%24") == "/A%2F%3F%23%25%3B%C3%BC'()$"


@pytest.mark.parametrize("words", [
    [], ["--upstream", "localhost:8101"], ["--upstream", "ftp://a/"], ["--upstream", "http://a/?x"],
    ["--upstream", "http://a..b/"], ["--upstream", "http://a/x/../y/"], ["--upstream", "http://a\\b/"],
    ["--upstream", f"http://{'a' * 64}/"], ["--upstream", "http://user@a/"], ["--upstream", "http://a:x/"], ["--upstream", "http:///x/"],
    ["--route", "Orders=http://a/"], ["--route", "/Orders=a"], ["--route", "/Orders=http://a/x/"],
    ["--route", "/x/../y=http://a/y"], ["--upstream", "http://a/", "--route", "/=http://b/"],
    *(["--upstream", "http://a/", *it] for it in (
        ["--width", "0"], ["--width", "10001"], ["--timeout", "0"], ["--batches", "-1"], ["--listen", "x"],
        ["--listen", "1:99999"],
        ["--listen", "a..b:1"], ["--listen", "[::1:1"], ["--listen", "a b:1"], ["--listen", ":"], ["--listen", "a:"],
        ["--metrics", "/health"], ["--metrics", "/health/ready"], ["--upstream", "http://b/"], ["--metrics", "x"], ["--health", "health"], ["--groups", "some"], ["--log", "all"], ["--keep", "nan"], ["--credential", "a b"], ["--no"],
        ["--max-size", "16777217"], ["--max-size", "0"], ["--deadline", "0"], ["--keep-alive", "0"], ["--keep-alive", "x"],
        ["--allow", "a b"], ["--allow", "X-Forwarded-For"], ["--allow", "Host"], ["--allow", "Cookie"],
        ["--allow", "Content-Length"], ["--allow", "Accept-Encoding"], ["--allow", "Connection"],
        ["--allow", "X-Client", "--client-header", "X-Client"],
        ["--send", "Authorization"], ["--send", "a b=/"], ["--send", "Cookie=http://a/"], ["--send", "Cookie=/x/"],
    )),
], ids=" ".join)  # fmt: skip
def test_wrong_arguments(words, capsys):
    with pytest.raises(SystemExit) as ended:
        options_of(words)
    assert ended.value.code == 2 and "usage: python3 -m odb_batch gateway" in capsys.readouterr().err


@pytest.mark.parametrize("text, address", [
    ("8091", ("127.0.0.1", 8091)), (":8091", ("", 8091)), ("[::1]:0", ("::1", 0)), ("::1:0", ("::1", 0)),
    ("my-host.local.:80", ("my-host.local.", 80)), ("0.0.0.0:65535", ("0.0.0.0", 65535)), ("[::]:1", ("::", 1)),
])  # fmt: skip
def test_addresses(text, address):
    found = options_of(["--upstream", "http://a/", "--listen", text, "--metrics", text])
    assert (found.listen, found.metrics) == (address, address)


def test_a_batch_has_no_more_bytes_than_a_run_takes(capsys):
    assert options_of(["--upstream", "http://a/", "--max-size", "16777216"]).max_size == 16_777_216
    with pytest.raises(SystemExit):
        options_of(["--upstream", "http://a/", "--max-size", "16777217"])
    line = capsys.readouterr().err.splitlines()[-1]
    assert line.endswith("error: argument --max-size: '16777217' is not a whole number from 1 to 16777216")


def test_several_services_under_their_own_paths():
    found = options_of([it for url in ("http://a/x@1/", "http://[::1]:80/y") for it in ("--upstream", url)]).routes
    assert [(it.prefix, it.upstream) for it in found] == [("/x@1/", "http://a/x@1/"), ("/y/", "http://[::1]:80/y/")]


def test_the_same_service_behind_two_routes():
    found = options_of(["--route", "/odata/A=http://a/v2/A", "--route", "/odata/B/=http://a/v2/"]).routes
    assert [it.service for it in found] == ["http://a/v2/$batch"] * 2
