"""Which service gets which credentials, what proxies say of a client, and what a client cannot have removed."""

import gzip
import json

import pytest

from support.servers import CONTINUE

SECRETS = {"Authorization": "Bearer 1", "Cookie": "a=b", "X-Api-Key": "k"}
ALL_SECRETS = [*SECRETS, "Api-Key", "ApiKey", "X-Access-Token", "X-Auth-Token"]


@pytest.fixture
def pair(upstream, front):
    """Two services, and what each has seen of headers, by the options of a gateway before them."""
    orders, main = upstream(), upstream()
    routes = ["--route", f"/odata/Orders={orders.url}/v2/Orders", "--upstream", main.url]

    def ask(*words, **headers):
        named = {name.replace("_", "-"): value for name, value in headers.items()}
        it = front(*routes, *words)
        assert it.statuses({"url": "Orders"}, {"url": "Books"}, headers={**CONTINUE, **named}) == [200, 200]
        return orders.seen[-1].headers, main.seen[-1].headers

    return ask


def names(headers, wanted=SECRETS):
    return {name for name in map(str.lower, wanted) if name in headers}


def test_of_several_services_none_gets_credentials(pair):
    orders, main = pair(**{name.replace("-", "_"): "1" for name in ALL_SECRETS})
    assert (names(orders, ALL_SECRETS), names(main, ALL_SECRETS)) == (set(), set())


@pytest.mark.parametrize("more", [{}, {"method": "post", "atomicityGroup": "g"}], ids=["alone", "group"])
def test_of_several_services_none_gets_a_credential_of_a_request(upstream, front, more):
    service = upstream(lambda seen: answered(seen) if seen.path.endswith("$batch") else usual(seen))
    it = front("--upstream", service.url, "--route", "/else/=http://127.0.0.1:1/", "--allow", "X-Api-Key",
               "--groups", "forward")  # fmt: skip
    assert it.statuses({"url": "Books", "headers": {"X-Api-Key": "k", "X-Request-ID": "1"}, **more}) == [204 if more else 200]
    (seen,) = service.seen
    sent = json.loads(seen.body)["requests"][0]["headers"] if more else seen.headers
    assert names(sent, ["X-Api-Key", "X-Request-ID"]) == {"x-request-id"}


def test_one_service_gets_all_credentials(upstream, front):
    service = upstream()
    routes = [word for name in ("Orders", "Lines") for word in ("--route", f"/odata/{name}={service.url}/{name}")]
    it = front(*routes)
    it.statuses({"url": "Orders"}, {"url": "Lines"}, headers={**CONTINUE, **SECRETS})
    assert [names(seen.headers) for seen in service.seen] == [{"authorization", "cookie", "x-api-key"}] * 2


def test_options_say_which_service_gets_a_credential(pair):
    sent = ("authorization=/odata/Orders", "Cookie=/", "X-Own=/", "X-Own=/odata/Orders")
    words = [word for text in sent for word in ("--send", text)]
    secrets = {"Authorization": "Bearer 1", "Cookie": "a=b", "X_Api_Key": "k", "X_Own": "1", "X_Other": "1"}
    orders, main = pair(*words, **secrets)
    named = [*SECRETS, "X-Own", "X-Other"]
    assert names(orders, named) == {"authorization", "x-own", "x-other"}
    assert names(main, named) == {"cookie", "x-own", "x-other"}


def test_a_credential_that_an_option_names(pair):
    orders, main = pair("--credential", "X-Token", X_Token="1", X_Other="1")
    assert [names(seen, ["X-Token", "X-Other"]) for seen in (orders, main)] == [{"x-other"}] * 2


@pytest.mark.parametrize("urls", [("Orders", "Lines"), ("Lines", "Orders")])
def test_a_group_has_the_credentials_that_all_of_its_routes_get(upstream, front, urls):
    service = upstream(lambda seen: answered(seen))
    routes = [word for name in ("Orders", "Lines") for word in ("--route", f"/odata/{name}={service.url}/v2/{name}")]
    sent = ["--send", "Cookie=/odata/Orders", "--send", "Cookie=/odata/Lines", "--send", "Authorization=/odata/Lines"]
    post = {"method": "post", "atomicityGroup": "g"}
    it = front(*routes, *sent, "--groups", "forward")
    it.statuses(*({"url": url, **post} for url in urls), headers={**CONTINUE, **SECRETS})
    assert [names(seen.headers) for seen in service.seen] == [{"cookie"}]


def usual(seen):
    from support import gateways

    return gateways.usual(seen)


def answered(seen):
    from aiohttp import web

    found = [{"id": it["id"], "status": 204, "atomicityGroup": "g"} for it in json.loads(seen.body)["requests"]]
    return web.json_response({"responses": found})


def test_the_start_says_that_credentials_are_held_back(upstream, running):
    first, second = upstream(), upstream()
    routes = ["--upstream", first.url + "/a/", "--upstream", second.url + "/b/"]
    wanted = "level=info there are several services, and none gets Authorization, Cookie and the like: see --send"
    assert running(*routes).stop(15)[1].splitlines()[0].partition(" ")[2] == wanted
    assert wanted not in running(*routes, "--send", "Cookie=/a/").stop(15)[1]
    assert wanted not in running(*routes[:2]).stop(15)[1]


PROXIES = {
    "Proxy-Authorization": "Basic x", "Forwarded": "for=1.2.3.4;host=evil", "X-Real-IP": "1.2.3.4",
    "X-Forwarded-Port": "1", "X-Forwarded-Server": "evil", "X-Forwarded-Prefix": "/evil",
}  # fmt: skip


def test_what_proxies_say_is_the_gateways_own(upstream, front):
    service = upstream()
    it = front("--upstream", service.url)
    headers = {**CONTINUE, **PROXIES, "X-Forwarded-For": "5.6.7.8", "X-Forwarded-Host": "public"}
    headers["X-Forwarded-Proto"] = "https"
    assert it.statuses({"url": "x"}, {"url": "http://evil/odata/x"}, headers=headers) == [200, 404]
    (seen,) = service.seen
    assert names(seen.headers, PROXIES) == set()
    written = [seen.headers[f"x-forwarded-{name}"] for name in ("for", "host", "proto")]
    assert written == ["5.6.7.8, 127.0.0.1", "public", "https"]


def test_what_a_client_cannot_have_removed(upstream, front):
    service = upstream()
    headers = {**CONTINUE, **SECRETS, "X-Forwarded-For": "5.6.7.8", "X-Forwarded-Host": "a", "X-Hop": "1"}
    names_of = "X-Forwarded-For, x-forwarded-host, Host, Authorization, Cookie, x-api-key, Content-Type, X-Hop"
    it = front("--upstream", service.url)
    assert it.statuses({"url": "x"}, headers={**headers, "Connection": names_of}) == [200]
    seen = service.seen[0].headers
    assert names(seen) == {"authorization", "cookie", "x-api-key"} and "x-hop" not in seen
    assert (seen["x-forwarded-for"], seen["x-forwarded-host"]) == ("5.6.7.8, 127.0.0.1", "a")


def test_a_client_cannot_have_the_host_removed_that_it_has_asked(upstream, front):
    """By it URLs are read that have a host, and services learn under which one they are known."""
    service = upstream()
    it = front("--upstream", service.url)
    headers = {**CONTINUE, "Host": "public", "Connection": "Host, X-Forwarded-Proto", "X-Forwarded-Proto": "https"}
    assert it.statuses({"url": "http://public/x"}, {"url": "http://localhost/x"}, headers=headers) == [200, 404]
    seen = service.seen[0].headers
    assert (seen["x-forwarded-host"], seen["x-forwarded-proto"]) == ("public", "https")


def test_a_client_cannot_have_removed_what_an_option_sends(upstream, front):
    service = upstream()
    it = front("--upstream", service.url, "--send", "X-Own=/")
    assert it.statuses({"url": "x"}, headers={**CONTINUE, "X-Own": "1", "Connection": "X-Own"}) == [200]
    assert names(service.seen[0].headers, ["X-Own"]) == {"x-own"}


@pytest.mark.parametrize("coding", ["gzip", "deflate", "br", "Identity, gzip"])
def test_a_batch_that_is_compressed_is_refused(upstream, running, coding):
    service = upstream()
    it = running("--upstream", service.url)
    batch = gzip.compress(json.dumps({"requests": [{"id": "a", "method": "get", "url": "x"}]}).encode())
    status, headers, text = it.ask("POST", "/odata/$batch", batch, {**CONTINUE, "Content-Encoding": coding})
    assert (status, json.loads(text)["error"]["code"], service.seen) == (415, "BadEncoding", [])
    assert headers["accept-encoding"] == "identity"


def test_a_batch_with_the_coding_identity(upstream, front):
    it = front("--upstream", upstream().url)
    assert it.statuses({"url": "x"}, headers={**CONTINUE, "Content-Encoding": "Identity"}) == [200]
