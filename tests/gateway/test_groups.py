"""Atomicity groups through the gateway: refused, or sent as a batch to the one service of their requests."""

import json

import pytest

from odb_batch import Fault, check, match
from support.servers import JSON


def group(*given, name="g"):
    return [{"method": "post", "atomicityGroup": name, **it} for it in given]


def responses(*given):
    from aiohttp import web

    document = {"responses": [{"atomicityGroup": "g", **it} for it in given]}
    return web.Response(body=json.dumps(document).encode(), content_type="application/json")


def batching(*given):
    """Answers batches so, and other requests in the usual way."""
    from support.gateways import usual

    return lambda seen: responses(*given) if seen.path.endswith("$batch") else usual(seen)


def test_groups_are_refused_as_a_whole(upstream, front):
    service = upstream()
    document = json.dumps({"requests": [{"id": "a", **it} for it in group({"url": "Books"})]})
    status, _, text = front("--upstream", service.url).ask("POST", "/odata/$batch", document, JSON)
    assert (status, json.loads(text)["error"]["code"], service.seen) == (501, "NoGroups", [])


@pytest.mark.parametrize(
    "headers", [JSON, {**JSON, "Prefer": "continue-on-error, return=minimal"}], ids=["stop", "continue"]
)
def test_a_group_is_forwarded_as_a_batch(upstream, front, headers):
    places = {"location": "/v2/Orders(1)", "content-type": "application/json"}
    made = {"id": "r1", "status": 201, "headers": places, "body": {"n": 1}}
    orders, main = upstream(batching(made, {"id": "r2", "status": 204}, {"id": "r3", "status": 200})), upstream()
    words = ["--send", "Authorization=/odata/Orders", "--groups", "forward"]
    it = front("--route", f"/odata/Orders={orders.url}/v2/Orders", "--upstream", main.url, *words)
    found = it.batch(
        {"method": "post", "url": "Books", "body": 1},
        *group(
            {"url": "Orders?x=1", "body": {"n": 1.5}, "dependsOn": ["r0"]},
            {
                "method": "patch",
                "url": "$r1",
                "headers": {"If-Match": "$r1", "Prefer": "x"},
                "body": 2,
                "dependsOn": ["r0", "r1"],
            },
            {"method": "get", "url": "Orders('a:b')"},
        ),
        {"url": "$r1/Lines", "dependsOn": ["g"]},
        headers={**headers, "Authorization": "Bearer 1"},
    )
    assert [it["status"] for it in found.values()] == [201, 201, 204, 200, 200]
    assert found["r1"]["headers"]["location"] == "/odata/Orders(1)"
    sent, after = orders.seen
    assert (sent.path, after.path) == ("/v2/$batch", "/v2/Orders(1)/Lines")
    assert (sent.headers["authorization"], sent.headers["content-type"]) == ("Bearer 1", "application/json")
    minimal = ["return=minimal"] * ("Prefer" in headers)
    assert sent.headers["prefer"] == ", ".join(["continue-on-error", *minimal])
    own = {"if-match": "$r1", "prefer": ", ".join(["x", *minimal])}
    assert json.loads(sent.body) == {"requests": [
        {"id": "r1", "atomicityGroup": "g", "method": "post", "url": "Orders?x=1", "body": {"n": 1.5}},
        {"id": "r2", "atomicityGroup": "g", "method": "patch", "url": "$r1", "dependsOn": ["r1"], "headers": own,
         "body": 2},
        {"id": "r3", "atomicityGroup": "g", "method": "get", "url": "Orders('a:b')"},
    ]}  # fmt: skip


def test_what_a_group_is_answered_is_answered_by_a_run_by_units(upstream, front):
    service = upstream(batching({"id": "r1", "status": 409}, {"id": "r2", "status": 500}))
    members = group({"url": "Orders"}, {"url": "Lines", "dependsOn": ["r1"]})
    requests = [{"method": "get", "url": "Books"}, *members, {"method": "get", "url": "Books", "dependsOn": ["g"]}]
    it = front("--upstream", service.url + "/odata/", "--groups", "forward")
    found = it.batch(*requests)
    assert [it["status"] for it in found.values()] == [200, 409, 500, 424]
    batch = {"requests": [{"id": f"r{i}", **request} for i, request in enumerate(requests)]}
    answered = {"responses": list(found.values())}
    with pytest.raises(Fault, match="F78 NotStarted /requests/2"):
        match(batch, answered, strict=True)
    assert match(batch, answered, strict="units") == {"r0": 200, "r1": 409, "r2": 500, "r3": 424}


def test_a_group_of_two_services_is_not_sent(upstream, front):
    first, second = upstream(), upstream()
    it = front("--route", f"/odata/Orders={first.url}/Orders", "--upstream", second.url, "--groups", "forward")
    found = it.batch(
        *group({"url": "Orders"}, {"url": "Books"}), {"url": "Books"}, {"url": "Books", "dependsOn": ["g"]}
    )
    assert [it["status"] for it in found.values()] == [501, 501, 200, 424]
    assert found["r0"]["body"]["error"]["code"] == "SeveralServices"
    assert (first.seen, second.paths) == ([], ["/odata/Books"])


def test_two_routes_to_one_service_are_one(upstream, front):
    service = upstream(batching({"id": "r0", "status": 201}, {"id": "r1", "status": 201}))
    routes = [it for name in ("Orders", "Lines") for it in ("--route", f"/odata/{name}={service.url}/v2/{name}")]
    assert front(*routes, "--groups", "forward").statuses(*group({"url": "Orders"}, {"url": "Lines"})) == [201, 201]
    assert service.paths == ["/v2/$batch"]


@pytest.mark.parametrize("bad, statuses", [
    ({"url": "../x"}, [424, 404]), ({"url": "http://evil/x"}, [424, 404]),
    ({"url": "x", "headers": {"X-Own": "1"}}, [424, 400]),
    *(({"url": f"$r0/{rest}", "dependsOn": ["r0"]}, [424, 404]) for rest in ("../../x", "%2e%2E/x", "a\\..;/x", "..?x")),
])  # fmt: skip
def test_a_group_with_a_request_that_may_not_be_sent_is_not(upstream, front, bad, statuses):
    service = upstream()
    it = front("--upstream", service.url + "/odata/", "--groups", "forward")
    assert (it.statuses(*group({"url": "Books"}, bad)), service.seen) == (statuses, [])


@pytest.mark.parametrize("path, inside", [
    ("/a:b", "/odata/a:b"), ("/$x", "/odata/$x"), ("/%24x", "/odata/$x"), ("//x", "/odata//x"), ("/x/$y", "x/$y"),
    ("/?a=1", "/odata/?a=1"), ("/X('a:b')", "X('a:b')"),
])  # fmt: skip
def test_urls_of_a_group_that_would_be_read_otherwise(upstream, front, path, inside):
    service = upstream(batching({"id": "r0", "status": 200}))
    it = front("--upstream", service.url + "/odata/", "--groups", "forward")
    assert it.statuses(*group({"url": "/odata" + path})) == [200]
    assert json.loads(service.seen[0].body)["requests"][0]["url"] == inside
    try:
        check(service.seen[0].body)
    except Fault as fault:
        pytest.fail(str(fault))


@pytest.mark.parametrize("kind, statuses", [
    ("hang-up", [502, 502]), ("half", [502, 502]), ("hang", [504, 504]), ("html", [502, 502]), ("big", [502, 502]),
    ("missing", [502, 502]), ("elsewhere", [302, 302]),
])  # fmt: skip
def test_services_that_break_within_a_group(upstream, front, monkeypatch, kind, statuses):
    from support.gateways import ODD

    service = upstream()
    monkeypatch.setitem(ODD, "$batch", ODD[kind])
    it = front("--upstream", service.url, "--groups", "forward", "--timeout", "2", "--max-size", "200000")
    assert it.statuses(*group({"url": "a"}, {"url": "b"}), {"url": "c", "dependsOn": ["g"]}, {"url": "d"}) == [
        *statuses,
        424,
        200,
    ]


@pytest.mark.parametrize("status", [404, 405])
def test_a_service_without_batch(upstream, front, status):
    from aiohttp import web

    service = upstream(lambda seen: web.Response(status=status, text="<h1>no", content_type="text/html"))
    it = front("--upstream", service.url + "/v2/", "--groups", "forward")
    found = it.batch(*group({"url": "/v2/a"}, {"url": "/v2/b"})).values()
    assert [response["status"] for response in found] == [502, 502]
    for response in found:
        error = response["body"]["error"]
        assert (error["code"], error["message"]) == ("NoBatch", f"There is no $batch at {service.url}/v2/$batch")


def test_an_error_of_others_while_a_group_is_out(upstream, front):
    """In mode stop the members of a group that is out are answered by their service."""
    service = upstream(batching({"id": "r0", "status": 201}, {"id": "r1", "status": 201}))
    it = front("--upstream", service.url, "--groups", "forward")
    found = it.statuses(
        *group({"url": "a"}, {"url": "b"}), {"url": "missing"}, {"url": "c", "dependsOn": ["g"]}, headers=JSON
    )
    assert found == [201, 201, 404, 424]
