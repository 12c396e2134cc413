"""The small services of examples/frameworks over HTTP: requests of a batch, references, conditions, groups and
refusals.
"""

import json
import secrets

import pytest

from support.servers import CONTINUE, JSON


def book(id, group=None, **more):
    found = {"method": "post", "url": "Books", "body": {"Id": id, "Title": f"The {id}"}, **more}
    return {**found, "atomicityGroup": group} if group else found


def names(count=1):
    return [f"b{secrets.token_hex(4)}" for _ in range(count)]


def test_other_requests_are_as_they_were(server):
    assert server.ask("GET", "/odata/Books")[0] == 200
    assert server.ask("GET", "/odata/Books('no')")[0] == 404


def test_references_and_conditions(server):
    (name,) = names()
    needs = lambda *ids: {"dependsOn": list(ids)}
    change = lambda title: {"method": "patch", "url": "$r0", "headers": {"If-Match": "$r1"}, "body": {"Title": title}}
    found = server.batch(
        book(name),
        {"url": "$r0", **needs("r0")},
        {**change("Emma"), **needs("r1", "r0")},
        {**change("Late"), **needs("r2", "r1", "r0")},
        {"url": f"/odata/Books('{name}')", **needs("r2")},
        {"url": f"{server.url}Books('{name}')", **needs("r2")},
        {"method": "delete", "url": "$r0", **needs("r4", "r5", "r0")},
        {"url": "$r0", **needs("r6", "r0")},
    )
    assert [it["status"] for it in found.values()] == [201, 200, 204, 412, 200, 200, 204, 404]
    assert found["r4"]["body"] == {"Id": name, "Title": "Emma"} == found["r5"]["body"]
    assert "body" not in found["r2"]


def test_groups_are_whole(server):
    a, b, c, d = names(4)
    assert server.statuses(book(a, "g"), book(b, "g"), {"url": f"Books('{b}')", "dependsOn": ["g"]}) == [201, 201, 200]
    assert server.statuses(book(c, "g"), book(a, "g"), {"url": "Books", "dependsOn": ["g"]}) == [424, 409, 424]
    assert server.statuses(book(a, "g"), book(d, "g"), {"url": "Books", "dependsOn": ["g"]}) == [409, 424, 424]
    assert server.statuses({"url": f"Books('{c}')"}, {"url": f"Books('{d}')"}) == [404, 404]


def test_a_group_sees_what_it_has_done(server):
    (name,) = names()
    group = {"atomicityGroup": "g"}
    found = server.batch(
        book(name, "g"),
        {"url": "$r0", **group, "dependsOn": ["r0"]},
        {
            "method": "patch",
            "url": "$r0",
            **group,
            "dependsOn": ["r0", "r1"],
            "headers": {"If-Match": "$r1"},
            "body": {"Title": "New"},
        },
        {"url": f"Books('{name}')", **group, "dependsOn": ["r2"]},
    )
    assert [it["status"] for it in found.values()] == [201, 200, 204, 200]
    assert found["r3"]["body"]["Title"] == "New"


def test_stops_at_the_first_error_without_the_preference(server):
    missing, present = {"url": "Books('no')"}, {"url": "Books", "dependsOn": []}
    after = [missing, *[present] * 40]
    assert server.statuses(*after, headers=CONTINUE)[1:] == [200] * 40
    assert server.statuses(*after, headers=JSON)[-1] == 424


@pytest.mark.parametrize("method, body, headers, status", [
    ("POST", '{"requests": 7}', JSON, 400), ("POST", "--b--", {"Content-Type": "multipart/mixed; boundary=b"}, 415),
    ("POST", "{}", {"Content-Type": "text/plain"}, 415), ("GET", None, {}, 405), ("PUT", "{}", JSON, 405),
    ("POST", b" " * 16_777_217, JSON, 413),
    ("POST", '{"requests":[{"id":"1","method":"post","url":"/odata/$batch"}]}', JSON, 400),
    ("POST", [b'{"requests":[{"id":"1","method":"get",', b'"url":"Books"}]}'], JSON, 200),
], ids=range(8))  # fmt: skip
def test_what_is_not_a_batch(server, method, body, headers, status):
    found, _, text = server.ask(method, "/odata/$batch", body, headers)
    assert found == status
    assert found == 200 or set(json.loads(text)["error"]) >= {"code", "message"}


def test_urls_that_lead_out(server):
    urls = [
        "/other",
        "../admin",
        "/odata/%2e%2e/admin",
        "//evil/odata/Books",
        "http://evil/odata/Books",
        "/ODATA/Books",
    ]
    assert server.statuses(*({"url": url} for url in urls)) == [404] * len(urls)


def test_headers_that_a_proxy_would_set(server):
    assert server.statuses({"url": "Books", "headers": {"X-Forwarded-For": "127.0.0.1"}}) == [400]
