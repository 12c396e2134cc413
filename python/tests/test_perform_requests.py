"""What is sent where a batch is performed by a function: references and bodies."""

import json

import pytest

from odb_batch import Answer, PreparedRequest
from support.performing import answering, gets, shown


class TestReferences:
    @pytest.mark.parametrize("location, wanted", [
        ("http://h/odata/Orders(7)", "http://h/odata/Orders(7)/Lines?$top=1"),
        ("Orders(7)", "http://h/odata/Orders(7)/Lines?$top=1"),
        ("/odata/Orders(7)/", "http://h/odata/Orders(7)/Lines?$top=1"),
        ("Orders(7)?api-version=2#x", "http://h/odata/Orders(7)/Lines?$top=1"),
    ])  # fmt: skip
    @pytest.mark.parametrize("roots", [None, ()])
    def test_stand_for_the_location(self, driver, location, wanted, roots):
        urls = []

        def send(request):
            urls.append(request.url)
            return 201, {"Location": location}

        batch = [
            {"id": "o", "method": "post", "url": "Orders", "body": {}},
            {"id": "l", "method": "get", "url": "$o/Lines?$top=1", "dependsOn": ["o"]},
            {"id": "m", "method": "get", "url": "$metadata"},
        ]
        driver({"requests": batch}, send, base="http://h/odata/", roots=roots)
        assert urls == ["http://h/odata/Orders", wanted, "http://h/odata/$metadata"]

    @pytest.mark.parametrize("method, headers, body, wanted", [
        ("post", {"OData-EntityId": "Orders(1)"}, None, "http://h/odata/Orders(1)"),
        ("post", {}, {"@id": "Orders(2)"}, "http://h/odata/Orders(2)"),
        ("post", {}, {"@odata.id": "Orders(3)"}, "http://h/odata/Orders(3)"),
        ("post", {}, {"@id": "Orders(4)", "@context": "http://h/odata/v4/$metadata"}, "http://h/odata/v4/Orders(4)"),
        ("post", {}, b'{"@id": "Orders(5)"}', "http://h/odata/Orders(5)"),
        ("get", {}, {"Id": 7}, "http://h/odata/Copies"),
        ("put", {}, None, "http://h/odata/Copies"),
        ("post", {}, {"@id": 7}, None), ("post", {}, b"{", None), ("post", {}, None, None), ("post", {}, [], None),
        ("post", {"Location": "http://[x"}, None, None), ("post", {"Location": "Copies\r(1)"}, None, None),
        ("post", {"Location": "Copies\nHost: evil"}, None, None), ("post", {"Location": "Copies\0(1)"}, None, None),
        pytest.param("post", {"Location": "x" * 1_000_000}, None, "http://h/odata/" + "x" * 1_000_000, id="a megabyte"),
    ])  # fmt: skip
    def test_stand_for_what_was_created_or_returned(self, driver, method, headers, body, wanted):
        urls = []

        def send(request):
            urls.append(request.url)
            return 200, headers, body

        batch = [
            {"id": "o", "method": method, "url": "Copies?$select=Id"},
            {"id": "l", "method": "get", "url": "$o", "dependsOn": ["o"]},
        ]
        found = shown(driver({"requests": batch}, send, base="http://h/odata/"))
        assert urls[1:] == ([wanted] if wanted else [])
        assert found["l"] == (200 if wanted else 404 if headers else 424)

    @pytest.mark.parametrize("headers, body, wanted", [
        ({"ETag": 'W/"1"'}, {"@etag": "no"}, 'W/"1"'), ({}, {"@etag": '"2"'}, '"2"'), ({}, {"@odata.etag": '"3"'}, '"3"'), ({}, None, None),
    ])  # fmt: skip
    def test_to_tags(self, driver, headers, body, wanted):
        seen = []

        def send(request):
            seen.append(request.headers.get("if-match"))
            return 200, headers, body

        batch = [
            {"id": "a", "method": "get", "url": "A"},
            {"id": "b", "method": "delete", "url": "A", "dependsOn": ["a"], "headers": {"If-Match": "$a"}},
        ]
        found = shown(driver({"requests": batch}, send))
        assert (seen[1:], found["b"]) == ([wanted], 200) if wanted else ([], 424)

    def test_read_an_answer_once_however_many_refer_to_it(self, driver, monkeypatch):
        """The body may be long, and of one that has no tag it is the whole body that is read."""
        read = []
        monkeypatch.setattr("odb_batch.driver.references.body_members", lambda answer: read.append(answer) or {})
        more = {"method": "patch", "url": "$a", "dependsOn": ["a"], "headers": {"If-Match": "$a"}}
        found = shown(driver({"requests": [*gets("a")["requests"], *({"id": id, **more} for id in "bcd")]}, answering({})))
        assert found == {"a": 200, **dict.fromkeys("bcd", 424)}
        assert len(read) == 2  # for its URL and for its tag

    def test_to_the_tag_of_what_is_not_in_depends_on(self, driver):
        batch = [
            {"id": "b", "method": "delete", "url": "A", "headers": {"If-Match": "$a"}},
            {"id": "a", "method": "get", "url": "A"},
            {"id": "c", "method": "delete", "url": "A", "headers": {"If-Match": "$nobody"}},
        ]
        assert shown(driver({"requests": batch}, answering({}))) == {"b": 400, "a": 200, "c": 200}

    @pytest.mark.parametrize("url, wanted", [
        ("Books", "http://h/odata/Books"), ("/odata/Books", "http://h/odata/Books"), ("http://H/odata/Books", "http://h/odata/Books"),
        ("", "http://h/odata/"), ("Bücher('a b')?$filter=a eq 'ü'#x", "http://h/odata/B%C3%BCcher('a%20b')?$filter=a%20eq%20'%C3%BC'"),
        ("%zz", "http://h/odata/%zz"), ("A/B", "http://h/odata/A/B"), ("A('%2F')", "http://h/odata/A('%2F')"),
        ("A('b//c')", "http://h/odata/A('b//c')"), ("A//", "http://h/odata/A//"),
        ("/admin", None), ("../admin", None), ("%2e%2e/admin", None), ("..%2fadmin", None), ("..%5cadmin", None), ("a/..;x/admin", None),
        ("//169.254.169.254/odata/", None), ("http://169.254.169.254/", None), ("http://h@evil/odata/", None), ("https://h/odata/A", None),
        ("http://h:81/odata/A", None), ("/ODATA/A", None), ("/odata", None), ("A%0d%0aB", None), ("file:///etc/passwd", None), ("http://[x", None),
    ])  # fmt: skip
    def test_nothing_is_sent_outside_of_the_base(self, driver, url, wanted):
        sent = []
        batch = {"requests": [{"id": "a", "method": "get", "url": url}]}
        found = shown(driver(batch, lambda it: sent.append(it.url) or (200,), base="http://h/odata/"))
        assert sent == ([wanted] if wanted else [])
        assert found["a"] == (200 if wanted else 404)

    def test_a_location_outside_is_not_followed(self, driver):
        batch = [
            {"id": "o", "method": "post", "url": "O"},
            {"id": "l", "method": "get", "url": "$o", "dependsOn": ["o"]},
        ]
        send = lambda it: (201, {"Location": "http://169.254.169.254/odata/O(1)"})
        assert shown(driver({"requests": batch}, send, base="http://h/odata/")) == {"o": 201, "l": 404}
        roots = ["http://h/odata/", "http://169.254.169.254/odata/"]
        for more in (roots, (), roots[1:]):
            found = shown(driver({"requests": batch}, send, base="http://h/odata/", roots=more))
            assert found == ({"o": 201, "l": 201} if roots[0] in more or not more else {"o": 404, "l": 424})


class TestBodies:
    def test_a_body_that_is_too_long_for_a_response(self, driver):
        long = Answer(200, {"Content-Type": "application/json"}, b'"%s"' % (b"x" * 16_777_216))
        requests = [{"id": "a", "method": "get", "url": "A"}, {"id": "b", "method": "post", "url": "B"}]
        batch = {"requests": [*requests, {"id": "c", "method": "get", "url": "C", "dependsOn": ["b"]}]}
        response = driver(batch, lambda request: Answer(204) if request.id == "c" else long)
        found = {it["id"]: it for it in json.loads(response)["responses"]}
        assert {id: it["status"] for id, it in found.items()} == {"a": 507, "b": 200, "c": 204}
        assert "body" not in found["b"] and found["a"]["body"]["error"]["code"] == "TooLong"

    def test_numbers_and_bytes_are_not_touched(self, driver):
        batch = """{"requests":[
            {"id":"a","method":"post","url":"A","body":{"p":9.990,"n":12345678901234567890123.25,"e":1E3}},
            {"id":"t","method":"post","url":"A",
             "headers":{"Content-Type":"text/plain; charset=latin-1"},"body":"Gr\\u00fc\\u00dfe"},
            {"id":"b","method":"put","url":"A","headers":{"Content-Type":"image/png"},"body":"_-8"},
            {"id":"c","method":"post","url":"A",
             "headers":{"Content-Type":"text/plain; charset=ascii"},"body":"\\u00fc"},
            {"id":"d","method":"post","url":"A","headers":{"Content-Type":"text/plain; charset=nobody"},"body":"a"}]}"""
        answers = {
            "a": Answer(
                201, {"Content-Type": "application/json"}, b'{"Price": 19.990, "big": 12345678901234567890123}'
            ),
            "t": Answer(200, {"Content-Type": "text/html; charset=iso-8859-1"}, "é".encode("latin-1")),
            "b": Answer(200, {"Content-Type": "image/png"}, bytes([255, 239])),
        }
        sent = {}
        response = driver(batch, lambda request: sent.update({request.id: request}) or answers[request.id])
        assert {id: it.body for id, it in sent.items()} == {
            "a": b'{"p":9.990,"n":12345678901234567890123.25,"e":1E3}', "t": "Grüße".encode("latin-1"), "b": bytes([255, 239]),
        }  # fmt: skip
        assert b'"body":{"Price": 19.990, "big": 12345678901234567890123}' in response
        found = json.loads(response)["responses"]
        assert [it.get("body") for it in found[1:3]] == ["é", "_-8"]
        assert [it["status"] for it in found[3:]] == [400, 400]

    @pytest.mark.parametrize("headers, body, wanted", [
        ({"content-type": "application/json"}, b'{"a": NaN}', '{"a": NaN}'),
        ({"content-type": "application/json"}, b"<html>", "<html>"),
        ({"content-type": "application/json"}, b"\xff", "\xff"),
        ({"content-type": "application/json"}, b'\xef\xbb\xbf{"a": 1}', {"a": 1}),
        ({"content-type": "application/json"}, b"[" * 200 + b"]" * 200, "[" * 200 + "]" * 200),
        ({"content-type": "application/problem+json"}, b"[1]", [1]),
        ({"content-type": "text/plain; charset=nobody"}, b"\xe9", "é"),
        ({"content-type": "text/plain"}, b"\xe9", "é"),
        ({"content-type": "text/plain"}, "é".encode(), "é"),
        ({}, b"1", 1), ({}, b"plain", "plain"), ({}, b"", None), ({}, None, None), ({}, "text", "text"), ({}, {"a": [1.5]}, {"a": [1.5]}),
        ({}, bytearray(b"1"), 1),
    ], ids=range(16))  # fmt: skip
    def test_of_answers(self, driver, headers, body, wanted):
        [found] = json.loads(driver(gets("a"), lambda it: (200, headers, body)))["responses"]
        assert found.get("body") == wanted

    @pytest.mark.parametrize("name", ["punycode", "PunyCode", "idna"])
    def test_encodings_of_host_names_are_no_character_sets(self, driver, name):
        """Their time grows with the square of the text, so a small batch would take hours."""
        headers = {"content-type": f"text/plain; charset={name}"}
        batch = [{"id": "a", "method": "post", "url": "A", "headers": headers, "body": "\xfc"}, *gets("b")["requests"]]
        found = json.loads(driver({"requests": batch}, lambda it: (200, headers, b"tda")))["responses"]
        assert (found[0]["status"], found[1]["body"]) == (400, "tda")

    def test_headers_of_a_connection_are_not_shown(self, driver):
        headers = {
            "Set-Cookie": "a=b",
            "Content-Length": "1",
            "Date": "now",
            "ETag": '"1"',
            "Connection": "close",
            "X-Y": "z",
        }
        [found] = json.loads(driver(gets("a"), lambda it: (200, headers)))["responses"]
        assert found["headers"] == {"etag": '"1"', "x-y": "z"}

    def test_what_is_sent(self, driver):
        sent = []
        batch = {"requests": [{"id": "a", "method": "Patch", "url": "A", "headers": {"X-Y": "z"}, "body": {"b": 1}}]}
        driver(batch, lambda it: sent.append(it) or (200,))
        assert sent == [
            PreparedRequest("a", "PATCH", "A", {"x-y": "z", "content-type": "application/json"}, b'{"b":1}', None)
        ]
