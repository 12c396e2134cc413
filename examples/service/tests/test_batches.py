"""What a batch does to the library, and what it is answered."""

import json
import os

import pytest

from common import BATCH_URL, CONTINUE, JSON, ROOT, ServiceTest, new_book, request, rows
from odb_batch import match


def example(name):
    """The bytes of a document of examples/."""
    with open(os.path.join(ROOT, "examples", f"{name}.json"), "rb") as file:
        return file.read()


class TestExamples(ServiceTest):
    def test_answers_each_batch_of_the_examples(self):
        for name, wanted in [
            ("batch_usual", {"book": 200, "mark": 204, "loan": 201, "list": 200}),
            ("batch_usual", {"book": 200, "mark": 424, "loan": 409, "list": 424}),
            ("batch_references", {"order": 404, "line": 424, "stock": 404}),
        ]:
            status, value = self.client.ask("POST", BATCH_URL, example(name), CONTINUE)
            assert (status, match(example(name), value)) == (200, wanted), name

    @pytest.mark.parametrize("name, code, begins, place", [
        ("batch_too_early", "F41", 'bill: "order" in dependsOn does not come before it. ForwardName: ', "/requests/0"),
        ("batch_wrong_body", "F21", "note: BadBody: ", "/requests/1"),
    ])  # fmt: skip
    def test_refuses_the_other_batches_of_the_examples(self, name, code, begins, place):
        status, value = self.client.ask("POST", BATCH_URL, example(name))
        error = value["error"]
        assert (status, error["code"], error["target"]) == (400, code, place)
        assert error["message"].startswith(begins)


class TestGroups(ServiceTest):
    @pytest.mark.parametrize("failing", range(4))
    def test_a_group_that_fails_at_any_member_leaves_no_row(self, failing):
        books = [f"f{failing}-{i}" if i != failing else "dune" for i in range(4)]
        found = self.client.statuses(*(new_book(f"r{i}", book, "g") for i, book in enumerate(books)))
        assert list(found.values()) == [409 if i == failing else 424 for i in range(4)]
        assert [id for id, *_ in rows(self.database) if id.startswith("f")] == []

    def test_a_group_sees_its_own_rows_and_nobody_else_does(self):
        found = self.client.batch(
            new_book("made", "mine", "g"),
            request("seen", "get", "$made", group="g", needs=["made"]),
            new_book("wrong", "emma", "g", needs=["seen"]),
            request("after", "get", "Books('mine')"),
        )
        assert [it["status"] for it in found.values()] == [424, 424, 409, 404]

    def test_what_needs_a_group_is_performed_after_its_commit(self):
        found = self.client.batch(
            new_book("one", "c1", "g"), new_book("two", "c2", "g"), request("after", "get", "Books('c2')", needs=["g"])
        )
        assert [it["status"] for it in found.values()] == [201, 201, 200]
        assert found["after"]["body"]["Title"] == "c2"

    def test_a_group_of_one_batch_waits_for_that_of_another(self):
        for i in range(5):
            groups = [[new_book(f"{g}{k}", f"w{i}{g}{k}", g) for k in range(3)] for g in "abcd"]
            found = self.client.statuses(*(it for group in groups for it in group))
            assert set(found.values()) == {201}


# The group may begin only after x, though its first member needs nothing.
HELD = (new_book("x", "x1"), new_book("a", "a1", "g"), new_book("b", "b1", "g", needs=["x"]))
# The same, and x is a group that fails.
FAILING = (
    new_book("x", "x1", "h"),
    new_book("y", "dune", "h"),
    new_book("a", "a1", "g"),
    new_book("b", "b1", "g", needs=["h"]),
)
# Two groups that begin at any time and get into each other's way, and a read after one of them.
RIVALS = (
    new_book("a", "a1", "g"),
    new_book("b", "b1", "g"),
    new_book("c", "c1", "h"),
    new_book("d", "a1", "h"),
    request("e", "get", "Books('b1')", needs=["g"]),
)


class TestOrders(ServiceTest):
    """No group holds the one writer while it waits for what waits for the writer."""

    @pytest.fixture(autouse=True)
    def clear(self, connect_client):
        yield
        for id in ("a1", "b1", "c1", "x1"):
            self.client.ask("DELETE", f"/library/Books('{id}')")

    def perform(self, batch, headers):
        statuses = tuple(self.client.statuses(*batch, headers=headers).values())
        return statuses, [id for id, *_ in rows(self.database) if id not in ("dune", "emma")]

    @pytest.mark.parametrize("headers", [CONTINUE, JSON], ids=["continue", "stop"])
    @pytest.mark.parametrize("batch, wanted", [
        (HELD, ((201, 201, 201), ["a1", "b1", "x1"])),
        (FAILING, ((424, 409, 424, 424), [])),
    ], ids=["held", "failing"])  # fmt: skip
    def test_a_group_begins_once_it_needs_nothing_outside(self, batch, wanted, headers):
        assert self.perform(batch, headers) == wanted

    @pytest.mark.parametrize("time", range(5))
    def test_groups_take_turns(self, time):
        found = self.perform(RIVALS, CONTINUE)
        g_first, h_first = ((201, 201, 424, 409, 200), ["a1", "b1"]), ((409, 424, 201, 201, 424), ["a1", "c1"])
        assert found in ([g_first, h_first] if self.options else [g_first])


class TestOrdersInThreads(TestOrders):
    options = {"width": 8}


class TestReferences(ServiceTest):
    def test_a_reference_is_the_location_of_what_was_created(self):
        found = self.client.batch(
            new_book("b", "it's a/b?", needs=[]),
            request("show", "get", "$b", needs=["b"]),
            request("part", "get", "$b/Title", needs=["b"]),
            request("move", "patch", "%24b", {"Shelf": "K1"}, needs=["show", "b"]),
            request("lend", "post", "Loans", {"Book": "it's a/b?", "Reader": 7}, needs=["move"]),
            request("back", "delete", "$lend", needs=["lend"]),
            request("gone", "get", "$lend", needs=["back", "lend"]),
        )
        assert [it["status"] for it in found.values()] == [201, 200, 404, 204, 201, 204, 404]
        assert found["b"]["headers"]["location"] == "/library/Books('it''s%20a%2Fb%3F')"
        assert found["show"]["body"]["Title"] == "it's a/b?"

    def test_a_reference_to_a_get_is_what_it_read(self):
        found = self.client.batch(
            request("read", "get", "Books('dune')"),
            request("change", "patch", "$read", {"Shelf": "R"}, needs=["read"]),
            request("again", "get", "$change", needs=["change"]),
        )
        assert [it["status"] for it in found.values()] == [200, 204, 200], found
        assert found["again"]["body"]["Shelf"] == "R"

    def test_a_reserved_name_is_no_reference(self):
        found = self.client.batch(
            request("removed", "delete", "Books('dune')", headers={"If-Match": '"none"'}),
            request("metadata", "get", "Books"),
            request("reserved", "get", "$metadata", needs=["metadata"]),
        )
        assert [it["status"] for it in found.values()] == [412, 200, 200]
        assert "$EntityContainer" in found["reserved"]["body"]


class TestPreferences(ServiceTest):
    @pytest.mark.parametrize("prefer, continues", [
        (None, False),
        ("continue-on-error", True),
        ("Continue-On-Error=true", True),
        ('return=minimal, odata.continue-on-error="true"', True),
        ("continue-on-error; foo=\"a,b\"", True),
        ("continue-on-error=false", False),
        ("continue-on-error=false, continue-on-error=true", False),
        ("continue-on-errors", False),
    ])  # fmt: skip
    def test_stops_after_an_error_unless_continuing_is_preferred(self, prefer, continues):
        batch = [request("first", "get", "Books"), request("wrong", "get", "Nothing"), request("last", "get", "Books")]
        found = self.client.statuses(*batch, headers={**JSON, **({"Prefer": prefer} if prefer else {})})
        assert list(found.values()) == [200, 404, 200 if continues else 424]
        assert self.client.headers["Preference-Applied"] == ("continue-on-error" if continues else None)

    def test_a_group_that_is_not_over_when_the_run_stops_is_undone(self):
        batch = new_book("a", "s1", "g"), new_book("b", "dune", "g"), new_book("c", "s2", "g"), new_book("d", "s3")
        assert list(self.client.statuses(*batch, headers=JSON).values()) == [424, 409, 424, 424]
        assert list(self.client.statuses(*batch).values()) == [424, 409, 424, 201]
        assert [id for id, *_ in rows(self.database) if id.startswith("s")] == ["s3"]


class TestEntities(ServiceTest):
    def test_answers_single_requests(self):
        book = {"Id": "e1", "Title": "E", "Shelf": None, "Reader": None, "Price": None}
        location = "/library/Books('e1')"
        for method, path, body, status, shown in [
            ("POST", "/library/Books", {"Id": "e1", "Title": "E", "note@x.y": 1}, 201, book),
            ("POST", "/library/Books", {"Id": "e1", "Title": "E"}, 409, None),
            ("GET", "/library/Books('e1')", None, 200, book),
            ("GET", "/library/Books(Id='e1')?x=1", None, 200, book),
            ("PATCH", location, {"Shelf": "A", "Id": "other"}, 204, None),
            ("PATCH", location, {}, 204, None),
            ("GET", location, None, 200, {**book, "Shelf": "A"}),
            ("PUT", location, {"Title": "F"}, 204, None),
            ("GET", location, None, 200, {**book, "Title": "F"}),
            ("POST", "/library/Loans", {"Book": "e1", "Reader": 9}, 201, {"Id": 1, "Book": "e1", "Reader": 9}),
            ("POST", "/library/Loans", {"Book": "nothing", "Reader": 9}, 409, None),
            ("DELETE", location, None, 409, None),
            ("DELETE", "/library/Loans(1)", None, 204, None),
            ("DELETE", location, None, 204, None),
            ("DELETE", location, None, 404, None),
            ("PATCH", location, {}, 404, None),
            ("GET", "/library/Loans(1)", None, 404, None),
            ("GET", "/library/Loans('1')", None, 400, None),
            ("GET", "/library/Books(1)", None, 400, None),
            ("GET", "/library/Books(null)", None, 400, None),
            ("GET", "/library/Books?$top=1", None, 501, None),
            ("GET", "/library/Books('dune')?$select=Title", None, 501, None),
            ("GET", "/library/Books?$filter=startswith(Title,'D')", None, 501, None),
            ("GET", "/library/Books?$filter=Title%20eq%201", None, 400, None),
            ("GET", "/library/Books('dune')/Title", None, 404, None),
            ("GET", "/libraryBooks", None, 404, None),
            ("GET", "/", None, 404, None),
            ("DELETE", "/library/Books", None, 405, None),
            ("POST", "/library/Books('dune')", {}, 405, None),
            ("POST", "/library/$metadata", {}, 405, None),
            ("GET", BATCH_URL, None, 405, None),
            ("POST", "/library/Books", [], 400, None),
            ("POST", "/library/Books", {"Id": "e2"}, 400, None),
            ("POST", "/library/Books", {"Id": "e2", "Title": 7}, 400, None),
            ("POST", "/library/Books", {"Id": "e2", "Title": "E", "Reader": 2**63}, 400, None),
            ("POST", "/library/Books", {"Id": "e2", "Title": "E", "Reader": True}, 400, None),
            ("POST", "/library/Books", {"Id": "e2", "Title": "E", "Readers": 1}, 400, None),
            ("POST", "/library/Books", b'{"Id": "\\ud800", "Title": "E"}', 400, None),
            ("POST", "/library/Books", b'{"Id": "e2", "Title": "E"', 400, None),
            ("POST", "/library/Books", b"[" * 100_000, 400, None),
            ("POST", "/library/Books", b'{"Id": "e2", "Title": "E", "Price": NaN}', 400, None),
            ("POST", "/library/Books", {"Id": "e2", "Title": "E", "Price": "9.99"}, 400, None),
            ("POST", "/library/Books", {"Id": "e2", "Title": "E" * 2**20}, 413, None),
            ("TRACE", "/library/Books", None, 405, None),
            ("GET", "/library/Books('%ff')", None, 400, None),
        ]:
            found, value = self.client.ask(method, path, body)
            assert found == status, (method, path, str(body)[:40], value)
            if shown is not None:
                assert {name: it for name, it in value.items() if "@" not in name} == shown
            elif status >= 400:
                assert {"code", "message"} <= set(value["error"])

    def test_performs_absolute_urls_of_its_own_host_alone(self):
        own = f"http://127.0.0.1:{self.service.port}"
        urls = {f"{own}/library/Books": 200, "http://elsewhere/library/Books": 404, f"{own}/Books": 404}
        found = self.client.statuses(*(request(f"r{k}", "get", url) for k, url in enumerate(urls)))
        assert list(found.values()) == list(urls.values())

    def test_lists_and_filters(self):
        status, value = self.client.ask("GET", "/library/Books?$filter=Title%20eq%20'Emma'")
        emma = {"@etag": '"1"', "Id": "emma", "Title": "Emma", "Shelf": "A1", "Reader": None, "Price": None}
        assert (status, value["value"]) == (200, [emma])
        assert value["@context"] == "/library/$metadata#Books"

    def test_describes_itself(self):
        status, value = self.client.ask("GET", "/library/$metadata")
        assert (status, value["$Version"]) == (200, "4.01")
        assert self.client.headers["OData-Version"] == "4.01"


class TestSizes(ServiceTest):
    def test_answers_an_empty_batch(self):
        assert self.client.batch() == {}

    def test_performs_what_the_library_has_read(self):
        document = b'{"requests":[{"id":"a","method":"GET","url":"Nothing","url":"Books","headers":{"PREFER":"x"}}]}'
        status, value = self.client.ask("POST", BATCH_URL, document)
        assert (status, match(document, value)) == (200, {"a": 200})

    @pytest.mark.parametrize("price", [b"9.990", b"12345678901234567890123", b"-0.00", b"1E+30"])
    def test_keeps_the_digits_of_a_number(self, price):
        """In the body of a request, in its answer, and in the database."""
        id = price.decode()
        create = b'{"id":"a","method":"post","url":"Books","body":{"Id":"%s","Title":"T","Price":%s}}' % (price, price)
        show = b'{"id":"b","method":"get","url":"$a","dependsOn":["a"]}'
        document = b'{"requests":[%s,%s]}' % (create, show)
        status, text = self.client.ask_for_bytes("POST", BATCH_URL, document)
        assert (status, match(document, text)) == (200, {"a": 201, "b": 200})
        assert text.count(b'"Price":%s}' % price) == 2
        status, text = self.client.ask_for_bytes("GET", f"/library/Books('{id.replace('+', '%2B')}')")
        assert (status, text.endswith(b'"Price":%s}' % price)) == (200, True)

    def test_refuses_gets_by_which_the_response_gets_too_long(self):
        assert self.client.ask("POST", "/library/Books", {"Id": "long", "Title": "t" * 1_000_000})[0] == 201
        gets = [request(f"r{k}", "get", "Books('long')") for k in range(20)]
        found = self.client.batch(*gets, new_book("new", "small"), request("needs", "get", "Books", needs=["r19"]))
        statuses = [it["status"] for it in found.values()]
        assert (sorted(statuses[:20]), statuses[20]) == ([200] * 16 + [507] * 4, 201)
        refused = next(it for it in found.values() if it["status"] == 507)
        assert refused["body"]["error"]["code"] == "TooLong"
        assert self.client.ask("DELETE", "/library/Books('long')")[0] == 204

    def test_the_response_is_the_text_of_the_library(self):
        status, value = self.client.ask("POST", BATCH_URL, {"requests": [request("a", "get", "Loans")]})
        body = {"@context": "/library/$metadata#Loans", "value": []}
        headers = {"content-type": "application/json", "odata-version": "4.01"}
        assert (status, value) == (200, {"responses": [{"body": body, "headers": headers, "id": "a", "status": 200}]})
        assert self.client.headers["Content-Type"] == "application/json"
        assert int(self.client.headers["Content-Length"]) == len(json.dumps(value, separators=(",", ":")))
