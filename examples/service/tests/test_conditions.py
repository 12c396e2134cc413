"""Preconditions, alone and in batches, and clients that cannot read what the service writes."""

import sqlite3

import pytest

from common import CONTINUE, JSON, Process, ServiceTest, new_book, request, rows

DUNE = "/library/Books('dune')"


class ConditionTest(ServiceTest):
    def tag(self, path=DUNE):
        """The ETag of an entity, which its body and its head have."""
        status, value = self.client.ask("GET", path)
        assert (status, self.client.headers["ETag"]) == (200, value["@etag"])
        return value["@etag"]


class TestTags(ConditionTest):
    def test_each_version_of_an_entity_has_another(self):
        path, found = "/library/Books('t')", []
        for method, target, body, status, has_tag in [
            ("POST", "/library/Books", {"Id": "t", "Title": "T"}, 201, True),
            ("PATCH", path, {"Title": "T"}, 204, True),
            ("PUT", path, {"Title": "T"}, 204, False),
            ("DELETE", path, None, 204, False),
            ("POST", "/library/Books", {"Id": "t", "Title": "T"}, 201, True),
        ]:
            assert self.client.ask(method, target, body)[0] == status
            shown = self.client.headers["ETag"]
            assert (shown is not None) == has_tag
            if method != "DELETE":
                found.append(self.tag(path))
                assert shown in (None, found[-1])
        assert len(set(found)) == 4

    def test_lists_have_them_and_change_none(self):
        before = self.tag()
        _, value = self.client.ask("GET", "/library/Books")
        assert self.client.headers["ETag"] is None
        assert [it["@etag"] for it in value["value"] if it["Id"] == "dune"] == [before]
        assert self.client.ask("PATCH", DUNE, {"Title": 7})[0] == 400
        assert self.tag() == before

    def test_a_database_without_versions_gets_them(self, tmp_path):
        path = str(tmp_path / "library.sqlite")
        database = sqlite3.connect(path)
        database.executescript(
            "CREATE TABLE Books (Id TEXT PRIMARY KEY NOT NULL, Title TEXT NOT NULL, Shelf TEXT, Reader INTEGER);"
            "CREATE TABLE Loans (Id INTEGER PRIMARY KEY AUTOINCREMENT,"
            " Book TEXT NOT NULL UNIQUE REFERENCES Books, Reader INTEGER NOT NULL);"
            "INSERT INTO Books VALUES ('old', 'Old', NULL, NULL); PRAGMA user_version = 1;"
        )
        database.close()
        for status in (204, 412):
            with Process(path) as service:
                with service.client() as client:
                    found = client.ask("PATCH", "/library/Books('old')", {"Shelf": "A"}, {**JSON, "If-Match": '"1"'})[0]
                assert (found, service.stop()) == (status, 0)


# Headers, and what a patch and a get are answered that have them. TAG stands for the tag of the entity without its
# first quote, and BARE for it without both.
each_condition = pytest.mark.parametrize("conditions, patched, shown", [
    ({"If-Match": '"TAG'}, 204, 200),
    ({"If-Match": "*"}, 204, 200),
    ({"If-Match": '"no", "TAG,"never"'}, 204, 200),
    ({"If-Match": '"no"'}, 412, 412),
    ({"If-Match": '"no,TAG'}, 412, 412),
    ({"If-Match": ""}, 412, 412),
    # If-Match compares strongly, and If-None-Match weakly.
    ({"If-Match": 'W/"TAG'}, 412, 412),
    ({"If-None-Match": 'W/"TAG'}, 412, 304),
    ({"If-None-Match": '"TAG'}, 412, 304),
    ({"If-None-Match": '"no", "TAG'}, 412, 304),
    ({"If-None-Match": "*"}, 412, 304),
    ({"If-None-Match": '"no"'}, 204, 200),
    ({"If-Match": '"TAG', "If-None-Match": '"TAG'}, 412, 304),
    ({"If-Match": '"no"', "If-None-Match": '"TAG'}, 412, 412),
    ({"If-Match": "BARE"}, 400, 400),
    ({"If-Match": '*, "TAG'}, 400, 400),
    ({"If-Match": '"no TAG'}, 400, 400),
    ({"If-None-Match": 'w/"TAG'}, 400, 400),
])  # fmt: skip


class TestPreconditions(ConditionTest):
    def with_tag(self, conditions):
        """The tag of the entity, and the headers with it."""
        tag = self.tag()
        return tag, {name: it.replace("TAG", tag[1:]).replace("BARE", tag[1:-1]) for name, it in conditions.items()}

    @each_condition
    def test_alone(self, conditions, patched, shown):
        tag, headers = self.with_tag(conditions)
        status, value = self.client.ask("GET", DUNE, headers=headers)
        assert status == shown
        if status == 304:
            assert (value, self.client.headers["ETag"]) == (None, tag)
        assert self.client.ask("HEAD", DUNE, headers=headers)[0] == shown
        status, value = self.client.ask("PATCH", DUNE, {"Title": f"T of {tag}"}, {**JSON, **headers})
        assert status == patched
        assert (self.tag() == tag) == (status != 204)
        if status == 412:
            assert value["error"]["code"] == "PreconditionFailed"

    @each_condition
    def test_in_a_batch(self, conditions, patched, shown):
        tag, headers = self.with_tag(conditions)
        get = request("a", "get", "Books('dune')", headers=headers)
        assert self.client.statuses(get) == {"a": shown}
        patch = request("a", "patch", "Books('dune')", {"Title": f"B of {tag}"}, headers=headers)
        assert self.client.statuses(patch) == {"a": patched}
        assert (self.tag() == tag) == (patched != 204)

    def test_of_puts_and_deletes(self):
        for name, value in [("If-Match", '"no"'), ("If-None-Match", "*"), ("If-None-Match", self.tag())]:
            for method, body in [("PUT", {"Title": "Put"}), ("DELETE", None)]:
                before = rows(self.database)
                assert self.client.ask(method, DUNE, body, {**JSON, name: value})[0] == 412
                assert rows(self.database) == before
        assert self.client.ask("POST", "/library/Books", {"Id": "d", "Title": "D"})[0] == 201
        headers = {"If-Match": self.client.headers["ETag"]}
        assert self.client.ask("DELETE", "/library/Books('d')", None, headers)[0] == 204

    def test_other_errors_come_first(self):
        for headers in ({"If-Match": '"no"'}, {"If-Match": "*"}, {"If-None-Match": "*"}):
            assert self.client.ask("PATCH", "/library/Books('none')", {}, {**JSON, **headers})[0] == 404
            assert self.client.ask("GET", "/library/Books?$filter=Pages%20eq%201", None, headers)[0] == 501
            assert self.client.ask("POST", DUNE, {}, {**JSON, **headers})[0] == 405
        # But not those of the body.
        assert self.client.ask("PATCH", DUNE, [], {**JSON, "If-Match": '"no"'})[0] == 412

    def test_of_a_set_which_has_no_tag(self):
        book = {"Id": "s", "Title": "S"}
        for headers, status in [({"If-Match": '"1"'}, 412), ({"If-None-Match": "*"}, 412), ({"If-Match": "*"}, 201)]:
            assert self.client.ask("POST", "/library/Books", book, {**JSON, **headers})[0] == status
        assert self.client.ask("GET", "/library/Books", None, {"If-None-Match": '"1"'})[0] == 200


class TestInBatches(ConditionTest):
    def test_what_depends_on_304_is_answered_424(self):
        first = request("shown", "get", "Books('dune')", headers={"If-None-Match": self.tag()})
        batch = first, request("needs", "get", "Books", needs=["shown"]), new_book("other", "after304")
        # 304 is no error, so it ends no batch.
        for headers in (CONTINUE, JSON):
            found = self.client.batch(*batch, headers=headers)
            assert [it["status"] for it in found.values()] == [304, 424, 201]
            assert set(found["shown"]) == {"id", "status", "headers"}
            assert self.client.ask("DELETE", "/library/Books('after304')")[0] == 204

    def test_a_precondition_that_fails_undoes_its_group(self):
        before = rows(self.database)
        for url, method, headers, status in [
            ("Books('dune')", "patch", {"If-Match": '"no"'}, 412),
            ("Books('dune')", "delete", {"if-none-match": "*"}, 412),
            ("Books('dune')", "get", {"If-None-Match": self.tag()}, 304),
        ]:
            body = {"Title": "Lost"} if method == "patch" else None
            found = self.client.statuses(
                new_book("a", "undone1", "g"),
                request("b", method, url, body, "g", headers=headers),
                new_book("c", "undone2", "g"),
                request("d", "get", "Books", needs=["g"]),
            )
            assert list(found.values()) == [424, status, 424, 424]
        assert rows(self.database) == before

    def test_one_of_several_updates_of_a_version_succeeds(self):
        headers = {"If-Match": self.tag()}
        found = self.client.statuses(
            *(request(f"r{k}", "patch", "Books('dune')", {"Shelf": f"S{k}"}, headers=headers) for k in range(8))
        )
        assert sorted(found.values()) == [204] + [412] * 7
        _, value = self.client.ask("GET", DUNE)
        assert found["r" + value["Shelf"][1:]] == 204

    def test_a_tag_may_be_that_of_an_earlier_request(self):
        def change(id, shelf, of, needs):
            return request(id, "patch", "Books('emma')", {"Shelf": shelf}, needs=needs, headers={"If-Match": f"${of}"})

        found = self.client.batch(
            request("shown", "get", "Books('emma')"),
            change("first", "1", "shown", ["shown"]),
            change("again", "2", "first", ["first"]),
            change("stale", "3", "shown", ["again", "shown"]),
            request("list", "get", "Books", needs=["again"]),
            change("none", "4", "list", ["list"]),
            change("early", "5", "late", ["list"]),
            request("late", "get", "Books('emma')"),
        )
        assert [it["status"] for it in found.values()] == [200, 204, 204, 412, 200, 424, 400, 200]
        for id in ("none", "early"):
            assert found[id]["body"]["error"]["code"] == "NoETag"
        assert self.client.ask("GET", "/library/Books('emma')")[1]["Shelf"] == "2"


class TestFormats(ServiceTest):
    @pytest.mark.parametrize("headers, status", [
        ({"OData-MaxVersion": "4.01"}, 200),
        ({"OData-MaxVersion": "4.0"}, 200),
        ({"OData-MaxVersion": "5"}, 200),
        ({"OData-MaxVersion": "2.0"}, 400),
        ({"OData-MaxVersion": "3.0;x"}, 400),
        ({"Accept": "application/json;odata.metadata=minimal, text/plain;q=0"}, 200),
        ({"Accept": "text/html, */*;q=0.8"}, 200),
        ({"Accept": "Application/*; q=0.001"}, 200),
        ({"Accept": "application/atom+xml"}, 406),
        ({"Accept": "text/html, application/json;q=0"}, 406),
        ({"Accept": "*/*, application/json; q=0.0"}, 406),
        ({"Accept": "application/*;q=0, */*"}, 406),
    ])  # fmt: skip
    def test_refuses_clients_that_cannot_read_the_answer(self, headers, status):
        assert self.client.ask("GET", "/library/Books", None, headers)[0] == status
        assert self.client.statuses(request("a", "get", "Books", headers=headers)) == {"a": status}

    def test_the_version_of_a_batch_is_that_of_its_requests(self):
        headers = {**CONTINUE, "OData-MaxVersion": "2.0"}
        assert self.client.statuses(request("a", "get", "Books"), headers=headers) == {"a": 400}

    def test_such_a_client_changes_nothing(self):
        before = rows(self.database)
        for headers, status in ({"Accept": "text/html"}, 406), ({"OData-MaxVersion": "3.0"}, 400):
            assert self.client.ask("DELETE", DUNE, None, headers)[0] == status
            assert self.client.statuses(request("a", "delete", "Books('dune')", headers=headers)) == {"a": status}
        assert rows(self.database) == before
