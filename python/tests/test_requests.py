"""What is to be sent of each request of a batch."""

import json
import unittest

from odb_batch import Fault, Request, Run, check, requests

BATCH = rb'''{"requests": [
  {"id": "a", "method": "Post", "url": "Orders", "atomicityGroup": "g", "headers": {"X-B": "2", "content-type": "application/json"},
   "body": {"price": 9.990, "number": 12345678901234567890123, "name": "caf\u00e9"}},
  {"id": "b", "method": "get", "url": "$a/Lines?x=1", "dependsOn": ["g"], "body": null},
  {"id": "c", "method": "PATCH", "url": "$%61#end", "dependsOn": ["g"], "body" : [ 1.0,2 ] },
  {"id": "d", "method": "delete", "url": "$batchy('x')", "headers": null},
  {"body": "first", "id": "e", "method": "put", "url": "a\u0041", "body": "last \"\\", "headers": {"\u0041": "\u00fc\n"}}
]}'''.replace(b"$batchy('x')", b"B%24('x')")

REQUESTS = (
    Request("a", "POST", "Orders", None, "Orders", {"content-type": "application/json", "x-b": "2"}, "g",
            rb'{"price": 9.990, "number": 12345678901234567890123, "name": "caf\u00e9"}'),
    Request("b", "GET", "$a/Lines?x=1", "a", "/Lines?x=1", {}, None, None, ("g", "a")),
    Request("c", "PATCH", "$%61#end", "a", "#end", {}, None, b"[ 1.0,2 ]", ("g", "a")),
    Request("d", "DELETE", "B%24('x')", None, "B%24('x')", {}, None, None),
    Request("e", "PUT", "aA", None, "aA", {"a": "ü\n"}, None, rb'"last \"\\"'),
)

REFUSED = [
    b"",
    b"{",
    b'{"requests": 7}',
    b'{"requests": [{"id": "a", "method": "get", "url": "$b"}]}',
    b'{"requests": [{"id": "a", "method": "get", "url": "X", "dependsOn": ["b"]}]}',
]


class Requests(unittest.TestCase):
    def test_each_part_is_as_the_batch_has_it(self):
        self.assertEqual(requests(BATCH), REQUESTS)
        self.assertEqual(requests(BATCH.decode()), REQUESTS)
        self.assertEqual(requests(bytearray(BATCH)), REQUESTS)

    def test_of_a_mapping_the_bodies_are_the_json_of_their_values(self):
        batch = {"requests": [{"id": "a", "method": "post", "url": "X", "body": {"b": [1, None]}}]}
        self.assertEqual(requests(batch)[0].body, b'{"b":[1,null]}')

    def test_no_requests(self):
        self.assertEqual(requests('{"requests": []}'), ())

    def test_a_batch_that_is_refused_is_refused_as_by_check(self):
        for batch in REFUSED:
            with self.subTest(batch), self.assertRaises(Fault) as wanted:
                check(batch)
            with self.subTest(batch), self.assertRaises(Fault) as found:
                requests(batch)
            self.assertEqual(found.exception.args, wanted.exception.args)

    def test_many_requests_and_long_parts(self):
        long = {"id": "a", "method": "post", "url": "X" * 100_000, "body": "y" * 1_000_000}
        short = [{"id": str(number), "method": "get", "url": ""} for number in range(9_999)]
        found = requests({"requests": [long, *short]})
        self.assertEqual((len(found), found[0].url, len(found[0].body)), (10_000, long["url"], 1_000_002))
        self.assertEqual({(it.id, it.url, it.rest, it.body) for it in found[1:]}, {(it["id"], "", "", None) for it in short})


class RequestsOfRuns(unittest.TestCase):
    def test_a_run_has_the_requests_of_its_batch(self):
        with Run(BATCH) as run:
            for request in REQUESTS:
                self.assertEqual(run.request(request.id), request)
            self.assertRaises(KeyError, run.request, "x")
        self.assertRaises(ValueError, run.request, "a")

    def test_of_a_mapping_that_changes_it_has_the_requests_as_they_were(self):
        batch = json.loads(BATCH)
        batch["requests"][1]["url"] = "$a/Lines"
        with Run(batch) as run:
            batch["requests"][1]["url"] = "$a/Others"
            self.assertEqual(run.request("b").rest, "/Lines")


if __name__ == "__main__":
    unittest.main()
