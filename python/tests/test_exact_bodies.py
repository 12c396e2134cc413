"""The response repeats the body of a report of a live run byte for byte, whatever numbers it has."""

import json
import unittest

from odb_batch import Fault, Report, Run, Start, match

BATCH = {"requests": [{"id": "a", "method": "get", "url": "X"}]}
LONG = 12345678901234567890123

# Texts of bodies.
TEXTS = (
    b"9.990",
    b"12345678901234567890123",
    b"-0",
    b"1E+2",
    b' { "price" : 9.990 ,\t"n":[0.10]} ',
    b'{"b":1,"a":2,"b":3}',
    b'"\\u00e9\\/\\ud83d\\ude00"',
    "\"é\"".encode(),
    b"[" * 124 + b"]" * 124,
    b'"' + b"x" * 1_000_000 + b'"',
)


def response_to(body):
    """The response to the batch whose request was answered with a body."""
    with Run(BATCH, events=[Start("a")]) as live:
        live.report("a", 200, None, body)
        return live.response()


def response_with(text):
    """The response with the text of a body in it."""
    return b'{"responses":[{"body":' + text + b',"id":"a","status":200}]}'


class ExactBodies(unittest.TestCase):
    def test_repeats_a_text_byte_for_byte(self):
        for text in TEXTS:
            for body in (text, bytearray(text), memoryview(text)):
                with self.subTest(text=text[:40], kind=type(body)):
                    self.assertEqual(response_to(body), response_with(text))

    def test_a_match_reads_the_response(self):
        for text in TEXTS:
            with self.subTest(text=text[:40]):
                self.assertEqual(match(BATCH, response_to(text)), {"a": 200})

    def test_writes_values_once(self):
        table = [(9.99, b"9.99"), (LONG, b"12345678901234567890123"), ({"b": [0.1], "a": "1.50"}, b'{"b":[0.1],"a":"1.50"}')]
        for body, text in table:
            with self.subTest(body=body):
                self.assertEqual(response_to(body), response_with(text))
                self.assertEqual(json.loads(response_to(body))["responses"][0]["body"], body)

    def test_refuses_what_has_no_json(self):
        for body in (float("nan"), [float("inf")], {"a": float("-inf")}):
            with self.subTest(body=body), Run(BATCH, events=[Start("a")]) as live:
                with self.assertRaises(ValueError) as raised:
                    live.report("a", 200, None, body)
                self.assertNotIsInstance(raised.exception, Fault)
                self.assertEqual(live.running, ("a",))

    def test_refuses_what_is_no_body(self):
        for body in (b"9.", b"01", b"1e400", b"\xff", b"1 2", b"[" * 125 + b"]" * 125, b'{"a":' + b"[" * 124 + b"]" * 124 + b',"a":1}'):
            with self.subTest(body=body[:40]), Run(BATCH, events=[Start("a")]) as live:
                with self.assertRaises(Fault) as raised:
                    live.report("a", 200, None, body)
                self.assertEqual(str(raised.exception), "F02 NotJson report")
                live.report("a", 200)
                self.assertEqual(live.response(), b'{"responses":[{"id":"a","status":200}]}')

    def test_shows_no_body_of_what_is_undone(self):
        batch = {"requests": [{"id": id, "atomicityGroup": "g", "method": "post", "url": "X"} for id in "ab"]}
        with Run(batch, events=[Start("a"), Start("b")]) as live:
            live.report("a", 201, None, b"9.990")
            live.report("b", 409, None, b"1.0")
            first, second = json.loads(live.response())["responses"]
            self.assertEqual((first["status"], second["status"]), (424, 409))
            self.assertNotIn("body", first)
            self.assertIn(b'"body":1.0,', live.response())

    def test_recorded_events_keep_whole_numbers_alone(self):
        with self.assertRaises(Fault) as raised:
            Run(BATCH, events=[Start("a"), Report("a", 200, None, 9.99)])
        self.assertEqual(raised.exception.code, "F63")

    def test_takes_more_than_a_document_of_events_can_hold(self):
        batch = {"requests": [{"id": id, "method": "get", "url": "X"} for id in "ab"]}
        text = b'"' + b"x" * 9_000_000 + b'"'
        events = [b'{"start":"%s"},{"report":"%s","status":200,"body":%s}' % (id, id, text) for id in (b"a", b"b")]
        with self.assertRaises(Fault) as raised:
            Run(batch, events=b'{"events":[' + b",".join(events) + b"]}")
        self.assertEqual(raised.exception.code, "F01")
        with Run(batch) as live:
            for id in "ab":
                live.start(id)
                live.report(id, 200, None, text)
            self.assertEqual(live.response().count(text), 2)


if __name__ == "__main__":
    unittest.main()
