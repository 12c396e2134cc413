"""Answers of which a header or the body cannot be read: what can be read stays as it is."""

import json

import pytest

from odb_batch import Answer, Refusal
from support.performing import gets

# A byte of Latin-1 as a client has it that decodes headers by surrogateescape, and half of a surrogate pair.
LATIN, HALF = "caf\udce9", "\ud800"
BODY = b'{"a":9.990}'


def answered(driver, answer, batch=None):
    """The text of the response to a batch whose requests all have one answer."""

    def send(request):
        urls.append(request.url)
        if isinstance(answer, Exception):
            raise answer
        return answer

    urls = []
    response = driver(batch or gets("a"), send, base="http://host/")
    return response, json.loads(response)["responses"], urls


class TestHeaders:
    def test_a_byte_of_latin_1_is_a_character(self, driver):
        text, [found], _ = answered(driver, Answer(201, {"Location": "/A(1)", "X-Name": LATIN, "Content-Type": "application/json"}, BODY))
        assert found["headers"] == {"content-type": "application/json", "location": "/A(1)", "x-name": "café"}
        assert b'"body":{"a":9.990}' in text

    def test_one_that_cannot_be_read_is_left_out_alone(self, driver, caplog):
        text, [found], _ = answered(driver, Answer(201, {"Location": "/A(1)", "X": HALF, "Y": "é"}, BODY))
        assert found["headers"] == {"location": "/A(1)", "y": "é"} and b'"body":{"a":9.990}' in text
        assert "the header 'x' of an answer is not Unicode" in caplog.text

    def test_a_name_that_cannot_be_read(self, driver):
        text, [found], _ = answered(driver, Answer(200, {HALF: "1", "Y": "2"}, BODY))
        assert found["headers"] == {"y": "2"} and b'"body":{"a":9.990}' in text

    def test_a_location_in_latin_1_is_followed(self, driver):
        batch = {"requests": [{"id": "a", "method": "post", "url": "A"}, {"id": "b", "method": "get", "url": "$a/B", "dependsOn": ["a"]}]}
        _, found, urls = answered(driver, Answer(201, {"Location": f"/{LATIN}"}), batch)
        assert [it["status"] for it in found] == [201, 201] and urls[1] == "http://host/caf%C3%A9/B"

    def test_of_a_refusal(self, driver):
        """The headers are the sender's own; the error object stays."""
        _, [found], _ = answered(driver, Refusal(503, "Busy", "try again", x=HALF, retry_after="1"))
        assert found["headers"] == {"content-type": "application/json", "retry-after": "1"}
        assert found["body"]["error"]["code"] == "Busy"


class TestBodies:
    @pytest.mark.parametrize("more", [{}, {"X": HALF}, {"X": LATIN}])
    def test_one_that_is_no_json_is_a_string_and_keeps_the_headers(self, driver, more, caplog):
        _, [found], _ = answered(driver, Answer(200, {"Location": "/é", **more}, b"<p>"))
        assert (found["body"], found["headers"]["location"]) == ("<p>", "/é")
        assert "the answer to a has a body that is not JSON" in caplog.text
