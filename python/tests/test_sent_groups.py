"""Groups that are sent as one: the batch that is sent, what its response means, and what cannot be sent."""

import asyncio
import json

import pytest
from hypothesis import given
from hypothesis import strategies as st

from odb_batch import Answer, MemberRefused, PreparedGroup, Refusal, Request, match, perform_async, replay
from support.profiles import share
from support.replays import MODES, is_as_one, placed, responses_of
from support.servers import SECONDS
from support.strategies import recorded_batches

BASE = "http://host/odata/"
BATCH = """{"requests": [
    {"id": "x", "method": "post", "url": "X", "body": {"n": 1.50}},
    {"id": "a", "atomicityGroup": "g", "method": "post", "url": "$x/A?y=1", "body": {"n": 9.990}, "dependsOn": ["x"]},
    {"id": "b", "atomicityGroup": "g", "method": "patch", "url": "$a", "headers": {"If-Match": "$a"}, "body": [1.0],
     "dependsOn": ["x", "a"]},
    {"id": "t", "atomicityGroup": "g", "method": "put", "url": "T", "headers": {"Content-Type": "text/plain"},
     "body": "\\u00fc"},
    {"id": "c", "method": "get", "url": "$a/Lines", "dependsOn": ["g"]}]}"""
SENT = (
    '{"requests":['
    '{"id":"a","atomicityGroup":"g","method":"post","url":"http://host/odata/X(1)/A?y=1","body":{"n": 9.990}},'
    '{"id":"b","atomicityGroup":"g","dependsOn":["a"],"method":"patch","url":"$a","headers":{"if-match":"$a"},'
    '"body":[1.0]},'
    '{"id":"t","atomicityGroup":"g","method":"put","url":"http://host/odata/T","headers":{"content-type":"text/plain"},'
    '"body":"\\u00fc"}]}'
)
PLACES = Answer(201, {"Location": "/odata/X(1)"})


def performed(batch, groups, send=lambda request: PLACES, **options):
    """The responses of a batch by the ids; groups are answered by a function."""

    async def send_soon(request):
        await asyncio.sleep(0)
        return send(request)

    async def send_group(group):
        await asyncio.sleep(0)
        return groups(group)

    response = asyncio.run(perform_async(batch, send_soon, groups=send_group, **{"base": BASE, **options}))
    match(batch, response)
    return {it["id"]: it for it in responses_of(response)}


def statuses(found):
    return {id: it["status"] for id, it in found.items()}


def answer(*responses):
    return 200, {}, json.dumps({"responses": list(responses)}).encode()


@pytest.mark.parametrize("mode", ["continue", "stop"])
@pytest.mark.parametrize("width", [1, 8])
def test_a_group_is_sent_as_a_batch_with_references_to_the_outside_replaced(mode, width):
    seen, urls = [], []

    def groups(group):
        seen.append(group)
        return [Answer(201, {"location": "/odata/A(2)"}, b'{"n": 9.990}'), (204,), Answer(200, {}, b"")]

    def send(request):
        urls.append(request.url)
        return PLACES

    found = performed(BATCH, groups, send, mode=mode, width=width)
    assert statuses(found) == {"x": 201, "a": 201, "b": 204, "t": 200, "c": 201}
    assert [it.batch().decode() for it in seen] == [SENT]
    assert urls == [BASE + "X", BASE + "A(2)/Lines"]


RESPONSE = """ {"@x": [], "responses" : [ {"id": "t", "status": 200, "headers": {"Content-Type": "text/plain"},
   "body": "\\u00fc"},
 {"body" : {"n": 9.990, "m": 123456789012345678901234} , "id": "a", "atomicityGroup": "g", "status": 201},
 {"id": "b", "status": 204, "body": null, "headers": null} ] } """


def group_of(batch=BATCH):
    kept = []

    def groups(group):
        kept.append(group)
        return group.answers((503,))

    performed(batch, groups)
    return kept[0]


def test_answers_are_those_of_the_response_byte_for_byte():
    assert group_of().answers((200, {}, RESPONSE.encode())) == [
        Answer(201, {}, b'{"n": 9.990, "m": 123456789012345678901234}'),
        Answer(204),
        Answer(200, {"content-type": "text/plain"}, "ü"),
    ]
    found = performed(BATCH, lambda group: group.answers((200, {}, ("\ufeff" + RESPONSE).encode())))
    assert (found["a"]["body"], found["t"]["body"]) == ({"n": 9.99, "m": 123456789012345678901234}, "ü")


OK = {"id": "b", "status": 204}, {"id": "t", "status": 200}
BAD = {"a": 502, "b": 502, "t": 502}
ANSWERS = {
    "after-an-error-the-rest-is-left-out": (answer({"id": "a", "status": 409}), {"a": 409, "b": 424, "t": 424}),
    "all-but-one": (answer({"id": "a", "status": 409}, *OK), {"a": 409, "b": 424, "t": 424}),
    "refused": ((501, {}, b'{"error": {}}'), {"a": 501, "b": 501, "t": 501}),
    "redirected": ((302, {"Location": "/x"}), {"a": 302, "b": 302, "t": 302}),
    "later": ((202, {}), BAD),
    "empty": ((200, {}), BAD),
    "html": ((200, {"Content-Type": "text/html"}, b"<p>"), BAD),
    "left-out": (answer(*OK), {"a": 502, "b": 424, "t": 424}),
    "another": (answer({"id": "z", "status": 200}, *OK), {"a": 502, "b": 424, "t": 424}),
    "twice": (answer(*OK, *OK), BAD),
    "no-status": (answer({"id": "a"}, *OK), BAD),
    "no-array": ((200, {}, b'{"responses": {}}'), BAD),
    "cut": ((200, {}, b'{"responses": [{"id": "a", "status": 201}'), BAD),
    "no-headers": (answer({"id": "a", "status": 201, "headers": {"x": 7}}, *OK), BAD),
    "headers-are-no-object": (answer({"id": "a", "status": 201, "headers": [7]}, *OK), BAD),
    "deep": ((200, {}, b'{"responses": ' + b"[" * 100_000), BAD),
    "too-few-answers": (None, {"a": 500, "b": 500, "t": 500}),
    "times-out": (TimeoutError(), {"a": 504, "b": 504, "t": 504}),
    "hangs-up": (ConnectionError(), BAD),
    "says-no": (Refusal(501, "SeveralServices", ""), {"a": 501, "b": 501, "t": 501}),
    "one-cannot-be-sent": (MemberRefused("b", Answer(400)), {"a": 424, "b": 400, "t": 424}),
}


@pytest.mark.parametrize("name", ANSWERS)
@pytest.mark.parametrize("mode", ["continue", "stop"])
def test_what_a_service_answers_to_a_group(name, mode):
    answered, wanted = ANSWERS[name]

    def groups(group):
        if isinstance(answered, Exception):
            raise answered
        return [] if answered is None else group.answers(answered)

    assert statuses(performed(BATCH, groups, mode=mode)) == {"x": 201, **wanted, "c": 424}


def test_a_group_with_a_request_that_leads_out_is_not_sent():
    batch = BATCH.replace('"url": "T"', '"url": "../T"')
    found = performed(batch, lambda group: pytest.fail("it was sent"))
    assert statuses(found) == {"x": 201, "a": 424, "b": 424, "t": 404, "c": 424}


def test_a_group_that_takes_too_long():
    async def groups(group):
        await asyncio.sleep(SECONDS)

    async def send(request):
        return PLACES

    response = asyncio.run(perform_async(BATCH, send, groups=groups, timeout=1, base=BASE))
    assert [it["status"] for it in responses_of(response)] == [201, 504, 504, 504, 424]


def test_what_a_group_refers_to_that_has_no_location():
    found = performed(BATCH, lambda group: pytest.fail("it was sent"), lambda request: (201,))
    assert statuses(found) == {"x": 201, "a": 424, "b": 424, "t": 424, "c": 424}


@pytest.mark.parametrize("option", ["groups", "journal"])
def test_a_transaction_excludes_what_goes_on_elsewhere(option):
    with pytest.raises(ValueError):
        asyncio.run(perform_async({"requests": []}, None, transaction=lambda name: None, **{option: object()}))


def test_a_group_that_is_built_by_hand():
    group = PreparedGroup("g", (Request("a", "DELETE", "Books(1)", None, "", {}, "g", None),))
    assert json.loads(group.batch()) == {
        "requests": [{"id": "a", "atomicityGroup": "g", "method": "delete", "url": "Books(1)"}]
    }


@share(4)
@given(recorded_batches(), MODES, st.integers(1, 4))
def test_random_batches_are_replays(recorded, mode, width):
    """The service of the groups is a replay itself."""
    batch, outcomes = recorded[0], {it["id"]: it for it in placed(recorded[1])}
    wanted = responses_of(replay(batch, {"outcomes": list(outcomes.values())}, mode=mode, width=1).response)

    def groups(group):
        inner = {"outcomes": [outcomes[it.id] for it in group.requests]}
        return group.answers((200, {}, replay(group.batch(), inner).response))

    def send(request):
        it = outcomes[request.id]
        body = it.get("body")
        return Answer(it["status"], it.get("headers") or {}, None if body is None else json.dumps(body).encode())

    found = performed(batch, groups, send, mode=mode, width=width, base="")
    if (mode == "continue" or width == 1) and is_as_one(batch, recorded[1], mode):
        assert list(found.values()) == wanted
