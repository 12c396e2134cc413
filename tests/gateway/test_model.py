"""Random batches through the gateway, before services that answer by recorded outcomes: they are replays."""

import json

import pytest
from hypothesis import given
from hypothesis import strategies as st

from odb_batch import match, replay
from support.profiles import share
from support.replays import MODES, is_as_one, placed, responses_of
from support.rules import front as parts_of
from support.servers import CONTINUE, JSON
from support.strategies import recorded_batches


@pytest.fixture(scope="module")
def gateways(aiohttp):
    """A gateway for each width, before one service."""
    from support.gateways import Front, Loop, Upstream

    loop = Loop()
    service = Upstream(loop)
    yield service, [
        Front(loop, "--upstream", service.url, "--groups", "forward", "--width", str(width)) for width in range(1, 5)
    ]
    loop.stop()


def routed(request):
    """A request whose path ends with its id; references stay."""
    _, reference = parts_of(request["url"])
    kept = {name: it for name, it in (request.get("headers") or {}).items() if name.lower() == "content-type"}
    url = f"at/{request['id']}" if reference is None else f"${reference}/of/{request['id']}"
    return {**request, "url": url, "headers": kept}


def bare(outcome):
    """An outcome as HTTP has it: without a body where there is none, and with usual headers."""
    headers = {name: it for name, it in outcome["headers"].items() if name == "Location"}
    headers["Content-Type"] = "application/json"
    body = None if outcome["status"] in (204, 205, 304) else outcome.get("body")
    return {**outcome, "headers": headers, "body": body}


def answering(outcomes, seen):
    """A service that answers by outcomes; groups by a replay."""
    from aiohttp import web

    def answer(it):
        if it.path.endswith("/$batch"):
            ids = [request["id"] for request in json.loads(it.body)["requests"]]
            seen.extend(ids)
            body = replay(it.body, {"outcomes": [outcomes[id] for id in ids]}).response
            return web.Response(body=body, content_type="application/json")
        id = it.path.rpartition("/")[2]
        seen.append(id)
        found = outcomes[id]
        body = None if found["body"] is None else json.dumps(found["body"]).encode()
        return web.Response(status=found["status"], headers=found["headers"], body=body)

    return answer


def compared(responses):
    return [(it["id"], it["status"], it.get("body"), it.get("atomicityGroup")) for it in responses]


@share(6)
@given(recorded=recorded_batches(), mode=MODES, width=st.integers(1, 4))
def test_random_batches_are_replays(gateways, recorded, mode, width):
    service, fronts = gateways
    batch = {"requests": list(map(routed, recorded[0]["requests"]))}
    outcomes, seen = {it["id"]: bare(it) for it in placed(recorded[1])}, []
    service.answer = answering(outcomes, seen)
    headers = CONTINUE if mode == "continue" else JSON
    status, _, text = fronts[width - 1].ask("POST", "/odata/$batch", json.dumps(batch), headers)
    assert status == 200, text
    assert len(set(seen)) == len(seen)
    match(batch, text)
    if (mode == "continue" or width == 1) and is_as_one(batch, recorded[1], mode):
        wanted = replay(batch, {"outcomes": list(outcomes.values())}, mode=mode, width=1).response
        assert compared(responses_of(text)) == compared(responses_of(wanted))
