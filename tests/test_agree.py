"""Shows that the commands agree with each other, on good batches made at random."""

import json

import pytest
from hypothesis import given

from support.calls import ORDERS, events_of, options_of, succeed, words_of
from support.profiles import share
from support.replays import placed, responses_of
from support.strategies import recorded_batches


@share(20)
@given(recorded=recorded_batches())
def test_canonical_text_is_its_own_and_means_the_same(program, recorded):
    batch, _ = recorded
    text = succeed(program, ["canon"], batch)
    assert succeed(program, ["canon"], text) == text
    for command in ("check", "plan"):
        assert succeed(program, [command], text) == succeed(program, [command], batch)


@pytest.mark.parametrize("order", ORDERS)
@share(len(ORDERS))
@given(recorded=recorded_batches(), policy=options_of("stop", "width"))
def test_match_accepts_a_replay_and_a_run_repeats_it(program, order, recorded, policy):
    batch, outcomes = recorded
    words = words_of(policy)
    printed = succeed(program, ["replay", "--trace", "--order", order, *words], batch, {"outcomes": outcomes})
    *trace, response, _end = printed.split("\n")
    found = json.loads(response)["responses"]
    matched = "".join(f"{it['id']} {it['status']}\n" for it in found)
    assert succeed(program, ["match"], batch, response) == f"ok {len(found)} responses\n{matched}"
    assert succeed(program, ["run", *words], batch, {"events": events_of(trace, outcomes)}) == response + "\n"


@share(20)
@given(recorded=recorded_batches())
def test_check_accepts_a_rest_and_once_performed_nothing_is_left(program, recorded):
    batch, outcomes = recorded
    busy = [it if 200 <= it["status"] <= 299 else {**it, "status": 503} for it in outcomes]
    response = succeed(program, ["replay"], batch, {"outcomes": placed(busy)})
    rest = succeed(program, ["rest"], batch, response)
    left = [it["id"] for it in responses_of(response) if it["status"] in (424, 503)]
    requests = json.loads(succeed(program, ["plan", "--json"], rest))["requests"]
    assert [it["id"] for it in requests] == left
    done = [{"id": it["id"], "status": 200, "atomicityGroup": it.get("group")} for it in requests]
    assert succeed(program, ["rest"], rest, {"responses": done}) == '{"requests":[]}\n'
