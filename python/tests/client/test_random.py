"""Random batches with random outcomes: a split batch is answered as the whole one, and the rest is what it must be."""

import json
from unittest import mock

import pytest
from hypothesis import given
from hypothesis import strategies as st

from odb_batch import check, plan
from odb_batch.client import Batch, _parts
from odb_batch.testing import Scripted
from support import rules
from support.profiles import share
from support.rules_of_rests import kept
from support.scripted import STATUSES, scripted

MODES = st.sampled_from(["continue", "stop"])


def statuses_of(results):
    return {it.id: it.status for it in results.values()}


def requests_of(document):
    return json.loads(document)["requests"]


@pytest.mark.parametrize("many", [1, 1_000], ids=["by_longer_parts", "at_once"])
@share(10)
@given(scripted(), MODES)
def test_a_split_batch_is_answered_as_the_whole(many, drawn, mode):
    batch, script, limit = drawn
    whole, parts = Scripted(script, mode=mode), Scripted(script, mode=mode, limit=limit)
    wanted = statuses_of(Batch.read(batch).send(whole.post, mode=mode))
    with mock.patch.object(_parts, "_MANY", many):
        assert statuses_of(Batch.read(batch).send(parts.post, limit=limit, mode=mode)) == wanted
    sent = [it["id"] for document in parts.documents for it in requests_of(document)]
    assert sent == [it["id"] for it in batch["requests"] if it["id"] in sent]
    assert all(status == 424 for id, status in wanted.items() if id not in sent)


@share(10)
@given(scripted(), MODES)
def test_the_rest(drawn, mode):
    batch, script, limit = drawn
    results = Batch.read(batch).send(Scripted(script, mode=mode).post, limit=limit, mode=mode)
    planned, statuses = plan(batch), statuses_of(results)
    left = [planned[at] for at in kept(rules.check(json.dumps(batch).encode()), list(statuses.values()))]
    rest = results.rest()
    check(rest.document())
    assert [(it.id, it.group) for it in plan(rest.document())] == [(it.id, it.group) for it in left]
    names = {name for it in left for name in (it.id, it.group)}
    assert [it.needs for it in plan(rest.document())] == [tuple(n for n in it.needs if n in names) for it in left]
    bodies = {it["id"]: it.get("body") for it in batch["requests"]}
    assert all(it.get("body") == bodies[it["id"]] for it in requests_of(rest.document()))
    again = rest.send(Scripted().post, limit=limit)
    assert all(it.is_success for it in again.values()) and not again.rest()
