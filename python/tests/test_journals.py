"""Batches that go on from a journal, after an end at each of its events."""

import asyncio
import json

import pytest
from hypothesis import given
from hypothesis import strategies as st

from odb_batch import Answer, Report, ReportUnit, Start, StartUnit, Stop, match, perform_async, replay
from support.performing import Memory
from support.profiles import share
from support.replays import MODES, placed, responses_of
from support.strategies import recorded_batches

BATCH = {
    "requests": [
        {"id": "a", "method": "post", "url": "A", "body": {"n": 1}},
        {"id": "b", "method": "get", "url": "$a/B", "dependsOn": ["a"]},
        {"id": "c", "atomicityGroup": "g", "method": "post", "url": "$b", "dependsOn": ["b"]},
        {"id": "d", "atomicityGroup": "g", "method": "get", "url": "$c/D", "dependsOn": ["c"]},
        {"id": "e", "method": "delete", "url": "$d/E", "dependsOn": ["g"]},
    ]
}
STARTS = [Start("a"), Start("b"), StartUnit(("c", "d")), Start("e")]


def names(event):
    """The requests of an event."""
    if isinstance(event, ReportUnit):
        return tuple(it.id for it in event.reports)
    return event.ids if isinstance(event, StartUnit) else () if isinstance(event, Stop) else (event.id,)


class Service:
    """Answers by outcomes, and keeps what it was sent; a start that is not synced before is an error, but of a GET."""

    def __init__(self, outcomes, journal):
        self.outcomes, self.journal, self.sent = outcomes, journal, []

    def note(self, id):
        starts = [at for at, it in enumerate(self.journal.written) if id in names(it)]
        assert starts[0] < self.journal.synced
        self.sent.append(id)

    async def send(self, request):
        self.sent.append(request.id) if request.method == "GET" else self.note(request.id)
        it = self.outcomes[request.id]
        body = it.get("body")
        await asyncio.sleep(0)
        return Answer(it["status"], it.get("headers") or {}, None if body is None else json.dumps(body).encode())

    async def send_group(self, group):
        for it in group.requests:
            self.note(it.id)
        inner = {"outcomes": [self.outcomes[it.id] for it in group.requests]}
        return group.answers((200, {}, replay(group.batch(), inner).response))


def performed(batch, outcomes, events=(), **options):
    """The response of a batch that goes on from events, the service and the journal."""
    journal = Memory(events)
    service = Service({it["id"]: it for it in placed(outcomes)}, journal)
    options = {"base": "http://host/odata/", **options}
    response = asyncio.run(perform_async(batch, service.send, groups=service.send_group, journal=journal, **options))
    assert journal.synced == len(journal.written)
    return response, service, journal


def outcomes_of(batch, status=200):
    return [{"id": it["id"], "status": status} for it in batch["requests"]]


def starts(journal):
    return [it for it in journal.written if isinstance(it, (Start, StartUnit))]


def ids_of(events, kind):
    return [it.id if isinstance(it, (Start, Report)) else it.ids for it in events if isinstance(it, kind)]


def reported(events):
    """The ids of the requests that are answered."""
    units = [it.reports for it in events if isinstance(it, ReportUnit)]
    return {*ids_of(events, Report), *ids_of(sum(units, ()), Report)}


def test_a_batch_goes_on_after_each_of_its_events():
    response, _, journal = performed(BATCH, outcomes_of(BATCH))
    assert starts(journal) == STARTS
    events, methods = journal.written, {it["id"]: it["method"] for it in BATCH["requests"]}
    for cut in range(len(events) + 1):
        again, service, _ = performed(BATCH, outcomes_of(BATCH), events[:cut])
        started = set(ids_of(events[:cut], Start)).union(*ids_of(events[:cut], StartUnit))
        found = {it["id"]: it for it in responses_of(again)}
        out = started - reported(events[:cut])
        lost = {id for id in out if methods[id] != "get" or id == "d"}
        assert {id for id, it in found.items() if it["status"] == 500} == lost
        assert set(service.sent) & started == out - lost
        if not lost:
            assert again == response


def test_a_get_waits_for_no_sync():
    """It may be sent again, so it need not outlive the process; what is sent after it is synced with it."""
    requests = [{"id": id, "method": method, "url": "X"} for id, method in (("a", "get"), ("b", "get"), ("c", "post"))]
    requests[1]["dependsOn"], requests[2]["dependsOn"] = ["a"], ["b"]
    journal, synced = Memory(), []

    async def send(request):
        synced.append((request.id, journal.synced))
        return (200,)

    asyncio.run(perform_async({"requests": requests}, send, journal=journal, base="http://host/"))
    assert synced == [("a", 0), ("b", 0), ("c", 5)] and journal.synced == 6


def test_what_a_group_is_answered_is_one_event():
    """Else a process may end between two events, and the next one answers 424 for a request that was performed."""
    _, _, journal = performed(BATCH, outcomes_of(BATCH))
    reports = [[it.id for it in event.reports] for event in journal.written if isinstance(event, ReportUnit)]
    assert reports == [["c", "d"]] and set(ids_of(journal.written, Report)) == {"a", "b", "e"}


def test_what_a_reference_stands_for_is_found_again():
    """b is a GET without a Location, whose URL is that of a with a segment; it was sent by the process before."""
    events = [Start("a"), Report("a", 201, {"location": "A(7)"}), Start("b"), Report("b", 200, {}, b'{"n": 1.50}')]
    urls = []

    async def send_group(group):
        urls.extend(it.url for it in group.requests)
        return [(409,), (424,)]

    asyncio.run(perform_async(BATCH, None, groups=send_group, journal=Memory(events), base="http://host/odata/"))
    assert urls == ["http://host/odata/A(7)/B", "$c/D"]


def test_a_chain_of_references_is_found_again_without_recursion():
    chain = [
        {"id": f"r{k}", "method": "get", "url": f"$r{k - 1}/x", "dependsOn": [f"r{k - 1}"]} for k in range(1, 1_000)
    ]
    batch = {"requests": [{"id": "r0", "method": "get", "url": "x"}, *chain]}
    events = [it for k in range(999) for it in (Start(f"r{k}"), Report(f"r{k}", 200))]
    urls = []

    async def send(request):
        urls.append(request.url)
        return (200,)

    asyncio.run(perform_async(batch, send, journal=Memory(events), base="http://host/"))
    assert urls == ["http://host/" + "/".join(["x"] * 1_000)]


def test_a_long_batch_goes_on():
    long = {"requests": [{**BATCH["requests"][0], "body": "x" * 100_000}, *BATCH["requests"][1:]]}
    response, service, journal = performed(long, outcomes_of(long), [Start("a")])
    assert [it["status"] for it in responses_of(response)] == [500, 424, 424, 424, 424]
    assert ids_of(journal.written[1:], Report) == ["a"] and service.sent == []


def test_a_stop_lasts():
    stopped = []
    journal = Memory()

    async def send(request):
        stopped.append(request.id)
        return (200,)

    options = {"journal": journal, "base": "http://host/", "width": 1}
    batch = {"requests": [{"id": id, "method": "get", "url": id} for id in "abc"]}
    first = asyncio.run(perform_async(batch, send, stop=lambda: bool(stopped), **options))
    assert journal.written == [Start("a"), Report("a", 200, {}), Stop()]
    again = asyncio.run(perform_async(batch, send, **{**options, "journal": Memory(journal.written)}))
    assert (again, stopped) == (first, ["a"])


def test_a_cancelled_batch_is_not_stopped():
    journal, begun = Memory(), []

    async def send(request):
        begun.append(request.id)
        await asyncio.sleep(10)

    async def cancelled():
        task = asyncio.ensure_future(perform_async(BATCH, send, groups=send, journal=journal))
        while not begun:
            await asyncio.sleep(0)
        task.cancel()
        await asyncio.wait([task])

    asyncio.run(cancelled())
    assert journal.written == [Start("a")]


@pytest.mark.parametrize("events", [
    [Start("b")], [Start("z")], [Report("a", 200)], [Start("a"), Start("a")], [StartUnit(("c", "d"))],
    [Start("a"), Report("a", 99)], [Start("a"), Report("a", 200, {}, b"{")],
], ids=range(7))  # fmt: skip
def test_events_of_another_batch_are_refused(events):
    with pytest.raises(ValueError, match="not one of this batch"):
        asyncio.run(perform_async(BATCH, None, groups=lambda it: None, journal=Memory(events)))


def test_a_journal_that_cannot_be_written_ends_the_batch():
    class Full(Memory):
        def write(self, event):
            raise OSError("full")

    with pytest.raises(OSError, match="full"):
        asyncio.run(perform_async(BATCH, None, groups=lambda it: None, journal=Full()))


@share(4)
@given(recorded_batches(), MODES, st.integers(1, 4), st.integers(1, 4), st.data())
def test_random_batches_go_on(recorded, mode, width, again_width, data):
    batch, outcomes = recorded
    options = {"mode": mode, "base": ""}
    response, _, journal = performed(batch, outcomes, width=width, **options)
    events = journal.written
    assert performed(batch, outcomes, events, width=again_width, **options)[0] == response
    cut = data.draw(st.integers(0, len(events)))
    again, service, _ = performed(batch, outcomes, events[:cut], width=again_width, **options)
    statuses, requests = match(batch, again), {it["id"]: it for it in batch["requests"]}
    started = set(ids_of(events[:cut], Start)).union(*ids_of(events[:cut], StartUnit))
    out = started - reported(events[:cut])
    for id in set(service.sent) & started:
        assert id in out and requests[id]["method"].upper() == "GET" and "atomicityGroup" not in requests[id]
    assert all(statuses[id] == 500 for id in out.difference(service.sent))
