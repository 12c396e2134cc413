"""What a live run says, takes and refuses."""

import contextlib
import copy
import gc
import io
import json
import os
import pickle
import re
import threading
import time
from unittest import mock

import pytest

from odb_batch import Fault, OdbError, Refused, Report, Run, Start, replay, run
from odb_batch._native import library

BATCH = {
    "requests": [
        {"id": "book", "method": "get", "url": "Books('dune')"},
        {"id": "mark", "atomicityGroup": "lend", "dependsOn": ["book"], "method": "delete", "url": "Books('dune')"},
        {"id": "loan", "atomicityGroup": "lend", "dependsOn": ["book"], "method": "post", "url": "Loans"},
        {"id": "list", "dependsOn": ["lend"], "method": "get", "url": "Loans"},
    ]
}
EVENTS = (
    Start("book"),
    Report("book", 200, {"ETag": "7"}, {"Größe": [1, None, "x"]}),
    Start("loan"),
    Start("mark"),
    Report("mark", 204),
    Report("loan", 409, None, "taken"),
)
TEXT = json.dumps(BATCH)
DATA = TEXT.encode()
README = os.path.join(os.path.dirname(os.path.dirname(os.path.abspath(__file__))), "README.md")


def take(live, events):
    """Has a run take events."""
    for event in events:
        if isinstance(event, Start):
            live.start(event.id)
        else:
            live.report(*event)


def seen(live):
    """All that a run says before its end."""
    return live.ready, live.running, live.finished


class TestSteps:
    def test_says_what_may_start_and_what_runs(self):
        steps = [
            (None, ("book",), (), False),
            (EVENTS[0], (), ("book",), False),
            (EVENTS[1], ("mark", "loan"), (), False),
            (EVENTS[2], ("mark",), ("loan",), False),
            (EVENTS[3], (), ("mark", "loan"), False),
            (EVENTS[4], (), ("loan",), False),
            (EVENTS[5], (), (), True),
        ]
        with Run(BATCH) as live:
            for event, *wanted in steps:
                take(live, [event] if event else [])
                assert seen(live) == tuple(wanted), event
            assert live.undone == ("mark",)
            assert live.response() == run(BATCH, EVENTS)
            assert live.response() == run(BATCH, EVENTS)

    @pytest.mark.parametrize("document", [BATCH, TEXT, DATA, bytearray(DATA), memoryview(DATA)], ids=type)
    def test_a_batch_is_each_kind_of_document(self, document):
        with Run(document) as live:
            assert live.ready == ("book",)

    def test_the_empty_batch_is_finished(self):
        with Run({"requests": []}) as live:
            assert seen(live) == ((), (), True)
            assert (live.undone, live.response()) == ((), b'{"responses":[]}')

    def test_keeps_to_mode_and_width(self):
        batch = {"requests": [{"id": id, "method": "get", "url": "X"} for id in "abc"]}
        with Run(batch, mode="stop", width=1) as live:
            live.start("b")
            assert seen(live) == ((), ("b",), False)
            live.report("b", 500)
            assert seen(live) == ((), (), True)
            assert [it["status"] for it in json.loads(live.response())["responses"]] == [424, 500, 424]

    def test_a_response_longer_than_all_that_it_was_given(self):
        batch = {"requests": [{"id": f"r{i}", "method": "get", "url": "X"} for i in range(60)]}
        with Run(batch) as live:
            for id in live.ready:
                live.start(id)
                live.report(id, 200, body="\n" * 200)
            assert len(json.loads(live.response())["responses"]) == 60


def report_of(event):
    """A report as an element of a document."""
    return {"report": event.id, "status": event.status, "headers": event.headers, "body": event.body}


class TestEvents:
    @pytest.mark.parametrize("count", range(len(EVENTS) + 1))
    def test_goes_on_after_any_of_its_events(self, count):
        elements = [{"start": it.id} if isinstance(it, Start) else report_of(it) for it in EVENTS]
        document = {"events": elements[:count]}
        for given in (EVENTS[:count], iter(EVENTS[:count]), document, json.dumps(document)):
            with Run(BATCH, events=given) as live:
                take(live, EVENTS[count:])
                assert live.response() == run(BATCH, EVENTS)

    def test_the_command_takes_events(self):
        bodies = [it.get("body") for it in json.loads(run(BATCH, list(EVENTS)))["responses"]]
        assert bodies == [EVENTS[1].body, None, "taken", None]

    @pytest.mark.parametrize("events, line", [
        ([Start("mark")], "S4 Waiting /events/0"),
        ([Start("book"), Report("book", 99)], "P2 BadStatus /events/1"),
        ([Start("other")], "F65 UnknownEvent /events/0"),
        ([Start("book"), Report("book", 200, {"A": "1", "a": "2"})], "F64 BadEvents /events/1"),
        ([Start("book"), Report("book", 200, None, 0.5)], "F63 NotWhole /events/1"),
        ({"events": 7}, "F64 BadEvents events"),
        ("[", "F02 NotJson events"),
    ])  # fmt: skip
    def test_refuses_what_cannot_have_happened(self, events, line):
        with pytest.raises(Fault) as raised:
            Run(BATCH, events=events)
        assert str(raised.value) == line

    @pytest.mark.parametrize("events", [7, None, [7], ["start"], [("book", 200)]])
    def test_refuses_what_is_no_event(self, events):
        with pytest.raises(TypeError):
            Run(BATCH, events=events)


class TestRefusals:
    # Events, what is refused after them, and the cause. The last status is one that a document has not.
    TABLE = [
        (EVENTS[:1], Start("book"), "S1 AlreadyStarted book"),
        ((Start("book"), Report("book", 404)), Start("mark"), "S2 Stopped mark"),
        ((Start("book"), Report("book", 302)), Start("list"), "S3 UnitFailed list"),
        (EVENTS[:3], Start("list"), "S4 Waiting list"),
        (EVENTS[:4], Start("other"), "S5 WidthReached other"),
        ((), Report("book", 200), "P1 NotRunning book"),
        (EVENTS[:1], Report("book", 199), "P2 BadStatus book"),
        (EVENTS[:1], Report("book", 600), "P2 BadStatus book"),
        (EVENTS[:1], Report("book", 0), "P2 BadStatus book"),
        (EVENTS[:1], Report("book", 65536 + 200), "P2 BadStatus book"),
    ]
    BATCH = {"requests": [*BATCH["requests"], {"id": "other", "method": "get", "url": "X"}]}

    @pytest.mark.parametrize("before, event, line", TABLE)
    def test_refuses_what_may_not_come_and_stays_as_it_was(self, before, event, line):
        with Run(self.BATCH, mode="stop", width=2, events=before) as live:
            was = seen(live)
            with pytest.raises(Refused) as raised:
                take(live, [event])
            refused = raised.value
            assert str(refused) == line
            assert [refused.code, refused.name, refused.id] == line.split(" ")
            assert refused.explanation
            assert seen(live) == was

    @pytest.mark.parametrize("before, event, line", TABLE[:-1])
    def test_names_causes_as_the_command_does(self, before, event, line):
        with pytest.raises(Fault) as raised:
            run(self.BATCH, [*before, event], mode="stop", width=2)
        assert str(raised.value).split(" ")[:2] == line.split(" ")[:2]

    @pytest.mark.parametrize("status", [-1, 2**32 + 200, 2**64 + 200, -(2**70)])
    def test_any_number_is_a_bad_status(self, status):
        with Run(BATCH, events=EVENTS[:1]) as live:
            with pytest.raises(Refused) as raised:
                live.report("book", status)
            assert raised.value.code == "P2"

    def test_an_unknown_id_is_a_key_error(self):
        with Run(BATCH) as live:
            for call in (lambda: live.start("lend"), lambda: live.report("Book", 200)):
                with pytest.raises(KeyError):
                    call()

    @pytest.mark.parametrize("options", [{"mode": "half"}, {"width": 0}, {"width": 10_001}, {"width": True}])
    def test_refuses_wrong_options(self, options):
        with pytest.raises(ValueError) as raised:
            Run(BATCH, **options)
        assert not isinstance(raised.value, Fault)

    def test_refuses_a_batch_as_check_does(self):
        with pytest.raises(Fault) as raised:
            Run('{"requests":7}')
        assert str(raised.value) == "F04 NoRequests batch"

    def test_has_no_response_and_nothing_undone_before_its_end(self):
        with Run(BATCH, events=EVENTS[:5]) as live:
            for call in (live.response, lambda: live.undone):
                with pytest.raises(Fault) as raised:
                    call()
                assert str(raised.value) == "F66 Unfinished events"
            take(live, EVENTS[5:])
            assert live.response() == run(BATCH, EVENTS)

    def test_a_refusal_is_pickled(self):
        refused = pickle.loads(pickle.dumps(Refused("S4", "Waiting", "list")))
        assert (refused.code, refused.name, refused.id) == ("S4", "Waiting", "list")


class TestClosing:
    def test_a_closed_run_raises_value_errors(self):
        live = Run(BATCH, events=EVENTS)
        live.close()
        calls = [
            *(lambda name=name: getattr(live, name) for name in ("ready", "running", "finished", "undone")),
            lambda: live.start("book"),
            lambda: live.report("book", 200),
            lambda: live.response(),
            lambda: live.__enter__(),
        ]
        for call in calls:
            with pytest.raises(ValueError) as raised:
                call()
            assert str(raised.value) == "the run is closed"
            assert not isinstance(raised.value, OdbError)

    def closed(self):
        """Counts the runs that are closed meanwhile."""
        return mock.patch.object(library.LIBRARY, "odb_run_close", wraps=library.LIBRARY.odb_run_close)

    def test_is_closed_once(self):
        with self.closed() as close, pytest.raises(ZeroDivisionError):
            with Run(BATCH) as live:
                raise ZeroDivisionError
        live.close()
        assert close.call_count == 1

    def test_a_forgotten_run_is_closed(self):
        with self.closed() as close:
            for _ in range(10):
                Run(BATCH, events=EVENTS[:3])
            gc.collect()
        assert close.call_count == 10

    def test_nothing_is_left_where_none_was_opened(self):
        with self.closed() as close:
            for wrong in ({"batch": b""}, {"batch": BATCH, "events": b""}, {"batch": BATCH, "width": 0}):
                with pytest.raises(ValueError):
                    Run(**wrong)
            gc.collect()
        assert close.call_count == 0


class TestObjects:
    def test_a_run_is_not_copied(self):
        with Run(BATCH) as live:
            for call in (copy.copy, copy.deepcopy, pickle.dumps, lambda it: pickle.dumps(it, 0)):
                with pytest.raises(TypeError) as raised:
                    call(live)
                assert str(raised.value) == "a Run cannot be copied"
            assert live.ready == ("book",)

    def test_a_run_shows_its_state(self):
        live = Run(BATCH)
        assert repr(live) == "<Run of 4 requests: 1 ready, 0 running>"
        take(live, EVENTS[:3])
        assert repr(live) == "<Run of 4 requests: 1 ready, 1 running>"
        take(live, EVENTS[3:])
        assert repr(live) == "<Run of 4 requests: finished>"
        live.close()
        assert repr(live) == "<Run of 4 requests: closed>"
        assert repr(Run.__new__(Run)) == "<Run: not open>"


class TestStatuses:
    @pytest.mark.parametrize(
        "status, kind", [(4, MemoryError), (2, RuntimeError), (5, RuntimeError), (77, RuntimeError)]
    )
    def test_raises_what_else_a_call_returns(self, status, kind):
        with Run(BATCH) as live:
            for call in (lambda: live.ready, lambda: live.start("book"), lambda: live.report("book", 200)):
                with mock.patch.object(Run, "_call", return_value=status), pytest.raises(kind):
                    call()


def layers(width, count):
    """A batch of layers, in which each request needs two of the layer before; each third is in a group of its layer."""
    requests = []
    for i in range(width * count):
        layer, place = divmod(i, width)
        needs = [f"r{(layer - 1) * width + (place + k) % width}" for k in (0, 1)] if layer else []
        group = {"atomicityGroup": f"g{layer}"} if place < 3 else {}
        needs += [f"g{layer - 1}"] if layer else []
        requests.append({"id": f"r{i}", "method": "get", "url": "X", "dependsOn": needs, **group})
    return {"requests": requests}


def status_of(id, seed):
    """What a request is answered: mostly a success."""
    return 404 if (int(id[1:]) * 7 + seed) % 23 == 1 else 200


# What comes next in each order of a replay: whether a request starts, and which.
ORDERS = {
    "first": lambda ready, running: (not running, (running or ready)[0]),
    "last": lambda ready, running: (not running, (running or ready)[-1]),
    "wide": lambda ready, running: (bool(ready), (ready or running)[0]),
}


def perform(live, seed, started):
    """Performs what may start until the run is finished, beside other threads or alone."""
    while not live.finished:
        for id in live.ready:
            try:
                live.start(id)
            except Refused:
                continue
            started.append(id)
            live.report(id, status_of(id, seed), {"X-Seed": str(seed)}, {"of": id})
        time.sleep(0)


def replayed(batch, seed):
    """The response of a replay with the same statuses."""
    ids = [it["id"] for it in batch["requests"]]
    headers = {"X-Seed": str(seed)}
    outcomes = [{"id": id, "status": status_of(id, seed), "headers": headers, "body": {"of": id}} for id in ids]
    return replay(batch, {"outcomes": outcomes}).response


class TestOrders:
    def steps(self, batch, order, seed, options):
        """Drives a run in an order, and opens it anew from its events now and then; returns what a replay does."""
        steps, live = [], Run(batch, **options)
        while not live.finished:
            starts, id = ORDERS[order](live.ready, live.running)
            step = Start(id) if starts else Report(id, status_of(id, seed))
            take(live, [step])
            steps.append(step)
            if len(steps) % 7 == 0:
                live.close()
                live = Run(batch, events=steps, **options)
        with live:
            return live.response(), tuple(steps), live.undone

    @pytest.mark.parametrize("seed", range(8))
    def test_goes_as_a_replay_does(self, seed):
        batch = layers(5, 3)
        policies = [{}, {"mode": "stop"}, {"width": 2}, {"mode": "stop", "width": 3}]
        outcomes = [{"id": it["id"], "status": status_of(it["id"], seed)} for it in batch["requests"]]
        for order, options in zip(("first", "last", "wide", "wide"), policies[seed % 4 :] + policies[: seed % 4]):
            wanted = replay(batch, {"outcomes": outcomes}, order=order, trace=True, **options)
            assert self.steps(batch, order, seed, options) == tuple(wanted)


class TestThreads:
    BATCH = layers(6, 4)

    def at_once(self, works):
        """Runs functions in a thread each; raises what one of them raises."""
        raised = []

        def guarded(work):
            try:
                work()
            except BaseException as error:
                raised.append(error)

        threads = [threading.Thread(target=guarded, args=(work,)) for work in works]
        for thread in threads:
            thread.start()
        for thread in threads:
            thread.join()
        if raised:
            raise raised[0]

    def ended(self, live, seed, started):
        """Whether a run ended as the replay does, and no request started twice."""
        return live.response() == replayed(self.BATCH, seed) and len(started) == len(set(started))

    def test_eight_threads_have_a_run_each(self):
        found = []

        def work(seed):
            for _ in range(5):
                started = []
                with Run(self.BATCH, width=1 + seed) as live:
                    perform(live, seed, started)
                    found.append(self.ended(live, seed, started))

        self.at_once([lambda seed=seed: work(seed) for seed in range(8)])
        assert found == [True] * 40

    def test_eight_threads_have_one_run(self):
        for seed in range(5):
            started = []
            with Run(self.BATCH, width=1 + 2 * seed) as live:
                self.at_once([lambda: perform(live, seed, started)] * 8)
                assert self.ended(live, seed, started)

    def test_a_run_is_closed_under_other_threads(self):
        for _ in range(20):
            live = Run(self.BATCH)
            ended = []

            def work():
                try:
                    while True:
                        for id in live.ready[:1]:
                            live.start(id)
                except (ValueError, Refused) as error:
                    ended.append(error)

            self.at_once([work] * 7 + [live.close])
            assert len(ended) == 7


class TestReadme:
    def test_its_programs_run(self):
        with open(README, encoding="utf-8") as file:
            programs = re.findall(r"```python\n(.*?)```", file.read(), re.DOTALL)
        printed, names = io.StringIO(), {}
        with contextlib.redirect_stdout(printed):
            for program in programs:
                exec(compile(program, README, "exec"), names)
        lines = printed.getvalue().splitlines()
        assert lines[0] == "Counts(requests=1, groups=0)"
        (response,) = (line for line in lines if line.startswith('{"responses"'))
        assert re.findall(r'"status":\d+', response) == ['"status":200'] * 2
        assert lines[-1] == "('b',)"
