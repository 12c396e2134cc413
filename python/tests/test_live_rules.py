"""Live runs against plain rules: every list of events over small batches, of which each has at most six that may come."""

import json

import pytest

from odb_batch import Refused, RequestState, Run
from support import rules
from support import rules_of_runs as plain


def batch_of(*requests):
    """A batch of requests, each an id with its other members."""
    return {"requests": [{"id": id, "method": "delete", "url": "X", **more} for id, more in requests]}


GROUP = {"atomicityGroup": "g"}
BATCHES = {
    "two alone and one that depends on the first": batch_of(("r", {}), ("t", {}), ("s", {"dependsOn": ["r"]})),
    "a group with a reference": batch_of(("p", GROUP), ("q", {**GROUP, "url": "$p/Y"}), ("r", {"dependsOn": ["g"]})),
    "a group": batch_of(("p", GROUP), ("q", GROUP), ("r", {"dependsOn": ["g"]})),
    "a group of three": batch_of(("p", GROUP), ("q", GROUP), ("r", GROUP)),
    "a group that depends on another request": batch_of(("a", {}), ("p", GROUP), ("q", {**GROUP, "dependsOn": ["a"]})),
}

# What may happen at a position: a start, a success, an error or a redirection, and a status that no answer has.
EVENTS = [(0, None), (1, None), (2, None), (0, 200), (1, 201), (2, 204), (0, 500), (1, 304), (2, 404), (0, 600)]


class Course:
    """A live run and a run of the rules that take the same events."""

    def __init__(self, document, mode, width, events):
        self.ids = [it["id"] for it in document["requests"]]
        batch = rules.check(json.dumps(document).encode())
        self.rules = plain.Run(batch, mode == "stop", width)
        self.live = Run(document, mode=mode, width=width)
        for event in events:
            self.take(*event)

    def refusal(self, i, status):
        """The first cause by which the rules refuse an event, or None."""
        faults = plain.start_faults(self.rules, i) if status is None else plain.report_faults(self.rules, i, status)
        return next((code for code, holds in faults.items() if holds), None)

    def send(self, i, status):
        if status is None:
            self.live.start(self.ids[i])
        else:
            self.live.report(self.ids[i], status)

    def take(self, i, status):
        """Takes an event that may come."""
        self.send(i, status)
        if status is None:
            self.rules.started.append(i)
        else:
            self.rules.reported[i] = plain.Outcome(status, {}, None)

    def named(self, positions):
        return tuple(self.ids[i] for i in positions)

    def state(self, i):
        """What has become of a request, by the rules."""
        run, is_finished = self.rules, plain.is_finished(self.rules)
        if i in run.reported:
            is_undone = is_finished and i in plain.undone(run)
            return RequestState("undone", 424) if is_undone else RequestState("reported", run.reported[i].status)
        if i in run.started:
            return RequestState("running", None)
        if plain.is_stopped(run) or plain.has_failed(run, i):
            return RequestState("skipped", 424 if is_finished else None)
        return RequestState("ready" if i in plain.ready(run) else "waiting", None)

    def next_unit(self):
        """The first unit that may begin, by the rules."""
        for i in range(len(self.ids)):
            members = plain.unit(self.rules, i)
            needed = [k for j in members for k in plain.needed_elsewhere(self.rules, j, members)]
            causes = [plain.start_faults(self.rules, j) for j in members]
            is_barred = any(it[code] for it in causes for code in ("S1", "S2", "S3", "S5"))
            if not is_barred and all(plain.has_succeeded(self.rules, k) for k in needed):
                return self.named(members)
        return None

    def agrees(self):
        """Asserts that the live run shows what the rules say."""
        live, run = self.live, self.rules
        assert (live.ready, live.running) == (self.named(plain.ready(run)), self.named(run.running()))
        assert live.finished == plain.is_finished(run)
        assert [live.state(id) for id in self.ids] == [self.state(i) for i in range(len(self.ids))]
        assert live.next_unit() == self.next_unit()
        if live.finished:
            assert live.undone == self.named(plain.undone(run))
            assert live.response() + b"\n" == plain.response_text(run).encode()

    def refused(self):
        """Has the live run refuse each event that may not come, and returns the others."""
        may_come = []
        for event in EVENTS:
            cause = self.refusal(*event)
            if cause is None:
                may_come.append(event)
                continue
            with pytest.raises(Refused) as raised:
                self.send(*event)
            assert raised.value.code == cause, event
        return may_come


def courses(document, mode, width, events):
    """Tries all events after some that came, and returns the lists of events that are one longer."""
    course = Course(document, mode, width, events)
    with course.live:
        course.agrees()
        may_come = course.refused()
        course.agrees()
        return [[*events, event] for event in may_come]


@pytest.mark.parametrize("mode", ["continue", "stop"])
@pytest.mark.parametrize("width", [1, 2])
@pytest.mark.parametrize("name", BATCHES)
def test_takes_every_list_of_events_as_the_rules_say(name, mode, width):
    left = [[]]
    while left:
        events = left.pop()
        left += courses(BATCHES[name], mode, width, events)
