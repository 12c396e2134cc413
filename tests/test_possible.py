"""What `match --strict` accepts is what runs answer: for small batches all runs are made, event by event. With `--units` the
units of these runs may also be sent as one."""

import itertools
import json

import pytest

from support import calls, rules, rules_of_runs

STATUSES = (200, 404, 424)


def request(id, group=None, *names):
    found = {"id": id, "method": "post", "url": "X", "dependsOn": list(names)}
    return {**found, "atomicityGroup": group} if group else found


BATCHES = {
    "a dependency": [request("a"), request("b", None, "a")],
    "a group over a request": [request("a"), request("p", "g"), request("q", "g", "a")],
    "a chain in a group": [request("p", "g"), request("q", "g", "p"), request("r", "g", "q")],
    "a request over a group": [request("p", "g"), request("q", "g"), request("z", None, "p", "g")],
    "a group over a group": [request("p", "g"), request("q", "g"), request("x", "h", "g"), request("y", "h")],
    "a group over two requests": [request("a"), request("b"), request("p", "g", "a"), request("q", "g", "b")],
    "a chain within a group and over it": [
        request("a"), request("p", "g"), request("q", "g", "a", "p"), request("z", None, "g"),
    ],
}  # fmt: skip


def may_be_sent(run, members):
    """Whether these requests, all members of a unit, may be sent as one: none has started, and all needs on others are met."""
    fresh = not any(i in run.started for i in members)
    open_run = not rules_of_runs.is_stopped(run) and not rules_of_runs.has_failed(run, members[0])
    needed = (k for i in members for k in rules_of_runs.needed_elsewhere(run, i, members))
    return fresh and open_run and all(rules_of_runs.has_succeeded(run, k) for k in needed)


def events_of(run, count, units):
    """Each event that may come next: the positions that start, and the one that reports a status."""
    for i in range(count):
        members = rules_of_runs.unit(run, i)
        if not any(rules_of_runs.start_faults(run, i).values()):
            yield (i,), ()
        if units and members[0] == i and may_be_sent(run, members):
            yield tuple(members), ()
        reports = (status for status in STATUSES if not any(rules_of_runs.report_faults(run, i, status).values()))
        yield from (((), ((i, status),)) for status in reports)


def answers(batch, stop, units):
    """The statuses that the finished runs of a batch answer."""
    seen, found, open_runs = set(), set(), [((), ())]
    while open_runs:
        started, reported = open_runs.pop()
        if (started, reported) in seen:
            continue
        seen.add((started, reported))
        run = rules_of_runs.Run(batch, stop)
        run.started += started
        run.reported.update({i: rules_of_runs.Outcome(status, {}, None) for i, status in reported})
        if rules_of_runs.is_finished(run):
            value = json.loads(rules_of_runs.response_text(run))
            found.add(tuple(it["status"] for it in value["responses"]))
        for begun, ended in events_of(run, len(batch), units):
            open_runs.append((tuple(sorted(started + begun)), tuple(sorted(reported + ended))))
    return found


def responses(batch, statuses):
    return {
        "responses": [
            {"id": it.id, "atomicityGroup": it.group, "status": status} for it, status in zip(batch, statuses)
        ]
    }


@pytest.mark.parametrize("units", [False, True], ids=["requests", "units"])
@pytest.mark.parametrize("stop", [False, True], ids=["continue", "stop"])
@pytest.mark.parametrize("title", BATCHES)
def test_accepts_what_runs_answer(title, stop, units, program):
    document = json.dumps({"requests": BATCHES[title]}).encode()
    batch = rules.check(document)
    wanted = answers(batch, stop, units)
    pairs = list(itertools.product(STATUSES, repeat=len(batch)))
    lines = [json.dumps([{"requests": BATCHES[title]}, responses(batch, it)]) + "\n" for it in pairs]
    words = ["match", "--strict", "--lines", *(["--stop"] if stop else []), *(["--units"] if units else [])]
    text, _ = calls.call(program, words, given="".join(lines).encode())
    found = {it for it, line in zip(pairs, text.decode().splitlines()) if not line.startswith('{"fault"')}
    assert found == wanted
