"""Strategies for documents of every kind: good ones, and slightly damaged ones.

The functions that take `draw` make a part of a document, from what was drawn before it.
"""

import copy
import importlib.util
import json
import os
import re

from hypothesis import strategies as st

from . import rules, rules_of_runs
from .program import ROOT


def _module_at(*names):
    """A module of the package for Python, without the package, which would load the library."""
    spec = importlib.util.spec_from_file_location("strategies_of_testing", os.path.join(ROOT, *names))
    module = importlib.util.module_from_spec(spec)
    spec.loader.exec_module(module)
    return module


good = _module_at("python", "odb_batch", "testing", "_strategies.py")
of, chance = good.of, good.chance

IDS, GROUPS = of(*good.ID_NAMES), of(*good.GROUP_NAMES)
BAD_URLS = of(
    "$", "$a(5)", "$a%2Fb", "%24", "$$", "$aä", "$batch", "/s/$batch?x", "/s/%24batch#y",
    "$nobody/X", "$all-", None, 7,
)  # fmt: skip
# A text between two `@@` is written as the number that it spells.
INEXACT = ("@@1.5@@", ["@@1E2@@"], 2**64, [-(2**63) - 1])
BODIES = of(*good.WHOLE, *INEXACT)
# Few have numbers that are not whole, since these are refused in second documents.
RECORDED_BODIES = chance(10).flatmap(lambda inexact: BODIES if inexact else good.WHOLE_BODIES)
BAD_BODIES = of(7, "A", "AA===", "A+BC", "AAAAA", "AA A", {})
BAD_HEADERS = of(
    {"X": "1", "x": "2"}, {"a": 1}, [], {"Content-Type": "text/plain"},
    {"Content-Type": "x/y", "content-type": "x/y"},
)  # fmt: skip
VALUES = of(
    None, 0, 1, True, "", "a", "a b", [], ["a"], [None], {}, {"a": "b"}, {"X": "1", "x": "2"}, {"a": 1}, "@@1.5@@",
).map(copy.deepcopy)  # fmt: skip
MEMBERS = of(*rules.MEMBERS, "if", "other", "@note", "url@note", "Id", "status", "start", "report")
BAD_STATUSES = of(199, 600, -1, 0, 65535, 65536, "200", "@@200.0@@", "@@2e2@@", None, True, 99, 100)
OTHER_BYTES = of(b" ", b"}", b"[", b"\\", b"\xff")


def text_of(value, **form):
    return re.sub('"@@(.*?)@@"', r"\1", json.dumps(value, **form))


@st.composite
def documents(draw, value):
    """The bytes of a value: with spaces or without, now and then of another value, cut, or with one byte changed."""
    value = draw(VALUES) if draw(chance(2)) else value
    data = text_of(value, ensure_ascii=draw(st.booleans()), indent=draw(of(None, None, 1))).encode()
    if not draw(chance(3)):
        return data
    at = draw(st.integers(0, len(data) - 1))
    return data[:at] if draw(st.booleans()) else data[:at] + draw(OTHER_BYTES) + data[at + 1 :]


# Batches


def good_batches():
    """The value of a batch that is accepted; bodies may have numbers that are not whole."""
    return good.batches(bodies=BODIES)


@st.composite
def recorded_batches(draw):
    """The value of a batch that is accepted and has a canonical text, and an outcome for each of its requests."""
    batch = draw(good.batches())
    return batch, draw(good.outcomes(batch))["outcomes"]


# Damage


def change_member(draw, element):
    element[draw(MEMBERS)] = draw(VALUES)


def drop_member(draw, element):
    if element:
        del element[draw(st.sampled_from(list(element)))]


def change_name(draw, element):
    names = element.get("dependsOn") if isinstance(element.get("dependsOn"), list) else []
    own = of(element.get("id"), element.get("atomicityGroup"))
    element["dependsOn"] = [*names, draw(st.one_of(IDS, GROUPS, own, st.just(0)))]


def drop_name(draw, element):
    if isinstance(element.get("dependsOn"), list):
        element["dependsOn"] = element["dependsOn"][1:]


def change_url(draw, element):
    element["url"] = draw(st.one_of(BAD_URLS, IDS.map("${}".format), st.just(f"${element.get('id')}/Y")))


def change_to(name, values):
    """Gives a member one of these values."""

    def change(draw, element):
        element[name] = draw(values)

    return change


OF_ANY = (
    change_member, drop_member, change_to("headers", BAD_HEADERS), change_to("body", BAD_BODIES),
    change_to("atomicityGroup", st.one_of(GROUPS, of(None, "a"))), change_to("id", st.one_of(IDS, GROUPS)),
)  # fmt: skip
OF_REQUEST = of(*OF_ANY, change_name, change_name, drop_name, change_url)
OF_SECOND = of(*OF_ANY, *3 * [change_to("status", st.one_of(BAD_STATUSES, good.SUCCESSES, good.FAILURES))])


def damage_list(draw, elements):
    """Moves, repeats or drops an element, or replaces it by another value."""
    at = draw(st.integers(0, len(elements) - 1))
    element = elements.pop(at)
    kind = draw(of("drop", "repeat", "move", "move", "value"))
    if kind == "move":
        elements.insert(draw(st.integers(0, len(elements))), element)
    elif kind == "repeat":
        elements[at:at] = [element, copy.copy(element)]
    elif kind == "value":
        elements.insert(at, draw(VALUES))


def damage(draw, whole, name, of_element):
    """Damages a document in one or two places."""
    for _ in range(draw(of(1, 1, 1, 2))):
        elements = whole.get(name)
        if draw(chance(6)) or not isinstance(elements, list) or not elements:
            whole[draw(of(name, "other", "@note"))] = draw(VALUES)
        elif draw(chance(30)):
            damage_list(draw, elements)
        elif isinstance(element := draw(st.sampled_from(elements)), dict):
            draw(of_element)(draw, element)
    return whole


@st.composite
def batches(draw, percent):
    """A batch document; of so many of a hundred some are damaged."""
    whole = draw(good_batches())
    return draw(documents(damage(draw, whole, "requests", OF_REQUEST) if draw(chance(percent)) else whole))


# Second documents


def second(draw, name, elements):
    """A second document with these elements, damaged or not."""
    whole = {name: elements}
    return draw(documents(damage(draw, whole, name, OF_SECOND) if draw(chance(50)) else whole))


@st.composite
def outcomes(draw, ids):
    known = [name for name in ids if not draw(chance(3))]
    found = [good.with_rest(draw, {"id": name, "status": good.status(draw)}, RECORDED_BODIES) for name in known]
    more = draw(of([], [], [{"id": "not an id", "status": 200}]))
    return second(draw, "outcomes", draw(st.permutations(found)) + more)


class PlainRun:
    """A run by the plain rules, as a live run is driven."""

    def __init__(self, run):
        self.run = run
        self.position = {request.id: i for i, request in enumerate(run.batch)}

    @property
    def ready(self):
        return [self.run.batch[i].id for i in rules_of_runs.ready(self.run)]

    @property
    def running(self):
        return [self.run.batch[i].id for i in self.run.running()]

    def start(self, id):
        self.run.started.append(self.position[id])

    def report(self, id, status):
        self.run.reported[self.position[id]] = rules_of_runs.Outcome(status, {}, None)


@st.composite
def statuses(draw, percent):
    return good.status(draw, percent)


@st.composite
def events(draw, requests, stop=False, width=10_000):
    """The events of a run, now and then by another policy, with a start too many, or too few events."""
    other = draw(chance(20))
    run = PlainRun(rules_of_runs.Run(requests, stop and not other, width + other))
    found = good.events_of(draw, run, statuses(draw(of(80, 40))), RECORDED_BODIES)
    if requests and draw(chance(40)):
        found.insert(draw(st.integers(0, len(found))), {"start": draw(st.sampled_from(requests)).id})
    if draw(chance(10)):
        del found[draw(st.integers(0, len(found))) :]
    return second(draw, "events", found)


@st.composite
def responses(draw, requests):
    """The responses to a run that the rules allow, in any order, now and then with another status or with some left out."""
    percent, order = draw(of(95, 50)), draw(of("first", "wide"))
    recorded = {it.id: rules_of_runs.Outcome(good.status(draw, percent), {}, None) for it in requests}
    found = json.loads(rules_of_runs.replay(requests, recorded, order))["responses"]
    if found and draw(st.booleans()):
        draw(st.sampled_from(found))["status"] = draw(st.one_of(good.FAILURES, of(100, 199, 600)))
    if draw(chance(30)):
        found = [it for it in found if it["status"] != 424 and draw(chance(90))]
    return second(draw, "responses", draw(st.permutations(found)))


# What answers a request that may be sent again, and what does not; the headers of a response with a Location, or without.
AGAIN = of(424, 429, 503, 408, 502, 504, 404)
LOCATIONS = of(
    {}, {"Location": "/made/Books(1)", "ETag": "\"1\""}, {"location": "Loans('2')?x=1", "etag": "", "ETAG": "W/\"2\""},
    {"Location": "Loans('2')"}, {"LOCATION": "$a", "Etag": "1"}, {"Location": "$batch"}, {"Location": 7},
    {"Location": "First", "location": "second", "ETag": 7}, [],
).map(copy.deepcopy)  # fmt: skip


@st.composite
def responses_with_rest(draw, requests):
    """The responses to a run that the rules allow, of which many may be sent again, in any order."""
    statuses = {it.id: draw(good.SUCCESSES if draw(chance(60)) else AGAIN) for it in requests}
    recorded = {name: rules_of_runs.Outcome(status, {}, None) for name, status in statuses.items()}
    found = json.loads(rules_of_runs.replay(requests, recorded, draw(of("first", "wide"))))["responses"]
    for it in found:
        it["headers"] = draw(LOCATIONS) if draw(chance(80)) else None
    if draw(chance(20)):
        found = [it for it in found if it["status"] != 424]
    return draw(documents({"responses": draw(st.permutations(found))}))


def seconds(command, first, options):
    """The second document of a command, which fits the batch if that is accepted; a list, empty if there is none."""
    try:
        requests = rules.check(first)
    except rules.Fault:
        requests = rules.Batch([])
    policy = {name: options[name] for name in ("stop", "width") if name in options}
    made = {
        "replay": lambda: outcomes([it.id for it in requests]),
        "match": lambda: responses(requests),
        "run": lambda: events(requests, **policy),
        "rest": lambda: st.one_of(responses_with_rest(requests), responses_with_rest(requests), responses(requests)),
    }
    return st.tuples(made[command]()) if command in made else st.just(())
