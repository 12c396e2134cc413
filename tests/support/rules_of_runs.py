"""The rules of runs, outcomes, events and responses as a plain program: the second part of rules.py."""

import json
import re
from dataclasses import dataclass, field

from . import rules
from .full_plans import full_plan
from .rules import Fault, first_fault, fold, is_number, is_status, is_whole, json_text
from .rules_of_rests import rest_text


@dataclass
class Outcome:
    status: int
    headers: dict
    body: object


@dataclass
class Run:
    """A run so far: the batch, the policy, what was started, and what was reported."""

    batch: list
    stop: bool = False
    width: int = 10_000
    started: list = field(default_factory=list)
    reported: dict = field(default_factory=dict)

    def running(self):
        return sorted(i for i in self.started if i not in self.reported)


# Outcomes


def is_form_of_outcome(element, name):
    """Whether an object has this name as a string, a number as status, good headers, and nothing else."""
    headers = element.get("headers") or {}
    return (
        set(element) <= {name, "status", "headers", "body"}
        and isinstance(element.get(name), str)
        and is_number(element.get("status"))
        and (element.get("headers") is None or rules.is_headers(element["headers"]))
        and not rules.has_repeats([fold(it) for it in headers])
    )


def outcome_of(element):
    headers = {fold(name): value for name, value in (element.get("headers") or {}).items()}
    return Outcome(element["status"], headers, element.get("body"))


def elements_of(value, name, code):
    """The array that is the one member of the document."""
    if not isinstance(value, dict) or set(value) != {name} or not isinstance(value[name], list):
        raise Fault(code, name)
    return value[name]


def read_outcomes(data):
    """The outcomes by their ids, or the first fault."""
    found = {}
    for k, element in enumerate(elements_of(rules.parse(data, "outcomes"), "outcomes", "F60")):
        place = f"/outcomes/{k}"
        first_fault({"F60": not isinstance(element, dict) or not is_form_of_outcome(element, "id")}, place)
        first_fault(
            {
                "F61": element["id"] in found,
                "F62": not is_status(element["status"], 200, 599),
                "F63": not is_whole(element.get("body")),
            },
            place,
        )
        found[element["id"]] = outcome_of(element)
    return found


# Runs


def is_success(status):
    return 200 <= status <= 299


def is_error(status):
    return 400 <= status <= 599


def has_succeeded(run, i):
    return i in run.reported and is_success(run.reported[i].status)


def is_satisfied(run, name):
    return all(has_succeeded(run, j) for j in rules.needed_positions(run.batch, name))


def unit(run, i):
    """The members of the request's unit: its group, or the request alone."""
    return rules.members(run.batch, run.batch[i].group) or [i]


def has_failed(run, i):
    """Whether the unit of a request has failed."""
    own = unit(run, i)
    return any(
        (j in run.reported and not has_succeeded(run, j))
        or any(has_failed(run, k) for k in needed_elsewhere(run, j, own))
        for j in own
    )


def needed_elsewhere(run, j, own):
    needed = [k for name in rules.needs(run.batch, j) for k in rules.needed_positions(run.batch, name)]
    return [k for k in needed if k not in own]


def is_stopped(run):
    return run.stop and any(is_error(it.status) for it in run.reported.values())


def start_faults(run, i):
    return {
        "S1": i in run.started,
        "S2": is_stopped(run),
        "S3": has_failed(run, i),
        "S4": not all(is_satisfied(run, name) for name in rules.needs(run.batch, i)),
        "S5": len(run.running()) >= run.width,
    }


def report_faults(run, i, status):
    return {"P1": i not in run.running(), "P2": not is_status(status, 200, 599)}


def ready(run):
    return [i for i in range(len(run.batch)) if not any(start_faults(run, i).values())]


def is_finished(run):
    over = all(i in run.reported or has_failed(run, i) for i in range(len(run.batch)))
    return not run.running() and (is_stopped(run) or over)


def failed_groups(run):
    """The groups in which not all members have succeeded."""
    return {request.group for i, request in enumerate(run.batch) if not has_succeeded(run, i)} - {None}


def answer(run, i, failed):
    """The outcome that answers a request, or None for a failed dependency."""
    own = run.reported.get(i)
    if own is not None and not is_success(own.status):
        return own
    return None if run.batch[i].group in failed else own


def response_of(run, i, failed):
    request, given = run.batch[i], answer(run, i, failed)
    found = {"id": request.id, "status": given.status if given else 424}
    if request.group is not None:
        found["atomicityGroup"] = request.group
    if given and given.headers:
        found["headers"] = given.headers
    if given and given.body is not None:
        found["body"] = given.body
    return found


def response_text(run):
    failed = failed_groups(run)
    return json_text({"responses": [response_of(run, i, failed) for i in range(len(run.batch))]}) + "\n"


def response_after(batch, outcomes):
    """The response to a run in which each request has run and has had its outcome."""
    return response_text(Run(batch, reported={i: outcomes[request.id] for i, request in enumerate(batch)}))


def undone(run):
    failed = failed_groups(run)
    return [i for i in reversed(range(len(run.batch))) if has_succeeded(run, i) and answer(run, i, failed) is None]


# Replays


def next_step(run, order):
    """What comes next by the order: `start` or `report`, and a position."""
    may_start, running = ready(run), run.running()
    if order == "wide":
        return ("start", may_start[0]) if may_start else ("report", running[0])
    end = 0 if order == "first" else -1
    return ("report", running[end]) if running else ("start", may_start[end])


def take(run, step, i, outcomes):
    """Takes a step, and returns its line of the trace."""
    name = run.batch[i].id
    if step == "start":
        run.started.append(i)
        return f"start {name}\n"
    if name not in outcomes:
        raise Fault("F80", f"/requests/{i}")
    run.reported[i] = outcomes[name]
    return f"report {name} {outcomes[name].status}\n"


def replay(batch, outcomes, order="first", stop=False, width=10_000, trace=False):
    run, lines = Run(batch, stop, width), []
    while not is_finished(run):
        lines.append(take(run, *next_step(run, order), outcomes))
    lines += [f"undo {batch[i].id}\n" for i in undone(run)]
    return "".join(lines if trace else []) + response_text(run)


# Recorded events


def is_event(element):
    if not isinstance(element, dict):
        return False
    if set(element) == {"start"}:
        return isinstance(element["start"], str)
    return is_form_of_outcome(element, "report") and is_status(element["status"], 0, 65535)


def read_events(data):
    elements = elements_of(rules.parse(data, "events"), "events", "F64")
    for k, element in enumerate(elements):
        first_fault({"F64": not is_event(element)}, f"/events/{k}")
        first_fault({"F63": not is_whole(element.get("body"))}, f"/events/{k}")
    return elements


def run_events(batch, events, stop=False, width=10_000):
    run = Run(batch, stop, width)
    positions = [rules.position(batch, it.get("start", it.get("report"))) for it in events]
    for k, i in enumerate(positions):
        first_fault({"F65": i is None}, f"/events/{k}")
    for k, (i, event) in enumerate(zip(positions, events)):
        if "start" in event:
            first_fault(start_faults(run, i), f"/events/{k}")
            run.started.append(i)
        else:
            first_fault(report_faults(run, i, event["status"]), f"/events/{k}")
            run.reported[i] = outcome_of(event)
    first_fault({"F66": not is_finished(run)}, "events")
    return response_text(run)


# Responses of a service


def is_response(element):
    return (
        isinstance(element, dict)
        and isinstance(element.get("id"), str)
        and is_status(element.get("status"), 100, 599)
        and isinstance(element.get("atomicityGroup"), (str, type(None)))
    )


def read_responses(data):
    value = rules.parse(data, "responses")
    if not isinstance(value, dict) or not isinstance(value.get("responses"), list):
        raise Fault("F70", "responses")
    for k, element in enumerate(value["responses"]):
        first_fault({"F70": not is_response(element)}, f"/responses/{k}")
    return value["responses"]


def needed_by(batch, i):
    return [j for name in rules.needs(batch, i) for j in rules.needed_positions(batch, name)]


def is_unsound(batch, statuses, i):
    """Whether a request succeeded though something that it needs did not."""
    return is_success(statuses[i]) and not all(is_success(statuses[j]) for j in needed_by(batch, i))


def completed(batch, responses):
    """The responses of a service that stops at its first error; the requests that it has left out are answered 424."""
    ids = {it["id"] for it in responses}
    if not any(is_error(it["status"]) for it in responses):
        return responses
    left_out = [it for it in batch if it.id not in ids]
    return responses + [{"id": it.id, "atomicityGroup": it.group, "status": 424} for it in left_out]


def unit_of(batch, i):
    """The positions that succeed together: a group, or one request."""
    return rules.members(batch, batch[i].group) or [i]


def is_partial(batch, statuses, i):
    """Whether a request succeeded though a member of its group did not."""
    return is_success(statuses[i]) and not all(is_success(statuses[j]) for j in unit_of(batch, i))


def can_have_been_sent(batch, statuses, i):
    """Whether the unit of a request can have started as one: what its members need of other units succeeded."""
    members = unit_of(batch, i)
    return all(j in members or is_success(statuses[j]) for k in members for j in needed_by(batch, k))


def can_have_started(batch, statuses, units):
    """For each request whether it can have started: what it needs succeeded, or succeeded and was undone with it."""
    started = []
    for i in range(len(batch)):
        needed = needed_by(batch, i)
        undone = [j for j in needed if j in unit_of(batch, i) and started[j] and statuses[j] == 424]
        alone = all(is_success(statuses[j]) or j in undone for j in needed)
        started.append(alone or (units and can_have_been_sent(batch, statuses, i)))
    return started


def impossible(batch, statuses, units):
    """Refuses statuses that no finished run answers, or none that may also send units as one."""
    started = can_have_started(batch, statuses, units)
    for i, status in enumerate(statuses):
        faults = {"F76": not 200 <= status <= 599, "F77": is_partial(batch, statuses, i)}
        first_fault({**faults, "F78": status != 424 and not started[i]}, f"/requests/{i}")


def match(batch, responses, stop=False, strict=False, units=False):
    """The responses that fit, each an id and a status, in the order of the requests."""
    by_id = {}
    for k, it in enumerate(completed(batch, responses) if stop else responses):
        first_fault({"F71": rules.position(batch, it["id"]) is None, "F72": it["id"] in by_id}, f"/responses/{k}")
        by_id[it["id"]] = it
    for i, request in enumerate(batch):
        first_fault({"F73": request.id not in by_id}, f"/requests/{i}")
    found = [by_id[request.id] for request in batch]
    statuses = [it["status"] for it in found]
    for i, request in enumerate(batch):
        differs = found[i].get("atomicityGroup") != request.group
        first_fault({"F74": differs, "F75": is_unsound(batch, statuses, i)}, f"/requests/{i}")
    if strict:
        impossible(batch, statuses, units)
    return [{"id": it["id"], "status": it["status"]} for it in found]


def match_text(found):
    return f"ok {len(found)} responses\n" + "".join(f"{it['id']} {it['status']}\n" for it in found)


# Commands


def rest(batch, first, second, options):
    responses = read_responses(second)
    return rest_text(batch, first, responses, [it["status"] for it in match(batch, responses, **options)])


def text_of(command, batch, first, second, options):
    if command == "check":
        return rules.checked_line(batch)
    if command == "plan":
        return rules.drawing_text(batch) if options.get("dot") else rules.plan_text(batch)
    if command == "canon":
        return rules.canonical_text(batch)
    if command == "replay":
        return replay(batch, read_outcomes(second), **options)
    if command == "match":
        return match_text(match(batch, read_responses(second), **options))
    if command == "rest":
        return rest(batch, first, second, options)
    return run_events(batch, read_events(second), **options)


def value_of(command, batch, first, second, options):
    """The result of a command that prints it as JSON, too."""
    if command == "check":
        return rules.checked(batch)
    if command == "plan":
        return {"requests": full_plan(batch, first) if options.get("full") else rules.planned(batch)}
    return {"responses": match(batch, read_responses(second), **options)}


def printed(command, first, second=b"", json=False, **options):
    """What the program has to print, and its exit status."""
    json = json or options.get("full", False)
    try:
        batch = rules.check(first)
        if json and command in ("check", "plan", "match"):
            return (json_text(value_of(command, batch, first, second, options)) + "\n").encode(), 0
        return text_of(command, batch, first, second, options).encode(), 0
    except Fault as fault:
        if options.get("all"):
            return rules.faults_text(rules.all_faults(first), json).encode(), 1
        return fault.text(json).encode(), 1


# Lines


def skip(text, at, mark):
    """Where the text goes on after white space, this mark and white space."""
    return re.compile(rf"[ \t\r]*{re.escape(mark)}[ \t\r]*").match(text, at).end()


def documents_of(command, line):
    """The documents in a line: the line itself, or the texts of the two elements of its array, or F01, F02 or F07."""
    value = rules.parse(line, "batch")
    if command in ("check", "plan", "canon"):
        return [line]
    if not (isinstance(value, list) and len(value) == 2):
        raise Fault("F07", "batch")
    text, decode = line.decode(), json.JSONDecoder().raw_decode
    first = skip(text, 0, "[")
    second = skip(text, end := decode(text, first)[1], ",")
    return [text[first:end].encode(), text[second : decode(text, second)[1]].encode()]
