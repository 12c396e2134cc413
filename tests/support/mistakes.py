"""Mistakes that the random tests have to find: each is one wrong rule in the place of the right one."""

import re
from contextlib import contextmanager
from dataclasses import dataclass
from urllib.parse import unquote_to_bytes

from . import full_plans, rules, rules_of_rests, rules_of_runs


@dataclass
class Mistake:
    """What is wrong, in which commands it can be seen, and the rule that is replaced."""

    title: str
    commands: tuple
    module: object
    rule: str
    wrong: object


MISTAKES = {}
ALL = ("check", "plan", "replay", "canon", "match", "run")


def mistake(module, rule, *commands):
    """Makes a mistake of the function below it, with its name and its first line as the title."""

    def keep(wrong):
        name = wrong.__name__.replace("_", "-")
        MISTAKES[name] = Mistake(wrong.__doc__, commands or ALL, module, rule, wrong)
        return wrong

    return keep


@contextmanager
def planted(name):
    """The rules with this mistake."""
    it = MISTAKES[name]
    right = getattr(it.module, it.rule)
    setattr(it.module, it.rule, it.wrong)
    try:
        yield
    finally:
        setattr(it.module, it.rule, right)


right_id_faults, right_canonical = rules.id_faults, rules.canonical_request
right_starts, right_response = rules_of_runs.start_faults, rules_of_runs.is_response
right_completed, right_repeats = rules_of_runs.completed, rules_of_rests.may_repeat


def needed_by(batch, i):
    """The positions that a request needs."""
    return [j for name in rules.needs(batch, i) for j in rules.needed_positions(batch, name)]


def may_have_succeeded(batch, statuses, i, j):
    """Whether what a request needs succeeded, or is of its group and answered 424."""
    return rules_of_runs.is_success(statuses[j]) or (statuses[j] == 424 and j in rules.members(batch, batch[i].group))


@mistake(rules, "is_base64url")
def padding_fits(value):
    """The padding of base64url has to fit the length."""
    found = isinstance(value, str) and re.fullmatch(r"([A-Za-z0-9_-]*)={0,2}", value)
    return bool(found) and len(found[1]) % 4 != 1 and ("=" not in value or len(value) % 4 == 0)


@mistake(rules, "suits")
def text_first(body, media):
    """`text/` is tried before `+json`."""
    if media.startswith("text/"):
        return isinstance(body, str)
    return media in ("", "application/json") or media.endswith("+json") or rules.is_base64url(body)


@mistake(rules, "front")
def reserved_alone(url):
    """A reserved name is one only where it is the whole segment."""
    segment = unquote_to_bytes(re.split("[/?#]", url, maxsplit=1)[0])
    if not segment.startswith(b"$"):
        return "plain", None
    if segment[1:].decode(errors="replace") in rules.RESERVED:
        return "reserved", None
    found = re.fullmatch(rb"[A-Za-z0-9._~-]+", segment[1:])
    return ("reference", found[0].decode()) if found else ("bad", None)


@mistake(rules, "is_nested_batch")
def decoded_twice(url):
    """The last segment of a url is decoded twice."""
    segment = re.split("[?#]", url, maxsplit=1)[0].split("/")[-1]
    return unquote_to_bytes(unquote_to_bytes(segment)) == b"$batch"


@mistake(rules, "id_faults")
def split_by_groups_alone(batch, i):
    """Only a request of another group splits a group, not one without."""
    found = right_id_faults(batch, i)
    found["F32"] = found["F32"] and batch[i - 1].group is not None
    return found


@mistake(rules, "needs", "plan")
def reference_at_the_end(batch, i):
    """A reference that is listed is needed at the end, not at its place."""
    names = [name for name in batch[i].names if name != batch[i].reference]
    return names + [batch[i].reference] * (batch[i].reference is not None)


@mistake(rules, "level", "plan")
def level_of_last_member(batch, earlier, i):
    """A group has the level of its last member, not the highest."""
    needed = [earlier[rules.needed_positions(batch, name)[-1]] for name in rules.needs(batch, i)]
    return 1 + max(needed) if needed else 0


@mistake(rules, "group_unit", "plan")
def cluster_by_position(batch, begun, name):
    """A cluster of a drawing has the position of its first request, not the number of its unit."""
    return rules.first_of(batch, name)


@mistake(rules_of_runs, "is_success", "replay", "match", "run")
def redirect_succeeds(status):
    """A redirect satisfies what needs it."""
    return 200 <= status <= 399


@mistake(rules_of_runs, "has_failed", "replay", "run")
def failure_stays_inside(run, i):
    """What another unit failed at does not fail the other members of a group."""
    own = rules_of_runs.unit(run, i)
    reported = any(j in run.reported and not rules_of_runs.has_succeeded(run, j) for j in own)
    return reported or any(failure_stays_inside(run, k) for k in rules_of_runs.needed_elsewhere(run, i, own))


@mistake(rules_of_runs, "answer", "replay", "run")
def undone_keeps_its_answer(run, i, failed):
    """A member that succeeded in a failed group keeps its own answer."""
    return run.reported.get(i)


@mistake(rules, "canonical_request", "canon")
def empty_headers_written(request):
    """A request without headers is written with empty ones."""
    return right_canonical(request) | {"headers": request.headers}


@mistake(full_plans, "rest_of", "plan")
def rest_of_each_url(request):
    """The rest of a URL is what follows its first segment, also if that refers to no request."""
    return re.sub("^[^/?#]*", "", request.url)


@mistake(full_plans, "place_of", "plan")
def places_in_characters(text, start, end):
    """The place of a body is counted in characters."""
    return {"length": end - start, "offset": start}


@mistake(rules_of_runs, "is_unsound", "match")
def needed_groups_forgotten(batch, statuses, i):
    """A success may rest on a group that did not succeed."""
    needed = [rules.position(batch, name) for name in rules.needs(batch, i)]
    failed = [j for j in needed if j is not None and not rules_of_runs.is_success(statuses[j])]
    return rules_of_runs.is_success(statuses[i]) and bool(failed)


@mistake(rules_of_runs, "is_response", "match")
def response_may_be_600(element):
    """A status up to 600 is taken."""
    known = isinstance(element, dict) and element.get("status") == 600
    return right_response(dict(element, status=599) if known else element)


@mistake(rules_of_runs, "unit_of", "match")
def members_stand_alone(batch, i):
    """A member of a group may succeed alone, and nothing in it is undone."""
    return [i]


@mistake(rules_of_runs, "can_have_started", "match")
def started_after_failures(batch, statuses, units):
    """A request can have started whatever it needs was answered."""
    return [True] * len(batch)


@mistake(rules_of_runs, "can_have_started", "match")
def undone_without_start(batch, statuses, units):
    """What is answered 424 in the group of a request counts as undone, though it cannot have started."""
    return [all(may_have_succeeded(batch, statuses, i, j) for j in needed_by(batch, i)) for i in range(len(batch))]


@mistake(rules_of_runs, "can_have_been_sent", "match")
def never_sent_as_one(batch, statuses, i):
    """No unit has started as one, though `--units` says that units may."""
    return False


@mistake(rules_of_runs, "completed", "match")
def left_out_without_error(batch, responses):
    """A service that stops may leave out responses though none is an error."""
    with_error = [*responses, {"id": None, "status": 500}]
    return [it for it in right_completed(batch, with_error) if it["id"] is not None]


@mistake(rules_of_runs, "completed", "match")
def left_out_without_group(batch, responses):
    """A request that a service has left out is answered without its group."""
    given = len(responses)
    found = right_completed(batch, responses)
    return found[:given] + [dict(it, atomicityGroup=None) for it in found[given:]]


@mistake(rules_of_runs, "start_faults", "run")
def waiting_before_failed(run, i):
    """S4 is reported before S3."""
    found = right_starts(run, i)
    return {code: found[code] for code in ("S1", "S2", "S4", "S3", "S5")}


@mistake(rules_of_runs, "is_finished", "run")
def unfinished_passes(run):
    """A run is taken for finished once nothing runs."""
    return not run.running()


@mistake(rules_of_rests, "may_repeat", "rest")
def repeated_after_timeout(method, status):
    """A POST is sent again though nobody knows whether it was performed."""
    return right_repeats("get", status)


@mistake(rules_of_rests, "left_out", "rest")
def left_out_alone(batch, statuses):
    """What needs a request that may not be sent again is sent again."""
    out = {i for i, request in enumerate(batch) if not rules_of_rests.may_repeat(request.method, statuses[i])}
    return {j for i in out for j in rules_of_rests.unit(batch, i)}


@mistake(rules_of_rests, "moved_url", "rest")
def location_as_it_is(request, location):
    """A Location may make a URL that refers to a request."""
    return None if location is None else location + full_plans.rest_of(request)
