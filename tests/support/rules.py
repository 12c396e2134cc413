"""The rules of a batch as a plain program, written from docs/ alone: clear and slow.

Each rule is a few lines, in the order of docs/batches.md and docs/faults.md. `printed` of rules_of_runs.py returns
what the program has to print for a command and its documents; runs are there, too.
"""

import json
import re
from collections import Counter
from itertools import accumulate
from urllib.parse import unquote_to_bytes

MOST_BYTES, MOST_LEVELS, MOST_REQUESTS = 16_777_216, 127, 10_000
# How many requests a row of a drawing has at most.
ROW = 12
METHODS = ("delete", "get", "patch", "post", "put")
MEMBERS = ("id", "method", "url", "atomicityGroup", "dependsOn", "if", "headers", "body")
RESERVED = ("batch", "crossjoin", "all", "entity", "root", "id", "metadata")

NAMES = dict(
    F01="TooLong", F02="NotJson", F03="NotObject", F04="NoRequests", F05="UnknownMember", F06="TooMany",
    F07="NotPair",
    F10="NotRequestObject", F11="IfMember", F12="UnknownRequestMember", F13="BadId", F14="BadMethod",
    F15="BadUrl", F16="BadGroup", F17="BadDependsOn", F18="BadHeaders", F19="HeaderTwice",
    F20="BodyNotAllowed", F21="BadBody", F22="NestedBatch", F23="BadReference",
    F30="IdTwice", F31="IdIsGroup", F32="GroupSplit",
    F40="UnknownName", F41="ForwardName", F42="OwnGroup", F43="GroupNotListed",
    F44="UnknownReference", F45="ForwardReference", F46="ReferenceNotListed", F50="NotWhole",
    F60="BadOutcomes", F61="OutcomeTwice", F62="BadStatus", F63="NotWhole",
    F64="BadEvents", F65="UnknownEvent", F66="Unfinished",
    F70="BadResponses", F71="UnknownResponse", F72="ResponseTwice", F73="ResponseMissing",
    F74="GroupDiffers", F75="UnsoundSuccess", F76="NotFinal", F77="PartialGroup", F78="NotStarted", F80="NoOutcome",
    F90="NoLocation",
    F91="NoETag",
    S1="AlreadyStarted", S2="Stopped", S3="UnitFailed", S4="Waiting", S5="WidthReached",
    P1="NotRunning", P2="BadStatus",
)


class Fault(Exception):
    """The fault of a document: its code, and its place as it is printed."""

    def __init__(self, code, place):
        super().__init__(f"fault {code} {NAMES[code]} {place}\n")
        self.value = {"fault": {"code": code, "name": NAMES[code], "place": place}}

    def text(self, json=False):
        return json_text(self.value) + "\n" if json else str(self)


class Inexact(float):
    """A number that is not whole, or past 64 bits."""


# Values


def integer(digits):
    number = int(digits)
    return number if -(2**63) <= number < 2**64 else inexact(digits)


def inexact(digits):
    number = Inexact(digits)
    if number in (float("inf"), float("-inf")):
        raise ValueError(digits)
    return number


def refused(constant):
    raise ValueError(constant)


def parts(value):
    """The values directly inside a value."""
    return list(value.values()) if isinstance(value, dict) else value if isinstance(value, list) else []


def levels(value):
    inside = [levels(part) for part in parts(value)]
    return 1 + max(inside, default=0) if isinstance(value, (dict, list)) else 0


def texts(value):
    """All texts in a value, the names of members too."""
    own = [value] if isinstance(value, str) else list(value) if isinstance(value, dict) else []
    return [text for text in own if isinstance(text, str)] + [text for part in parts(value) for text in texts(part)]


def is_whole(value):
    return not isinstance(value, Inexact) and all(is_whole(part) for part in parts(value))


def is_number(value):
    return isinstance(value, (int, float)) and not isinstance(value, bool)


def is_status(value, least, greatest):
    return is_number(value) and is_whole(value) and least <= value <= greatest


def parse(data, place):
    """The value of a document, or F01 or F02."""
    if len(data) > MOST_BYTES:
        raise Fault("F01", place)
    try:
        value = json.loads(data.decode(), parse_int=integer, parse_float=inexact, parse_constant=refused)
        "".join(texts(value)).encode()
    except (ValueError, RecursionError):
        raise Fault("F02", place) from None
    if levels(value) > MOST_LEVELS:
        raise Fault("F02", place)
    return value


# The document


def requests_of(value):
    """The elements of `requests`, or F03 to F06."""
    if not isinstance(value, dict):
        raise Fault("F03", "batch")
    elements = value.get("requests")
    if not isinstance(elements, list):
        raise Fault("F04", "batch")
    if any(name != "requests" and not is_annotation(name) for name in value):
        raise Fault("F05", "batch")
    if len(elements) > MOST_REQUESTS:
        raise Fault("F06", "batch")
    return elements


def whole_faults(value):
    """The codes from F03 to F06, each with whether it applies."""
    is_object = isinstance(value, dict)
    elements = value.get("requests") if is_object else None
    is_list = isinstance(elements, list)
    return {
        "F03": not is_object,
        "F04": is_object and not is_list,
        "F05": is_object and any(name != "requests" and not is_annotation(name) for name in value),
        "F06": is_list and len(elements) > MOST_REQUESTS,
    }


def is_annotation(name):
    return "@" in name


# The form of a request


def is_identifier(value):
    return isinstance(value, str) and re.fullmatch(r"[A-Za-z0-9._~-]+", value) is not None


def fold(text):
    """The text with its ASCII letters in lower case."""
    return re.sub("[A-Z]", lambda letter: letter[0].lower(), text)


def is_headers(value):
    return isinstance(value, dict) and all(isinstance(it, str) for it in value.values())


def has_repeats(items):
    return len(set(items)) < len(items)


def method_of(request):
    value = request.get("method")
    return fold(value) if isinstance(value, str) and fold(value) in METHODS else None


def media_type(headers):
    for name, value in headers.items():
        if fold(name) == "content-type":
            return fold(value.split(";")[0].strip(" \t"))
    return ""


def is_base64url(value):
    found = isinstance(value, str) and re.fullmatch(r"([A-Za-z0-9_-]*)={0,2}", value)
    return bool(found) and len(found[1]) % 4 != 1


def suits(body, media):
    if media in ("", "application/json") or media.endswith("+json"):
        return True
    return isinstance(body, str) if media.startswith("text/") else is_base64url(body)


def is_nested_batch(url):
    path = re.split("[?#]", url, maxsplit=1)[0]
    return unquote_to_bytes(path.split("/")[-1]) == b"$batch"


def front(url):
    """What a url begins with: `plain`, `reserved`, `bad`, or `reference` with the id."""
    segment = unquote_to_bytes(re.split("[/?#]", url, maxsplit=1)[0])
    if not segment.startswith(b"$"):
        return "plain", None
    run = re.match(rb"[A-Za-z0-9._~-]*", segment[1:])[0]
    if run.decode() in RESERVED:
        return "reserved", None
    return ("reference", run.decode()) if run and segment[1:] == run else ("bad", None)


def has_bad_member(request):
    return any(name not in MEMBERS and not is_annotation(name) for name in request)


def form_faults(request):
    """The codes from F11 to F23, each with whether it applies."""
    url, group = request.get("url"), request.get("atomicityGroup")
    names, headers, body = request.get("dependsOn"), request.get("headers"), request.get("body")
    bad_headers = headers is not None and not is_headers(headers)
    twice = isinstance(headers, dict) and has_repeats([fold(name) for name in headers])
    has_url, has_body = isinstance(url, str), body is not None
    return {
        "F11": "if" in request,
        "F12": has_bad_member(request),
        "F13": not is_identifier(request.get("id")),
        "F14": method_of(request) is None,
        "F15": not has_url,
        "F16": group is not None and not is_identifier(group),
        "F17": names is not None and not (isinstance(names, list) and all(isinstance(it, str) for it in names)),
        "F18": bad_headers,
        "F19": twice,
        "F20": has_body and method_of(request) in ("get", "delete"),
        "F21": has_body and not bad_headers and not twice and not suits(body, media_type(headers or {})),
        "F22": has_url and is_nested_batch(url),
        "F23": has_url and front(url)[0] == "bad",
    }


class Request:
    """A request of good form, with its defaults filled in."""

    def __init__(self, value):
        self.id, self.method, self.url = value["id"], method_of(value), value["url"]
        self.group, self.body = value.get("atomicityGroup"), value.get("body")
        self.names = list(dict.fromkeys(value.get("dependsOn") or []))
        self.headers = {fold(name): text for name, text in (value.get("headers") or {}).items()}
        self.reference = front(self.url)[1]


class Batch(list):
    """The requests, with the first position of each id and the positions of each group."""

    def __init__(self, requests):
        super().__init__(requests)
        self.positions, self.groups = {}, {}
        for i, request in enumerate(self):
            self.positions.setdefault(request.id, i)
            if request.group is not None:
                self.groups.setdefault(request.group, []).append(i)


def first_fault(found, place):
    """Raises the fault with the smallest code of those that apply."""
    for code, applies in found.items():
        if applies:
            raise Fault(code, place)


def read_requests(elements):
    """The requests, or the first fault of their form."""
    for i, element in enumerate(elements):
        first_fault({"F10": not isinstance(element, dict)}, f"/requests/{i}")
        first_fault(form_faults(element), f"/requests/{i}")
    return Batch(map(Request, elements))


# Ids, groups and names


def position(batch, name):
    """The position of the request with this id, or None."""
    return batch.positions.get(name)


def members(batch, group):
    return batch.groups.get(group, [])


def id_faults(batch, i):
    request, group = batch[i], members(batch, batch[i].group)
    return {
        "F30": position(batch, request.id) < i,
        "F31": bool(members(batch, request.id)),
        "F32": bool(group) and group[0] < i and batch[i - 1].group != request.group,
    }


def is_forward(batch, i, name):
    at, group = position(batch, name), members(batch, name)
    return (at is not None and at >= i) or (bool(group) and group[0] > i)


def is_uncovered(batch, i, name):
    """Whether the name is a member of another group that the request does not list."""
    at = position(batch, name)
    group = batch[at].group if at is not None and at < i else None
    return group is not None and group != batch[i].group and group not in batch[i].names


def is_unlisted(batch, i):
    """Whether the reference of the request leads to an earlier request that has to be listed."""
    request, at = batch[i], position(batch, batch[i].reference)
    if at is None or at >= i or request.reference in request.names:
        return False
    group = batch[at].group
    return group is None or (group != request.group and group not in request.names)


def name_faults(batch, i):
    request, reference = batch[i], batch[i].reference
    at = position(batch, reference)
    return {
        "F40": any(position(batch, name) is None and not members(batch, name) for name in request.names),
        "F41": any(is_forward(batch, i, name) for name in request.names),
        "F42": request.group in request.names,
        "F43": any(is_uncovered(batch, i, name) for name in request.names),
        "F44": reference is not None and at is None,
        "F45": at is not None and at >= i,
        "F46": is_unlisted(batch, i),
    }


def check(data):
    """The requests of the batch document, or its first fault."""
    batch = read_requests(requests_of(parse(data, "batch")))
    for faults in (id_faults, name_faults):
        for i in range(len(batch)):
            first_fault(faults(batch, i), f"/requests/{i}")
    return batch


# Plans and canonical texts


def applying(found, place):
    """The faults of these codes that apply."""
    return [Fault(code, place) for code, applies in found.items() if applies]


def request_faults(element):
    """The codes from F10 to F23, each with whether it applies."""
    return form_faults(element) if isinstance(element, dict) else {"F10": True}


def of_each(count, codes):
    """The faults of each request, by what gives the codes of one at a position."""
    return [fault for i in range(count) for fault in applying(codes(i), f"/requests/{i}")]


def all_faults(data):
    """All faults of the first phase of the batch document that has any, in order."""
    try:
        value = parse(data, "batch")
    except Fault as fault:
        return [fault]
    if found := applying(whole_faults(value), "batch"):
        return found
    elements = value["requests"]
    if found := of_each(len(elements), lambda i: request_faults(elements[i])):
        return found
    batch = Batch(map(Request, elements))
    ids = of_each(len(batch), lambda i: id_faults(batch, i))
    return ids or of_each(len(batch), lambda i: name_faults(batch, i))


def faults_text(faults, json=False):
    """A line for each fault, or one line of JSON."""
    if json:
        return json_text({"faults": [fault.value["fault"] for fault in faults]}) + "\n"
    return "".join(map(str, faults))


def needs(batch, i):
    """What a request needs: its names, each an id or a group, and then its reference."""
    request = batch[i]
    extra = [] if request.reference in (None, *request.names) else [request.reference]
    return request.names + extra


def level(batch, earlier, i):
    """The level of a request, by those of the requests before it."""
    needed = [earlier[j] for name in needs(batch, i) for j in needed_positions(batch, name)]
    return 1 + max(needed) if needed else 0


def levels_of(batch):
    found = []
    for i in range(len(batch)):
        found.append(level(batch, found, i))
    return found


def needed_positions(batch, name):
    """The positions that have to succeed for a need: one request, or each member of a group."""
    at = position(batch, name)
    return members(batch, name) if at is None else [at]


def checked(batch):
    return {"groups": len(batch.groups), "requests": len(batch)}


def checked_line(batch):
    return f"ok {len(batch)} requests {len(batch.groups)} groups\n"


def planned(batch):
    """The requests of a plan, as its JSON has them."""
    found = []
    for i, (request, level) in enumerate(zip(batch, levels_of(batch))):
        group = {} if request.group is None else {"group": request.group}
        found.append({**group, "id": request.id, "level": level, "needs": needs(batch, i)})
    return found


def plan_line(i, plan):
    names = ",".join(plan["needs"])
    return f"{i} {plan['id']} level {plan['level']} group {plan.get('group', '*')} needs {names or '*'}\n"


def plan_text(batch):
    return "".join(plan_line(i, plan) for i, plan in enumerate(planned(batch)))


def first_of(batch, name):
    """The position of a request, or that of the first request of a group."""
    return needed_positions(batch, name)[0]


def begun_before(batch):
    """How many groups and requests without a group begin before each position."""
    begins = [request.group is None or first_of(batch, request.group) == i for i, request in enumerate(batch)]
    return list(accumulate(begins, initial=0))


def group_unit(batch, begun, name):
    """The unit of a group: how many groups and requests without a group begin before it."""
    return begun[first_of(batch, name)]


def shown(text):
    """A text as a drawing shows it: at most 40 characters, and a blank for each control character."""
    cut = text if len(text) <= 40 else text[:38] + ".."
    return "".join(" " if character < " " else character for character in cut)


def label(*lines):
    """The label of these lines, quoted: Graphviz reads entities in it."""
    return json_text("\n".join(lines).replace("&", "&amp;"))


def rows_of(plan):
    """The row of each request in its level, and the last row of each level.

    A row has 12 requests at most, and a group larger than that has its rows to itself. A plan is a list of levels
    and groups, as its JSON has them.
    """
    units = [planned.get("group", at) for at, planned in enumerate(plan)]
    sizes, rows, levels = Counter(units), [], {}
    for at, planned in enumerate(plan):
        row, used = levels.get(planned["level"], (0, 0))
        begins = at == 0 or units[at - 1] != units[at]
        before = sizes[units[at - 1]] if at else 0
        if used == ROW or used and begins and (used + sizes[units[at]] > ROW or before > ROW):
            row, used = row + 1, 0
        rows.append(row)
        levels[planned["level"]] = (row, used + 1)
    return rows, {level: row for level, (row, _) in levels.items()}


def named_row(level, row):
    return f"level {level} row {row}" if row else f"level {level}"


def rank_line(level, row, i):
    """Which row of its level a request is in."""
    shape = "shape=point style=invis" if row else "shape=plaintext"
    return f'  {{ rank=same; node [{shape}]; "{named_row(level, row)}"; {i} }}'


def order_lines(ends):
    """Which rows and levels are below which, by the last row of each level."""
    below = [(named_row(at, row), named_row(at, row + 1)) for at, end in sorted(ends.items()) for row in range(end)]
    below += [(named_row(at, ends[at]), named_row(at + 1, 0)) for at in range(max(ends, default=0))]
    return [f'  "{upper}" -> "{lower}" [style=invis]' for upper, lower in below]


def node_lines(batch, i, row, plan, begun):
    """What a drawing says of a request, and of the arrows to it."""
    request = batch[i]
    yield f"  {i} [label={label(shown(request.id), f'{request.method} {shown(request.url)}')}]"
    if request.group is not None:
        cluster = group_unit(batch, begun, request.group)
        yield f"  subgraph cluster_{cluster} {{ label={label(shown(request.group))}; {i} }}"
    yield rank_line(plan["level"], row, i)
    for name in plan["needs"]:
        whole = "" if position(batch, name) is not None else f" [ltail=cluster_{group_unit(batch, begun, name)}]"
        yield f"  {first_of(batch, name)} -> {i}{whole}"


def drawing_text(batch):
    lines = ["digraph plan {", "  compound=true; newrank=true; node [shape=box]"]
    plans, begun = planned(batch), begun_before(batch)
    rows, ends = rows_of(plans)
    for i, (row, plan) in enumerate(zip(rows, plans)):
        lines += node_lines(batch, i, row, plan, begun)
    return "\n".join([*lines, *order_lines(ends), "}"]) + "\n"


def json_text(value):
    return json.dumps(value, ensure_ascii=False, sort_keys=True, separators=(",", ":"))


def canonical_request(request):
    optional = {
        "atomicityGroup": request.group,
        "body": request.body,
        "dependsOn": request.names or None,
        "headers": request.headers or None,
    }
    given = {name: value for name, value in optional.items() if value is not None}
    return given | {"id": request.id, "method": request.method, "url": request.url}


def canonical_text(batch):
    for i, request in enumerate(batch):
        first_fault({"F50": not is_whole(request.body)}, f"/requests/{i}")
    return json_text({"requests": [canonical_request(request) for request in batch]}) + "\n"
