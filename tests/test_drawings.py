"""Compares drawings of plans with the rules, and what Graphviz reads and shows of them with the plans.

Some URLs would end a label or a statement if they were not quoted, and some levels have several rows.
"""

import json
import os
import subprocess
from collections import defaultdict

import pytest
from hypothesis import example, given
from hypothesis import strategies as st

from support import rules
from support.calls import SECONDS, succeed
from support.profiles import share
from support.program import ROOT
from support.strategies import chance, of, recorded_batches

EXAMPLE = os.path.join(ROOT, "examples", "batch_usual.json")
DRAWING = os.path.join(ROOT, "docs", "usual.dot")
URLS = (
    '"', "\\", '\\"', '"]; x [label="', "x\\", "a\nb", "}", "<b>", "/* x", "// x", "# x", "\\N\\G", "\\l\\r", "ä" * 50,
    "\x01", "a\tb\r", "&", "&amp;", "&lt;&#65;&nbsp;", "X?a=1&b=2", "ä" * 40, "ä" * 41, "&" * 41, "x" * 37 + "&amp;",
    "x" * 39 + '"y',
)  # fmt: skip


def batch_of(urls):
    return {"requests": [{"id": f"r{at}", "method": "get", "url": url} for at, url in enumerate(urls)]}


@st.composite
def hostile(draw):
    """A good batch, in which some URLs are hostile."""
    batch, _ = draw(recorded_batches())
    for request in batch["requests"]:
        if draw(st.booleans()):
            request["url"] = "".join(draw(st.lists(of(*URLS), min_size=1, max_size=2)))
    return batch


@st.composite
def wide(draw):
    """A good batch with levels of several rows, in which groups are smaller and larger than a row."""
    requests, names = [], []
    for size in draw(st.lists(of(1, 1, 1, 1, 2, 5, 11, 12, 13, 30), min_size=1, max_size=10)):
        first = len(requests)
        group = f"g{first}" if size > 1 or draw(chance(20)) else None
        needs = draw(st.lists(st.sampled_from(names), unique=True, max_size=2)) if names and draw(st.booleans()) else []
        follower = first + draw(st.integers(0, size - 1))
        for at in range(first, first + size):
            own = [f"r{at - 1}"] if first < at == follower else []
            request = {"id": f"r{at}", "method": "post", "url": "Books", "dependsOn": needs + own}
            requests.append(request if group is None else {**request, "atomicityGroup": group})
        names.append(group or f"r{first}")
    return {"requests": requests}


def is_accepted(batch):
    try:
        rules.check(json.dumps(batch).encode())
    except rules.Fault:
        return False
    return True


@st.composite
def drawable(draw):
    return draw(wide() if draw(chance(25)) else hostile().filter(is_accepted))


def follows_rules(program, batch):
    requests = rules.check(json.dumps(batch).encode())
    assert succeed(program, ["plan", "--dot"], batch) == rules.drawing_text(requests)


@share(7)
@given(batch=drawable())
@example(batch=batch_of(URLS))
@example(batch=batch_of(300 * ["Books"]))
def test_drawing_follows_the_rules(program, batch):
    follows_rules(program, batch)


def run_dot(form, text):
    """What `dot` makes of a drawing; a warning is an error, too."""
    done = subprocess.run(["dot", f"-T{form}"], input=text, capture_output=True, text=True, timeout=SECONDS)
    assert (done.returncode, done.stderr) == (0, "")
    return done.stdout


def shown_by_dot(text):
    """What Graphviz shows of a drawing: the texts of requests, groups, rows from the top, and arrows."""
    graph = json.loads(run_dot("json", text))
    objects, rows, texts = graph.get("objects", []), defaultdict(list), {}
    nodes = [it for it in objects if "pos" in it]
    for node in nodes:
        rows[float(node["pos"].split(",")[1])].append(node["name"])
        texts[node["name"]] = [step["text"].rstrip() for step in node.get("_ldraw_", []) if step["op"] == "T"]
    clusters = {it["name"]: it for it in objects if it["name"].startswith("cluster")}
    members = {name: [objects[at]["name"] for at in it["nodes"]] for name, it in clusters.items()}
    arrows = [
        (objects[it["tail"]]["name"], objects[it["head"]]["name"], members.get(it.get("ltail"), []))
        for it in graph.get("edges", []) if it.get("style") != "invis"
    ]  # fmt: skip
    groups = {it["label"]: members[name] for name, it in clusters.items()}
    return texts, groups, [sorted(rows[y]) for y in sorted(rows, reverse=True)], sorted(arrows)


def of_plan(requests, plan):
    """What a drawing has to show of a plan: an arrow from a group has the members of the group."""
    rows, ends = rules.rows_of(plan)
    texts, groups, found, arrows, position = {}, defaultdict(list), defaultdict(list), [], {}
    for level, end in ends.items():
        for row in range(end + 1):
            name = rules.named_row(level, row)
            found[level, row].append(name)
            texts[name] = [] if row else [name]
    for at, (request, planned) in enumerate(zip(requests, plan)):
        method, url = request["method"].lower(), rules.shown(request["url"])
        texts[str(at)] = [rules.shown(planned["id"]), f"{method} {url}".rstrip()]
        found[planned["level"], rows[at]].append(str(at))
        position[planned["id"]] = str(at)
        if "group" in planned:
            groups[planned["group"]].append(str(at))
    for at, planned in enumerate(plan):
        for need in planned["needs"]:
            arrows.append((position.get(need) or groups[need][0], str(at), groups.get(need, [])))
    return texts, groups, [sorted(found[row]) for row in sorted(found)], sorted(arrows)


@pytest.mark.needs("dot")
@share(15)
@given(batch=drawable())
@example(batch=batch_of(URLS))
@example(batch=batch_of(300 * ["Books"]))
def test_graphviz_shows_the_plan(program, batch):
    plan = json.loads(succeed(program, ["plan", "--json"], batch))["requests"]
    assert shown_by_dot(succeed(program, ["plan", "--dot"], batch)) == of_plan(batch["requests"], plan)


def test_drawing_of_the_example(program):
    with open(EXAMPLE, encoding="utf-8") as file, open(DRAWING, encoding="utf-8") as drawing:
        batch, text = json.load(file), drawing.read()
    follows_rules(program, batch)
    assert succeed(program, ["plan", "--dot"], batch) == text, "draw docs/usual.dot and docs/usual.svg anew"


@pytest.mark.needs("dot")
def test_picture_of_the_example():
    with open(DRAWING, encoding="utf-8") as drawing:
        assert run_dot("svg", drawing.read())
