"""The documents and the command lines whose allocations fail in test_memory.py."""

import json
import os
import shutil
from dataclasses import dataclass

MANY = 250
# A text in each body, so that a response has more than the 64 KiB that are written at once.
LONG = "x" * 400
WRITE_AS_THEY_GO = ("replay", "run")
# The documents of examples/ that the trials read.
COPIED = (
    "batch_many_faults.json", "batch_usual.json", "batch_wrong_body.json", "outcomes_lent.json", "outcomes_not_lent.json",
    "responses_busy.json", "responses_stopped.json",
)  # fmt: skip
USUAL_EVENTS = [
    {"start": "book"},
    {"report": "book", "status": 200, "headers": {"ETag": "7"}, "body": {"Title": "Dune"}},
    {"start": "loan"},
    {"start": "mark"},
    {"report": "mark", "status": 204},
    {"report": "loan", "status": 409, "body": [1, {"Book": "dune"}]},
]
USUAL_RESPONSES = [
    {"id": "list", "status": 424},
    {"id": "loan", "status": 409, "atomicityGroup": "lend"},
    {"id": "mark", "status": 424, "atomicityGroup": "lend"},
    {"id": "book", "status": 200, "headers": {"etag": "7"}, "body": {"Title": "Dune"}},
]


@dataclass
class Trial:
    """A call of the program, and its status; of a large one only some allocations are tried."""

    title: str
    command: str
    arguments: list
    status: int
    input: bytes = b""
    large: bool = False

    def may_print(self, begun):
        """Whether this part of the output may have been written when an allocation fails."""
        if "--lines" in self.arguments:
            return begun.endswith(b"\n") or not begun
        return self.command in WRITE_AS_THEY_GO or not begun


def many_requests():
    """Requests in groups of five, each of which needs the group before it and refers to a member of it."""
    found = []
    for i in range(MANY):
        body = {"n": i, "text": LONG}
        request = {"id": f"r{i}", "method": "post", "url": "X", "atomicityGroup": f"g{i // 5}", "body": body}
        if i >= 5:
            request |= {"dependsOn": [f"g{i // 5 - 1}"], "url": f"$r{i - 5}/Y", "headers": {"Prefer": "x"}}
        found.append(request)
    return found


def many_events(requests):
    found = []
    for request in requests:
        found.append({"start": request["id"]})
        found.append({"report": request["id"], "status": 201, "body": request["body"]})
    return found


def many_outcomes(requests):
    return [{"id": it["id"], "status": 201, "body": it["body"]} for it in requests]


def many_responses(requests):
    return [{"id": it["id"], "status": 201, "atomicityGroup": it["atomicityGroup"]} for it in requests]


def busy_responses(requests):
    """Responses by which the first group is done and records a Location, and all else may be sent again."""
    done, again = {"status": 201, "headers": {"Location": "Made(1)"}}, {"status": 424}
    groups = [it["atomicityGroup"] for it in requests]
    answers = (done if group == groups[0] else again for group in groups)
    return [{"id": it["id"], "atomicityGroup": it["atomicityGroup"], **answer} for it, answer in zip(requests, answers)]


def write(folder, examples):
    """Writes all documents to the folder."""
    for name in COPIED:
        shutil.copy(os.path.join(examples, name), os.path.join(folder, name))
    many = many_requests()
    made = {
        "responses_usual.json": {"responses": USUAL_RESPONSES},
        "events_usual.json": {"events": USUAL_EVENTS},
        "batch_many.json": {"requests": many},
        "outcomes_many.json": {"outcomes": many_outcomes(many)},
        "events_many.json": {"events": many_events(many)},
        "responses_many.json": {"responses": many_responses(many)},
        "responses_many_busy.json": {"responses": busy_responses(many)},
    }
    for name, value in made.items():
        with open(os.path.join(folder, name), "w", encoding="utf-8") as file:
            json.dump(value, file)
    write_logs(folder, examples)


def write_logs(folder, examples):
    """Writes logs: of batches, and of batches with a second document, each with a line that is refused."""
    texts = []
    for name in ("batch_usual.json", "outcomes_lent.json", "responses_busy.json"):
        with open(os.path.join(examples, name), encoding="utf-8") as file:
            texts.append(json.dumps(json.load(file)))
    batch, outcomes, busy = texts
    logs = {"log": [batch, "", batch], "pairs": [f"[{batch},{outcomes}]", f"[{batch}]"], "busy": [f"[{batch},{busy}]", f"[{busy}]"]}
    for name, lines in logs.items():
        with open(os.path.join(folder, f"{name}.jsonl"), "w", encoding="utf-8") as file:
            file.write("".join(line + "\n" for line in lines))


def trial(line, status=0, large=False):
    words = line.split()
    command = "check" if words[0].startswith("-") else words[0]
    return Trial(line, command, words, status, large=large)


def trials():
    """All trials, the small ones first."""
    bad = b'{"requests":[{"id":"a","method":"get","url":"$b"}]}'
    return [
        Trial("no arguments, a bad batch on standard input", "check", [], 1, input=bad),
        trial("check batch_usual.json"),
        trial("check batch_wrong_body.json", 1),
        trial("check missing.json", 3),
        Trial("check with a file name that is not UTF-8", "check", [b"check", b"\xff"], 2),
        trial("--help"),
        trial("--version"),
        trial("check batch_usual.json more.json", 2),
        trial("plan batch_usual.json"),
        trial("plan batch_usual.json --dot"),
        trial("plan batch_usual.json --full"),
        trial("plan -q batch_wrong_body.json", 1),
        Trial("plan of a bad batch on standard input", "plan", ["plan", "-"], 1, input=bad),
        trial("canon batch_usual.json"),
        trial("replay batch_usual.json outcomes_lent.json"),
        trial("replay batch_usual.json outcomes_not_lent.json --order wide --trace"),
        trial("replay batch_usual.json outcomes_not_lent.json --order last --stop --width 2 --trace"),
        trial("replay batch_usual.json batch_usual.json", 1),
        trial("replay batch_usual.json outcomes_lent.json --width 0", 2),
        trial("replay --help"),
        trial("replay - -", 2),
        trial("replay -q batch_usual.json outcomes_lent.json"),
        trial("match batch_usual.json responses_usual.json"),
        trial("match batch_usual.json outcomes_lent.json", 1),
        trial("match batch_usual.json responses_stopped.json --stop"),
        trial("match batch_usual.json responses_usual.json --strict"),
        trial("check --where batch_wrong_body.json", 1),
        trial("check --all --where batch_many_faults.json", 1),
        trial("match batch_usual.json outcomes_lent.json --where --json", 1),
        trial("rest batch_usual.json outcomes_lent.json --where", 1),
        trial("rest batch_usual.json responses_busy.json --where"),
        trial("rest batch_usual.json responses_busy.json"),
        trial("rest batch_usual.json outcomes_lent.json -q", 1),
        trial("run batch_usual.json events_usual.json"),
        trial("run batch_usual.json events_usual.json --stop --width 1", 1),
        trial("check --lines log.jsonl", 1),
        trial("check --lines -q log.jsonl", 1),
        trial("plan --lines log.jsonl", 1),
        trial("plan --full --lines log.jsonl", 1),
        trial("check --all --lines --where --number log.jsonl", 1),
        trial("replay --lines pairs.jsonl --order wide --json", 1),
        trial("match --lines --flush pairs.jsonl", 1),
        trial("rest --lines --where --number busy.jsonl", 1),
        trial("explain NotWhole"),
        trial("explain F41 P1 S4"),
        trial("explain"),
        trial("explain F99", 2),
        trial("completions bash"),
        trial("completions zsh"),
        trial("completions fish"),
        trial("man"),
        trial("help"),
        trial("help replay"),
        trial("help verify", 2),
        trial("check batch_many.json", large=True),
        trial("plan batch_many.json", large=True),
        trial("plan batch_many.json --dot", large=True),
        trial("canon batch_many.json", large=True),
        trial("replay batch_many.json outcomes_many.json --order wide --trace", large=True),
        trial("match batch_many.json responses_many.json", large=True),
        trial("rest batch_many.json responses_many_busy.json", large=True),
        trial("run batch_many.json events_many.json", large=True),
    ]
