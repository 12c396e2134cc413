"""A batch with an outcome for each of its requests, the documents that follow from them, and the right answers."""

import json
from dataclasses import dataclass
from functools import cached_property, lru_cache

from . import rules, rules_of_runs
from .rules import json_text

# The commands over documents, each with the kinds of these.
KINDS = {
    "check": ("batch",), "plan": ("batch",), "canon": ("batch",),
    "replay": ("batch", "outcomes"), "match": ("batch", "responses"), "run": ("batch", "events"),
}  # fmt: skip


@dataclass(frozen=True, eq=False)
class Content:
    """Requests, each of which is performed, and an outcome for each of them."""

    requests: list
    outcomes: list

    @cached_property
    def batch(self):
        """The requests as the rules have them."""
        return rules.check(compact("requests", self.requests).encode())

    @cached_property
    def response(self):
        """The response to a run in which each request has its outcome."""
        outcomes = rules_of_runs.read_outcomes(compact("outcomes", self.outcomes).encode())
        return rules_of_runs.response_after(self.batch, outcomes)

    @cached_property
    def matched(self):
        return rules_of_runs.match(self.batch, json.loads(self.response)["responses"])

    @lru_cache(maxsize=16)
    def wanted(self, command):
        """What a command has to print on these documents, where it has no options but `--dot` or `--lines`."""
        printed = {
            "check": lambda: rules.checked_line(self.batch),
            "plan": lambda: rules.plan_text(self.batch),
            "plan --dot": lambda: rules.drawing_text(self.batch),
            "plan --lines": lambda: json_text({"requests": rules.planned(self.batch)}) + "\n",
            "canon": lambda: rules.canonical_text(self.batch),
            "match": lambda: rules_of_runs.match_text(self.matched),
            "match --lines": lambda: json_text({"responses": self.matched}) + "\n",
        }
        name = command if command in printed else command.split()[0]
        return printed[name]() if name in printed else self.response


def compact(member, elements):
    """The text of a document with one member, an array."""
    return json.dumps({member: elements}, separators=(",", ":"))


def events_of(content):
    """The events of a run that finishes each request before it starts the next."""
    outcome_of, events = {outcome["id"]: outcome for outcome in content.outcomes}, []
    for request in content.requests:
        outcome = dict(outcome_of[request["id"]])
        events += [{"start": request["id"]}, {"report": outcome.pop("id"), **outcome}]
    return events


def documents_of(content):
    """The texts of the batch, its outcomes, the responses to it and the events of its run, by kind."""
    return {
        "batch": compact("requests", content.requests),
        "outcomes": compact("outcomes", content.outcomes),
        "responses": content.response.rstrip(),
        "events": compact("events", events_of(content)),
    }


def batch_of_a_megabyte():
    """The bytes of a batch of 4200 requests with bodies."""
    body = {"Title": "x" * 150, "Price": 9.99}
    requests = [{"id": f"r{i}", "method": "post", "url": f"Books({i})", "body": body} for i in range(4200)]
    return json.dumps({"requests": requests}).encode()
