"""Eight clients at once: the database is what a plain sequential program makes of it in the order of the commits."""

import json
import os
import re
import sqlite3
from concurrent.futures import ThreadPoolExecutor
from contextlib import closing
from random import Random

import pytest

from common import BATCH_URL, CONTINUE, JSON, ROOT, ServiceTest, until
from model import PROPERTIES, Library, good_batch
from odb_batch import match

CLIENTS, BATCHES = 8, 200
# A commit, or a request with its id, which the tests add to its query.
LINE = re.compile(r" (?:(commit) \S*|[A-Z]+ .*n=([\w.]+)['\"] (\d+))$")


class Course:
    """What happened, by the log: transactions in the order in which they ended, and reads among them."""

    def __init__(self, batches):
        self.requests = {it["id"]: it for batch in batches for it in batch["requests"]}
        self.library, self.versions = Library(), []
        self.remember()
        self.unit, self.draft, self.locations = None, None, {}
        self.statuses, self.reads, self.seen = {}, {}, {}

    def remember(self):
        self.versions.append({name: self.library.listed(name) for name in ("Books", "Loans")})

    def unit_of(self, id):
        group = self.requests[id].get("atomicityGroup")
        return id.split(".")[0], group or id

    def take(self, id, status):
        """A request was performed: a read of its own, or the next of a transaction, which are not mixed."""
        given = self.requests[id]
        self.statuses[id] = status
        if given["method"] == "get" and "atomicityGroup" not in given:
            self.reads[id] = len(self.versions)
            return None
        if self.unit_of(id) != self.unit:
            self.unit, self.draft = self.unit_of(id), self.library.copy()
        if given["method"] == "get":
            self.seen[id] = self.draft.listed(given["url"])
            return None
        return self.compare(id, given, status)

    def compare(self, id, given, status):
        """What the plain program answers; the difference if the service answered something else."""
        url = given["url"]
        if url.startswith("$"):
            url = self.locations[url[1:]]
        wanted, location = self.draft.perform(given["method"].lower(), url, given.get("body"))
        self.locations[id] = location
        return None if status == wanted else f"{id} was answered {status} and not {wanted}"

    def commit(self):
        self.library, self.unit = self.draft, None
        self.remember()

    def follow(self, log):
        """Follows a log; returns the differences."""
        differences = []
        for line in log:
            found = LINE.search(line)
            if found and found[1]:
                self.commit()
            elif found:
                differences.append(self.take(found[2], int(found[3])))
        return [it for it in differences if it]


def example(name, prefix):
    """A batch of examples/ whose ids begin with a prefix."""
    with open(os.path.join(ROOT, "examples", f"{name}.json"), encoding="utf-8") as file:
        batch = json.load(file)
    ids = {it["id"] for it in batch["requests"]}
    for request in batch["requests"]:
        request["id"] = f"{prefix}.{request['id']}"
        request["dependsOn"] = [f"{prefix}.{it}" if it in ids else it for it in request.get("dependsOn", [])]
        request["url"] = request["url"].replace("$order", f"${prefix}.order")
    return batch


def documents():
    """The batches of the clients: random ones, and at the end those of the examples for each client."""
    found = [good_batch(Random(f"load {k}"), f"k{k}") for k in range(BATCHES)]
    return found + [example(f"batch_{name}", f"{name}{k}") for name in ("usual", "references") for k in range(CLIENTS)]


def marked(batch):
    """The batch with the id of each request in its query, which the log of the service shows."""

    def url(request):
        return f"{request['url']}{'&' if '?' in request['url'] else '?'}n={request['id']}"

    return {"requests": [{**it, "url": url(it)} for it in batch["requests"]]}


@pytest.mark.slow
class TestLoad(ServiceTest):
    batches = documents()

    def ask(self, numbers):
        """Sends batches on one connection; returns the responses by the numbers of the batches."""
        found = {}
        with self.service.client() as client:
            for k in numbers:
                document = marked(self.batches[k])
                status, value = client.ask("POST", BATCH_URL, document, CONTINUE if k % 4 else JSON)
                if status != 200:
                    raise AssertionError(f"batch {k} was answered {status}: {value}")
                found[k] = value
        return found

    def test_eight_clients_at_once(self):
        shares = [range(first, len(self.batches), CLIENTS) for first in range(CLIENTS)]
        with ThreadPoolExecutor(CLIENTS) as pool:
            found = {k: value for part in pool.map(self.ask, shares) for k, value in part.items()}
        assert self.service.stop() == 0
        course = Course(self.batches)
        assert course.follow(self.service.lines) == []
        for name in ("Books", "Loans"):
            assert self.kept(name) == [tuple(it.values()) for it in course.library.listed(name)]
        succeeded = 0
        for k, batch in enumerate(self.batches):
            statuses = match(batch, found[k])
            succeeded += sum(status < 300 for status in statuses.values())
            for response in found[k]["responses"]:
                self.assert_fits(course, response)
        assert succeeded > BATCHES
        assert len(course.versions) > BATCHES / 2

    def kept(self, name):
        """The rows of a table with the properties that the plain program has."""
        with closing(sqlite3.connect(self.database)) as database:
            return database.execute(f"SELECT {', '.join(PROPERTIES[name])} FROM {name} ORDER BY 1").fetchall()

    def assert_fits(self, course, response):
        """The response is that of the log or 424. A read shows what was committed, or what its group has written."""
        id, status = response["id"], response["status"]
        assert status in (course.statuses.get(id), 424)
        if status == 200 and course.requests[id]["url"] in ("Books", "Loans"):
            name = course.requests[id]["url"]
            shown = [{key: it[key] for key in PROPERTIES[name]} for it in response["body"]["value"]]
            if id in course.reads:
                assert shown in [it[name] for it in course.versions[: course.reads[id]]]
            else:
                assert shown == course.seen[id]


class TestLoadInThreads(TestLoad):
    options = {"width": 4}
