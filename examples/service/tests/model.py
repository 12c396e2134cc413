"""The library as a plain sequential program, and batches for it at random.

The program is written apart from the service: entities are dictionaries, and requests are performed
one after another. Only what the random batches ask for is in it.
"""

import copy
import re

BOOKS = ("dune", "emma", "b1", "b2", "b3")
SHELVES = ("A1", "B2", None)
PROPERTIES = {"Books": ("Id", "Title", "Shelf", "Reader"), "Loans": ("Id", "Book", "Reader")}


class Library:
    """Books by their ids, loans by their numbers, and the number of the last loan."""

    def __init__(self):
        self.books = {
            "dune": {"Id": "dune", "Title": "Dune", "Shelf": "K2", "Reader": None},
            "emma": {"Id": "emma", "Title": "Emma", "Shelf": "A1", "Reader": None},
        }
        self.loans, self.last = {}, 0

    def copy(self):
        return copy.deepcopy(self)

    def listed(self, name):
        """The entities of a set as they are now, by their keys, with their properties in order."""
        entities = self.books if name == "Books" else self.loans
        return [{it: entities[key][it] for it in PROPERTIES[name]} for key in sorted(entities)]

    def is_lent(self, book):
        return any(it["Book"] == book for it in self.loans.values())

    def perform(self, method, url, body):
        """Performs a request; returns the status and the location of what was created."""
        named = re.fullmatch(r"(?:/library/)?(Books|Loans)(?:\('?(\w+)'?\))?", url)
        if named is None:
            return 404, None
        name, key = named.groups()
        if method == "post":
            return self.add_book(body) if name == "Books" else self.add_loan(body)
        entities, key = (self.books, key) if name == "Books" else (self.loans, int(key))
        if key not in entities:
            return 404, None
        if method == "delete" and name == "Books" and self.is_lent(key):
            return 409, None
        if method == "delete":
            del entities[key]
        elif method == "put":
            entities[key] = {"Id": key, "Shelf": None, "Reader": None, **body}
        else:
            entities[key] |= body
        return 204, None

    def add_book(self, body):
        if body["Id"] in self.books:
            return 409, None
        self.books[body["Id"]] = {"Shelf": None, "Reader": None, **body}
        return 201, f"/library/Books('{body['Id']}')"

    def add_loan(self, body):
        if body["Book"] not in self.books or self.is_lent(body["Book"]):
            return 409, None
        self.last += 1
        self.loans[self.last] = {"Id": self.last, **body}
        return 201, f"/library/Loans({self.last})"


def writing(random, covered):
    """A request that writes: its method, its URL and its body. Some refer to what others create."""
    book = random.choice(BOOKS)
    at = "$" + random.choice(covered) if covered and random.random() < 0.5 else f"Books('{book}')"
    return random.choice(
        (
            ("post", "Books", {"Id": book, "Title": f"T{random.randrange(9)}"}),
            ("post", "Books", {"Id": f"n{random.randrange(10**9)}", "Title": "New"}),
            ("post", "Loans", {"Book": book, "Reader": random.randrange(99)}),
            ("post", "/library/Loans", {"Book": book, "Reader": random.randrange(99)}),
            ("patch", f"Books('{book}')", {"Shelf": random.choice(SHELVES)}),
            ("PUT", f"/library/Books('{book}')", {"Title": "Put", "Reader": random.randrange(99)}),
            ("delete", at, None),
            ("delete", f"Loans({random.randrange(1, 30)})", None),
        )
    )


def groups_of(random, count):
    """A group, or None, for each position; a group has no gap."""
    names, found = ["g", "h", "i"], []
    while len(found) < count:
        grouped = names and random.random() < 0.5
        found += [names.pop(0)] * random.randint(1, 3) if grouped else [None]
    return found[:count]


def good_names(random, batch, group):
    """Names of earlier requests and groups, with the groups that have to be listed."""
    names = []
    for earlier in random.sample(batch, min(len(batch), random.randint(0, 3))):
        other = earlier.get("atomicityGroup")
        names += [earlier["id"]] if other in (None, group) else random.choice(([other], [other, earlier["id"]]))
    return names


def good_request(random, batch, id, group):
    names = good_names(random, batch, group)
    around = {*names, group} - {None}
    covered = [it["id"] for it in batch if it["method"] == "post" and {it["id"], it.get("atomicityGroup")} & around]
    reads = random.random() < 0.3
    method, url, body = ("get", random.choice(("Books", "Loans")), None) if reads else writing(random, covered)
    found = {"id": id, "method": method, "url": url, "body": body, "dependsOn": names, "atomicityGroup": group}
    return {name: it for name, it in found.items() if it not in (None, [])}


def good_batch(random, prefix):
    """A batch whose ids begin with a prefix."""
    requests = []
    for k, group in enumerate(groups_of(random, random.randint(1, 9))):
        requests.append(good_request(random, requests, f"{prefix}.{k}", group))
    return {"requests": requests}
