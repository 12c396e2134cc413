"""The entities that are made in the service to judge it by."""

import itertools
import secrets
from typing import Any, Callable, Mapping, NamedTuple, Optional, Sequence

from ._keys import KEYS, literals
from ._service import GONE, Reply, Service, Unusable, etag_of

# How many pages of a set are listed, and how many entities of it. A set with more is not listed.
MAX_PAGES, MAX_LISTED = 100, 5_000
# What is said where an effect does not show at once.
BEHIND = "does the service commit after it has answered?"

Listing = dict[str, dict[str, Any]]


class Entity(NamedTuple):
    """An entity that was made, or that a body would make.

    Attributes:
        url: Its URL; empty if the service makes the key and it is not made yet.
        body: The body that makes it.
        key: Its key, or None as the URL.
        mark: What its text property has, by which it differs from all others; None without such a property.
    """

    url: str
    body: dict[str, Any]
    key: Any = None
    mark: Any = None


class Effect(NamedTuple):
    """What shows that a request was performed.

    Attributes:
        url: The URL of its entity; empty if that is found by its mark alone.
        is_there: Whether the entity is there afterwards.
        mark: What its text property has then, or None if that says nothing.
    """

    url: str
    is_there: bool
    mark: Any = None


class Entities:
    """The entities that are made in one set. All of them are known, so that they can be removed.

    Attributes:
        made: The URLs of what may be there, by their addresses.
        left: The URLs of what could not be removed.
        are_named: Whether the client gives the keys. Otherwise the URL of an entity is known once it is made.
        odd_end: What ends a key with characters that a URL escapes; empty if none may.
        text: The property whose value may be any text or number; None if there is none.
        lacks: What the service does not have, with the reason to print: names of `learning.LACKS`.
        failures: What requests that fail are answered alone, by names of `failure_kinds.KINDS`.
        before: What the set has besides, if it can be listed.
        spare, lent: What requests read and change, and no request removes; it lasts from case to case.
        has_version: Whether the service says alone which version of OData an answer has.
        values: Properties that take certain values, each with one, by names of `values.TRIED`.
        unused: Makes keys that the service never gives, since it gives that of a deleted entity again; else None.
        removed: The addresses of what plain requests have removed.
        notes: What was learned that the report says.
    """

    def __init__(self, service: Service, entity_set: str, key: str, body: dict[str, Any]) -> None:
        self.service, self.set, self.key, self.body = service, entity_set, key, body
        self.made: dict[str, str] = {}
        self.left: list[str] = []
        self.new_key: Callable[[], Any] = KEYS[-1]
        self.are_named, self.are_quoted = False, True
        self.odd_end = ""
        self.text: Optional[str] = None
        self.numbers = itertools.count(secrets.randbelow(8_000) + 1_000)
        self.lacks: dict[str, str] = {}
        self.failures: dict[str, int] = {}
        self.before: Optional[Listing] = None
        self.spare: list[Entity] = []
        self.lent: list[Entity] = []
        self.has_version = False
        self.values: dict[str, tuple[str, Any]] = {}
        self.unused: Optional[Callable[[], Any]] = None
        self.removed: set[str] = set()
        self.notes: list[str] = []

    # Making

    def body_with(self, key: Any, mark: Any = None) -> dict[str, Any]:
        """The body of an entity with a key, if there is one, and a mark."""
        given = {name: value for name, value in self.body.items() if name != self.key}
        if self.text is not None and mark is not None:
            given[self.text] = mark
        return given if key is None else {self.key: key, **given}

    def change(self, act: str, mark: Any) -> dict[str, Any]:
        """The body of a PATCH or of a PUT that writes a mark."""
        return {self.text: mark} if act == "patch" and self.text else self.body_with(None, mark)

    def new_mark(self) -> Any:
        """A value of the text property that no other entity has; None without such a property."""
        if self.text is None:
            return None
        number = next(self.numbers)
        return number if isinstance(self.body[self.text], int) else f"c{number}{secrets.token_hex(1)}"

    def odd_key(self) -> str:
        """A key with characters that a URL escapes, among them a percent sign."""
        return f"{self.new_key()}{self.odd_end}"

    def fresh(self, key: Any = None) -> Entity:
        """An entity that is not there yet, for a batch to create, with a key if that is given."""
        key, mark = key or self.new_key(), self.new_mark()
        url = self.url_of(key) if self.are_named else ""
        if url:
            self.note(url)
        return Entity(url, self.body_with(key, mark), key, mark)

    def make(
        self, more: Mapping[str, Any] = {}, text: Optional[Callable[[Any], str]] = None, key: Any = None
    ) -> Entity:
        """Makes an entity by a plain request, with more properties and a text around its mark if the service takes
        them, and with a key if that is given."""
        entity = self.fresh(key)
        body = {**entity.body, **more, **({self.text: text(entity.mark)} if text and self.text else {})}
        answer = self.post(body)
        if not answer.is_success and body != entity.body:
            answer = self.post(entity.body)
        if not answer.is_success:
            raise Unusable(f"POST {self.service.root}{self.set} is answered {answer}, and was answered 2xx before")
        key = entity.key if self.are_named else self.key_of(answer)
        url = entity.url or self.url_of(key)
        self.note_found(url, answer)
        return entity._replace(url=url, key=key)

    def borrow(self) -> Entity:
        """An entity that is there, and lasts: requests may read and change it."""
        if self.before is None:
            return self.make()
        self.lent.append(self.spare.pop() if self.spare else self.make())
        return self.lent[-1]

    def settle(self, listing: Listing) -> None:
        """Ends a case of which all batches are answered: what was lent lasts, and what the set has not is forgotten."""
        for entity in self.lent:
            shown = listing.get(entity.url)
            if shown is not None:
                self.spare.append(entity._replace(mark=shown.get(self.text or "")))
        self.lent = []
        spare = {entity.url for entity in self.spare}
        known = {**listing, **dict.fromkeys(spare, {})}
        # A URL of another form, as of a Location, may be that of any entity.
        self.made = {
            address: url for address, url in self.made.items() if url in known or not url.startswith(f"{self.set}(")
        }

    def missing(self) -> Entity:
        """An entity that is not there and that nothing creates."""
        if self.are_named:
            key = self.new_key()
            return Entity(self.url_of(key), self.body_with(key, self.new_mark()), key)
        if self.unused is not None:
            key, mark = self.unused(), self.new_mark()
            return Entity(self.url_of(key), self.body_with(None, mark), key, mark)
        entity = self.make()
        self.remove(entity.url)
        return entity

    def hold_keys(self) -> None:
        """Makes an entity after all others, so that none of their keys is given again while a batch is performed: many
        services give the greatest key plus one."""
        if self.unused is not None:
            self.make()

    def post(self, body: Any, headers: dict[str, str] = {}) -> Reply:
        """Posts to the set, and notes what that creates."""
        answer = self.service.ask("POST", self.set, body, headers)
        if answer.is_success:
            self.note(answer.headers.get("location", ""))
        return answer

    # Finding

    def url_of(self, key: Any) -> str:
        return f"{self.set}({list(literals(key))[0 if self.are_quoted else -1]})"

    def url_of_marked(self, mark: Any) -> str:
        """The URL of the entities that have a mark, by a query option."""
        literal = next(literals(mark)).replace("+", "%2B")
        return f"{self.set}?$filter={self.text}%20eq%20{literal}"

    def key_of(self, answer: Reply) -> Any:
        """The key of an entity that was created, by its representation, or by what its Location shows."""
        shown = answer.value
        if not isinstance(shown, dict) and "location" in answer.headers:
            shown = self.service.ask("GET", answer.headers["location"]).value
        if not isinstance(shown, dict) or not isinstance(shown.get(self.key), (str, int)):
            raise Unusable(f"an entity of {self.set} was created, and its answer has no key {self.key}")
        return shown[self.key]

    def read(self, url: str) -> Optional[dict[str, Any]]:
        """The entity at a URL, by a plain request; None if it is not there."""
        answer = self.service.ask("GET", url)
        if answer.is_success:
            return answer.value if isinstance(answer.value, dict) else {}
        if answer.status in GONE:
            return None
        raise Unusable(f"GET {self.service.root}{url} is answered {answer}")

    def tag_of(self, url: str) -> Optional[str]:
        """The ETag of the entity at a URL, by a plain request; None if it has none."""
        answer = self.service.ask("GET", url)
        return etag_of(answer.headers, answer.value)

    def shown(self, url: str) -> dict[str, Any]:
        """What is read at a URL by a plain request: the status, the ETag, and the members of the body."""
        answer = self.service.ask("GET", url)
        members = answer.value if isinstance(answer.value, dict) else {}
        return {"its status": answer.status, "its ETag": etag_of(answer.headers, answer.value), **members}

    def list_all(self) -> Optional[Listing]:
        """The whole set by URLs, by plain requests; None if it cannot be listed."""
        found: Listing = {}
        url = self.set
        for _ in range(MAX_PAGES):
            page = self.service.ask("GET", url).value
            rows = page.get("value") if isinstance(page, dict) else None
            if not isinstance(rows, list) or not all(isinstance(row, dict) and self.key in row for row in rows):
                return None
            found.update({self.url_of(row[self.key]): row for row in rows})
            url = page.get("@odata.nextLink") or page.get("@nextLink")
            if len(found) > MAX_LISTED:
                return None
            if not url:
                return found
        return None

    def find_new(self) -> Optional[Listing]:
        """What the set has and had not before, as far as the tool's own body may have made it; all of it is noted."""
        found = self.list_all() if self.before is not None else None
        if found is None or self.before is None:
            return None
        given = {name: value for name, value in self.body.items() if name not in (self.key, self.text)}
        own = {
            url: entity
            for url, entity in found.items()
            if url not in self.before
            and (self.service.address(url) in self.made or all(entity.get(name) == value for name, value in given.items()))
        }
        for url in own:
            self.note(url)
        return own

    def marks(self, listing: Optional[Listing]) -> list[Any]:
        """The marks of what is listed."""
        return [entity.get(self.text) for entity in (listing or {}).values()] if self.text is not None else []

    def is_shown(self, effect: Effect, listing: Optional[Listing]) -> bool:
        """Whether an effect shows, in a listing or by a plain request."""
        if not effect.url:
            return (effect.mark in self.marks(listing)) == effect.is_there
        entity = self.read(effect.url) if listing is None else listing.get(effect.url)
        if entity is None or not effect.is_there:
            is_gone = entity is None or self._is_other(entity, effect)
            return is_gone != effect.is_there
        return effect.mark in (None, self._mark_of(entity))

    def _is_other(self, entity: dict[str, Any], effect: Effect) -> bool:
        """Whether an entity has the key of one that was removed, and is another."""
        return self.unused is not None and effect.mark not in (None, self._mark_of(entity))

    def _mark_of(self, entity: dict[str, Any]) -> Any:
        return entity.get(self.text or "")

    # Removing

    def note(self, url: str) -> None:
        """Notes what may be there, to remove it."""
        if url:
            self.made.setdefault(self.service.address(url), url)

    def note_found(self, url: str, answer: Reply) -> None:
        """Notes what was created by its own URL, in place of its Location."""
        self.made.pop(self.service.address(answer.headers.get("location", "")), None)
        self.note(url)

    def clear(self, lasting: Sequence[Entity] = ()) -> None:
        """Removes all that was made, but for what is to last. What is not removed yet stays in made."""
        here, kept = self.service.address("/"), {entity.url for entity in lasting}
        self.lent = []
        for address, url in [pair for pair in self.made.items() if pair[1] not in kept]:
            try:
                # What leads to another server is left there.
                if not address.startswith(here) or not self.remove(url):
                    self.left.append(url)
                    if self.before is not None:
                        self.before[url] = {}
                self.made.pop(address, None)
            except Unusable:
                self.left += self.made.values()
                self.made = {}
                break

    def forget(self) -> list[str]:
        """Forgets what could not be removed; returns its URLs."""
        found = [*self.left, *self.made.values()]
        self.left, self.made = [], {}
        return found

    def remove(self, url: str) -> bool:
        """Removes an entity; returns whether it is gone."""
        answer = self.service.ask("DELETE", url)
        if answer.status == 428:
            answer = self.service.ask("DELETE", url, headers={"If-Match": "*"})
        is_gone = answer.is_success or answer.status in GONE or self.read(url) is None
        if is_gone:
            self.removed.add(self.service.address(url))
        return is_gone
