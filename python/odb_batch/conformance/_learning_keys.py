"""Finds out how keys are given and written, and whether what is created and removed shows at once."""

import time
from typing import Any

from ._entities import BEHIND, Entities
from ._keys import KEYS, keys_far_from, literals
from ._service import GONE, Reply, Unusable

# How often it is looked, within a second, for what was created and cannot be read at once.
LOOKS, PAUSE = 20, 0.05
# How many entities are made, read and removed to see whether that shows at once.
ROUNDS = 8


def learn_keys(entities: Entities) -> None:
    """Makes one entity, to learn how keys are given and written; raises Unusable if none can be made."""
    refusals = []
    for new_key in KEYS:
        key = new_key()
        answer = entities.post(entities.body_with(key))
        if answer.is_success:
            value = entities.key_of(answer)
            entities.are_named = key is not None and value == key
            entities.new_key = new_key if entities.are_named else KEYS[-1]
            _learn_to_write(entities, value, answer)
            if not entities.are_named:
                _learn_reuse(entities, value)
            return
        refusals.append(answer)
    place = f"{entities.service.root}{entities.set}"
    raise Unusable(f"{entities.set} takes no entity: POST {place} is answered {refusals[-1]}")


def _learn_to_write(entities: Entities, value: Any, answer: Reply) -> None:
    """Finds out how the key of an entity that is there is written in its URL."""
    ask, urls = entities.service.ask, [f"{entities.set}({literal})" for literal in literals(value)]
    for url in urls:
        if ask("GET", url).is_success:
            entities.note_found(url, answer)
            entities.are_quoted = url == urls[0]
            return
    place = f"{entities.service.root}{urls[0]}"
    for _ in range(LOOKS):
        time.sleep(PAUSE)
        late = next((url for url in urls if ask("GET", url).is_success), None)
        if late is not None:
            entities.note_found(late, answer)
            raise Unusable(f"{place} was created, and cannot be read at once: {BEHIND}")
    raise Unusable(f"{place} was created, and cannot be read")


def _learn_reuse(entities: Entities, key: Any) -> None:
    """Finds out whether the key of an entity that is removed is given again, as by an INTEGER PRIMARY KEY of SQLite.
    What is missing then has a key that is never given."""
    entities.remove(entities.url_of(key))
    entity = entities.make()
    if entity.key != key:
        return
    entities.notes.append(f"new entities of {entities.set} have the keys of removed ones")
    for new_key in keys_far_from(key):
        if entities.service.ask("GET", entities.url_of(new_key())).status in GONE:
            entities.unused = new_key
            entities.notes[-1] += "; what has to be missing has keys far from these"
            return


def require_reads(entities: Entities) -> None:
    """Raises Unusable unless what is created can be read at once, and what is removed is gone at once."""
    for _ in range(ROUNDS):
        entity = entities.make()
        place = f"{entities.service.root}{entity.url}"
        if entities.read(entity.url) is None:
            raise Unusable(f"{place} was created, and cannot be read at once: {BEHIND}")
        if entities.remove(entity.url) and entities.read(entity.url) is not None:
            raise Unusable(f"{place} was deleted, and can be read all the same: {BEHIND}")
        entities.made.pop(entities.service.address(entity.url), None)
