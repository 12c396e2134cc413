"""Names that crowd a hash table, random names of the same length, and a batch that looks many of them up.

The names come from tests/seeds/collide.c, which `cc` compiles: their hashes in a table of one seed, or
of none, end in the same bits.
"""

import os
import random
import subprocess

from .program import TESTS

SHARED_BITS = 13
RANDOM_SEED = 20_401
LETTERS = "abcdefghijklmnopqrstuvwxyz0123456789-_~.ABCDEFGHIJKLMNOPQRSTUVWX"

# The batch of many look-ups: ids and groups, and how many of them each request names.
MEMBERS = 2
LOOKED_UP = 50


def colliding_names(folder, count, low, high, *seed):
    """Names whose hashes in a table of this seed, or of none, share these bits."""
    source, program = os.path.join(TESTS, "seeds", "collide.c"), os.path.join(folder, "collide")
    subprocess.run(["cc", "-O3", "-o", program, source], check=True)
    words = [program, *map(str, (count, low, high, *seed))]
    return subprocess.run(words, check=True, stdout=subprocess.PIPE, text=True).stdout.split()


def random_names(count):
    """As many names of the same length, each once."""
    draw, names = random.Random(RANDOM_SEED), {}
    while len(names) < count:
        names["".join(draw.choices(LETTERS, k=8))] = None
    return list(names)


def get(name):
    return {"id": name, "method": "get", "url": "X"}


def lookup_requests(names, count, looked_up=LOOKED_UP):
    """Requests in groups of two, most of which name so many groups before them, and as many members."""
    ids, groups = names[:count], names[count : count + count // MEMBERS]
    requests = []
    for position, name in enumerate(ids):
        own = position // MEMBERS
        request = {**get(name), "atomicityGroup": groups[own]}
        if own >= 2 * looked_up:
            named = [(own * 7919 + k * 104_729) % own for k in range(looked_up)]
            request["dependsOn"] = [it for unit in dict.fromkeys(named) for it in (ids[MEMBERS * unit], groups[unit])]
        requests.append(request)
    return requests
