"""Batches whose names crowd a table of one seed, and how many more instructions a command on them takes.

All names of such a batch share bits of their hashes in tables that start from the seed, so that a look-up compares a
name with every other one. A command whose tables have the seed then takes some seven times the instructions that it takes on random
names, and any other as many.
"""

from . import contents, crowds

# As many as a table with 2 ^ LOW_BITS groups holds, 9 in each; their tags are the high bits.
IDS = 288
GROUPS = IDS // crowds.MEMBERS
LOW_BITS, TAG_BITS = 5, 7
LOOKED_UP = 20

# How many times the instructions on random names are slow.
SLOW = 2


def content_of(names):
    """A batch with these names, two ids to a group, in which each is looked up many times, and what a run of it gave."""
    requests = crowds.lookup_requests(names, len(names) * crowds.MEMBERS // (crowds.MEMBERS + 1), LOOKED_UP)
    return contents.Content(requests, [{"id": it["id"], "status": 200} for it in requests])
