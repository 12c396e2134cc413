"""All interleavings of two gateways over one journal, with small bounds; and each thing that the journal does, left out."""

import pytest

from support.interleavings import MUTANTS, Search


@pytest.mark.slow
@pytest.mark.parametrize("bounds", [
    {"crashes": 1}, {"no_replies": 1}, {"requests": 2, "no_replies": 1}, {"requests": 2, "crashes": 1},
    {"requests": 2, "asks": 3},
], ids=str)  # fmt: skip
def test_nothing_is_sent_twice_or_late_or_answered_otherwise(bounds):
    search = Search(**bounds)
    assert search.run() == set() and search.count > 10_000


@pytest.mark.parametrize("mutant, more, fault", [
    ("no place", {}, "twice"), ("a conflict is success", {}, "twice"),
    ("no reply is success", {"no_replies": 1}, "twice"),
    ("no writer in marks", {"requests": 2, "asks": 3, "no_replies": 1}, "twice"),
    ("no lease", {}, "late"), ("no hold", {}, "late"), ("a lease is not ended", {}, "late"),
    ("a lease comes back", {}, "late"),
])  # fmt: skip
def test_each_mutant_is_found(mutant, more, fault):
    assert fault in Search(mutant, **more).run()


def test_the_list_of_mutants_is_whole():
    (mark,) = test_each_mutant_is_found.pytestmark
    assert {mutant for mutant, *_ in mark.args[1]} == set(MUTANTS)


def test_what_no_gateway_can_do():
    """What docs/gateway.md leaves open: a pause just before bytes are sent, and a failover that loses a commit."""
    assert Search(is_atomic=False).run() == {"late"}
    assert "twice" in Search(failovers=1).run()
