"""Tests that a store of journals has to pass, each a coroutine function:

.. code-block:: python

    from odb_batch.journals.testing import CHECKS

    @pytest.mark.parametrize("check", CHECKS, ids=lambda check: check.__name__)
    def test_my_store(check, tmp_path):
        asyncio.run(check(lambda: MyStore(tmp_path)))

What is passed makes a store that is not opened yet, each time another one over the same database. If leases end, one
of a second or two keeps the tests short.
"""

import asyncio
import contextlib
import math
import secrets
from typing import AsyncIterator, Awaitable, Callable, List, Optional, Tuple

from ._stores import NOBODY, Mark, Part, Store, clock

#: Makes a store that is not opened yet.
Make = Callable[[], Store]
#: Raises AssertionError if a store is none.
Check = Callable[[Make], Awaitable[None]]

_LONG = 3_000_000
# For how many leases the end of one is waited for.
_LEASES = 30


@contextlib.asynccontextmanager
async def _opened(make: Make) -> AsyncIterator[Tuple[Store, Store]]:
    """Two stores over the same database."""
    one, other = make(), make()
    await asyncio.gather(one.open(), other.open())  # at once, as processes may start
    try:
        yield one, other
    finally:
        await one.close()
        await other.close()


def _batch() -> bytes:
    return secrets.token_bytes(32)


def _part(
    store: Store, batch: bytes, number: int = 0, after: Mark = NOBODY, writer: int = 1, text: bytes = b"x", **more: bool
) -> Part:
    return Part(batch, number, (store.lease.holder, writer), after, more.get("is_open", False), text)


async def _read(store: Store, batch: bytes) -> List[Part]:
    return await store.read(batch, lambda size: None)


async def parts_are_read_as_they_were_appended(make: Make) -> None:
    async with _opened(make) as (one, other):
        batch, after, parts = _batch(), NOBODY, []  # type: bytes, Mark, List[Part]
        assert await _read(one, batch) == []
        for number, text in enumerate((b"", b"\0\xff\n'\"", b"x" * 10_000)):
            parts.append(_part(one, batch, number, after, text=text, is_open=number == 1))
            assert await one.append([parts[-1]]) == {batch}
            after = parts[-1].mark
        assert await _read(one, batch) == await _read(other, batch) == parts


async def of_two_parts_with_one_number_one_is_kept(make: Make) -> None:
    async with _opened(make) as (one, other):
        for _ in range(8):
            batch = _batch()
            parts = [_part(store, batch, text=b"%d" % number) for number, store in enumerate((one, other))]
            kept = await asyncio.gather(one.append(parts[:1]), other.append(parts[1:]))
            assert sorted(map(len, kept)) == [0, 1], kept
            assert await _read(other, batch) == [parts[kept.index({batch})]]


async def a_part_goes_after_the_one_that_its_writer_has_read(make: Make) -> None:
    async with _opened(make) as (one, other):
        batch = _batch()
        first = _part(one, batch)
        assert await one.append([_part(one, batch, 1, first.mark)]) == set(), "there is no part before"
        assert await one.append([first]) == {batch}
        assert await other.append([_part(other, batch, 1, (first.mark[0], 2))]) == set(), "another writer"
        assert await other.append([_part(other, batch, 1, (first.mark[0] + 1, 1))]) == set(), "another holder"
        assert await other.append([_part(other, batch, 2, first.mark)]) == set(), "a hole"
        assert await other.append([_part(other, batch, 1, first.mark)]) == {batch}
        assert len(await _read(one, batch)) == 2


async def the_same_part_again_is_harmless(make: Make) -> None:
    """As after a reply that was lost. A part of another writer is not taken for it, though the holder is the same."""
    async with _opened(make) as (one, other):
        batch = _batch()
        first = _part(one, batch)
        for _ in range(2):
            assert await one.append([first]) == {batch}
        second = _part(other, batch, 1, first.mark)
        assert await other.append([second]) == {batch}
        assert await one.append([first]) == {batch}, "it is kept, though another one came after it"
        assert await one.append([_part(one, batch, writer=2)]) == set()
        assert await other.append([_part(other, batch, 1, first.mark, writer=2, text=second.text)]) == set()
        assert await _read(one, batch) == [first, second]


async def appends_of_many_batches_are_kept_each_or_not(make: Make) -> None:
    async with _opened(make) as (one, other):
        batches = [_batch() for _ in range(200)]
        parts = [_part(one, batch) for batch in batches]
        assert await other.append([_part(other, batch) for batch in batches[::3]]) == set(batches[::3])
        assert await one.append(parts) == set(batches) - set(batches[::3])
        # In two orders at once: neither waits for the other for ever.
        more = [_batch() for _ in range(200)]
        parts, others = ([_part(store, batch) for batch in more] for store in (one, other))
        kept = await asyncio.gather(one.append(parts), other.append(others[::-1]))
        assert kept[0] | kept[1] == set(more) and not kept[0] & kept[1]


async def long_texts_are_kept_beside_short_ones(make: Make) -> None:
    async with _opened(make) as (one, other):
        batch, text = _batch(), secrets.token_bytes(1_000) * (_LONG // 1_000) + b"end"
        first = _part(one, batch, text=b"")
        assert await one.append([first]) == {batch}
        long = _part(one, batch, 1, first.mark, text=text)
        keeping = asyncio.ensure_future(one.append([long]))
        for _ in range(20):
            short = _part(one, _batch())
            assert await one.append([short]) == {short.batch}
        assert await keeping == {batch} and await one.append([long]) == {batch}
        assert [part.text for part in await _read(other, batch)] == [b"", text]


async def memory_is_reserved_before_texts_are_read(make: Make) -> None:
    async with _opened(make) as (one, other):
        batch, sizes = _batch(), []  # type: bytes, List[int]
        await one.append([_part(one, batch, text=b"x" * 100_000)])
        await other.read(batch, sizes.append)
        assert sum(sizes) == 100_000, sizes

        def refuse(size: int) -> None:
            raise MemoryError

        try:
            await other.read(batch, refuse)
            raise AssertionError("the batch was read")
        except MemoryError:
            pass
        assert len(await _read(other, batch)) == 1


async def a_holder_ends_with_its_store(make: Make) -> None:
    async with _opened(make) as (one, other):
        third = make()
        await third.open()
        holder = third.lease.holder
        assert len({holder, one.lease.holder, other.lease.holder}) == 3
        assert not await one.is_over(holder) and not await other.is_over(one.lease.holder)
        await third.close()
        assert await one.is_over(holder) and await other.is_over(holder)
        assert await one.is_over(secrets.randbits(60) + 1), "nobody has this one"


async def a_lease_lasts_as_long_as_it_is_renewed(make: Make) -> None:
    async with _opened(make) as (one, other):
        holder, before = one.lease.holder, one.lease.deadline
        assert not one.lease.is_over
        for _ in range(8):
            await asyncio.sleep(min(one.lease.seconds, 1.0) / 5)
            await one.renew()
            assert one.lease.holder == holder and not one.lease.is_over
            assert not await other.is_over(holder)
        assert one.lease.deadline > before or math.isinf(before)


async def a_lease_that_was_ended_is_ended_for_good(make: Make) -> None:
    """Who goes on with a batch answers that something is lost: it must not be sent after that."""
    async with _opened(make) as (one, other):
        lease = one.lease
        if math.isinf(lease.seconds):
            return
        end = clock() + _LEASES * lease.seconds
        while not await other.is_over(lease.holder):
            await asyncio.sleep(lease.seconds / 20)
            await other.renew()
            assert clock() < end, "it never ends"
        assert lease.is_over, "its process would still send"
        await one.renew()
        assert one.lease is not lease and one.lease.holder != lease.holder and not one.lease.is_over
        assert lease.is_over and await other.is_over(lease.holder)


async def old_batches_are_removed(make: Make) -> None:
    async with _opened(make) as (one, other):
        old, young, open_one = _batch(), _batch(), _batch()
        batches = old, young, open_one
        first = [_part(one, batch, is_open=batch == open_one, text=b"x" * 600_000) for batch in batches]
        for part in first:
            await one.append([part])
        await asyncio.sleep(0.05)
        before = await other.now()
        await asyncio.sleep(0.05)
        await one.append([_part(one, young, 1, first[1].mark)])
        await other.prune(before - 3_600)
        assert len(await _read(one, old)) == 1
        await other.renew()
        await one.renew()
        await other.prune(before)
        counts = [len(await _read(one, batch)) for batch in batches]
        assert counts == [0, 2, 1], "removed is the old one, not one with a new part, nor one that is performed"
        # What is removed may come again, as another batch.
        assert await other.append([_part(other, old)]) == {old}
        await one.append([_part(one, open_one, 1, first[2].mark)])
        await other.prune(await other.now() + 10)
        assert [len(await _read(one, batch)) for batch in batches] == [0, 0, 0]


async def what_is_read_can_be_confirmed(make: Make) -> None:
    async with _opened(make) as (one, other):
        batch = _batch()
        await one.append([_part(one, batch)])
        await _read(other, batch)
        await other.confirm()


async def what_is_kept_outlives_its_store(make: Make) -> None:
    batch, part = _batch(), None  # type: bytes, Optional[Part]
    async with _opened(make) as (one, _):
        part = _part(one, batch, is_open=True)
        await one.append([part])
    async with _opened(make) as (one, other):
        assert await _read(other, batch) == [part]
        assert await one.is_over(part.mark[0])


#: The tests, in the order in which they are best read.
CHECKS: Tuple[Check, ...] = (
    parts_are_read_as_they_were_appended, of_two_parts_with_one_number_one_is_kept,
    a_part_goes_after_the_one_that_its_writer_has_read, the_same_part_again_is_harmless,
    appends_of_many_batches_are_kept_each_or_not, long_texts_are_kept_beside_short_ones,
    memory_is_reserved_before_texts_are_read, a_holder_ends_with_its_store, a_lease_lasts_as_long_as_it_is_renewed,
    a_lease_that_was_ended_is_ended_for_good, old_batches_are_removed, what_is_read_can_be_confirmed,
    what_is_kept_outlives_its_store,
)  # fmt: skip
