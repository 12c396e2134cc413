"""A gateway of one's own: performs a batch over aiohttp, each group as a batch of its own, and keeps it in a journal."""

import aiohttp

from odb_batch import perform_async
from odb_batch.journals import Journals, digest, identity, store_of


async def perform_over(session, batch, base, journal=None):
    """Returns the response to a batch whose URLs are below `base`."""

    async def send(request):
        async with session.request(request.method, request.url, headers=request.headers, data=request.body) as answer:
            return answer.status, answer.headers, await answer.read()

    async def send_group(group):
        async with session.post(f"{base}$batch", headers={"Content-Type": "application/json"}, data=group.batch()) as answer:
            return group.answers((answer.status, answer.headers, await answer.read()))

    return await perform_async(batch, send, base=base, width=8, groups=send_group, journal=journal)


async def perform_once(place, name, batch, base):
    """The same, and goes on with a batch that was performed in part. `place` is what --journal names; `name`, in bytes, is
    whose batch it is, and which of these."""
    journals = Journals(store_of(place), keep=86_400)
    await journals.open()
    try:
        async with aiohttp.ClientSession() as session, journals.journal(name, identity(batch=digest(batch))) as journal:
            return await perform_over(session, batch, base, journal)
    finally:
        await journals.close()
