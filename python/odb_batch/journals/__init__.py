"""Where the journals of batches are kept, so that a batch may be sent again: for the gateway, or one of your own.

>>> import asyncio, tempfile
>>> from odb_batch import perform_async
>>> from odb_batch.journals import Journals, digest, identity, store_of
>>> async def answer(journals, name, batch, send):
...     async with journals.journal(name, identity(batch=digest(batch))) as journal:
...         return await perform_async(batch, send, journal=journal)

See docs/gateway.md. :class:`Store` says what a store needs, and :mod:`odb_batch.journals.testing` tests it.
"""

from ._encoding import digest, identity
from ._journal import StoreJournal
from ._journals import Journals
from ._sqlite import MOST_BYTES, SqliteStore
from ._stores import NOBODY, Hold, Late, Lease, Mark, Part, Store

__all__ = [
    "NOBODY", "Hold", "Journals", "Late", "Lease", "Mark", "Part", "SqliteStore", "Store", "StoreJournal",
    "digest", "identity", "store_of",
]  # fmt: skip


def is_database(place: str) -> bool:
    """Returns whether a place is one of PostgreSQL, not a folder."""
    return place.startswith(("postgresql://", "postgres://"))


def store_of(place: str, lease: float = 15.0, most: int = MOST_BYTES) -> Store:
    """Returns the store at a place.

    Args:
        place: A folder, for SQLite, or ``postgresql://..``, which needs asyncpg.
        lease: In PostgreSQL, after how many seconds another process goes on where one has ended.
        most: In SQLite, how many bytes the file may have.

    Raises:
        ImportError: asyncpg is not installed.
    """
    if is_database(place):
        from ._postgresql import PostgresqlStore

        return PostgresqlStore(place, lease)
    return SqliteStore(place, most)
