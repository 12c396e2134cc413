"""Atomicity groups in the transactions of Django.

    application = BatchMiddleware(get_wsgi_application(), "/odata/$batch", transaction=group)

``atomic()`` alone is wrong twice: each request of a group would close its connection, and a view that catches an error
of the database would have everything rolled back without an exception.
"""

import logging
from contextlib import contextmanager
from functools import partial
from typing import Iterator, Optional

from django.db import IntegrityError, transaction

__all__ = ["group"]

_LOG = logging.getLogger("odb_batch")


def _keep_open() -> None:
    """Does nothing, in place of closing a connection."""


@contextmanager
def group(name: str, using: Optional[str] = None) -> Iterator[None]:
    """Opens the transaction of a group, for ``transaction`` of :class:`odb_batch.wsgi.BatchMiddleware`.

    It is committed at the end of the block, and rolled back on any exception. It holds for one thread, so it is for
    WSGI alone. For another database than the default one pass ``functools.partial(group, using="other")``.

    A hook of ``on_commit`` that raises an exception does not undo the group: it is logged.

    Args:
        name: The name of the group.
        using: The name of the database in the settings, or None for the default one.

    Raises:
        IntegrityError: A view has broken the transaction, and caught the error that says so.
    """
    connection = transaction.get_connection(using)
    # What would happen at the start of a request: a connection that is too old or broken is closed.
    connection.close_if_unusable_or_obsolete()
    # The start and the end of each request of the group would close the connection of the transaction.
    connection.close_if_unusable_or_obsolete = _keep_open
    committed: list[str] = []
    try:
        with transaction.atomic(using):
            transaction.on_commit(partial(committed.append, name), using)
            yield
            if connection.needs_rollback:
                # Else atomic() rolls back at its end, and raises nothing.
                raise IntegrityError(f"a request of the group {name} has broken its transaction")
    except Exception:
        if not committed:
            raise
        _LOG.exception("the group %s is committed, and a hook of its commit has failed", name)
    finally:
        del connection.close_if_unusable_or_obsolete
        connection.close_if_unusable_or_obsolete()
