"""``$batch`` as a process of its own, before services that have none: ``python3 -m odb_batch gateway --upstream URL``.

See docs/gateway.md. It needs aiohttp, the extra ``gateway`` of the package. A gateway in other code is
:func:`odb_batch.perform_async` with a ``send`` of its own, ``groups`` and a ``journal``; :mod:`odb_batch.http` reads its
batches, and :class:`Routes` finds the services of their requests.
"""

from ._routes import Route, Routes

__all__ = ["Route", "Routes"]
