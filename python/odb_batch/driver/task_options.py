"""How units are performed in tasks: by which functions of the caller, in which places, and until when."""

import asyncio
from typing import Any, AsyncContextManager, Awaitable, Callable, ContextManager, NamedTuple, Optional, Sequence, Union

from ..http.messages import Answered, PreparedRequest
from .groups import PreparedGroup
from .journal import Journal

#: Sends a request, and returns what it is answered.
SendAsync = Callable[[PreparedRequest], Awaitable[Answered]]
#: Sends a group as one, and returns what each of its requests is answered, in order.
SendGroup = Callable[[PreparedGroup], Awaitable[Sequence[Answered]]]
#: Returns the place that a request or a group, which is sent as one, has to have while it is on its way.
Gate = Callable[[Union[PreparedRequest, PreparedGroup]], AsyncContextManager[Any]]
#: Opens the transaction of a group, by its name; see :data:`odb_batch.Transaction`.
TransactionAsync = Callable[[str], Union[AsyncContextManager[Any], ContextManager[Any]]]


class Deadline:
    """When a batch has to be over, by the clock of the running loop."""

    def __init__(self, seconds: Optional[float]) -> None:
        self.at = None if seconds is None else asyncio.get_running_loop().time() + seconds
        self.is_over = False


class UnitOptions(NamedTuple):
    """How units are performed."""

    send: SendAsync
    transaction: Optional[Callable[[str], AsyncContextManager[Any]]]
    timeout: Optional[float]
    ends: Deadline
    gate: Union[None, AsyncContextManager[Any], Gate]
    groups: Optional[SendGroup]
    journal: Optional[Journal]
