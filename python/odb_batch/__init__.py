"""Checks, plans, matches, runs and replays batches of requests in JSON, and drives live runs of them.

The batches are those of OASIS OData JSON Format 4.01, section 19. Each function is a command of
``odb_batch``, which is proved to do what its contract states, called in this process:

>>> from odb_batch import Fault, check, plan
>>> batch = {"requests": [{"id": "a", "method": "get", "url": "Books"},
...                       {"id": "b", "method": "get", "url": "Loans", "dependsOn": ["a"]}]}
>>> check(batch)
Counts(requests=2, groups=0)
>>> [request.needs for request in plan(batch)]
[(), ('a',)]
>>> try:
...     check('{"requests": 7}')
... except Fault as fault:
...     print(fault)
F04 NoRequests batch

:func:`faults` has all faults of a batch, and each has the ``line`` and the ``column`` of its place.

:func:`output` has the text that a command prints, as JSON or as lines, for who passes it on:

>>> from odb_batch import output
>>> output("check", batch)
Output(accepted=True, text=b'{"groups":0,"requests":2}\\n')

:func:`requests` has what is to be sent of each request, for who performs the batch or hands it on.

A :class:`Run` is a live run, for who performs the requests: it says which of them may start now, takes what
each is answered, and has the response in the end. :func:`perform` and :func:`perform_async` do all of that by a
function that sends one request.

A document is bytes, a text or a mapping that ``json`` can write, with mappings of any kind in it. A document
that is refused raises :class:`Fault`, which and :class:`Refused` have the base :class:`OdbError`. All functions
may be called from any number of threads at once, also over one run; they release the interpreter's lock while
they work.
"""

from ._native.calls import Mode
from ._native.library import VERSION as __version__
from .commands import (
    Command, Counts, Form, Order, Output, Plan, PlannedRequest, Replay, Strict, canon, check, faults, match, output, plan,
    replay, rest, run,
)  # fmt: skip
from .documents.encoding import Document, Events, Report, Start
from .documents.requests import Request, requests
from .driver.groups import MemberRefused, PreparedGroup
from .driver.journal import Journal, JournalEvent, ReportUnit, StartUnit, Stop
from .driver.task_options import Gate, SendAsync, SendGroup, TransactionAsync
from .driver.tasks import perform_async
from .driver.threads import Send, Transaction, perform
from .errors.faults import Fault, OdbError, Refused
from .http.messages import Answer, Answered, GroupFailed, PreparedRequest, Refusal
from .run_parts import Part
from .runs import RequestState, Run

__all__ = [
    "Answer", "Answered", "Command", "Counts", "Document", "Events", "Fault", "Form", "Gate", "GroupFailed", "Journal",
    "JournalEvent", "MemberRefused", "Mode", "OdbError", "Order", "Output", "Part", "Plan", "PlannedRequest",
    "PreparedGroup", "PreparedRequest", "Refusal", "Refused", "Replay", "Report", "ReportUnit", "Request",
    "RequestState", "Run", "Send", "SendAsync", "SendGroup", "Start", "StartUnit", "Stop", "Strict",
    "Transaction", "TransactionAsync", "__version__", "canon", "check", "faults", "match", "output", "perform", "perform_async",
    "plan", "replay", "requests", "rest", "run",
]  # fmt: skip
