"""Strategies for the events of runs."""

from typing import Optional

from hypothesis import strategies as st
from hypothesis.strategies import DrawFn, SearchStrategy

from .._native.calls import MAX_WIDTH, Mode
from ..runs import Run
from ._strategies import Json, events_of, status


@st.composite
def events(
    draw: DrawFn,
    batch: Json,
    *,
    mode: Mode = "continue",
    width: int = MAX_WIDTH,
    statuses: Optional[SearchStrategy[int]] = None,
    finished: bool = True,
) -> Json:
    """Returns a strategy for the events of a run of a batch, in any order in which they may come, as
    :func:`odb_batch.run` and :class:`odb_batch.Run` take them.

    Args:
        batch: The batch, as a value.
        mode, width: Those of the run.
        statuses: What the statuses are drawn from; without it three of four are a success.
        finished: Whether the run is finished; else the events end anywhere.

    Raises:
        Fault: The batch is refused.
        ValueError: An option has a value that it may not have.
    """
    with Run(batch, mode=mode, width=width) as run:
        found = events_of(draw, run, st.composite(status)() if statuses is None else statuses)
    return {"events": found if finished else found[: draw(st.integers(0, len(found)))]}
