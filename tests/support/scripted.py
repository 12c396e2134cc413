"""Random batches with what a scripted service answers."""

from hypothesis import strategies as st

from odb_batch.testing import batches

STATUSES = st.sampled_from([200, 201, 204, 201, 200, 304, 404, 409, 408, 424, 429, 500, 502, 503, 504])


@st.composite
def scripted(draw):
    """A batch, a script for it, and a limit that leaves its groups whole."""
    batch = draw(batches())
    script = {it["id"]: draw(STATUSES) for it in batch["requests"]}
    groups = [it.get("atomicityGroup") for it in batch["requests"]]
    least = max((groups.count(it) for it in groups if it is not None), default=1)
    return batch, script, draw(st.integers(least, 20))
