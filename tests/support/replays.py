"""What tests of drivers compare with `replay`: recorded outcomes to which references may lead, and responses."""

import json

from hypothesis import strategies as st

MODES = st.sampled_from(["continue", "stop"])


def placed(outcomes):
    """Outcomes in which each success has a Location and an ETag, to which others may refer."""
    found = []
    for it in outcomes:
        headers = dict(it.get("headers") or {})
        if 200 <= it["status"] <= 299:
            headers["Location"] = f"Made('{it['id']}')"
            headers.setdefault("ETag", "1")
        found.append({**it, "headers": headers})
    return found


def is_as_one(batch, outcomes, mode):
    """Whether a batch is the same if groups are sent as one. In mode stop a group may fail by a 3xx, which stops nothing;
    sent as one, its other requests are answered 424, which does."""
    groups = {it["id"] for it in batch["requests"] if it.get("atomicityGroup") is not None}
    return mode == "continue" or not any(300 <= it["status"] <= 399 for it in outcomes if it["id"] in groups)


def responses_of(text):
    return json.loads(text)["responses"]
