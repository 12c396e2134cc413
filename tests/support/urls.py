"""The table of URLs: where requests lead, for the call of C, and for the packages."""

import json
import os

from .program import TESTS

BASE = "http://host/odata/"
# What a request refers to is sent there.
ENTITIES = "Orders"

with open(os.path.join(TESTS, "support", "urls.json"), encoding="utf-8") as table:
    CASES = json.load(table)["cases"]


def places(case):
    """The base and the roots of a case."""
    base = case.get("base", BASE)
    return base, case.get("roots", [base])


def name(case):
    """How a test of a case is named."""
    words = (case.get("base"), case.get("roots"), case.get("location"), case.get("rest", case.get("url")))
    return " ".join(ascii(word) for word in words if word is not None)


def batch(case):
    """The batch of a case: its last request is the one that the case is about."""
    if "rest" not in case:
        return {"requests": [{"id": "r", "method": "get", "url": case["url"]}]}
    own = {"id": "a", "method": case.get("method", "post"), "url": ENTITIES}
    return {"requests": [own, {"id": "r", "method": "get", "url": "$a" + case["rest"], "dependsOn": ["a"]}]}


def write(path, has_any_base=True):
    """Writes the table for a program in another language; maybe only cases whose base is below one of the roots. For each case it
    has a line of words in hexadecimal digits, or `-` for an empty one: the base, the roots with spaces between, the Location of the
    first answer, and the batch. All answers are 201.

    Returns the lines that it has to print: the status of the last response; and, if its request was sent, the position of the
    root, and what follows that in its URL."""
    lines, wanted = [], []
    for case in CASES:
        base, roots = places(case)
        if not (has_any_base or base.startswith(tuple(roots))):
            continue
        words = (base, " ".join(roots), case.get("location", ""), json.dumps(batch(case)))
        lines.append(" ".join(word.encode("utf-8", "surrogatepass").hex() or "-" for word in words))
        target = case.get("target")
        at = next((at for at, root in enumerate(roots) if target is not None and target.startswith(root)), None)
        wanted.append("404" if target is None else f"201 {at} {target[len(roots[at]):]}")
    path.write_text("".join(f"{line}\n" for line in lines), encoding="ascii")
    return wanted


def plain(is_sent):
    """The URLs of the table, of requests that refer to no other, below the usual base; those that are sent, or the others."""
    own = (case for case in CASES if not {"base", "roots", "rest"} & {*case})
    return [case["url"] for case in own if ("target" in case) == is_sent]
