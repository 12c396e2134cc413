"""Calls for mypy --strict, which is to accept them, and to refuse those with an ignored error."""

from collections import ChainMap
from types import MappingProxyType
from typing import Any, Callable, Dict, List, Sequence, Tuple

from odb_batch import (
    Counts,
    Document,
    Fault,
    Mode,
    OdbError,
    Output,
    Plan,
    PlannedRequest,
    Refused,
    Report,
    Run,
    Start,
    canon,
    check,
    faults,
    match,
    output,
    plan,
    replay,
    rest,
    run,
)
from odb_batch.conformance import conformance_cases, judge, serving

batch: Document = MappingProxyType({"requests": [ChainMap({"id": "a"}, {"method": "get", "url": "X"})]})
mode: Mode = "stop"

counts: Counts = check(batch)
found: Tuple[Fault, ...] = faults(batch)
lines: List[int] = [fault.line or 0 for fault in found]
planned: Plan = plan(bytearray(canon(batch)))
sequence: Sequence[PlannedRequest] = planned
first: PlannedRequest = planned[0]
some: Tuple[PlannedRequest, ...] = planned[0:2]
place: int = planned.index(first)
statuses: Dict[str, int] = match(batch, memoryview(run(batch, [Start("a"), Report("a", 200)], mode=mode, width=1)))
stopped: Dict[str, int] = match(batch, "", mode=mode, strict=True)
by_units: Dict[str, int] = match(batch, "", strict="units")
left: bytes = rest(batch, "", mode=mode)
undone: Tuple[str, ...] = replay(batch, {"outcomes": []}, order="wide", mode="continue", trace=True).undone
printed: Output = output("run", batch, "", form="lines")


def application(environ: Dict[str, Any], start_response: Callable[..., Any]) -> List[bytes]:
    return []


with serving(application) as url:
    for case in conformance_cases("group-*"):
        judge(url, case, set="Books", key="Id", body={"Title": "Emma"}, headers=MappingProxyType({}), timeout=5)

judge("", conformance_cases(), set="Books", key="Id", body={})  # type: ignore[arg-type]
judge("", "chain", set="Books", key="Id", body="{}")  # type: ignore[arg-type]
judge("", "chain")  # type: ignore[call-arg]
serving("library:app")  # type: ignore[arg-type]

planned.requests = ()  # type: ignore[misc]
found[0].line = 7  # type: ignore[misc]
planned[0] = first  # type: ignore[index]
run(batch, "", mode="stopp")  # type: ignore[arg-type]
match(batch, "", mode="half")  # type: ignore[arg-type]
rest(batch)  # type: ignore[call-arg]
replay(batch, "", order="middle")  # type: ignore[arg-type]
output("chek", batch)  # type: ignore[arg-type]
output("check", batch, form="xml")  # type: ignore[arg-type]
Run(batch, mode="half")  # type: ignore[arg-type]
check(7)  # type: ignore[arg-type]
check([1])  # type: ignore[arg-type]


def perform(live: Run) -> List[OdbError]:
    """Reports each request, and returns what is refused."""
    errors: List[OdbError] = []
    for id in live.ready:
        try:
            live.start(id)
            live.report(id, 200, {"ETag": "7"}, {"of": id})
        except Refused as refused:
            errors.append(refused)
        except Fault as fault:
            print(fault.code, fault.name, fault.place, fault.explanation)
            errors.append(fault)
    return errors


with Run(batch, mode=mode, width=2, events=[Start("a")]) as opened:
    perform(opened)
