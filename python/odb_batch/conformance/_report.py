"""What is reported of a run: a table, lines, a document of JSON, and files for each break."""

import json
import os
from typing import Any, NamedTuple, Sequence

from ._promises import PROMISES, SECTIONS, Case
from ._runner import Result
from ._twin import shorten

# How many characters of a batch or a response a test shows.
MAX_SHOWN = 10_000


class Count(NamedTuple):
    """How many cases have looked at a promise, and what they have found."""

    cases: int
    kept: int
    broken: int
    not_applicable: int


def counts(results: list[Result]) -> dict[str, Count]:
    """The counts of each promise. A case that does not apply counts for the promise that it is about."""
    found = {}
    for promise in PROMISES:
        asked = [result for result in results if promise.name in {check.promise for check in result.checks}]
        broken = sum(promise.name in {check.promise for check in result.breaks} for result in asked)
        skipped = sum(result.reason is not None and result.case.promise == promise.name for result in results)
        found[promise.name] = Count(len(asked) + skipped, len(asked) - broken, broken, skipped)
    return found


def table(results: list[Result]) -> str:
    """The promises with their counts."""
    lines = [f"{'promise':10} {'cases':>5} {'kept':>5} {'broken':>6} {'n/a':>4}  what it says"]
    for promise, count in zip(PROMISES, counts(results).values()):
        numbers = f"{count.cases:5} {count.kept:5} {count.broken:6} {count.not_applicable:4}"
        lines.append(f"{promise.name:10} {numbers}  {promise.text} ({promise.section})")
    return "\n".join(lines)


def lines_of(results: list[Result], left: list[str], folder: str, notes: Sequence[str] = ()) -> list[str]:
    """What is printed below the table."""
    lines = [f"note: {note}" for note in notes]
    reasons: dict[str, list[str]] = {}
    for result in results:
        if result.reason is not None:
            reasons.setdefault(result.reason, []).append(result.case.name)
    for reason, names in reasons.items():
        more = f" and {len(names) - 1} more" if len(names) > 1 else ""
        lines.append(f"not applicable: {names[0]}{more}: {reason}")
    broken = [result for result in results if result.breaks]
    for result in broken:
        first = (result.breaks[0].rule or "").partition(". ")[0]
        lines.append(f"broken: {result.case.name}: {result.breaks[0].promise}: {first}")
    if broken:
        lines.append(f"batches, responses and rules: {folder}")
    lines += [f"not removed: {url}" for url in left]
    lines.append(f"{len(results)} cases, {len(broken)} of them broken")
    return lines


def rules_text(result: Result) -> str:
    """What is broken in a case, with the sections of the standard."""
    mode = "without" if result.case.stops else "with"
    lines = [f"{result.case.name}: {result.case.shows}", f"sent {mode} Prefer: continue-on-error", ""]
    for promise in PROMISES:
        rules = [f"  {check.rule}" for check in result.breaks if check.promise == promise.name]
        if rules:
            lines += [f"{promise.name}: {promise.text} (OData {promise.section})", *rules]
    return "\n".join(lines) + "\n"


def failure_text(result: Result) -> str:
    """What a test says of a case that is broken: the rules, the batch and the response."""
    batch, response = (shorten(text.decode(errors="replace"), MAX_SHOWN) for text in (result.batch, result.response))
    return f"{rules_text(result)}\nbatch:\n{batch}\nresponse:\n{response}"


def write_breaks(results: list[Result], folder: str) -> None:
    """Writes the batch, the response and the rules of each case that is broken."""
    for result in results:
        if result.breaks:
            place = os.path.join(folder, result.case.name)
            os.makedirs(place, exist_ok=True)
            for name, data in (
                ("batch.json", result.batch),
                ("response.json", result.response),
                ("rules.txt", rules_text(result).encode()),
            ):
                with open(os.path.join(place, name), "wb") as file:
                    file.write(data)


def document(service: str, results: list[Result], left: list[str], notes: Sequence[str] = ()) -> dict[str, Any]:
    """The results as a value of JSON."""
    return {
        "service": service,
        "cases": len(results),
        "promises": [
            {**promise._asdict(), "cases": cases, "kept": kept, "broken": broken, "notApplicable": skipped}
            for promise, (cases, kept, broken, skipped) in zip(PROMISES, counts(results).values())
        ],
        "breaks": [
            {"case": result.case.name, "promise": check.promise, "section": SECTIONS[check.promise], "rule": check.rule}
            for result in results
            for check in result.breaks
        ],
        "notApplicable": [{"case": one.case.name, "reason": one.reason} for one in results if one.reason is not None],
        "left": left,
        "notes": list(notes),
    }


def list_cases(cases: list[Case]) -> str:
    """The cases, each with what it shows and where the standard promises it."""
    return "\n".join(f"{case.name:26} {case.shows} ({SECTIONS[case.promise]})" for case in cases)


def json_text(value: Any) -> str:
    return json.dumps(value, ensure_ascii=False)
