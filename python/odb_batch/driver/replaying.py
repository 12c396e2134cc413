"""What has happened to a batch before a process was ended, as the run of another process takes it."""

from typing import Sequence

from ..documents.encoding import Report
from ..http.messages import Answer
from ..runs import Run
from .journal import JournalEvent, ReportUnit, StartUnit, Stop
from .references import ReferenceResolver


def replay_events(events: Sequence[JournalEvent], run: Run, resolver: ReferenceResolver) -> tuple[int, list[str]]:
    """Takes events in a run, and keeps what others refer to. Returns how many requests have begun, and those that were out."""
    begun, out = 0, dict[str, None]()
    for event in events:
        if isinstance(event, (Report, ReportUnit)):
            for report in event.reports if isinstance(event, ReportUnit) else (event,):
                _replay_report(report, run, resolver)
                del out[report.id]
        elif isinstance(event, Stop):
            run.stop()
        elif isinstance(event, StartUnit):
            run.start_unit(event.ids[0])
            out.update(dict.fromkeys(event.ids))
            begun += len(event.ids)
        else:
            run.start(event.id)
            out[event.id] = None
            begun += 1
    return begun, [*out]


def _replay_report(event: Report, run: Run, resolver: ReferenceResolver) -> None:
    headers = dict(event.headers or {})
    run.report(event.id, event.status, headers or None, event.body)
    if event.id in resolver.referred:
        resolver.record(event.id, Answer(event.status, headers, event.body))
