"""Cases of what a request may be called, and of the forms of its URL."""

from typing import Callable, Sequence
from urllib.parse import urljoin, urlsplit

from ._alone import together
from ._promises import Case
from ._stage import Stage, Subject

CASE = ("A", "a", "Ab", "aB")
SIGNS = ("A-1", "A.1", "A_1", "A~1", "-", "~", "._~-")
NUMBERS = ("1", "01", "10", "1.0", "-1")
KEYS = ("post-key", "get-key", "patch-key", "delete-key")
QUERIES = ("get-filtered", "get-found-by-signs", "get-option")
LONG = tuple("x" * 60 + letter for letter in "abc")


def ids(names: Sequence[str]) -> Callable[[Stage], None]:
    """Requests with these ids, each of which depends on the one before it."""

    def write(stage: Stage) -> None:
        for at, request_id in enumerate(names):
            needs = [names[at - 1]] if at else []
            if at % 2:
                stage.read(request_id, needs=needs)
            else:
                stage.write(request_id, needs=needs)

    return write


def groups(names: Sequence[str]) -> Callable[[Stage], None]:
    """Groups with these names, each of which depends on the one before it."""

    def write(stage: Stage) -> None:
        for at, name in enumerate(names):
            for k in range(2):
                stage.write(f"{k}of{at}", group=name, needs=[names[at - 1]] if at else [])

    return write


def other_urls(form: Callable[[str], str]) -> Callable[[Stage], None]:
    """Requests by URLs of another form than relative to the root."""

    def write(stage: Stage) -> None:
        root = stage.entities.service.root

        def url(subject: Subject) -> str:
            return form(urljoin(root, subject.entity.url))

        for act in ("read", "delete", *[way for way in ("patch", "put") if way not in stage.entities.lacks]):
            subject = stage.subject()
            stage.act(act, act, subject, url(subject))
        stage.create("create")
        stage.steps[-1].request["url"] = form(urljoin(root, stage.entities.set))
        subject = stage.subject()
        stage.act("drop", "delete", subject, url(subject))
        stage.act("look", "read", subject, url(subject), needs=["drop"], promise="order")
        first = len(stage.steps)
        together(QUERIES)(stage)
        for at, step in enumerate(stage.steps[first:], first):
            by_form = {**step.request, "url": form(urljoin(root, step.request["url"]))}
            stage.steps[at] = step._replace(request=by_form)

    return write


def path_of(url: str) -> str:
    """The path of a URL, and its query."""
    parts = urlsplit(url)
    return f"{parts.path}?{parts.query}" if parts.query else parts.path


def methods(stage: Stage) -> None:
    """Methods in upper case."""
    for k in range(4):
        stage.write(f"w{k}")
        stage.read(f"r{k}")
    for step in stage.steps:
        step.request["method"] = step.request["method"].upper()


CASES = (
    Case("ids-case", "once", "ids that differ in upper and lower case", ids(CASE)),
    Case("ids-signs", "once", "ids with each of -._~", ids(SIGNS)),
    Case("ids-numbers", "once", "ids that are one number, or begin with one another", ids(NUMBERS)),
    Case("ids-long", "once", "ids that differ in their last of 61 characters", ids(LONG)),
    Case("groups-case", "named", "names of groups that differ in upper and lower case", groups(CASE)),
    Case("groups-signs", "named", "names of groups with each of -._~", groups(SIGNS)),
    Case("methods-upper", "alone", "methods in upper case", methods),
    Case("urls-absolute", "alone", "absolute URLs", other_urls(lambda url: url), needs=["absolute"]),
    Case("urls-escaped", "alone", "keys with characters that a URL escapes", together(KEYS), needs=["odd keys"]),
    Case("urls-queries", "alone", "query options that a URL escapes", together(QUERIES), needs=["signs"]),
    Case("urls-rooted", "alone", "URLs that begin with /", other_urls(path_of), needs=["rooted"]),
)
