"""docs/service.md: its views before and after. The services of examples/frameworks have the lines after, and are tested
so; with the lines before a group fails as the page says.
"""

import os
import re

import pytest

from support.markdown import blocks, text_of
from support.program import EXAMPLES

FOLDER = os.path.join(EXAMPLES, "frameworks")
# A writer waits no longer than this for a lock.
SHORT = {"timeout=10": "timeout=0.2", '"timeout": 10': '"timeout": 0.2', "connect(PATH)": "connect(PATH, timeout=0.2)"}
INSERTED = 'abort(409, "the book is there")\n'
CREATED = "def create(book: Book):\n    row = book.Id, book.Title, 1\n    with transaction() as db:\n"
YIELDED = """\
def opened():
    with transaction() as db:
        yield db


@app.post("/odata/Books")
def create(book: Book, db=Depends(opened)):
    row = book.Id, book.Title, 1
    if True:
"""


def changes():
    """The views that the page changes: by their files, the lines before and after."""
    named = [re.fullmatch(r"(?s) # examples/frameworks/(\w+)\.py\n(.*)", it) for it in blocks(text_of("docs", "service.md"), "diff")]
    sides = lambda text, mark: "".join(it[1:] for it in text.splitlines(keepends=True) if it[0] in (" ", mark))
    return {it[1]: (sides(it[2], "-"), sides(it[2], "+")) for it in named}


@pytest.fixture
def serve_with(serve, tmp_path):
    """Serves a service in which some texts have others in their place."""
    started = []

    def start(name, *changes):
        with open(os.path.join(FOLDER, f"{name}.py"), encoding="utf-8") as file:
            text = file.read()
        for old, new in changes:
            assert text.count(old) == 1, old
            text = text.replace(old, new)
        for long, short in SHORT.items():
            text = text.replace(long, short)
        (tmp_path / f"{name}.py").write_text(text, encoding="utf-8")
        started.append(serve(name, place=tmp_path))
        return started[-1]

    yield start
    for server in started:
        server.stop()


def book(id, **more):
    return {"method": "post", "url": "Books", "body": {"Id": id, "Title": "Emma"}, **more}


def test_three_views_are_changed():
    assert sorted(changes()) == ["fastapi_app", "flask_sqlalchemy", "flask_sqlite"]


@pytest.mark.parametrize("name", ("fastapi_app", "flask_sqlalchemy", "flask_sqlite"))
def test_a_view_before_its_change_waits_for_the_lock_of_its_group(serve_with, name):
    before, after = changes()[name]
    server = serve_with(name, (after, before))
    assert server.statuses(book("alone")) == [201]
    assert server.statuses(book("a", atomicityGroup="g")) == [500]
    with open(server.log, encoding="utf-8") as log:
        assert "database is locked" in log.read()
    assert server.statuses({"url": "Books('a')"}) == [404]


def test_a_view_that_commits_keeps_a_write_of_a_group_that_fails(serve_with):
    server = serve_with("flask_sqlite", (INSERTED, f"{INSERTED}        db.commit()\n"))
    fails = {"method": "patch", "url": "Books('none')", "body": {"Title": "x"}, "atomicityGroup": "g"}
    assert server.statuses(book("kept", atomicityGroup="g"), fails) == [424, 404]
    assert server.statuses({"url": "Books('kept')"}) == [200]


def test_a_batch_waits_for_a_dependency_that_commits_after_its_yield(serve_with):
    created = f'@app.post("/odata/Books")\n{CREATED}'
    server = serve_with("fastapi_app", (created, YIELDED))
    for k in range(20):
        assert server.statuses(book(f"b{k}"), {"url": "$r0", "dependsOn": ["r0"]}) == [201, 200]
    assert server.statuses(book("c", atomicityGroup="g"), book("d", atomicityGroup="g")) == [201, 201]


def test_what_a_proxy_denies_is_denied_in_a_batch(serve_with):
    server = serve_with("flask_sqlite")
    assert server.statuses({"url": "admin/Books"}, {"url": "%61dmin/"}, {"url": "Books"}) == [403, 403, 200]
