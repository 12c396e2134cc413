"""The small services of examples/frameworks, and some odd ones, as processes on the loopback."""

import itertools
import os
import shutil

import pytest

from support.program import EXAMPLES
from support.servers import Server, folder_for_databases, skip_without, with_gunicorn, with_uvicorn

HERE = os.path.dirname(os.path.abspath(__file__))
# The frameworks that an application needs, and how it is served.
APPS = {
    "flask_sqlite": (("flask", "gunicorn"), with_gunicorn("flask_sqlite:app")),
    "flask_sqlalchemy": (("flask", "sqlalchemy", "gunicorn"), with_gunicorn("flask_sqlalchemy:app")),
    "django_app": (("django", "gunicorn"), with_gunicorn("django_app:application")),
    "fastapi_app": (("fastapi", "uvicorn"), with_uvicorn("fastapi_app:app")),
    "odd_flask": (("flask", "gunicorn"), with_gunicorn("odd_flask:app")),
    "odd_django": (("django", "gunicorn"), with_gunicorn("odd_django:application")),
    "odd_fastapi": (("fastapi", "uvicorn"), with_uvicorn("odd_fastapi:app")),
}
SMALL = ("flask_sqlite", "flask_sqlalchemy", "django_app", "fastapi_app")


@pytest.fixture(scope="session")
def serve(library):
    """Serves an application; `command` takes the place of how it is served, `place` that of its folder, and variables
    are those of its environment.
    """
    folder, started, number = folder_for_databases(), [], itertools.count()

    def start(name, command=None, place=None, **variables):
        skip_without(*APPS[name][0])
        place = place or (os.path.join(HERE, "apps") if name.startswith("odd_") else os.path.join(EXAMPLES, "frameworks"))
        books = os.path.join(folder, f"{next(number)}.sqlite")
        log = os.path.join(folder, f"{name}.log")
        found = Server(command or APPS[name][1], place, log, **{"BOOKS": books, **variables})
        started.append(found)
        return found

    yield start
    for it in started:
        it.stop()
    shutil.rmtree(folder, ignore_errors=True)


@pytest.fixture(scope="session", params=SMALL)
def server(request, serve):
    found = serve(request.param)
    found.name = request.param
    return found
