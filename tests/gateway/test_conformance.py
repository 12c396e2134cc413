"""The conformance tool finds nothing broken through the gateway before services that are known to keep all promises."""

import os
import shutil
import signal

import pytest

from support.program import EXAMPLES
from support.servers import Server, conformance, folder_for_databases, skip_without, with_gunicorn, with_uvicorn

APPS = {
    "flask": (("flask", "gunicorn"), with_gunicorn("flask_sqlite:app")),
    "fastapi": (("fastapi", "uvicorn"), with_uvicorn("fastapi_app:app")),
}


@pytest.mark.slow
@pytest.mark.parametrize("groups", ["forward", "refuse"])
@pytest.mark.parametrize("name", APPS)
def test_conformance(library, loop, running, tmp_path, name, groups):
    from support.gateways import Proxy

    skip_without(*APPS[name][0])
    folder = folder_for_databases()
    books = os.path.join(folder, "books.sqlite")
    service = Server(APPS[name][1], os.path.join(EXAMPLES, "frameworks"), str(tmp_path / "log"), BOOKS=books)
    upstream = f"http://127.0.0.1:{service.port}/odata/"
    gateway = running("--upstream", upstream, "--groups", groups, "--log", "none")
    try:
        status, printed = conformance(Proxy(loop, gateway, service), tmp_path)
    finally:
        service.stop()
        shutil.rmtree(folder, ignore_errors=True)
    assert status == 0, printed
    assert " 0 of them broken" in printed
    assert ("refuses groups with 501" in printed) == (groups == "refuse"), printed
    assert gateway.stop(signal.SIGTERM) == (0, "")
