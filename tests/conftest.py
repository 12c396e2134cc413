"""Makes each call of the pages of tests/cases/ a test: `tests/cases/bodies.txt::TITLE [ARGUMENTS]`."""

import pytest

from support import cases, pages
from support.helps import Texts
from support.program import place_of


def pytest_collect_file(file_path, parent):
    if file_path.suffix == ".txt" and file_path.parent.name == "cases":
        return Page.from_parent(parent, path=file_path)
    return None


class Page(pytest.File):
    """A page of cases."""

    def collect(self):
        try:
            runs = pages.read_page(self.path)
        except pages.BadPage as error:
            raise self.CollectError(str(error)) from None
        for run in runs:
            yield Call.from_parent(self, name=run.words, run=run)


class Differs(Exception):
    """What the program did otherwise than a case shows."""


class Call(pytest.Item):
    """A call of the program, which has to print what its case shows and to end with its status."""

    fixturenames = ("program",)

    def __init__(self, *, run, **more):
        super().__init__(**more)
        self.run = run

    def runtest(self):
        found = cases.tried(self.run, place_of(self.config, "program"))
        if found:
            raise Differs("\n".join([self.run.name, *found]))

    def repr_failure(self, excinfo):
        return str(excinfo.value) if isinstance(excinfo.value, Differs) else super().repr_failure(excinfo)

    def reportinfo(self):
        return self.path, self.run.line - 1, self.name


@pytest.fixture(scope="session")
def texts(program):
    """What the program prints: its help, its manual page and its completion scripts."""
    return Texts(program)
