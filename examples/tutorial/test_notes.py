"""Judges the notes: `python3 -m pytest examples/tutorial`."""

import pytest
from notes import app

from odb_batch.conformance import conformance_cases, judge, serving


@pytest.fixture(scope="module")
def url():
    with serving(app) as root:
        yield root + "/"


@pytest.mark.parametrize("case", conformance_cases("group-fails-*"))
def test_batches(url, case):
    judge(url, case, set="Notes", key="Id", body={"Text": "tickets"})
