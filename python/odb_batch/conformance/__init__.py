"""Judges whether a service keeps what OData promises of batches in JSON, case by case.

``python3 -m odb_batch conformance URL ..`` judges a service that runs. The tests of a service have each case as
a test of its own, by pytest::

    import pytest
    from odb_batch.conformance import conformance_cases, judge, serving
    from library import app

    @pytest.fixture(scope="module")
    def url():
        with serving(app) as root:
            yield root + "/library/"

    @pytest.mark.parametrize("case", conformance_cases())
    def test_batches(url, case):
        judge(url, case, set="Books", key="Id", body={"Title": "Emma"})

It needs the standard library alone; :func:`serving` needs uvicorn for an application of ASGI.
"""

from ._cases import conformance_cases
from ._service import Unusable
from ._serving import serving
from ._testing import judge

__all__ = ["Unusable", "conformance_cases", "judge", "serving"]
