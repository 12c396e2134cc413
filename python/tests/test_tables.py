"""What the library says of itself is what the package has beside it, and no list of headers is written in a package."""

import json
import re
from typing import get_args

from odb_batch import commands, runs
from odb_batch._native import calls, library
from odb_batch.client import _builder
from odb_batch.documents import encoding
from odb_batch.driver import execution
from odb_batch.http import batch_request
from odb_batch.testing import _strategies

CONSTANTS = json.loads(library.call("odb_constants", (), (), 0)[1])


def test_the_names_of_numbers():
    names = [get_args(it) for it in (calls.Mode, commands.Order, commands.Form, runs._State)]
    assert names == [tuple(CONSTANTS[it]) for it in ("modes", "orders", "forms", "states")]


def test_limits():
    assert CONSTANTS["limits"] == {
        "body_levels": 124,
        "document_bytes": execution.MAX_BODY_BYTES,
        "document_levels": encoding._MAX_LEVELS,
        "requests": calls.MAX_REQUESTS,
        "width": calls.MAX_WIDTH,
    }


def test_headers():
    found = {
        "allowed": batch_request._ALLOWED,
        "allowed_prefixes": batch_request._ALLOWED_PREFIXES,
        "not_inherited": batch_request._NOT_INHERITED,
        "not_inherited_prefixes": batch_request._NOT_INHERITED_PREFIXES,
        "not_shown": execution._NOT_SHOWN,
        "of_connection": batch_request._OF_CONNECTION,
        "usually_dropped": batch_request._USUALLY_DROPPED,
    }
    assert found == {name: type(found[name])(names) for name, names in CONSTANTS["headers"].items()}
    assert all(re.fullmatch("[a-z0-9-]+", name) for names in CONSTANTS["headers"].values() for name in names)


def test_ids_and_preferences():
    assert _builder._RESERVED == _strategies.RESERVED == set(CONSTANTS["reserved_ids"])
    assert batch_request._OF_BATCH == set(CONSTANTS["preferences"])
