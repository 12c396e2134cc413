"""Makes calls of the library one after another, with one seed: test_seeds.py counts the instructions of each.

  seeded.py CALLS SEED

CALLS is a file in JSON: a list of calls, each with the name of a function, its documents, its numbers and how many requests its
batch has. What the calls write is printed as a list in JSON.
"""

import ctypes
import json
import sys

from odb_batch._native import library

ROOM = 4_000_000


def answer(name, documents, numbers, requests):
    """What a call writes, which has to be done; of a run that is opened its response."""
    if name in ("odb_faults", "odb_requests"):
        listed = library.call_faults if name == "odb_faults" else library.call_requests
        status, _, found = listed(*documents, ROOM, requests)
        assert (status, len(found)) == (library.DONE, 0 if name == "odb_faults" else requests), name
        return ""
    handle = ctypes.c_void_p()
    place = (ctypes.byref(handle),) if name.startswith("odb_run_open") else ()
    if name == "odb_run_open_requests":
        status, _, found = library.call_open(*documents, (*numbers, *place), ROOM, requests)
        assert len(found) == requests, name
    else:
        status, text = library.call(name, documents, (*numbers, *place), ROOM)
    assert status == library.DONE, name
    if place:
        status, text = library.call("odb_run_response", (), place, ROOM)
        assert status == library.DONE, name
        library.LIBRARY.odb_run_close(handle)
    return text.decode()


def main(path, seed):
    library._SEED = int(seed)
    with open(path, encoding="utf-8") as file:
        calls = json.load(file)
    print(json.dumps([answer(name, [it.encode() for it in documents], *more) for name, documents, *more in calls]))


main(*sys.argv[1:])
