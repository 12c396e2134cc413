"""The shared library: where it is found, and its functions as they are declared in odb_batch.h."""

import ctypes
import os
import secrets
import sys
from typing import Any, Callable, Optional

# Its name where it is not that of Linux.
_NAMES = {"win32": "odb_batch.dll", "darwin": "libodb_batch.dylib"}
NAME = _NAMES.get(sys.platform, "libodb_batch.so.0")
VARIABLE = "ODB_BATCH_LIBRARY"

DONE, REFUSED, WRONG_OPTION, OUT_OF_MEMORY, SMALL_BUFFER = 0, 1, 2, 4, 5
UNREADABLE, OUTSIDE = 31, 32

# Longer than the line of a fault.
_LINE = 256

# Where a part of a request starts that it does not have.
NONE = 2 ** (8 * ctypes.sizeof(ctypes.c_size_t)) - 1

# How many numbers an odb_request has: a start and a length for each of eight parts, and a position.
_OF_REQUEST = 17

# How many numbers an odb_response has: a start and a length for each of four parts, and a status.
_OF_RESPONSE = 9

# How many numbers an odb_position has: a line, a column, an offset and an end.
_OF_POSITION = 4

# How many numbers an odb_fault has: a start and a length for each of three words, and a position.
_OF_FAULT = 6 + _OF_POSITION

# The version that this package is made for; the library may have another patch.
MAJOR, MINOR = 0, 2


_BYTES: list[Any] = [ctypes.c_char_p, ctypes.c_size_t]
_NUMBER = [ctypes.c_uint32]
_SIZE = ctypes.POINTER(ctypes.c_size_t)
_TEXT = [ctypes.c_void_p, ctypes.c_size_t, _SIZE]
_SEEDED = [*_TEXT, ctypes.c_uint64]
_ITEMS = [ctypes.c_void_p, ctypes.c_size_t, _SIZE]
_LIST = [*_ITEMS, ctypes.c_uint64]
_RUN = [ctypes.POINTER(ctypes.c_void_p)]
_PLACE = ctypes.POINTER(ctypes.c_uint32)
_POSITIONS = [ctypes.POINTER(ctypes.c_uint32), ctypes.c_size_t, _SIZE]

# The parameters of each function.
_PARAMETERS: dict[str, list[Any]] = {
    "odb_check_as": [*_BYTES, *_NUMBER, *_SEEDED],
    "odb_check_all_as": [*_BYTES, *_NUMBER, *_SEEDED],
    "odb_plan_as": [*_BYTES, *_NUMBER, *_SEEDED],
    "odb_canon_as": [*_BYTES, *_NUMBER, *_SEEDED],
    "odb_match_with": [*_BYTES, *_BYTES, *_NUMBER * 3, *_SEEDED],
    "odb_rest": [*_BYTES, *_BYTES, *_NUMBER * 2, *_SEEDED],
    "odb_run_as": [*_BYTES, *_BYTES, *_NUMBER * 3, *_SEEDED],
    "odb_replay_as": [*_BYTES, *_BYTES, *_NUMBER * 5, *_SEEDED],
    "odb_explain": [*_BYTES, *_TEXT],
    "odb_constants": [*_TEXT],
    "odb_where": [*_BYTES, *_BYTES, ctypes.c_void_p],
    "odb_faults": [*_BYTES, *_TEXT, *_LIST],
    "odb_requests": [*_BYTES, *_TEXT, *_LIST],
    "odb_responses": [*_BYTES, *_TEXT, *_ITEMS],
    "odb_resolve": [*_BYTES * 5, *_NUMBER, *_TEXT],
    "odb_run_open": [*_BYTES, *_BYTES, *_NUMBER * 2, *_RUN, *_SEEDED],
    "odb_run_open_requests": [*_BYTES, *_BYTES, *_NUMBER * 2, *_RUN, *_TEXT, *_LIST],
    "odb_run_ready": [*_RUN, *_POSITIONS],
    "odb_run_running": [*_RUN, *_POSITIONS],
    "odb_run_undone": [*_RUN, *_POSITIONS],
    "odb_run_next_unit": [*_RUN, *_POSITIONS],
    "odb_run_part": [*_RUN, *_BYTES, *_NUMBER, *_TEXT, *_POSITIONS, ctypes.c_uint64],
    "odb_run_take": [*_RUN, *_BYTES, *_BYTES, *_NUMBER, *_SEEDED],
    "odb_run_state": [*_RUN, *_NUMBER, _PLACE, _PLACE],
    "odb_run_stop": [*_RUN],
    "odb_run_ids": [*_RUN, *_TEXT],
    "odb_run_start": [*_RUN, *_NUMBER],
    "odb_run_start_unit": [*_RUN, *_NUMBER],
    "odb_run_report": [*_RUN, *_NUMBER * 2, *_BYTES, *_BYTES],
    "odb_report_fault": [*_BYTES, *_BYTES, *_TEXT],
    "odb_run_finished": [*_RUN],
    "odb_run_response": [*_RUN, *_TEXT],
    "odb_run_close": [ctypes.c_void_p],
}


def _places() -> list[str]:
    """Where the library may be: named by the environment, or beside the package, or known to the loader."""
    named = os.environ.get(VARIABLE)
    if named:
        return [named]
    beside = os.path.join(os.path.dirname(os.path.dirname(__file__)), NAME)
    return [*([beside] if os.path.exists(beside) else []), NAME]


def _load() -> ctypes.CDLL:
    """Loads the library."""
    failed = []
    for place in _places():
        try:
            return ctypes.CDLL(place)
        except OSError as error:
            failed.append(str(error))
    raise ImportError(
        f"{NAME} cannot be loaded ({'; '.join(failed)}). bin/odb_library FOLDER of odb_batch builds it: "
        f"put it beside this package, or set {VARIABLE} to its path"
    )


def _declare(library: ctypes.CDLL) -> str:
    """Declares the functions, and returns the version of the library."""
    try:
        library.odb_version.argtypes, library.odb_version.restype = [], ctypes.c_uint32
        number = library.odb_version()
        for name, parameters in _PARAMETERS.items():
            function = getattr(library, name)
            function.argtypes, function.restype = parameters, ctypes.c_uint32
        library.odb_run_close.restype = None
        library.odb_run_stop.restype = None
    except AttributeError as error:
        raise ImportError(f"{NAME} is not the library of odb_batch: {error}") from None
    found = number // 10000, number // 100 % 100
    if found != (MAJOR, MINOR):
        raise ImportError(f"{NAME} has version {found[0]}.{found[1]}, and this package needs {MAJOR}.{MINOR}")
    return f"{found[0]}.{found[1]}.{number % 100}"


class _Missing:
    """Stands for a library that cannot be loaded: each use of it raises why."""

    def __init__(self, error: ImportError) -> None:
        self._error = error

    def __getattr__(self, name: str) -> Any:
        raise self._error


def _is_command() -> bool:
    """Whether this process runs ``python3 -m odb_batch``, of which the help and the page need no library. While Python
    looks for the module to run, the first argument is ``-m``; Python 3.9 does not say which module that is."""
    words: list[str] = getattr(sys, "orig_argv", [])
    return sys.argv[:1] == ["-m"] and ("-m", "odb_batch") in zip(words, words[1:])


#: The library: each function of odb_batch.h is an attribute.
LIBRARY: Any
#: Why there is no library, in a command of the package alone; else None, since the import of the package fails then.
MISSING: Optional[ImportError] = None
try:
    LIBRARY = _load()
    VERSION = _declare(LIBRARY)
except ImportError as error:
    if not _is_command():
        raise
    LIBRARY, MISSING, VERSION = _Missing(error), error, f"{MAJOR}.{MINOR}"

# Drawn once, and kept secret: nobody can choose names that make a call slow.
_SEED = secrets.randbits(64)


def _with_sizes(documents: tuple[bytes, ...]) -> list[Any]:
    """The arguments for documents: each and its length."""
    return [part for document in documents for part in (document, len(document))]


def _seed(name: str) -> tuple[int, ...]:
    """The last argument of a function, if that is the seed."""
    return (_SEED,) if _PARAMETERS[name][-1] is ctypes.c_uint64 else ()


def call(name: str, documents: tuple[bytes, ...], options: tuple[Any, ...], room: int) -> tuple[int, bytes]:
    """Calls a function that writes a text; returns its status and the text. `room` is a guess of how long that is."""
    function: Callable[..., int] = getattr(LIBRARY, name)
    length = ctypes.c_size_t()
    sized, seed = _with_sizes(documents), _seed(name)
    while True:
        text = ctypes.create_string_buffer(room)
        status = function(*sized, *options, text, room, ctypes.byref(length), *seed)
        if status != SMALL_BUFFER:
            return status, ctypes.string_at(text, length.value)
        room = length.value


#: The status of a call that lists what a document has, the text, and the numbers of each element of the list.
Listed = tuple[int, bytes, list[tuple[int, ...]]]


def _call_list(
    name: str, width: int, documents: tuple[bytes, ...], room: int, most: int, options: tuple[Any, ...] = ()
) -> Listed:
    """Calls a function that lists what a document has, with so many numbers for each element. `room` and `most` are guesses of
    how long the text and the list are."""
    function: Callable[..., int] = getattr(LIBRARY, name)
    length, count = ctypes.c_size_t(), ctypes.c_size_t()
    sizes = ctypes.byref(length), ctypes.byref(count)
    sized, seed = _with_sizes(documents), _seed(name)
    while True:
        text, numbers = ctypes.create_string_buffer(room), (ctypes.c_size_t * (width * max(most, 1)))()
        status = function(*sized, *options, text, room, sizes[0], numbers, most, sizes[1], *seed)
        if status != SMALL_BUFFER:
            found = iter(numbers[: width * count.value])
            return status, ctypes.string_at(text, length.value), list(zip(*[found] * width))
        room, most = max(length.value, room), max(count.value, most)


def call_requests(batch: bytes, room: int, most: int) -> Listed:
    """Lists what is to be sent of the requests of a batch."""
    return _call_list("odb_requests", _OF_REQUEST, (batch,), room, most)


def call_open(batch: bytes, events: bytes, options: tuple[Any, ...], room: int, most: int) -> Listed:
    """Opens a run, and lists what is to be sent of the requests of its batch."""
    return _call_list("odb_run_open_requests", _OF_REQUEST, (batch, events), room, most, options)


def call_responses(document: bytes, room: int, most: int) -> Listed:
    """Lists the responses in the document of a service."""
    return _call_list("odb_responses", _OF_RESPONSE, (document,), room, most)


def call_faults(batch: bytes, room: int, most: int) -> Listed:
    """Lists the faults of a batch."""
    return _call_list("odb_faults", _OF_FAULT, (batch,), room, most)


def call_part(run: Any, batch: bytes, limit: int, room: int, positions: Any) -> tuple[int, bytes, list[int]]:
    """The status of a call for the next part of a run, its text, and the positions of its requests, for which there is room."""
    length, count = ctypes.c_size_t(), ctypes.c_size_t()
    sizes = ctypes.byref(length), ctypes.byref(count)
    while True:
        text = ctypes.create_string_buffer(room)
        status = LIBRARY.odb_run_part(
            run, batch, len(batch), limit, text, room, sizes[0], positions, len(positions), sizes[1], _SEED
        )
        if status != SMALL_BUFFER:
            return status, ctypes.string_at(text, length.value), positions[: count.value]
        room = length.value


def call_take(run: Any, part: bytes, responses: bytes, mode: int) -> tuple[int, bytes]:
    """The status of a call that takes the responses to a part of a run, and the line of a fault."""
    return call("odb_run_take", (), (run, part, len(part), responses, len(responses), mode), _LINE)


def call_where(document: bytes, place: bytes) -> tuple[int, list[int]]:
    """The status of a call for the position of a place in a document, and its numbers."""
    numbers = (ctypes.c_size_t * _OF_POSITION)()
    status = LIBRARY.odb_where(document, len(document), place, len(place), numbers)
    return status, list(numbers)
