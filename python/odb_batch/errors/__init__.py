"""Why something is refused: a document by a fault, a start or a report of a live run by a cause."""

from .faults import Fault, OdbError, Refused

__all__ = ["Fault", "OdbError", "Refused"]
