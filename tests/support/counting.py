"""How much work Python does for a call, by the lines that it executes: any machine counts the same."""

import sys
import threading


def lines_of(work):
    """Returns how many lines of Python a call executes, with those of the threads that it starts."""
    count = 0

    def trace(frame, event, argument):
        nonlocal count
        count += event == "line"
        return trace

    before = sys.gettrace()
    threading.settrace(trace)
    sys.settrace(trace)
    try:
        work()
    finally:
        sys.settrace(before)
        threading.settrace(before)
    return count
