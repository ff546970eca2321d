"""Calls of the library that run functions of Python's in the calling thread."""

from __future__ import annotations

import _thread
import threading
from collections.abc import Callable

from ._library import NO_MEMORY


def aside(call: Callable[[], int], stop: Callable[[BaseException], object]) -> int:
    """The status of such a call.

    What a signal raises, as an interrupt from the keyboard, comes to the main thread at any step, also at the first one of a function that the library
    calls, where nothing can be told to the library. So in the main thread the call is made by another one, which is waited for. What is raised meanwhile
    is told to `stop`, and the caller raises it.
    """
    if threading.current_thread() is not threading.main_thread():
        return call()
    # (of what threading gives some could be interrupted halfway; a lock is one step)
    statuses: list[int] = []
    is_made, has_ended, is_begun = threading.Lock(), threading.Lock(), False
    has_ended.acquire()

    def make() -> None:
        status = NO_MEMORY
        if is_made.acquire(blocking=False):
            try:
                status = call()
            finally:
                statuses.append(status)
                has_ended.release()

    while not statuses:
        try:
            if not is_begun:
                _thread.start_new_thread(make, ())
                is_begun = True
            has_ended.acquire()
        except BaseException as error:
            if isinstance(error, RuntimeError) and not is_begun:  # (no thread can be begun, as at the end of the interpreter)
                return call()
            stop(error)
    return statuses[0]
