"""Calls that wait for one another: those of threads, of signal handlers, and of forked processes."""
import functools
import os
import sys
import threading
from typing import Any, Callable, List, Optional, Tuple, TypeVar

from ._library import name_error

__all__ = ["OneAtATime", "one_at_a_time"]

_Call = TypeVar("_Call", bound=Callable[..., Any])


class OneAtATime:
    """What one call at a time uses.

    `_state` says all that a call changes, and each step of it is one store. So a signal handler that raises leaves the
    state from before the step or from after it.
    """

    _state: Any
    _name: Any = None  # The path or the object of the file, whose name errors have.
    _process: Optional[int] = None  # The one that may use it, where forked ones must not.

    def __init__(self) -> None:
        self._lock = threading.RLock()
        self._running: Any = None  # The frame and the last step of the call.

    def _is_elsewhere(self) -> bool:
        """Whether this is a forked process, and it belongs to another one."""
        return self._process not in (None, os.getpid())

    def _check_not_within(self, frame: Any) -> None:
        """An error where the frame of another call is below that of a call."""
        here = frame.f_back
        while here:
            if here is self._running[0]:
                raise RuntimeError("a signal handler called this during another call of the same thread")
            here = here.f_back

    def _finish(self, state: Any) -> None:
        """The last step of a call; it is taken back if the call is cut off after it."""
        self._running[1].append((self._state, state))
        self._state = state

    def _take_back(self, before: Any, after: Any) -> None:
        with self._lock:
            if self._state is after:
                self._state = before


def one_at_a_time(call: _Call) -> _Call:
    """Makes other threads wait for the end of a call, and one by a signal handler within it a RuntimeError; and so one
    of a forked process, where a thread that isn't there may have the lock."""

    @functools.wraps(call)
    def guarded(self: OneAtATime, *arguments: Any, **named: Any) -> Any:
        steps: List[Tuple[Any, Any]] = []
        if self._process is not None and self._is_elsewhere():
            what = f"this {type(self).__name__} belongs to the process that made it"
            raise RuntimeError(f"{what}, and not to a forked one: make one here")
        try:
            with self._lock:
                # No local variable has the frame, which would hold itself and what was given to the call.
                if self._running:
                    self._check_not_within(sys._getframe())
                self._running = sys._getframe(), steps
                try:
                    return call(self, *arguments, **named)
                finally:
                    self._running = None
        except BaseException as error:
            for step in steps:
                self._take_back(*step)
            name_error(error, self._name)
            raise

    return guarded  # type: ignore[return-value]
