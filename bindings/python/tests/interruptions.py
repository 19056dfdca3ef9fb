"""What interrupts calls of the package: signal handlers that raise, and threads."""
import dis
import gc
import os
import sys
import threading

import hound_bindings as hound


class Interrupted(Exception):
    """What a signal handler raises."""


class Interruption:
    """Raises once, before the bytecode of the package with this number, as a signal handler may."""

    FOLDER = os.path.dirname(hound.__file__)

    def __init__(self, at):
        self.at, self.seen, self.place = at, 0, None
        self.tracer = self.trace  # It lives as long as this: Python 3.11 may call it when it has let it go.

    def __enter__(self):
        gc.disable()  # What is collected isn't interrupted.
        sys._getframe().f_trace_opcodes = True  # Python 3.12 looks for one such frame first.
        sys.unraisablehook = self.report
        sys.settrace(self.tracer)
        return self

    def __exit__(self, *_):
        sys.settrace(None)
        sys.unraisablehook = sys.__unraisablehook__
        gc.enable()

    @staticmethod
    def report(unraisable):
        """A destructor passes no exception on: Python prints its traceback, which is of no use for an interruption."""
        if unraisable.exc_type is not Interrupted:
            sys.__unraisablehook__(unraisable)

    def trace(self, frame, event, argument):
        if not frame.f_code.co_filename.startswith(self.FOLDER):
            return None
        frame.f_trace_opcodes = True
        if event == "opcode":
            self.seen += 1
            if self.seen == self.at:
                self.place = frame.f_code.co_name, dis.opname[frame.f_code.co_code[frame.f_lasti]]
                raise Interrupted(self.place)
        return self.tracer

    def is_at_the_end(self):
        """Whether only the return of a call was left, which can't be undone."""
        return self.place == ("guarded", "RETURN_VALUE")


def in_threads(*calls):
    """Makes calls in threads, which are changed often."""
    interval = sys.getswitchinterval()
    sys.setswitchinterval(1e-6)
    threads = [threading.Thread(target=call) for call in calls]
    for thread in threads:
        thread.start()
    for thread in threads:
        thread.join()
    sys.setswitchinterval(interval)
