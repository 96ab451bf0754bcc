"""A call into the library cannot be left from the thread that makes it, so it is made in a child process, which can be ended."""
import ctypes
import os
import pickle
import select
import signal
import threading
import time

from .bad import Bad

FORKING = threading.Lock()
END_WITH_PARENT = 1  # PR_SET_PDEATHSIG of Linux


class TooLong(Exception):
    pass


def aside(work, seconds=None):
    """What work() returns. Ctrl-C, or more than so many seconds, ends the child and leaves the shell as it was."""
    with FORKING:
        reading, writing = os.pipe()
        try:
            child = os.fork()
        except OSError as why:
            os.close(reading)
            os.close(writing)
            raise Bad(f"no process can be started to ask the library: {(why.strerror or str(why)).lower()}")
        if child == 0:
            _child(work, writing)
        os.close(writing)
    try:
        data = _all(reading, seconds)
    except BaseException:
        os.kill(child, signal.SIGKILL)
        raise
    finally:
        os.close(reading)
        os.waitpid(child, 0)
    if not data:
        raise Bad("the process that asked the library ended without an answer")
    return pickle.loads(data)


def _all(reading, seconds):
    end = None if seconds is None else time.monotonic() + seconds
    parts = []
    while True:
        if end is not None and not select.select([reading], [], [], max(0, end - time.monotonic()))[0]:
            raise TooLong()
        part = os.read(reading, 1 << 16)
        if not part:
            return b"".join(parts)
        parts.append(part)


def _child(work, writing):
    """Never returns: whatever happens, the child must not go on as a second shell."""
    status = 1
    try:
        ctypes.CDLL(None).prctl(END_WITH_PARENT, signal.SIGKILL)  # a shell that is killed leaves no question running
    except (AttributeError, OSError):
        pass  # not Linux
    try:
        signal.signal(signal.SIGINT, signal.SIG_DFL)
    except ValueError:
        pass  # not in the main thread: the page, which has a time limit instead
    try:
        with os.fdopen(writing, "wb") as pipe:
            pipe.write(pickle.dumps(work()))
        status = 0
    finally:
        os._exit(status)
