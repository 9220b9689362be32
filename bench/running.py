"""What scripts of this folder share: the built program, and runs of it with their time and memory."""
import collections
import os
import subprocess
import sys
import tempfile
import threading
import time

HERE = os.path.dirname(os.path.abspath(__file__))
BUILT = os.path.join(HERE, "..", "crates", "rwsp", "out", "rwsp")
EXAMPLES = os.path.join(HERE, "..", "examples")

# How a run ended: its status (below 0 the signal that ended it, or None where its time was up), the seconds that it took, those
# that its processors worked for it, the most megabytes that it held, and what it wrote.
Ran = collections.namedtuple("Ran", "status seconds worked megabytes out err")


def program_or_exit(path):
    """The program's whole path, where it is built."""
    if not os.path.exists(path):
        sys.exit("build the program first: ./rwsp --prove")
    return os.path.abspath(path)


def run(words, limit=None, folder=None, env=None, prepare=None):
    """Runs the words and waits, but no longer than `limit` seconds."""
    with tempfile.TemporaryFile() as out, tempfile.TemporaryFile() as err:
        before = time.perf_counter()
        child = subprocess.Popen(
            words, stdin=subprocess.DEVNULL, stdout=out, stderr=err, cwd=folder, env=env, preexec_fn=prepare
        )
        stop = threading.Timer(limit, child.kill) if limit else None
        if stop:
            stop.start()
        _, status, usage = os.wait4(child.pid, 0)
        seconds = time.perf_counter() - before
        child.returncode = os.waitstatus_to_exitcode(status)
        if stop:
            stop.cancel()
        is_up = limit is not None and child.returncode == -9 and seconds >= limit
        out.seek(0)
        err.seek(0)
        ended = None if is_up else child.returncode
        worked = usage.ru_utime + usage.ru_stime
        return Ran(ended, seconds, worked, usage.ru_maxrss // 1024, out.read(), err.read())


def first_line(out, width=60):
    """The front of the first line, for a table."""
    return out.split(b"\n", 1)[0][:width].decode("utf-8", "replace")
