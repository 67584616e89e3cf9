"""Runs the program several times side by side, each run bounded in time, in memory and in what it writes.

One thread starts the runs, and reads what they write as it comes. They end with it, whatever ends that: the kernel kills them then.
"""
import collections
import os
import resource
import selectors
import signal
import subprocess
import time

try:
    import ctypes
except ImportError:
    # Then a run outlives a tool that was killed, until it ends by itself.
    ctypes = None

PR_SET_PDEATHSIG = 1
KILLED = 128
PIECE = 1 << 16
# How long the wait for a run may last before it is asked whether to stop.
PATIENCE = 0.2

Bounds = collections.namedtuple("Bounds", "seconds memory output")

# A run by its key. `over` names the bound that it went over, `time` or `output`, and there is no report then.
Ended = collections.namedtuple("Ended", "key report status over")


def processors():
    """How many processors this may use."""
    try:
        return len(os.sched_getaffinity(0))
    except (AttributeError, OSError):
        return os.cpu_count() or 1


class Child:
    """A run that goes on."""

    def __init__(self, key, command, path, bounds):
        self.key, self.bounds = key, bounds
        self.pieces, self.size = [], 0
        self.until = time.monotonic() + bounds.seconds
        with open(path, "rb") as text:
            # In a group of its own, so that Ctrl-C on a terminal reaches this tool alone.
            self.process = subprocess.Popen(
                command, stdin=text, stdout=subprocess.PIPE, stderr=subprocess.DEVNULL, process_group=0,
                preexec_fn=before(os.getpid(), bounds.memory))

    def take(self):
        """Takes what was written, and gives the end of the run where this is it."""
        piece = os.read(self.process.stdout.fileno(), PIECE)
        self.pieces.append(piece)
        self.size += len(piece)
        if self.size > self.bounds.output:
            return self.stop("output")
        return None if piece else self.end()

    def end(self):
        """The end of a run that writes no more."""
        try:
            status = self.process.wait(max(0, self.until - time.monotonic()))
        except subprocess.TimeoutExpired:
            return self.stop("time")
        self.process.stdout.close()
        return Ended(self.key, b"".join(self.pieces), status if status >= 0 else KILLED - status, None)

    def stop(self, over):
        """Ends the run before its end."""
        self.process.kill()
        self.process.wait()
        self.process.stdout.close()
        return Ended(self.key, None, None, over)


def before(parent, memory):
    """What a child does before it becomes the program."""

    def call():
        if ctypes:
            ctypes.CDLL(None).prctl(PR_SET_PDEATHSIG, signal.SIGKILL)
            if os.getppid() != parent:
                os._exit(KILLED + signal.SIGKILL)
        resource.setrlimit(resource.RLIMIT_AS, (memory, memory))

    return call


class Runs:
    """Runs of a program on the text of a file, one for each key with its words."""

    def __init__(self, program, path, bounds):
        self.program, self.path, self.bounds = program, path, bounds
        self.is_stopped = False
        self.selector = selectors.DefaultSelector()

    def stop(self):
        """No further run begins or ends. This may be called by a signal's handler."""
        self.is_stopped = True

    def all(self, jobs, width):
        """The end of each run, in the order in which they end, at most so many side by side. A job is a key with words."""
        jobs, live = iter(jobs), 0
        try:
            while not self.is_stopped:
                while live < width and (job := next(jobs, None)) is not None:
                    self.begin(*job)
                    live += 1
                if not live:
                    return
                for ended in self.some():
                    live -= 1
                    yield ended
        finally:
            for key in list(self.selector.get_map().values()):
                key.data.stop("stop")
            self.selector.close()

    def begin(self, key, words):
        child = Child(key, [self.program, *words], self.path, self.bounds)
        self.selector.register(child.process.stdout, selectors.EVENT_READ, child)

    def some(self):
        """The runs that end now, after a while at most."""
        children = [key.data for key in self.selector.get_map().values()]
        rest = min(child.until for child in children) - time.monotonic()
        ready = {key.data for key, _ in self.selector.select(max(0, min(rest, PATIENCE)))}
        for child in children:
            stream = child.process.stdout
            ended = child.take() if child in ready else None
            if ended is None and child.until <= time.monotonic():
                ended = child.stop("time")
            if ended:
                self.selector.unregister(stream)
                yield ended
