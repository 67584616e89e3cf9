"""Asks the program: hands it a text, and waits for its answer.

It ends with the tool that asked, whatever ends that: the kernel sends it a signal then.
"""
import collections
import os
import resource
import signal
import subprocess

try:
    import ctypes
except ImportError:
    # Then a program that is asked outlives the tool by up to its own time.
    ctypes = None

PR_SET_PDEATHSIG = 1

# The most bytes that a program and a trace may have. A text with one more is refused as `too-long`, unread beyond that.
MAX_TEXT = 1048576
MAX_TRACE = 67108864

# A program that a signal ended counts as ended with this and the signal's number.
KILLED = 128

# What the program wrote, and its status.
Answer = collections.namedtuple("Answer", "report status")


def read_text(command):
    """The bytes of standard input, as many as the program would take for a command."""
    most = (MAX_TRACE if command == "replay" else MAX_TEXT) + 1
    pieces, size = [], 0
    while size < most:
        piece = os.read(0, most - size)
        if not piece:
            break
        pieces.append(piece)
        size += len(piece)
    return b"".join(pieces)


def takes_signals():
    """A signal ends this tool at once, and with it whom it asks."""
    signal.signal(signal.SIGINT, signal.SIG_DFL)


def ask(program, words, text, seconds=None, memory=None, errors=None, end=signal.SIGKILL):
    """The answer of the program to words and a text; None where it takes longer than so many seconds. `memory` bounds its bytes,
    `errors` takes its standard error, and `end` is the signal that ends it with this tool."""
    parent = os.getpid()

    def before():
        if ctypes:
            ctypes.CDLL(None).prctl(PR_SET_PDEATHSIG, end)
            if os.getppid() != parent:
                os._exit(KILLED + signal.SIGKILL)
        if memory:
            resource.setrlimit(resource.RLIMIT_AS, (memory, memory))

    try:
        done = subprocess.run(
            [program, *words], input=text, stdout=subprocess.PIPE, stderr=errors, timeout=seconds, preexec_fn=before, check=False)
    except subprocess.TimeoutExpired:
        return None
    return Answer(done.stdout, done.returncode if done.returncode >= 0 else KILLED - done.returncode)
