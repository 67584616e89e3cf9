"""A folder with the launcher of this checkout and a program of our choice, and what is seen when it is called there."""
import collections
import concurrent.futures
import fcntl
import functools
import os
import pathlib
import pty
import select
import shutil
import struct
import subprocess
import sys
import tempfile
import termios
import time

TOP = pathlib.Path(__file__).resolve().parents[3]
SECONDS = 60

# What the launcher itself needs of the system, but for Python.
NEEDED = "sh awk basename cat cut dirname git paste readlink sed setsid sleep tr".split()

MAKERS = ("sources", "unproved", "proved")

# Sums that name the two programs of a desk, as tools/sources would write them.
SOURCES = "#!/bin/sh\necho unproved U\necho proved P\n"

Seen = collections.namedtuple("Seen", "out screen status")


def kept():
    """The program of this checkout's sources that the launcher would take; None where there is none."""
    sums = dict(line.split() for line in subprocess.check_output([TOP / "tools" / "sources"], text=True).splitlines())
    found = (TOP / "out" / kind / sums[kind] / "dpj" for kind in ("proved", "unproved"))
    return next((path for path in found if path.exists()), None)


@functools.lru_cache
def program():
    """The program of this checkout: the proved one that the gate made, or else the one that the launcher takes."""
    if (TOP / "out" / "dpj").exists():
        return TOP / "out" / "dpj"
    found = kept()
    if not found:
        # With no text this makes the unproved program, and does little else.
        subprocess.run([TOP / "dpj", "check"], stdin=subprocess.DEVNULL, stdout=subprocess.DEVNULL, check=False)
        found = kept()
    return found or sys.exit("tests/launcher: there is no program, and the launcher made none")


class Desk:
    """The folder. `of` is the program that it has: a path, or the lines of a shell script."""

    def __init__(self, of, kind="proved", parts=("dpj", "tools", "docs", "crates")):
        self.room = tempfile.TemporaryDirectory()
        self.path = pathlib.Path(self.room.name).resolve() / "whole"
        self.path.mkdir()
        for part in parts:
            if part == "crates":
                (self.path / "crates").mkdir()
            elif (TOP / part).is_dir():
                # What makes programs is left out: a desk has its own.
                shutil.copytree(TOP / part, self.path / part, ignore=shutil.ignore_patterns("__pycache__", *MAKERS))
            else:
                shutil.copy(TOP / part, self.path / part)
        if "tools" in parts:
            self.script("tools/sources", SOURCES)
        if isinstance(of, str):
            self.script(f"out/{kind}/{kind[0].upper()}/dpj", "#!/bin/sh\n" + of)
        elif of:
            (self.path / "out" / kind / kind[0].upper()).mkdir(parents=True)
            (self.path / "out" / kind / kind[0].upper() / "dpj").symlink_to(of)

    def script(self, name, text):
        path = self.path / name
        path.parent.mkdir(parents=True, exist_ok=True)
        path.write_text(text)
        path.chmod(0o755)
        return path

    def be_patient(self):
        """Lets the reason of a refusal take its time, so that what is shown depends on no clock."""
        for name, seconds in (("show.py", "\nREASON_SECONDS = 1\n"), ("why.py", "\nBRIEF_SECONDS = 0.25\n"), ("why.py", "\nSECONDS = 10.0\n")):
            path = self.path / "tools" / name
            found, text = path.read_text(encoding="utf-8"), seconds.partition("=")[0]
            assert seconds in found, f"{name} has other bounds"
            path.write_text(found.replace(seconds, f"{text}= {SECONDS}\n"), encoding="utf-8")
        return self

    def without_reasons(self):
        """Leaves the reason of a refusal away."""
        (self.path / "tools" / "why.py").unlink()
        return self

    def without_python(self):
        """An environment in which no Python is found."""
        folder = self.path.parent / "bin"
        folder.mkdir(exist_ok=True)
        for name in NEEDED:
            if not (folder / name).exists():
                (folder / name).symlink_to(shutil.which(name))
        return {**os.environ, "PATH": str(folder)}

    def run(self, *words, text=b"", env=None, launcher="./dpj", **more):
        """What is written where no terminal is: standard output, standard error and the status."""
        given = {} if "stdin" in more else {"input": text}
        done = subprocess.run([launcher, *words], cwd=self.path, capture_output=True, env=env or plain(), timeout=SECONDS, check=False, **given, **more)
        return Seen(done.stdout.decode(), done.stderr.decode(), done.returncode)

    def start(self, *words, env=None, columns=80, stdin=None, stdout=subprocess.DEVNULL, launcher="./dpj"):
        """Starts the launcher on a terminal of its own, which takes standard error, and what else isn't given."""
        terminal, inner = pty.openpty()
        fcntl.ioctl(inner, termios.TIOCSWINSZ, struct.pack("HHHH", 24, columns, 0, 0))

        def before():
            os.setsid()
            fcntl.ioctl(inner, termios.TIOCSCTTY, 0)

        started = subprocess.Popen(
            [launcher, *words], cwd=self.path, env=env or plain(), stdin=inner if stdin is None else stdin,
            stdout=inner if stdout is None else stdout, stderr=inner, preexec_fn=before)
        os.close(inner)
        return started, terminal

    def show(self, *words, text=None, typed=b"", **more):
        """What is written on a terminal, and standard output, which is a pipe. `text` comes from a file without a name; where there is none it is
        the terminal that is read, on which something is typed as soon as it says something."""
        given = None
        if text is not None:
            given = tempfile.TemporaryFile()
            given.write(text)
            given.seek(0)
        started, terminal = self.start(*words, stdin=given, stdout=subprocess.PIPE, **more)
        first = b""
        if typed:
            first = os.read(terminal, 65536)
            os.write(terminal, typed)
        out, screen = read_both(started.stdout.fileno(), terminal)
        os.close(terminal)
        started.stdout.close()
        return Seen(out.decode(), (first + screen).decode().replace("\r\n", "\n"), started.wait(SECONDS))


def plain(**more):
    """An environment without colours, and with this very Python in front, since what finds another may take a while."""
    return {**os.environ, "PATH": f"{pathlib.Path(sys.executable).parent}:{os.environ['PATH']}", "TERM": "dumb", **more}


def read_both(*descriptors):
    """All that comes from descriptors, until each is closed at its other end."""
    found, left, until = {it: b"" for it in descriptors}, list(descriptors), time.monotonic() + SECONDS
    while left and time.monotonic() < until:
        for descriptor in select.select(left, [], [], 1)[0]:
            try:
                data = os.read(descriptor, 65536)
            except OSError:
                data = b""
            found[descriptor] += data
            if not data:
                left.remove(descriptor)
    return [found[it] for it in descriptors]


class Tally:
    """Counts what is so and what isn't."""

    def __init__(self, name):
        self.name, self.passed, self.failed = name, 0, 0

    def equal(self, what, got, wanted):
        if got == wanted:
            self.passed += 1
            return
        self.failed += 1
        print(f"failed {self.name}: {what}\n  wanted {wanted!r}\n  got    {got!r}")

    def all_equal(self, ask, wanted):
        """Asks each of the keys, several at a time, for what is wanted of it."""
        with concurrent.futures.ThreadPoolExecutor(os.cpu_count()) as pool:
            for (what, want), got in zip(wanted.items(), pool.map(ask, wanted)):
                self.equal(what, got, want)

    def close(self):
        print(f"launcher, {self.name}: {self.passed} seen, {self.failed} otherwise than wanted")
        return 1 if self.failed or not self.passed else 0
