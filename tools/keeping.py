"""What tools/unproved and tools/proved share.

These are the sums of the sources, a lock, commands that end with their caller, and a line that shows that a build goes on.
"""
import contextlib
import ctypes
import fcntl
import os
import pathlib
import shutil
import signal
import subprocess
import sys
import time

PROGRAM = "tool_cli"
TOP = pathlib.Path(__file__).resolve().parent.parent
OUT = TOP / "out"
LIBC = ctypes.CDLL(None)
PR_SET_PDEATHSIG = 1
CLEAR_LINE = "\r\033[K"


class Refusal(Exception):
    """Why no program is made, and the status that says so: 127 where a command or a part of the kit is missing, else 126."""

    def __init__(self, why, status=126):
        super().__init__(why)
        self.status = status


def sums():
    """The sums of the present sources, by the words `unproved` and `proved`."""
    ran = subprocess.run([TOP / "tools" / "sources"], stdout=subprocess.PIPE, text=True)
    if ran.returncode:
        raise Refusal("tools/sources can't name the sources")
    return dict(line.split() for line in ran.stdout.splitlines())


def kit_folder():
    """The folder of the kit to which the command rt on the PATH belongs."""
    rt = shutil.which("rt")
    if rt is None:
        raise Refusal("the Rattle toolchain's command rt is not on the PATH", 127)
    kit = pathlib.Path(rt).resolve().parent.parent
    if not (kit / "KIT-ID").is_file():
        raise Refusal(f"{rt} isn't the command of a Rattle toolchain: {kit} has no KIT-ID", 127)
    return kit


def crates_of_program():
    """The crates of which the program is made, each behind those that it stands on: by its name its line of crates.txt, and what it stands on."""
    listed, found = {}, {}
    for line in (TOP / "crates.txt").read_text(encoding="utf-8").splitlines():
        head, colon, below = line.partition("#")[0].partition(":")
        if colon:
            listed[head.split()[0]] = line, below.split()

    def add(name):
        for below in listed[name][1]:
            if below in listed and below not in found:
                add(below)
        found[name] = listed[name]

    if PROGRAM not in listed:
        raise Refusal(f"crates.txt has no line for the program, {PROGRAM}")
    add(PROGRAM)
    return found


def note_kit(kit):
    """Notes with which kit was built, for tools/sources where no rt is on the PATH."""
    new = OUT / f"kit.{os.getpid()}"
    new.write_bytes((kit / "KIT-ID").read_bytes())
    os.replace(new, OUT / "kit")


def end_with_parent():
    """Has this process told to end when the one that started it is gone."""
    LIBC.prctl(PR_SET_PDEATHSIG, signal.SIGTERM)


def end_on_signals():
    """Turns the signals that end a build into an exit, so that its commands end and its folder goes."""
    asked = [signal.SIGINT, signal.SIGTERM]
    # (nohup has it ignored.)
    if signal.getsignal(signal.SIGHUP) is signal.SIG_DFL:
        asked.append(signal.SIGHUP)

    def end(number, _):
        for it in asked:
            signal.signal(it, signal.SIG_IGN)
        raise SystemExit(128 + number)

    for it in asked:
        signal.signal(it, end)


class Progress:
    """Shows on standard error that a build goes on: on a terminal a line that is rewritten in place, else one for each phase and minute."""

    def __init__(self, name):
        self.name, self.text, self.is_terminal = name, "", sys.stderr.isatty()
        self.began = self.phase_began = self.shown = time.monotonic()

    def seconds(self):
        return round(time.monotonic() - self.began)

    def write(self, text):
        # Whoever read standard error may be gone; the build goes on.
        with contextlib.suppress(OSError):
            sys.stderr.write(text)
            sys.stderr.flush()

    def say(self, text):
        self.write(f"{CLEAR_LINE if self.is_terminal else ''}{self.name}: {text}\n")

    def phase(self, text):
        self.text, self.phase_began = text, time.monotonic()
        if not self.is_terminal:
            self.say(text)
        self.shown = 0 if self.is_terminal else time.monotonic()
        self.tick()

    def tick(self, more=""):
        """Shows the phase, its seconds and what more there is to tell, where it is time to."""
        now = time.monotonic()
        if now - self.shown < (1 if self.is_terminal else 60):
            return
        self.shown = now
        line = f"{self.name}: {self.text}: {now - self.phase_began:.0f} s{more}"
        columns = shutil.get_terminal_size().columns - 1
        self.write(CLEAR_LINE + line[:columns] if self.is_terminal else line + "\n")


class Commands:
    """The commands that a build starts, each in a group of its own. None outlives the build, however that ends."""

    def __init__(self):
        self.started = []

    def start(self, words, **how):
        """Starts a command, from the main thread (with another, it would end when that thread does)."""
        caller = os.getpid()

        def tie():
            LIBC.prctl(PR_SET_PDEATHSIG, signal.SIGKILL)
            if os.getppid() != caller:
                os._exit(1)

        try:
            command = subprocess.Popen(words, stdin=subprocess.DEVNULL, start_new_session=True, preexec_fn=tie, **how)
        except OSError as error:
            raise Refusal(f"{words[0]} can't be started ({error.strerror})", 127) from error
        self.started.append(command)
        return command

    def __enter__(self):
        return self

    def __exit__(self, *_):
        self.end()

    def wait(self, commands, progress):
        """Waits for these commands, and shows meanwhile that it goes on."""
        while any(it.poll() is None for it in commands):
            progress.tick()
            time.sleep(0.05)

    def end(self):
        for it in self.started:
            if it.poll() is None:
                with contextlib.suppress(ProcessLookupError):
                    os.killpg(it.pid, signal.SIGKILL)
                it.wait()


@contextlib.contextmanager
def alone(folder, progress, waiting):
    """Holds a folder's lock, once whoever holds it has ended; meanwhile shows the text `waiting`."""
    folder.mkdir(parents=True, exist_ok=True)
    with open(folder / "lock", "w", encoding="utf-8") as lock:
        is_told = False
        while True:
            try:
                fcntl.flock(lock, fcntl.LOCK_EX | fcntl.LOCK_NB)
                break
            except BlockingIOError:
                if not is_told:
                    progress.phase(waiting)
                    is_told = True
                progress.tick()
                time.sleep(0.1)
        yield


@contextlib.contextmanager
def room_in(folder):
    """A new folder to make things in, which goes in the end. Those that killed builds left go too; the caller holds the lock."""
    for it in folder.glob("making.*"):
        shutil.rmtree(it, ignore_errors=True)
    room = folder / f"making.{os.getpid()}"
    room.mkdir()
    try:
        yield room
    finally:
        shutil.rmtree(room, ignore_errors=True)


def is_kept(folder, name):
    return os.access(folder / name / "dpj", os.X_OK)


def keep(program, room, folder, name):
    """Puts a copy of the program in place, as `dpj` of the folder `name`, by one rename, and removes those of older sources."""
    made = room / "kept"
    made.mkdir()
    shutil.copyfile(program, made / "dpj")
    os.chmod(made / "dpj", 0o755)
    # (What a crash of the machine leaves is whole, too.)
    with open(made / "dpj", "rb") as it:
        os.fsync(it.fileno())
    shutil.rmtree(folder / name, ignore_errors=True)
    os.rename(made, folder / name)
    for it in folder.iterdir():
        if it.is_dir() and it.name not in (name, room.name):
            shutil.rmtree(it, ignore_errors=True)
