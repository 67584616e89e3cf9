"""A signal ends the launcher within a second, and with it every process that it started; the status is that of the signal.

    python3 tests/launcher/signals.py
"""
import os
import pathlib
import signal
import subprocess
import sys
import tempfile
import time

from support.desk import Desk, Tally, plain

# A program, and a tool that makes one: they note their numbers and those of their children, and go on for long.
SLOW = 'echo $$ >"$BEGAN" && exec sleep 60\n'
SLOW_TOOL = '#!/bin/sh\nsleep 60 &\necho $! $$ >"$BEGAN" && wait\n'
# A program that refuses, and goes on for long where it is asked again for the reason.
REFUSING = '[ -e "$BEGAN.asked" ] || { : >"$BEGAN.asked"; echo refused 1:1 unknown; exit 2; }\n' + SLOW
PATIENCE, SECOND = 20, 1.0

CATCHABLE = (signal.SIGTERM, signal.SIGINT, signal.SIGHUP)
# (what is begun under nohup or behind a shell's `&` ignores one of them, and so would the launcher)
for caught in CATCHABLE:
    if signal.getsignal(caught) is signal.SIG_IGN:
        signal.signal(caught, signal.SIG_DFL)


def waited(condition, seconds):
    """Whether something comes to be so within a time."""
    until = time.monotonic() + seconds
    while not condition():
        if time.monotonic() > until:
            return False
        time.sleep(0.01)
    return True


def is_gone(process):
    """Whether a process has ended; one that nobody has asked for its status yet has."""
    try:
        with open(f"/proc/{process}/stat", encoding="utf-8") as stat:
            return stat.read().rpartition(")")[2].split()[0] == "Z"
    except OSError:
        return True


class Run:
    """A run of the launcher that goes on for long, once it has begun."""

    def __init__(self, desk, *words, is_on_terminal=False, env=None):
        folder = tempfile.mkdtemp(dir=desk.path.parent)
        began = pathlib.Path(folder) / "began"
        env = {**(env or plain()), "BEGAN": str(began)}
        self.terminal = None
        if is_on_terminal:
            self.running, self.terminal = desk.start(*words, env=env, stdin=subprocess.DEVNULL)
        else:
            self.running = subprocess.Popen(
                ["./dpj", *words], cwd=desk.path, stdin=subprocess.DEVNULL, stdout=subprocess.DEVNULL, stderr=subprocess.DEVNULL, env=env)
        waited(lambda: began.exists() and began.read_text().endswith("\n"), PATIENCE)
        self.started = [int(process) for process in began.read_text().split()] if began.exists() else []

    def ended(self):
        """The signal that it ended by, and whether all that it started ended within a second. All of it has ended then."""
        is_in_time = waited(lambda: self.running.poll() is not None and all(map(is_gone, self.started)), SECOND)
        for process in self.started:
            if not is_gone(process):
                os.kill(process, signal.SIGKILL)
        self.running.kill()
        if self.terminal:
            os.close(self.terminal)
        return -self.running.wait(PATIENCE), is_in_time and bool(self.started)


def signalled(number, *of_run, **more):
    """A run that gets a signal."""
    run = Run(*of_run, **more)
    run.running.send_signal(number)
    return run.ended()


def typed(desk):
    """A run on whose terminal control and C are typed."""
    run = Run(desk, "run", "a.dpj", is_on_terminal=True)
    os.write(run.terminal, b"\x03")
    return run.ended()


def main():
    tally, desk, making, refusing = Tally("signals"), Desk(SLOW), Desk(None), Desk(REFUSING).be_patient()
    (desk.path / "a.dpj").write_text("class Main { }")
    making.script("tools/unproved", SLOW_TOOL)
    bare, cases = desk.without_python(), {}
    for number in CATCHABLE:
        cases[f"{number.name}, no terminal"] = number, lambda number=number: signalled(number, desk, "run")
        cases[f"{number.name}, a terminal"] = number, lambda number=number: signalled(number, desk, "run", "a.dpj", is_on_terminal=True)
        cases[f"{number.name}, no Python"] = number, lambda number=number: signalled(number, desk, "run", is_on_terminal=True, env=bare)
        cases[f"{number.name}, --json"] = number, lambda number=number: signalled(number, desk, "run", "--json")
        cases[f"{number.name}, why"] = number, lambda number=number: signalled(number, desk, "why")
        cases[f"{number.name}, check --all, a terminal"] = number, lambda number=number: signalled(number, desk, "check", "--all", "a.dpj", is_on_terminal=True)
        cases[f"{number.name} while a reason is sought"] = number, lambda number=number: signalled(number, refusing, "check", is_on_terminal=True)
        cases[f"{number.name} while a program is made"] = number, lambda number=number: signalled(number, making, "run")
    # What can't be caught ends the program where it is called directly, or by Python.
    kill = signal.SIGKILL
    cases["KILL, no terminal"] = kill, lambda: signalled(kill, desk, "run")
    cases["KILL, a terminal"] = kill, lambda: signalled(kill, desk, "run", is_on_terminal=True)
    cases["KILL, --json"] = kill, lambda: signalled(kill, desk, "run", "--json")
    cases["control and C"] = signal.SIGINT, lambda: typed(desk)
    tally.all_equal(lambda what: cases[what][1](), {what: (number, True) for what, (number, _) in cases.items()})
    return tally.close()


if __name__ == "__main__":
    sys.exit(main())
