"""More than one thread makes the events of a run, and the main thread makes none.

    python3 tests/slow/threads.py [PROGRAM]

A long loop is run by 1, 2 and 4 workers. While it runs, the processor time of each thread is read again and again from /proc. By two workers at least
two threads have to use some, and each of them again after the other has. And by any number the main thread has to wait: once another thread is seen at
work, it uses none. No contract can say this, since a run whose caller makes all events is a run too. PROGRAM is out/dpj where none is named. The status
is 1 where it isn't so in any of three runs.
"""
import pathlib
import subprocess
import sys
import tempfile
import time

PROGRAM = pathlib.Path(__file__).resolve().parents[2] / "out" / "dpj"
LOOP = b"class Main { int main(int n) { cobegin { this.count(n); this.count(n); } return n; } void count(int n) pure { int k = 0; while (k < n) { k = k + 1; } } }"
# The numbers of workers, each with the iterations of a branch; and by how many the threads are to take turns.
RUNS = ((1, 4000000), (2, 9000000), (4, 4000000))
TURNS_BY = 2
TRIES = 3
# How much of the time of all threads the main one may use while they work: to start the first of them, and to wait.
WAITING = 0.05


def tasks(process):
    """The threads of a process; none where it has ended."""
    try:
        return sorted(pathlib.Path(f"/proc/{process}/task").iterdir())
    except OSError:
        return []


def ticks(task):
    """The processor time of a thread, in ticks; none where it has ended."""
    try:
        fields = (task / "stat").read_text().rpartition(")")[2].split()
        return int(fields[11]) + int(fields[12])
    except OSError:
        return 0


class Watched:
    """What is seen of a run: in which order the threads used time, a thread once for each time that it goes on after another, and how much."""

    def __init__(self, program, workers, iterations):
        self.order, self.used, self.main_before, self.main_after = [], {}, 0, 0
        with tempfile.TemporaryFile() as text:
            text.write(LOOP)
            text.seek(0)
            running = subprocess.Popen([program, "run", f"workers={workers}", f"arg={iterations}", "steps=20000000"], stdin=text, stdout=subprocess.DEVNULL)
            self.main = str(running.pid)
            while running.poll() is None:
                self.look()
                time.sleep(0.005)

    def look(self):
        before_all = self.others()
        for task in tasks(self.main):
            before, now = self.used.get(task.name, 0), ticks(task)
            if now > before and self.order[-1:] != [task.name]:
                self.order.append(task.name)
            self.used[task.name] = max(now, before)
        if not self.others():
            self.main_before = self.used.get(self.main, 0)
        elif self.others() > before_all:
            self.main_after = self.used.get(self.main, 0)

    def others(self):
        return sum(self.used.values()) - self.used.get(self.main, 0)

    def by_turns(self):
        """Whether two threads used time, each of them again after the other."""
        return sum(self.order.count(thread) > 1 for thread in set(self.order)) > 1

    def of_main(self):
        """How much time the main thread used while others were at work."""
        return max(0, self.main_after - self.main_before)

    def main_waits(self):
        """Whether another thread was seen at work, and the main thread used no time from then on."""
        return self.others() > 0 and self.of_main() <= WAITING * self.others()

    def seen(self):
        return f"main thread {self.of_main()} ticks, others {self.others()}; {len(set(self.order))} threads, which went on {len(self.order)} times"


def main():
    program = sys.argv[1] if len(sys.argv) > 1 else PROGRAM
    failed = 0
    for workers, iterations in RUNS:
        for _ in range(TRIES):
            run = Watched(program, workers, iterations)
            waits, by_turns = run.main_waits(), workers != TURNS_BY or run.by_turns()
            if waits and by_turns:
                break
        else:
            failed = 1
        faults = ("" if waits else "the main thread makes events; ") + ("" if by_turns else "one thread after the other; ")
        print(f"workers={workers}: {faults}{run.seen()}")
    return failed


if __name__ == "__main__":
    sys.exit(main())
