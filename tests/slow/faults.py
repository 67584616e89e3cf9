"""Each read, write and allocation of a job fails in turn.

    python3 tests/slow/faults.py [--every N] [PROGRAM]

On one job of each kind each allocation fails (or each Nth), each read and each write. An answer has to be the whole one with its status, or: out of
memory with nothing written where an allocation failed; a read fault with nothing written where a read did; a write fault, with a first part of the
report, where a write did. A worker that finds no memory leaves its task to others, so a trace may be another one, which comes out the same. PROGRAM is out/dpj where none is named; a C compiler makes failing.c,
which is loaded in front of the C library.
The status is 1 where an answer is another.
"""
import argparse
import concurrent.futures
import json
import os
import pathlib
import struct
import subprocess
import sys
import tempfile

HERE = pathlib.Path(__file__).resolve().parent
TOP = HERE.parent.parent
READ_FAULT, WRITE_FAULT, NO_MEMORY = 5, 6, 7
SECONDS = 120

EVERYTHING = b"""class Cell<region P> { int value in P; Cell<P> next in P; Cell(int value) writes P { this.value = value; } int read() reads P { return this.value; } }
class Main {
  atomic region Sum;
  region A, B, Parts;
  int sum in Sum;
  int left in A;
  int right in B;
  int main(int n) {
    int[]<Parts> all = new int[n]<Parts>;
    foreach_parts (v, int k in all, 2) { int j = 0; while (j < v.length) { v[j] = 10 * k + j; j = j + 1; } }
    cobegin { this.left = all[0]; { this.right = all[1]; print(this.right); } }
    foreach_nd (int i in 0, n) { atomic { this.sum = this.sum + i; } }
    region r;
    int[]<r> own = new int[1]<r>;
    own[0] = 1;
    Cell<A> one = new Cell<A>(7);
    print("sum");
    print(this.sum);
    return one.read() + this.left + own[0];
  }
}
"""
TRAP = b"class Main { int main(int n) { print(1); return 1 / n; } }"
REFUSED = b"class Main { region A; int x in A; int main(int n) { cobegin { this.x = 1; this.x = 2; } return 0; } }"


def stored(file, name):
    """The text of a case."""
    cases = json.loads((TOP / "tests" / "cases" / file).read_text(encoding="utf-8"))
    return next(case["source"] for case in cases if case["name"] == name).encode()


JOBS = (
    ("check", EVERYTHING),
    ("run workers=1 arg=4", EVERYTHING),
    ("run workers=4 arg=4", EVERYTHING),
    ("run mode=rounds arg=4", EVERYTHING),
    ("elide arg=4", EVERYTHING),
    ("list", EVERYTHING),
    ("effects", EVERYTHING),
    ("trace workers=1 arg=4", EVERYTHING),
    ("replay", None),
    ("run workers=4 arg=4", stored("runs/programs.json", "a tree of bodies: run arg=4 workers=4")),
    ("demo n=3 workers=1", b""),
    ("demo n=8", b""),
    ("run workers=1", TRAP),
    ("run workers=1 steps=3 arg=4", EVERYTHING),
    ("check", REFUSED),
    ("check", b"class Main { int main(int n) { return 0; }"),
    ("no job", EVERYTHING),
)


class Job:
    """One job, and what it answers where nothing fails."""

    def __init__(self, program, library, words, source, folder):
        self.program, self.library, self.words, self.source = program, library, words.split(), source
        counts = pathlib.Path(folder) / "counts"
        self.whole = self.answer(FAIL_COUNTS=str(counts))
        self.allocations, self.reads, self.writes = struct.unpack("lll", counts.read_bytes())

    def answer(self, **fails):
        given = {**os.environ, "LD_PRELOAD": str(self.library), **fails}
        done = subprocess.run([self.program, *self.words], input=self.source, capture_output=True, timeout=SECONDS, env=given)
        return done.stdout, done.returncode

    def comes_out(self, trace):
        done = subprocess.run([self.program, "replay"], input=trace, capture_output=True, timeout=SECONDS)
        return done.stdout, done.returncode

    def is_whole(self, answer):
        if self.words[0] != "trace" or answer[1] != self.whole[1]:
            return answer == self.whole
        return self.comes_out(answer[0]) == self.comes_out(self.whole[0])

    def is_allowed(self, answer, status, may_write):
        """The whole answer, or this status with nothing written, or with a first part of the report."""
        if self.is_whole(answer):
            return True
        written, got = answer
        return got == status and (self.whole[0].startswith(written) if may_write else not written)

    def differs(self, what, number, status, may_write=False):
        answer = self.answer(**{what: str(number)})
        if self.is_allowed(answer, status, may_write):
            return []
        return [f"{' '.join(self.words)}: {what} {number}: {answer}, in place of {self.whole}"]

    def tries(self, every):
        """What is to fail, with the status that this may have."""
        for number in range(1, self.allocations + 1, every):
            yield "FAIL_ALLOC", number, NO_MEMORY
        for number in range(1, self.reads + 1):
            yield "FAIL_READ", number, READ_FAULT
        for number in range(1, self.writes + 1):
            yield "FAIL_WRITE", number, WRITE_FAULT, True


def campaign(program, every):
    with tempfile.TemporaryDirectory() as folder:
        library = pathlib.Path(folder) / "failing.so"
        subprocess.run(["cc", "-shared", "-fPIC", "-O1", "-o", library, HERE / "failing.c"], check=True)
        trace = subprocess.run([program, "trace", "workers=1", "arg=4"], input=EVERYTHING, capture_output=True, check=True).stdout
        failed = 0
        with concurrent.futures.ThreadPoolExecutor(os.cpu_count()) as pool:
            for words, source in JOBS:
                job = Job(program, library, words, trace if source is None else source, folder)
                if not job.allocations:
                    sys.exit(f"{words}: no allocation is seen, so none can be made to fail")
                tries = list(job.tries(every))
                wrong = [line for lines in pool.map(lambda fails: job.differs(*fails), tries) for line in lines]
                print(f"{words}: {job.allocations} allocations, {job.reads} reads, {job.writes} writes; {len(tries)} failed in turn, {len(wrong)} answers wrong", flush=True)
                for line in wrong[:5]:
                    print("   ", line)
                failed += len(wrong)
    return failed


def main():
    options = argparse.ArgumentParser(description=__doc__, formatter_class=argparse.RawDescriptionHelpFormatter)
    options.add_argument("--every", type=int, default=1)
    options.add_argument("program", nargs="?", default=TOP / "out" / "dpj")
    options = options.parse_args()
    return 1 if campaign(options.program, options.every) else 0


if __name__ == "__main__":
    sys.exit(main())
