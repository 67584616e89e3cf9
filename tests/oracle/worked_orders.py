"""A few programs in their two extreme orders, one of them gathered, and the bytes of traces replayed.

    python3 tests/oracle/worked_orders.py [PROGRAM]

Each program here stands twice: as a text, and as a tree for tests/oracle/tasks.py, which makes its schedules. In one the ready task that began first goes on, in
the other the one that began last. The replay of either has to come out as was worked out by hand, within just the limits that it costs, and be over a limit
with one step less. The run of two blocks is gathered, block by block, and comes out the same. What `trace` writes, by 1, 4 and 64 workers, is replayed as it
stands; and two blocks come out in one of two ways. PROGRAM is out/dpj where none is named. tests/run calls this. The status is 1 where an answer differs.
"""
import argparse
import dataclasses
import json
import pathlib
import sys

sys.path.insert(0, str(pathlib.Path(__file__).resolve().parents[1]))

from generate.random_programs import PROGRAM, WIDE  # noqa: E402
from generate.random_scopes import INT, Class, FieldDeclaration, Method  # noqa: E402
from oracle import schedules, tasks  # noqa: E402
from oracle.elision import (  # noqa: E402
    Assign, Atomic, Binary, Block, Call, Cobegin, Declare, Element, Field, Foreach, If, Literal, Local, NewArray, Print, Return, Text, This, While,
)

TOP = pathlib.Path(__file__).resolve().parents[2]
ORDERS = {"least": min, "greatest": max}
WORKERS = (1, 4, 64)

FIB = """class Main {
  int fib(int n) pure {
    if (n < 2) { return n; }
    int a = 0;
    int b = 0;
    cobegin { a = this.fib(n - 1); b = this.fib(n - 2); }
    return a + b;
  }
  int main(int n) { return this.fib(n); }
}
"""
SQUARES = """class Main {
  region A;
  int main(int n) {
    int[]<A:[i]>#i a = new int[n]<A:[i]>#i;
    foreach (int i in 0, n) { a[i] = i * i; }
    int k = 0;
    int sum = 0;
    while (k < n) { sum = sum + a[k]; k = k + 1; }
    return sum;
  }
}
"""
ONE_TRAP = """class Main {
  int main(int n) {
    cobegin { print(1 / n); print(2); }
    return 0;
  }
}
"""
TWO_TRAPS = """class Main {
  region A;
  int main(int n) {
    int[]<A:[i]>#i a = new int[3]<A:[i]>#i;
    cobegin {
      { int k = 0; while (k < 1000) { k = k + 1; } print(a[k]); }
      print(1 / (n - n));
    }
    return 0;
  }
}
"""
COUNTER = """class Main {
  atomic region C;
  int c in C;
  int main(int n) {
    foreach_nd (int i in 0, n) { atomic { this.c = this.c + 1; } }
    return this.c;
  }
}
"""
TWO_BLOCKS = """class Main {
  atomic region C;
  int c in C;
  int main(int n) {
    cobegin_nd { atomic { this.c = this.c + 1; } atomic { this.c = this.c * 3; } }
    return this.c;
  }
}
"""


def less(name, bound):
    return Binary(Local(name), "<", bound)


def raised(name):
    return Assign(Local(name), Binary(Local(name), "+", Literal(1)))


def main_of(statements, methods=(), fields=()):
    """A class Main, whose atomic region is Main.C."""
    made = Class("Main", parameter="")
    made.fields += [FieldDeclaration(name, INT, "Main.C") for name in fields]
    made.methods += [*methods, method("main", statements)]
    # Writing it gives each node its place.
    Text().put(made)
    return tasks.Program(made, [], {"Main.C"})


def method(name, statements):
    return Method(name, "int", [("n", INT)], {}, 0, body=statements)


def counted(sign, operand):
    """A block that changes the field c."""
    field = Field(This(), "c")
    return Atomic(Block([Assign(field, Binary(field, sign, Literal(operand)))]))


def fib():
    def called(step):
        return Call(This(), "", "fib", [Binary(Local("n"), "-", Literal(step))])

    branches = [Assign(Local("a"), called(1)), Assign(Local("b"), called(2))]
    body = [If(less("n", Literal(2)), Block([Return(Local("n"))]), None), Declare("int", "a", Literal(0)), Declare("int", "b", Literal(0))]
    body += [Cobegin("cobegin", branches), Return(Binary(Local("a"), "+", Local("b")))]
    return main_of([Return(Call(This(), "", "fib", [Local("n")]))], [method("fib", body)])


def array(length):
    return Declare("int[]<A:[i]>#i", "a", NewArray("int", length, "<A:[i]>#i", 0))


def squares():
    square = Assign(Element(Local("a"), Local("i")), Binary(Local("i"), "*", Local("i")))
    added = Assign(Local("sum"), Binary(Local("sum"), "+", Element(Local("a"), Local("k"))))
    loops = [Foreach("foreach", "i", Literal(0), Local("n"), Block([square])), While(less("k", Local("n")), Block([added, raised("k")]))]
    return main_of([array(Local("n")), loops[0], Declare("int", "k", Literal(0)), Declare("int", "sum", Literal(0)), loops[1], Return(Local("sum"))])


def one_trap():
    branches = [Print(Binary(Literal(1), "/", Local("n"))), Print(Literal(2))]
    return main_of([Cobegin("cobegin", branches), Return(Literal(0))])


def two_traps():
    long = [Declare("int", "k", Literal(0)), While(less("k", Literal(1000)), Block([raised("k")])), Print(Element(Local("a"), Local("k")))]
    branches = [Block(long), Print(Binary(Literal(1), "/", Binary(Local("n"), "-", Local("n"))))]
    return main_of([array(Literal(3)), Cobegin("cobegin", branches), Return(Literal(0))])


def counter():
    return main_of([Foreach("foreach_nd", "i", Literal(0), Local("n"), Block([counted("+", 1)])), Return(Field(This(), "c"))], fields=["c"])


def two_blocks():
    return main_of([Cobegin("cobegin_nd", [counted("+", 1), counted("*", 3)]), Return(Field(This(), "c"))], fields=["c"])


@dataclasses.dataclass
class Worked:
    """A program with its argument, what it writes, its status, and what it costs in every order."""

    name: str
    source: str
    tree: tasks.Program
    argument: int
    written: str
    status: int
    cost: tuple

    def run(self, limits=WIDE):
        return tasks.Run(self.tree, self.argument, limits)

    def trace(self, schedule, limits=WIDE):
        return schedules.trace_text(self.source, self.argument, schedule, limits)

    def answer(self):
        return self.written.encode(), self.status


PROGRAMS = [
    Worked("fib by cobegin", FIB, fib(), 10, "result 55\n", 0, (530, 1)),
    Worked("squares by foreach", SQUARES, squares(), 1000, "result 332833500\n", 0, (4004, 1002)),
    Worked("the first branch traps", ONE_TRAP, one_trap(), 0, "trap divide 3:23\n", 3, (6, 3)),
    Worked("both branches trap, the first one later", TWO_TRAPS, two_traps(), 0, "trap index 6:59\n", 3, (1007, 5)),
    Worked("atomic increments", COUNTER, counter(), 100, "result 100\n", 0, (504, 2)),
]
GATHERED = Worked("two blocks", TWO_BLOCKS, two_blocks(), 0, "result 3\n", 0, (14, 2))
OVERLAPPING = "0 0 1 1 0 2 1 1 1 1 2 2 2 2 2 0 0 0"
IN_BLOCKS = "0 0 1 1 1 1 1 0 2 1 2 2 2 2 2 0 0 0"


def in_order(run, rule):
    """The schedule in which the ready task that a rule takes goes on."""
    while run.outcome is None:
        run.step(rule(run.ready()))
    return run.schedule


def orders():
    """The traces of a program in both orders, with what each answers."""
    for worked in PROGRAMS:
        for order, rule in ORDERS.items():
            run = worked.run()
            schedule = in_order(run, rule)
            cost = (run.steps, run.cells)
            yield f"{worked.name}, the {order} first: its cost", cost, worked.cost
            yield f"{worked.name}, the {order} first", worked.trace(schedule, cost), worked.answer()
            short = (cost[0] - 1, cost[1])
            yield f"{worked.name}, the {order} first, a step less", worked.trace(in_order(worked.run(short), rule), short), (b"limit\n", 4)


def gathering():
    """The run of two blocks before and after it is gathered."""
    schedule = [int(task) for task in OVERLAPPING.split()]
    gathered = tasks.gather(GATHERED.run(), schedule)
    yield "two blocks, gathered: its schedule", " ".join(map(str, gathered)), IN_BLOCKS
    for name, made in ("two blocks", schedule), ("two blocks, gathered", gathered):
        run = GATHERED.run()
        for task in made:
            run.step(task)
        yield f"{name}: its cost", (run.steps, run.cells), GATHERED.cost
        yield name, GATHERED.trace(made), GATHERED.answer()


def traced(dpj):
    """The bytes of traces, with what their replay answers."""
    stored = json.loads((TOP / "tests" / "cases" / "runs" / "programs.json").read_text(encoding="utf-8"))
    tree = next(case for case in stored if case["name"].startswith("a tree of bodies: run"))
    for name, source, argument, written in ("atomic increments", COUNTER, 100, "result 100\n"), ("a tree of bodies", tree["source"], 4, tree["stdout"]):
        for workers in WORKERS:
            trace, status = schedules.ask(dpj, ["trace", f"workers={workers}", f"arg={argument}"], source.encode())
            yield f"{name}, traced by {workers}: its status", status, 0
            yield f"{name}, traced by {workers}", trace, (written.encode(), 0)
    for workers in WORKERS:
        written = schedules.ask(dpj, ["run", f"workers={workers}"], TWO_BLOCKS.encode())
        yield f"two blocks by {workers}", written in {(b"result 1\n", 0), (b"result 3\n", 0)}, True


def campaign(dpj):
    """How many of these pass, and how many fail. A trace is replayed, and anything else is compared as it is."""
    passed = failed = 0
    for name, made, wanted in (*orders(), *gathering(), *traced(dpj)):
        got = schedules.ask(dpj, ["replay"], made) if isinstance(made, bytes) else made
        if got == wanted:
            passed += 1
            continue
        failed += 1
        print(f"failed worked order: {name}: wanted {wanted}, got {got}")
    print(f"worked orders: {passed} as they should be, {failed} differ")
    return passed, failed


def main():
    options = argparse.ArgumentParser(description=__doc__, formatter_class=argparse.RawDescriptionHelpFormatter)
    options.add_argument("program", nargs="?", default=PROGRAM)
    _, failed = campaign(options.parse_args().program)
    return 1 if failed else 0


if __name__ == "__main__":
    sys.exit(main())
