"""Runs of the programs of tests/oracle/elision.py event by event, their tasks side by side in any order that the language allows.

This says once more, by docs/LANGUAGE.md alone, what a program means, here as the events of its tasks: how the root and the branches of
each fork are numbered, which event each makes next, and when it may. It shares no code with dpj, and with elision.py the trees alone. A
task is a generator that yields its next event, and goes on once that is made.
"""
import dataclasses
import functools

from generate.random_scopes import READ
from oracle import elision
from oracle.elision import (
    ARITHMETIC, COMPARISONS, DEEPEST, STATUS_DONE, STATUS_LIMITED, STATUS_TRAPPED, Frame, Object, Outcome, Part, Trap, spelled, wrapped,
)

# So many ticks a task makes without an event at most.
MOST_TICKS = 4096

# Stands for the regions of all arrays that are cut into parts.
PARTS = "parts"


@dataclasses.dataclass(frozen=True)
class Event:
    """What a task does next, and what that costs besides the ticks before it."""

    kind: str
    steps: int = 1
    cells: int = 0
    block: object = None


ACCESS, FORK, BEGIN, JOIN, EXIT = (Event(kind) for kind in ("access", "fork", "begin", "join", "exit"))
REST, END = Event("rest", 0), Event("end", 0)


def nodes(tree):
    """The nodes of a tree, or of a list of trees."""
    if isinstance(tree, (list, tuple)):
        for part in tree:
            yield from nodes(part)
    elif dataclasses.is_dataclass(tree) and type(tree).__module__ == elision.__name__:
        yield tree
        for part in dataclasses.fields(tree):
            yield from nodes(getattr(tree, part.name))


def last(region):
    """The last name of a region's path."""
    return region.removesuffix(":[?]").rsplit(":", 1)[-1]


class Program:
    """The classes of a program, and what its atomic blocks touch."""

    def __init__(self, main, classes, atomic_regions):
        self.main, self.atomic_regions = main, atomic_regions
        every = [*classes, main]
        self.fields = {field.name: field for cls in every for field in cls.fields}
        self.rights = {method.name: method.rights for cls in every for method in cls.methods}
        bodies = [method.body for cls in every for method in cls.methods]
        self.parts = {node.part for node in nodes(bodies) if isinstance(node, elision.ForeachParts)}
        self.known = {}

    def places(self, node):
        """The region of a field, and that of all parts for an element of one."""
        if isinstance(node, elision.Field):
            return [self.fields[node.name].region]
        is_part = isinstance(node, elision.Element) and isinstance(node.array, elision.Local) and node.array.name in self.parts
        return [PARTS] if is_part else []

    def touched(self, node):
        """The regions that a node alone touches, or by its summary what it calls, each with whether it is written."""
        if isinstance(node, elision.Assign):
            return [(region, True) for region in self.places(node.target)]
        if isinstance(node, elision.New) and node.cls.constructor:
            rights = node.cls.constructor.rights
        else:
            rights = self.rights[node.name] if isinstance(node, elision.Call) else {}
        return [(region, False) for region in self.places(node)] + [(region, right != READ) for region, right in rights.items()]

    def effects(self, block):
        """What a block touches of atomic regions and of parts, each with whether it is written."""
        if id(block) not in self.known:
            found = [touch for node in nodes(block.body) for touch in self.touched(node)]
            self.known[id(block)] = {(region, writes) for region, writes in found if region == PARTS or last(region) in self.atomic_regions}
        return self.known[id(block)]

    def clash(self, left, right):
        """Whether two blocks that run side by side interfere, and None where that isn't known here.

        What isn't atomic never clashes, since else the program is refused; but what is done through a part counts as done to its whole array.
        Regions with other names at their ends are disjoint. A region of one name alone is itself; of others it isn't looked at what their
        parameters stand for, nor of parts at their arrays.
        """
        pairs = [
            (one, other)
            for one, one_writes in self.effects(left)
            for other, other_writes in self.effects(right)
            if last(one) == last(other) and (one_writes or other_writes)
        ]
        if any(one == other != PARTS and ":" not in one for one, other in pairs):
            return True
        return None if pairs else False


@dataclasses.dataclass(eq=False)
class Open:
    """An atomic block that is open, and the task that has entered it."""

    block: object
    opener: object


class Task:
    def __init__(self, run, parent):
        self.run, self.number, self.parent = run, run.begun, parent
        # An open block in which it stands, and how many entries of its own are open.
        self.inside, self.entries = parent.inside if parent else None, 0
        self.ticks, self.output, self.branches, self.trap, self.result, self.has_ended = 0, [], [], None, None, False
        self.event = None

    def start(self, work):
        self.work = self.whole(work)
        self.event = next(self.work)

    def whole(self, work):
        try:
            self.result = yield from work
        except Trap as trap:
            self.trap = trap
        yield END

    def tick(self):
        """An iteration of a loop or a new local region costs a step, which is counted with the next event."""
        self.ticks += 1
        if self.ticks == MOST_TICKS:
            yield REST

    def fork(self, frame, place, bodies):
        """Begins branches, which are functions of a task and a frame, and joins them."""
        if frame.depth == DEEPEST:
            raise Trap("stack", place)
        yield FORK
        before, frames = dict(frame.locals), []
        for body in bodies:
            yield BEGIN
            frames.append(Frame(frame.this, dict(before), frame.depth + 1))
            self.branches.append(self.run.begin(self, body, frames[-1]))
        yield JOIN
        branches, self.branches = self.branches, []
        trap = next((branch.trap for branch in branches if branch.trap), None)
        for branch in branches:
            self.output += branch.output
            if branch.trap:
                break
        for inner in frames:
            frame.locals.update((name, inner.locals[name]) for name in before if inner.locals[name] is not before[name])
        if trap:
            raise trap


class Run:
    """A run of a program within limits, at some moment."""

    def __init__(self, program, argument, limits):
        self.program, self.limits = program, limits
        self.begun, self.tasks, self.opened, self.schedule, self.outcome = 0, {}, [], [], None
        main = program.main
        self.steps, self.cells = 1, 1 + len(main.all_fields())
        this = Object(main, {field.name: field.default for field in main.all_fields()})
        if self.cells > limits[1]:
            self.outcome = Outcome(b"limit\n", STATUS_LIMITED, *limits)
        self.root = self.begin(None, lambda task, frame: entered(main.method("main"), this, [argument], 1, task), None)

    def begin(self, parent, body, frame):
        task = Task(self, parent)
        self.tasks[self.begun] = task
        self.begun += 1
        task.start(body(task, frame))
        return task

    def may_go_on(self, task):
        """Whether a task can make its next event, and None where that isn't known here."""
        if task.event is JOIN:
            return all(branch.has_ended for branch in task.branches)
        if task.event.kind != "enter" or task.inside:
            return True
        clashes = [self.program.clash(task.event.block, opened.block) for opened in self.opened]
        if True in clashes:
            return False
        return None if None in clashes else True

    def is_ready(self, number):
        return self.outcome is None and number in self.tasks and self.may_go_on(self.tasks[number])

    def ready(self):
        """The tasks that are known to be ready."""
        return [number for number, task in self.tasks.items() if self.may_go_on(task)]

    def step(self, number):
        """Lets a task make its next event, and notes it. Where that would go over a limit the run is over."""
        self.schedule.append(number)
        task = self.tasks[number]
        event = task.event
        steps, cells = self.steps + task.ticks + event.steps, self.cells + event.cells
        if steps > self.limits[0] or cells > self.limits[1]:
            self.outcome = Outcome(b"limit\n", STATUS_LIMITED, *self.limits)
            return
        self.steps, self.cells, task.ticks = steps, cells, 0
        if event is END:
            self.end(task)
            return
        if event.kind == "enter":
            self.enter(task, event.block)
        if event is EXIT:
            self.leave(task)
        task.event = next(task.work)

    def enter(self, task, block):
        if not task.inside:
            task.inside = Open(block, task)
            self.opened.append(task.inside)
        task.entries += 1

    def leave(self, task):
        task.entries -= 1
        if not task.entries and task.inside.opener is task:
            self.opened.remove(task.inside)
            task.inside = None

    def end(self, task):
        task.has_ended = True
        del self.tasks[task.number]
        if task.inside and task.inside.opener is task:
            self.opened.remove(task.inside)
        if task is self.root:
            last, status = (task.trap.line, STATUS_TRAPPED) if task.trap else (f"result {task.result}", STATUS_DONE)
            self.outcome = Outcome("".join(f"{line}\n" for line in [*task.output, last]).encode(), status, self.steps, self.cells)


@dataclasses.dataclass
class Made:
    """An event of a run: its task, the open block that it stands in, if any, and the task that it has begun, if any."""

    task: Task
    block: Open
    begun: Task


def made_by(run, schedule):
    """The events that a schedule makes."""
    for number in schedule:
        task, before = run.tasks[number], run.begun
        inside = task.inside
        run.step(number)
        yield Made(task, inside or task.inside, run.tasks[before] if run.begun > before else None)


def gather(run, schedule):
    """The schedule of the run in which the events of each block, from its entry on, stand together at that entry, and all else keeps its order. Tasks
    are numbered anew, as they begin there. The run that is given is at its beginning, and is made."""
    gathered = []
    for made in made_by(run, schedule):
        same = [place for place, other in enumerate(gathered) if made.block and other.block is made.block]
        gathered.insert(same[-1] + 1 if same else len(gathered), made)
    numbers = {task: number for number, task in enumerate([run.root, *(made.begun for made in gathered if made.begun)])}
    return [numbers[made.task] for made in gathered]


def entered(member, this, actuals, depth, task):
    frame = Frame(this, dict(zip(member.formal_names(), actuals)), depth)
    returned = yield from all_of(member.body, task, frame)
    return returned and returned[0]


def all_of(statements, task, frame):
    for statement in statements:
        returned = yield from perform(statement, task, frame)
        if returned:
            return returned


def values(nodes, task, frame):
    found = []
    for node in nodes:
        found.append((yield from value(node, task, frame)))
    return found


# The value of an expression.
@functools.singledispatch
def value(node, task, frame):
    """Of an expression that makes no event by itself and has no operands."""
    return node.value(None, frame)
    yield


@value.register
def _(node: elision.Unary, task, frame):
    operand = yield from value(node.operand, task, frame)
    return not operand if node.sign == "!" else wrapped(-operand)


@value.register
def _(node: elision.Binary, task, frame):
    left = yield from value(node.left, task, frame)
    if node.sign in ("&&", "||") and left == (node.sign == "||"):
        return left
    right = yield from value(node.right, task, frame)
    if node.sign in ("&&", "||"):
        return right
    if node.sign in ("==", "!="):
        return (left == right) == (node.sign == "==")
    if node.sign in COMPARISONS:
        return COMPARISONS[node.sign](left, right)
    if node.sign in "/%" and right == 0:
        raise Trap("divide", node.place)
    return wrapped(ARITHMETIC[node.sign](left, right))


@value.register
def _(node: elision.Field, task, frame):
    fields = yield from fields_of(node, task, frame)
    yield from access(node, fields)
    return fields[node.name]


def fields_of(node, task, frame):
    receiver = yield from value(node.receiver, task, frame)
    return receiver and receiver.fields


def access(node, found):
    """The event of an access to what is there."""
    if found is None:
        raise Trap("null", node.place)
    yield ACCESS


@value.register
def _(node: elision.Element, task, frame):
    array = yield from value(node.array, task, frame)
    index = yield from value(node.index, task, frame)
    elements, position = yield from element(node, array, index)
    return elements[position]


def element(node, array, index):
    """The elements and the position among them. Outside of an array the event is made, and outside of a part it isn't."""
    if isinstance(array, Part):
        if not 0 <= index < array.high - array.low:
            raise Trap("index", node.place)
        array, index = array.elements, array.low + index
    yield from access(node, array)
    if not 0 <= index < len(array):
        raise Trap("index", node.place)
    return array, index


@value.register
def _(node: elision.Length, task, frame):
    array = yield from value(node.array, task, frame)
    if isinstance(array, Part):
        return array.high - array.low
    yield from access(node, array)
    return len(array)


@value.register
def _(node: elision.Call, task, frame):
    receiver = yield from value(node.receiver, task, frame)
    actuals = yield from values(node.actuals, task, frame)
    if receiver is not None and frame.depth == DEEPEST:
        raise Trap("stack", node.place)
    yield from access(node, receiver)
    return (yield from entered(receiver.cls.method(node.name), receiver, actuals, frame.depth + 1, task))


@value.register
def _(node: elision.New, task, frame):
    actuals = yield from values(node.actuals, task, frame)
    constructor, fields = node.cls.constructor, node.cls.all_fields()
    if constructor and frame.depth == DEEPEST:
        raise Trap("stack", node.place)
    yield Event("access", 2 if constructor else 1, 1 + len(fields))
    made = Object(node.cls, {field.name: field.default for field in fields})
    if constructor:
        yield from entered(constructor, made, actuals, frame.depth + 1, task)
    return made


@value.register
def _(node: elision.NewArray, task, frame):
    length = yield from value(node.length, task, frame)
    if length < 0:
        raise Trap("size", node.place)
    yield Event("access", 1, 1 + length)
    return [node.default] * length


# What a statement does. It gives None, or the value that is returned in a tuple.
@functools.singledispatch
def perform(node, task, frame):
    raise TypeError(node)


@perform.register
def _(node: elision.Declare, task, frame):
    frame.locals[node.name] = yield from value(node.initial, task, frame)


@perform.register
def _(node: elision.Assign, task, frame):
    target = node.target
    if isinstance(target, elision.Local):
        frame.locals[target.name] = yield from value(node.source, task, frame)
    elif isinstance(target, elision.Field):
        fields = yield from fields_of(target, task, frame)
        assigned = yield from value(node.source, task, frame)
        yield from access(target, fields)
        fields[target.name] = assigned
    else:
        array = yield from value(target.array, task, frame)
        index = yield from value(target.index, task, frame)
        assigned = yield from value(node.source, task, frame)
        elements, position = yield from element(target, array, index)
        elements[position] = assigned


@perform.register
def _(node: elision.Do, task, frame):
    yield from value(node.expression, task, frame)


def printed(line, task):
    yield Event("access", 1, len(line) + 1)
    task.output.append(line)


@perform.register
def _(node: elision.Print, task, frame):
    found = yield from value(node.expression, task, frame)
    yield from printed(spelled(found), task)


@perform.register
def _(node: elision.PrintText, task, frame):
    yield from printed(node.literal, task)


@perform.register
def _(node: elision.Block, task, frame):
    return (yield from all_of(node.statements, task, frame))


@perform.register
def _(node: elision.Atomic, task, frame):
    yield REST
    yield Event("enter", block=node)
    yield from perform(node.body, task, frame)
    yield EXIT


@perform.register
def _(node: elision.LocalRegions, task, frame):
    for _ in node.names:
        yield from task.tick()


@perform.register
def _(node: elision.If, task, frame):
    if (yield from value(node.condition, task, frame)):
        return (yield from perform(node.then, task, frame))
    return node.otherwise and (yield from perform(node.otherwise, task, frame))


@perform.register
def _(node: elision.While, task, frame):
    while (yield from value(node.condition, task, frame)):
        yield from task.tick()
        returned = yield from perform(node.body, task, frame)
        if returned:
            return returned


@perform.register
def _(node: elision.Return, task, frame):
    return ((yield from value(node.expression, task, frame)),)


@perform.register
def _(node: elision.Cobegin, task, frame):
    def branch(body):
        return lambda inner, own: perform(body, inner, own)

    yield from task.fork(frame, node.place, map(branch, node.branches))


@perform.register
def _(node: elision.Foreach, task, frame):
    start = yield from value(node.start, task, frame)
    count = yield from value(node.count, task, frame)

    def iteration(number):
        def begun(inner, own):
            own.locals[node.name] = wrapped(start + number)
            return perform(node.body, inner, own)

        return begun

    yield from task.fork(frame, node.place, map(iteration, range(count)))


@perform.register
def _(node: elision.ForeachParts, task, frame):
    array = yield from value(node.array, task, frame)
    count = yield from value(node.count, task, frame)
    if not isinstance(array, Part):
        yield from access(node, array)
        array = Part(array, 0, len(array))
    length = array.high - array.low

    def part(number):
        def begun(inner, own):
            low, high = (array.low + at * length // count for at in (number, number + 1))
            own.locals.update({node.name: number, node.part: Part(array.elements, low, high)})
            return perform(node.body, inner, own)

        return begun

    yield from task.fork(frame, node.place, map(part, range(count)))
