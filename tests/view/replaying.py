"""Reads what `dpj events` writes, and makes its events again on a heap of its own.

This says once more what an events text is, by docs/LANGUAGE.md alone. It shares no code with dpj, with tools/view.py or with its page. `replayed`
gives what is wrong with a text, a line each, and what the run wrote, the stretches of its tasks and the like, where nothing is.
"""
import dataclasses
import re

HEADER = re.compile(r"dpj-events 1\narg (-?\d+) steps (\d+) cells (\d+)\nevents (\d+)\n")
PLACE = re.compile(r" at ([1-9]\d*):([1-9]\d*)\Z")
NAMED = re.compile(r"([A-Za-z_]\w*)#(\d+)\Z")
ARRAY = re.compile(r"(int|boolean|ref)\[\]#(\d+)\Z")
MADE_ARRAY = re.compile(r"(int|boolean|ref)\[(\d+)\]#(\d+)\Z")
FIELD = re.compile(r"(.+#\d+)\.([A-Za-z_]\w*)(?: = (\S+))?\Z")
ELEMENT = re.compile(r"(.+#\d+)\[(-?\d+)\](?: = (\S+?))?( out)?\Z")
ITEM = r"(?:reads|writes) \S+(?: ?,? ?\S+)*"
EFFECTS = re.compile(rf"pure|{ITEM}")
ESCAPES = {r"\n": "\n", r"\\": "\\"}
ESCAPE = re.compile(r"\\.")
PRINTED = re.compile(r"(?:[^\\]|\\[n\\])*")

DEFAULTS = {"int": "0", "boolean": "false", "ref": "null"}
WITH_PLACE = ("new", "read", "write", "look", "print", "fork", "fork_nd", "begin", "join", "rest", "enter", "exit")


class Wrong(Exception):
    """What is wrong with an event."""


@dataclasses.dataclass
class Task:
    """A task: what it has printed, its branches since its last fork, how many of them are wanted, and its open entries."""

    parent: object = None
    output: list = dataclasses.field(default_factory=list)
    branches: list = dataclasses.field(default_factory=list)
    wanted: int = 0
    entries: int = 0
    is_nd: bool = False
    trap: str = None
    has_ended: bool = False


@dataclasses.dataclass
class Seen:
    """What a text says of its run."""

    argument: int
    limits: tuple
    events: list
    output: str
    stretches: list
    tasks: int
    clashes: set


def kind_of(value):
    """The kind of a value, of what fields and elements hold."""
    if re.fullmatch(r"-?\d+", value):
        return "int" if -(2**31) <= int(value) < 2**31 else None
    if value in ("true", "false"):
        return "boolean"
    return "ref" if value == "null" or NAMED.fullmatch(value) or ARRAY.fullmatch(value) else None


class Replay:
    """The run so far."""

    def __init__(self):
        self.tasks, self.names, self.lengths, self.cells, self.kinds = [Task()], {0: None}, {}, {}, {}
        self.ending = None

    def known(self, name):
        """Sees that an object or array of this name is there. The object of `main` is known by its number alone until it is first named."""
        found = NAMED.fullmatch(name) or ARRAY.fullmatch(name)
        if not found or int(found[2]) not in self.names:
            raise Wrong(f"{name} was never made")
        number = int(found[2])
        if number == 0 and self.names[0] is None and NAMED.fullmatch(name):
            self.names[0] = name
        if self.names[number] != name:
            raise Wrong(f"{name} was made as {self.names[number]}")

    def value(self, value):
        if kind_of(value) is None:
            raise Wrong(f"{value} is no value")
        if kind_of(value) == "ref" and value != "null":
            self.known(value)
        return value

    def new(self, what):
        array = MADE_ARRAY.fullmatch(what)
        found = array or NAMED.fullmatch(what)
        if not found:
            raise Wrong(f"{what} is nothing that is made")
        number = int(found[found.re.groups])
        if number != len(self.names):
            raise Wrong(f"the next one that is made is #{len(self.names)}")
        self.names[number] = f"{array[1]}[]#{number}" if array else what
        if array:
            self.lengths[number] = int(array[2])

    def cell(self, what):
        """The cell of an access, what it is a cell of, the value, and whether it is out of bounds as it says."""
        field, element = FIELD.fullmatch(what), ELEMENT.fullmatch(what)
        if not field and not element:
            raise Wrong(f"{what} is no access")
        name = (field or element)[1]
        self.known(name)
        if field:
            if not NAMED.fullmatch(name):
                raise Wrong(f"{name} has no fields")
            return f"{name}.{field[2]}", f"{name.partition('#')[0]}.{field[2]}", field[3], False
        array = ARRAY.fullmatch(name)
        if not array:
            raise Wrong(f"{name} has no elements")
        is_out = not 0 <= int(element[2]) < self.lengths[int(array[2])]
        if is_out != bool(element[4]):
            raise Wrong(f"{what}: there are {self.lengths[int(array[2])]} elements")
        return f"{name}[{element[2]}]", array[1], element[3], is_out

    def hold(self, place, value):
        """A field of a class, or the elements of an array, hold values of one kind."""
        kind = place if place in DEFAULTS else self.kinds.setdefault(place, kind_of(value))
        if kind_of(value) != kind:
            raise Wrong(f"{place} holds {kind}, and not {value}")
        return kind

    def read(self, what):
        cell, place, value, is_out = self.cell(what)
        if is_out:
            if value is not None:
                raise Wrong("nothing is read there")
            return None
        if value is None:
            raise Wrong("nothing was read")
        kind = self.hold(place, self.value(value))
        wanted = self.cells.get(cell, DEFAULTS[kind])
        if value != wanted:
            raise Wrong(f"{cell} holds {wanted}, and {value} was read")
        return cell

    def write(self, what):
        cell, place, value, is_out = self.cell(what)
        if value is None:
            raise Wrong("nothing was written")
        self.hold(place, self.value(value))
        if is_out:
            return None
        self.cells[cell] = value
        return cell

    def look(self, what):
        name, _, length = what.partition(" = ")
        self.known(name)
        array = ARRAY.fullmatch(name)
        if (str(self.lengths[int(array[2])]) if array else "") != length:
            raise Wrong(f"{what}: of an array its length is asked, and of an object its class")

    def fork(self, task, what, is_nd):
        if not what.isdigit():
            raise Wrong("a fork has a number of branches")
        task.branches, task.wanted, task.is_nd = [], int(what), is_nd

    def begin(self, task, what):
        if what != str(len(self.tasks)):
            raise Wrong(f"the next task is {len(self.tasks)}")
        if len(task.branches) >= task.wanted:
            raise Wrong(f"there are {task.wanted} branches")
        self.tasks.append(Task(task))
        task.branches.append(self.tasks[-1])

    def join(self, task):
        if len(task.branches) != task.wanted or not all(branch.has_ended for branch in task.branches):
            raise Wrong("not all branches have ended")
        for branch in task.branches:
            task.output += branch.output
            if branch.trap:
                break
        task.branches, task.wanted = [], 0

    def end(self, task, what):
        is_root = task is self.tasks[0]
        if what.startswith("trap "):
            task.trap = what
            if not re.fullmatch(r"trap [a-z]+ \d+:\d+", what):
                raise Wrong("a trap has a name and a place")
        elif not re.fullmatch(r"-?\d+", what) if is_root else what:
            raise Wrong("the root ends with the value of main, and a branch with none")
        elif task.entries:
            raise Wrong("its atomic block is open")
        task.has_ended = True
        if is_root:
            self.ending = what if task.trap else f"result {what}"

    def step(self, task, kind, what):
        """An event. The cell that it reads or writes, if it does."""
        if task.wanted and kind not in ("begin", "join"):
            raise Wrong("its branches aren't joined")
        if kind in ("new", "look"):
            getattr(self, kind)(what)
        elif kind in ("read", "write"):
            return getattr(self, kind)(what)
        elif kind in ("fork", "fork_nd"):
            self.fork(task, what, kind == "fork_nd")
        elif kind in ("begin", "end"):
            getattr(self, kind)(task, what)
        elif kind == "print":
            if not PRINTED.fullmatch(what):
                raise Wrong(f"this is no line: {what}")
            task.output.append(ESCAPE.sub(lambda found: ESCAPES[found[0]], what))
        elif kind == "enter":
            task.entries += 1
            if not EFFECTS.fullmatch(what):
                raise Wrong(f"these are no effects: {what}")
        elif what:
            raise Wrong(f"nothing follows {kind}")
        elif kind == "join":
            self.join(task)
        elif kind == "exit":
            task.entries -= 1
            if task.entries < 0:
                raise Wrong("no atomic block is open")
        elif kind != "rest":
            raise Wrong(f"{kind} is no kind")
        return None


class Clocks:
    """Which accesses conflict: for each task and event how many events of each task come before it in every order."""

    def __init__(self):
        self.clocks, self.uses, self.clashes = {0: {}}, {}, set()

    def step(self, number, task, kind, what, cell, branches):
        clock = self.clocks[task]
        if kind == "join":
            for branch in branches:
                for other, count in self.clocks[branch].items():
                    clock[other] = max(clock.get(other, 0), count)
        clock[task] = clock.get(task, 0) + 1
        if kind == "begin":
            self.clocks[int(what)] = dict(clock)
        if cell:
            for other, count, other_number, other_kind in self.uses.setdefault(cell, []):
                if "write" in (kind, other_kind) and clock.get(other, 0) < count:
                    self.clashes |= {number, other_number}
            self.uses[cell].append((task, clock[task], number, kind))


def events_of(text, start, count):
    """Each event as its number, task, kind, what stands behind that, and its place."""
    lines = text[start:].split("\n")
    for number, line in enumerate(lines[:count], 1):
        place = PLACE.search(line)
        words = (line[: place.start()] if place else line).split(" ", 3)
        if len(words) < 3 or words[0] != str(number) or not words[1].isdigit():
            raise Wrong(f"no event: {line}")
        if bool(place) != (words[2] in WITH_PLACE):
            raise Wrong(f"a place is missing or too many: {line}")
        yield number, int(words[1]), words[2], (words[3:] or [""])[0], place and (int(place[1]), int(place[2]))
    yield "\n".join(lines[count:])


def replayed(text):
    """What the text says of its run; raises Wrong where it can't be so."""
    header = HEADER.match(text)
    if not header:
        raise Wrong("the first lines are none of events")
    replay, clocks, stretches, events = Replay(), Clocks(), [], []
    *found, rest = events_of(text, header.end(), int(header[4]))
    branches = {0: []}
    for number, task, kind, what, place in found:
        try:
            if task >= len(replay.tasks) or replay.tasks[task].has_ended or replay.tasks[0].has_ended:
                raise Wrong(f"task {task} makes no event")
            cell = replay.step(replay.tasks[task], kind, what)
            clocks.step(number, task, kind, what, cell, branches[task])
        except Wrong as wrong:
            raise Wrong(f"event {number}, task {task}, {kind} {what}: {wrong}") from None
        if kind in ("fork", "fork_nd"):
            branches[task] = []
        if kind == "begin":
            branches[task].append(int(what))
            branches[int(what)] = []
        if stretches and stretches[-1][0] == task:
            stretches[-1][1] += 1
        else:
            stretches.append([task, 1])
        events.append((task, kind, what, place))
    if rest != (replay.ending or "limit") + "\n":
        raise Wrong(f"the run ends with {replay.ending or 'limit'}, and the text with {rest!r}")
    output = "".join(f"{line}\n" for line in [*(replay.tasks[0].output if replay.ending else []), rest.rstrip("\n")])
    limits = (int(header[2]), int(header[3]))
    return Seen(int(header[1]), limits, events, output, [tuple(it) for it in stretches], len(replay.tasks), clocks.clashes)
