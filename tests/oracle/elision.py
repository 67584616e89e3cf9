"""Programs of the language as trees: the text of each, and what its sequential elision writes.

This says once more what a program means, by docs/LANGUAGE.md alone, and shares no code with dpj. So what it computes is a value from
outside. A node has `write`, which adds it to a Text and notes the place at which it may trap, and an expression has `value`, a
statement `perform`. `perform` gives None, or the value that is returned in a tuple.
"""
import dataclasses
import operator

# How tightly operators bind.
TIGHTNESS = {
    **{"||": 1, "&&": 2, "==": 3, "!=": 3, "<": 4, "<=": 4, ">": 4, ">=": 4},
    **{"+": 5, "-": 5, "*": 6, "/": 6, "%": 6},
}
UNARY, POSTFIX = 7, 8

DEEPEST = 500
LONGEST = 20000
STATUS_DONE, STATUS_TRAPPED, STATUS_LIMITED = 0, 3, 4


class TooLong(Exception):
    """The run takes more steps than a test should."""


class Trap(Exception):
    def __init__(self, name, place):
        super().__init__(name, place)
        self.line = "trap {} {}:{}".format(name, *place)


class Text:
    """A text that grows, and the place of its end."""

    def __init__(self):
        self.pieces, self.line, self.column, self.indent = [], 1, 1, 0
        self.own = ()

    def put(self, *pieces):
        """Adds texts and nodes. The regions of the classes in `own` are written without their class."""
        for piece in pieces:
            if isinstance(piece, str):
                for name in self.own:
                    piece = piece.replace(f"{name}.F", "F")
                self.pieces.append(piece)
                self.column += len(piece)
            else:
                piece.write(self)

    def put_list(self, nodes):
        for number, node in enumerate(nodes):
            self.put(*([", "] if number else []), node)

    def put_operand(self, node, tightness):
        """An operand, in parentheses where it binds less tightly than this."""
        is_loose = getattr(node, "tightness", POSTFIX) < tightness
        self.put(*(["(", node, ")"] if is_loose else [node]))

    def end_line(self):
        self.pieces.append("\n" + "  " * self.indent)
        self.line, self.column = self.line + 1, 2 * self.indent + 1

    def put_body(self, nodes):
        """Nodes in braces, each on a line of its own."""
        self.put("{")
        self.indent += 1
        for node in nodes:
            self.end_line()
            self.put(node)
        self.indent -= 1
        self.end_line()
        self.put("}")

    def place(self):
        return self.line, self.column

    def whole(self):
        return "".join(self.pieces) + "\n"


@dataclasses.dataclass
class Frame:
    this: object
    locals: dict
    depth: int


@dataclasses.dataclass(eq=False)
class Object:
    cls: object
    fields: dict


@dataclasses.dataclass(eq=False)
class Part:
    """Elements of an array, from one position up to another."""

    elements: list
    low: int
    high: int


class Run:
    """What a run has cost and printed so far."""

    def __init__(self):
        self.steps, self.cells, self.output = 0, 0, []

    def step(self, count=1):
        self.steps += count
        if self.steps > LONGEST:
            raise TooLong

    def print(self, line):
        self.step()
        self.cells += len(line) + 1
        self.output.append(line)

    def new(self, cls):
        fields = cls.all_fields()
        self.cells += 1 + len(fields)
        return Object(cls, {field.name: field.default for field in fields})

    def fork(self, frame, place, branches):
        """Runs branches, which are functions of a frame, one after another. All run; the first trap in order counts."""
        if frame.depth == DEEPEST:
            raise Trap("stack", place)
        self.step()
        before, output, first = dict(frame.locals), self.output, None
        for branch in branches:
            self.step()
            inner, self.output, trap = Frame(frame.this, dict(before), frame.depth + 1), [], None
            try:
                branch(inner)
            except Trap as met:
                trap = met
            if first is None:
                output += self.output
                first = trap
            frame.locals.update((name, inner.locals[name]) for name in before if inner.locals[name] is not before[name])
        self.output = output
        self.step()
        if first:
            raise first


def wrapped(number):
    return (number + 2**31) % 2**32 - 2**31


def divided(left, right):
    """The quotient, towards zero."""
    quotient = abs(left) // abs(right)
    return quotient if (left < 0) == (right < 0) else -quotient


ARITHMETIC = {
    "+": operator.add,
    "-": operator.sub,
    "*": operator.mul,
    "/": divided,
    "%": lambda left, right: left - right * divided(left, right),
}
COMPARISONS = {"<": operator.lt, "<=": operator.le, ">": operator.gt, ">=": operator.ge}


def spelled(value):
    return str(value).lower() if isinstance(value, bool) else str(value)


@dataclasses.dataclass
class Literal:
    """An int that isn't negative, a boolean or null."""

    constant: object

    def write(self, text):
        text.put("null" if self.constant is None else spelled(self.constant))

    def value(self, run, frame):
        return self.constant


class This:
    def write(self, text):
        text.put("this")

    def value(self, run, frame):
        return frame.this


@dataclasses.dataclass
class Local:
    name: str

    def write(self, text):
        text.put(self.name)

    def value(self, run, frame):
        return frame.locals[self.name]

    def assign(self, run, frame, value):
        frame.locals[self.name] = value(run, frame)


@dataclasses.dataclass
class Unary:
    sign: str
    operand: object
    tightness = UNARY

    def write(self, text):
        text.put(self.sign)
        text.put_operand(self.operand, UNARY)

    def value(self, run, frame):
        operand = self.operand.value(run, frame)
        return not operand if self.sign == "!" else wrapped(-operand)


@dataclasses.dataclass
class Binary:
    left: object
    sign: str
    right: object

    @property
    def tightness(self):
        return TIGHTNESS[self.sign]

    def write(self, text):
        text.put_operand(self.left, self.tightness + (self.sign in COMPARISONS))
        text.put(" ")
        self.place = text.place()
        text.put(self.sign, " ")
        text.put_operand(self.right, self.tightness + 1)

    def value(self, run, frame):
        left = self.left.value(run, frame)
        if self.sign in ("&&", "||"):
            return self.right.value(run, frame) if left == (self.sign == "&&") else left
        right = self.right.value(run, frame)
        if self.sign in ("==", "!="):
            return (left == right) == (self.sign == "==")
        if self.sign in COMPARISONS:
            return COMPARISONS[self.sign](left, right)
        if self.sign in "/%" and right == 0:
            raise Trap("divide", self.place)
        return wrapped(ARITHMETIC[self.sign](left, right))


@dataclasses.dataclass
class Field:
    receiver: object
    name: str

    def write(self, text):
        text.put(self.receiver, ".")
        self.place = text.place()
        text.put(self.name)

    def looked_at(self, run, found):
        if found is None:
            raise Trap("null", self.place)
        run.step()
        return found.fields

    def value(self, run, frame):
        return self.looked_at(run, self.receiver.value(run, frame))[self.name]

    def assign(self, run, frame, value):
        receiver, assigned = self.receiver.value(run, frame), value(run, frame)
        self.looked_at(run, receiver)[self.name] = assigned


@dataclasses.dataclass
class Element:
    array: object
    index: object

    def write(self, text):
        text.put(self.array)
        self.place = text.place()
        text.put("[", self.index, "]")

    def looked_at(self, run, array, index):
        """The elements and the position among them. Outside of an array the step is made, and outside of a part it isn't."""
        if array is None:
            raise Trap("null", self.place)
        if isinstance(array, Part):
            if not 0 <= index < array.high - array.low:
                raise Trap("index", self.place)
            array, index = array.elements, array.low + index
        run.step()
        if not 0 <= index < len(array):
            raise Trap("index", self.place)
        return array, index

    def value(self, run, frame):
        array, index = self.array.value(run, frame), self.index.value(run, frame)
        elements, position = self.looked_at(run, array, index)
        return elements[position]

    def assign(self, run, frame, value):
        array, index = self.array.value(run, frame), self.index.value(run, frame)
        assigned = value(run, frame)
        elements, position = self.looked_at(run, array, index)
        elements[position] = assigned


@dataclasses.dataclass
class Length:
    array: object

    def write(self, text):
        text.put(self.array, ".")
        self.place = text.place()
        text.put("length")

    def value(self, run, frame):
        array = self.array.value(run, frame)
        if array is None:
            raise Trap("null", self.place)
        if isinstance(array, Part):
            return array.high - array.low
        run.step()
        return len(array)


def entered(member, this, actuals, depth, run):
    """What a member returns."""
    frame = Frame(this, dict(zip(member.formal_names(), actuals)), depth)
    returned = Block(member.body).perform(run, frame)
    return returned and returned[0]


@dataclasses.dataclass
class Call:
    receiver: object
    regions: str
    name: str
    actuals: list

    def write(self, text):
        text.put(self.receiver, ".", self.regions)
        self.place = text.place()
        text.put(self.name, "(")
        text.put_list(self.actuals)
        text.put(")")

    def value(self, run, frame):
        receiver = self.receiver.value(run, frame)
        actuals = [actual.value(run, frame) for actual in self.actuals]
        if receiver is None:
            raise Trap("null", self.place)
        if frame.depth == DEEPEST:
            raise Trap("stack", self.place)
        run.step()
        return entered(receiver.cls.method(self.name), receiver, actuals, frame.depth + 1, run)


@dataclasses.dataclass
class New:
    cls: object
    regions: str
    actuals: list

    def write(self, text):
        self.place = text.place()
        text.put("new ", self.cls.name, self.regions, "(")
        text.put_list(self.actuals)
        text.put(")")

    def value(self, run, frame):
        actuals = [actual.value(run, frame) for actual in self.actuals]
        if self.cls.constructor and frame.depth == DEEPEST:
            raise Trap("stack", self.place)
        run.step(2 if self.cls.constructor else 1)
        made = run.new(self.cls)
        if self.cls.constructor:
            entered(self.cls.constructor, made, actuals, frame.depth + 1, run)
        return made


@dataclasses.dataclass
class NewArray:
    """A new array, with the text of its elements' type, the one that follows the length, and what its elements are."""

    element: str
    length: object
    suffix: str
    default: object

    def write(self, text):
        self.place = text.place()
        text.put("new ", self.element, "[", self.length, "]", self.suffix)

    def value(self, run, frame):
        length = self.length.value(run, frame)
        if length < 0:
            raise Trap("size", self.place)
        run.step()
        run.cells += 1 + length
        return [self.default] * length


@dataclasses.dataclass
class Declare:
    type: str
    name: str
    initial: object

    def write(self, text):
        text.put(self.type, " ", self.name, " = ", self.initial, ";")

    def perform(self, run, frame):
        frame.locals[self.name] = self.initial.value(run, frame)


@dataclasses.dataclass
class Assign:
    target: object
    source: object

    def write(self, text):
        text.put(self.target, " = ", self.source, ";")

    def perform(self, run, frame):
        self.target.assign(run, frame, self.source.value)


@dataclasses.dataclass
class Do:
    expression: object

    def write(self, text):
        text.put(self.expression, ";")

    def perform(self, run, frame):
        self.expression.value(run, frame)


@dataclasses.dataclass
class Print:
    expression: object

    def write(self, text):
        text.put("print(", self.expression, ");")

    def perform(self, run, frame):
        run.print(spelled(self.expression.value(run, frame)))


@dataclasses.dataclass
class PrintText:
    literal: str

    def write(self, text):
        escaped = self.literal.replace("\\", "\\\\").replace('"', '\\"').replace("\n", "\\n").replace("\t", "\\t")
        text.put(f'print("{escaped}");')

    def perform(self, run, frame):
        run.print(self.literal)


@dataclasses.dataclass
class Block:
    statements: list

    def write(self, text):
        text.put_body(self.statements)

    def perform(self, run, frame):
        for statement in self.statements:
            returned = statement.perform(run, frame)
            if returned:
                return returned


@dataclasses.dataclass
class Atomic:
    body: Block

    def write(self, text):
        text.put("atomic ", self.body)

    def perform(self, run, frame):
        run.step()
        self.body.perform(run, frame)
        run.step()


@dataclasses.dataclass
class LocalRegions:
    names: list

    def write(self, text):
        text.put("region ", ", ".join(self.names), ";")

    def perform(self, run, frame):
        run.step(len(self.names))


@dataclasses.dataclass
class If:
    condition: object
    then: Block
    otherwise: object

    def write(self, text):
        text.put("if (", self.condition, ") ", self.then)
        if self.otherwise:
            text.put(" else ", self.otherwise)

    def perform(self, run, frame):
        if self.condition.value(run, frame):
            return self.then.perform(run, frame)
        return self.otherwise and self.otherwise.perform(run, frame)


@dataclasses.dataclass
class While:
    condition: object
    body: Block

    def write(self, text):
        text.put("while (", self.condition, ") ", self.body)

    def perform(self, run, frame):
        while self.condition.value(run, frame):
            run.step()
            returned = self.body.perform(run, frame)
            if returned:
                return returned


@dataclasses.dataclass
class Return:
    expression: object

    def write(self, text):
        text.put("return ", self.expression, ";")

    def perform(self, run, frame):
        return (self.expression.value(run, frame),)


@dataclasses.dataclass
class Cobegin:
    keyword: str
    branches: list

    def write(self, text):
        self.place = text.place()
        text.put(self.keyword, " ")
        text.put_body(self.branches)

    def perform(self, run, frame):
        run.fork(frame, self.place, [lambda inner, branch=branch: branch.perform(run, inner) for branch in self.branches])


@dataclasses.dataclass
class Foreach:
    keyword: str
    name: str
    start: object
    count: object
    body: Block

    def write(self, text):
        self.place = text.place()
        text.put(self.keyword, " (int ", self.name, " in ", self.start, ", ", self.count, ") ", self.body)

    def perform(self, run, frame):
        start, count = self.start.value(run, frame), self.count.value(run, frame)

        def branch(number):
            def perform(inner):
                inner.locals[self.name] = wrapped(start + number)
                self.body.perform(run, inner)

            return perform

        run.fork(frame, self.place, map(branch, range(count)))


@dataclasses.dataclass
class ForeachParts:
    part: str
    name: str
    array: Local
    count: object
    body: Block

    def write(self, text):
        self.place = text.place()
        text.put("foreach_parts (", self.part, ", int ", self.name, " in ", self.array, ", ", self.count, ") ", self.body)

    def whole(self, run, array):
        """The array as a part of itself. Its length is looked at, which costs a step; that of a part is known."""
        if array is None:
            raise Trap("null", self.place)
        if isinstance(array, Part):
            return array
        run.step()
        return Part(array, 0, len(array))

    def perform(self, run, frame):
        array, count = self.array.value(run, frame), self.count.value(run, frame)
        whole = self.whole(run, array)
        length = whole.high - whole.low

        def branch(number):
            def perform(inner):
                low, high = (whole.low + k * length // count for k in (number, number + 1))
                inner.locals.update({self.name: number, self.part: Part(whole.elements, low, high)})
                self.body.perform(run, inner)

            return perform

        run.fork(frame, self.place, map(branch, range(count)))


@dataclasses.dataclass
class Outcome:
    """What a run writes at last, and its cost."""

    output: bytes
    status: int
    steps: int
    cells: int

    def within(self, steps, cells):
        """The bytes and the status of the run under these limits."""
        if self.steps > steps or self.cells > cells:
            return b"limit\n", STATUS_LIMITED
        return self.output, self.status


def elision(main, argument):
    """The outcome of a program's sequential elision, by its class Main. Its text has been written, so that places are known."""
    run = Run()
    run.step()
    try:
        result = entered(main.method("main"), run.new(main), [argument], 1, run)
        last, status = f"result {result}", STATUS_DONE
    except Trap as trap:
        last, status = trap.line, STATUS_TRAPPED
    return Outcome("".join(f"{line}\n" for line in [*run.output, last]).encode(), status, run.steps, run.cells)
