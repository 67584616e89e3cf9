"""Why branches interfere: the two accesses, found by leaving out all else."""

from .alone import Alone
from .leaving import Edit, Leaving, default_of, headers_of, instead, is_around, quiet
from .mends import branch_mends
from .regions import confirm
from .typed import Body
from .world import may_meet

PAIRS_AT_MOST = 40


def method_at(world, offset):
    """The class and the method whose text holds an offset."""
    for node in world.classes.values():
        for member in node.members:
            if member.kind == "method" and member.start <= offset < member.end:
                return node, member
    return None, None


def explain(report, world):
    """Fills in a report on `interferes` or `interferes-nd`."""
    class_node, method = method_at(world, report.answer.offset)
    if method is None:
        return
    fork = next(node for node in method.body.walk() if node.kind in ("cobegin", "foreach") and node.start == report.answer.offset)
    body = Body(world, class_node, method)
    found = Interference(report, body, fork)
    try:
        found.search()
    finally:
        found.name()
    if found.pair is not None and not report.brief:
        for access in dict.fromkeys(found.pair):
            if confirm(report, body, found.alone, access) is False:
                report.say(f"That it touches {found.region(access)} wasn't confirmed.")
    branch_mends(report, found)


class Interference:
    """Two accesses of a construct that interfere; the second may be the first of another iteration."""

    def __init__(self, report, body, fork):
        self.report = report
        self.text = report.source.text
        self.body = body
        self.world = body.world
        self.fork = fork
        self.is_loop = fork.kind == "foreach"
        self.leaving = Leaving(report.asker, self.text, report.answer)
        self.alone = Alone(self.text, body)
        self.pair = None

    def search(self):
        """Leaves out first what is around the construct, then what is in it, then all accesses but two."""
        leaving, fork = self.leaving, self.fork
        leaving.reduce(self.body.method.body, fork)
        leaving.reduce(fork)
        self.pair = self.pair_of_accesses()

    def branches(self):
        """The branches that still stand, with their numbers from 1."""
        if self.is_loop:
            return [(1, self.fork.body)]
        listed = enumerate(self.fork.block.statements, 1)
        return [(number, node) for number, node in listed if self.leaving.lives(node)]

    def accesses(self, branch):
        """The accesses that still stand in a branch: writes first, the outer before the inner."""
        inside = [access for access in self.body.accesses if is_around(branch, access.statement) and self.leaving.lives(access.node)]
        inside.reverse()
        return sorted(inside, key=lambda access: access.kind == "reads")

    def pair_of_accesses(self):
        """Two accesses that interfere when each stands alone, by asking."""
        branches = [self.accesses(branch) for _, branch in self.branches()]
        if self.is_loop:
            mine = branches[0]
            pairs = [(access, access) for access in mine if access.kind == "writes"]
            pairs += [(one, two) for place, one in enumerate(mine) for two in mine[place + 1 :]]
        elif len(branches) == 2:
            pairs = [(one, two) for one in branches[0] for two in branches[1]]
        else:
            return None
        pairs = [pair for pair in pairs if "writes" in (pair[0].kind, pair[1].kind)]
        pairs.sort(key=lambda pair: not may_meet(pair[0].path, pair[1].path))
        for pair in pairs[:PAIRS_AT_MOST]:
            edits = self.only(pair)
            if edits and self.leaving.holds(edits):
                return pair
        return None

    def only(self, accesses):
        """Edits by which statements have only these accesses; None where that can't be written."""
        wanted = {}
        for access in dict.fromkeys(accesses):
            statement = self.alone.statement(access)
            if statement is None:
                return None
            if access.marked and not self.is_inside_block(access.statement):
                statement = f"atomic {statement}"
            wanted.setdefault(id(access.statement), (access.statement, []))[1].append(statement)
        edits = []
        for statement, alone in wanted.values():
            edits += self.put_alone(statement, " ".join(alone))
        for node in self.fork.walk():
            if node is not self.fork and id(node) not in wanted and self.leaving.lives(node):
                edits += quiet(node)
        return edits

    def is_inside_block(self, statement):
        """Whether an atomic block holds a statement."""
        nodes = self.fork.walk()
        return any(node.kind == "atomic" and is_around(node, statement) and node is not statement for node in nodes)

    def put_alone(self, node, alone):
        """Edits that put statements in place of the accesses of a statement."""
        headers = headers_of(node)
        if headers:
            edits = [Edit(node.start, node.start, "{ " + alone), Edit(node.end, node.end, " }")]
            return edits + [instead(expression, nothing) for expression, nothing in headers]
        if node.kind == "local":
            local_type = self.text[node.type.start : node.type.end]
            value = default_of((node.type.base,)) if not node.type.suffixes else "null"
            if not self.is_branch(node):
                return [instead(node, f"{alone} {local_type} {node.name} = {value};")]
        return [instead(node, "{ " + alone + " }")]

    def is_branch(self, node):
        """Whether a statement stands alone as a branch or a body."""
        return node is self.fork.parts.get("body") or (not self.is_loop and node in self.fork.block.statements)

    def name(self):
        """Names the statements in the report."""
        numbers = self.branches()
        if self.pair is None:
            for number, branch in numbers:
                for leaf in self.leaving.leaves(branch):
                    if leaf.kind != "local" or self.has_access(leaf):
                        self.report.name(*self.span(leaf), self.role(number, None))
            return
        one, two = self.pair
        for place, access in enumerate((one,) if one is two else (one, two)):
            number = next(number for number, branch in numbers if is_around(branch, access.statement))
            self.report.name(*self.span(access.statement), self.role(number, access, place), access.node)

    def has_access(self, node):
        return any(access.statement is node for access in self.body.accesses)

    def span(self, node):
        """A statement, of one with a body its head."""
        for part in ("then", "body"):
            if part in node.parts:
                return node.start, node.parts[part].start
        return node.start, node.end

    def role(self, number, access, place=0):
        """What a statement does to which region, and where."""
        if self.is_loop:
            both = self.pair and self.pair[0] is self.pair[1]
            where = "each of two iterations" if both else ("one iteration", "another iteration")[place]
        else:
            where = f"branch {number} of the {self.fork.keyword}"
        if access is None:
            return where
        return f"{where} {access.kind} {self.region(access)}{self.because(access)}"

    def region(self, access):
        heads = self.body.heads
        return self.world.show(access.path, self.body.class_node.name, heads)

    def because(self, access):
        """By which summary, and whether in an atomic block."""
        says = f", {access.says}" if access.says else ""
        if self.fork.keyword.endswith("_nd"):
            says += ", inside an atomic block" if access.marked else ", outside of any atomic block"
        return says


