"""Region arguments that are refused: their number, what they name, and constraints that aren't known to hold."""

from .alone import array_text
from .branches import method_at
from .leaving import Edit, instead
from .source import fresh_region, statement_around
from .typed import Body


def explain_region_args(report, world):
    """Fills in a report on `region-args`."""
    report.name(*statement_around(report.source, report.answer.offset), "the region arguments or the path stand here")
    at = report.answer.offset
    for node in world.program.walk():
        if node.kind in ("type", "new", "new_array") and node.start == at:
            args_as_asked(report, world, at)
            its = {"new": "type", "new_array": "element"}.get(node.kind)
            if report.mend is None and number_of_args(report, world, node.parts[its] if its else node):
                return
        if node.kind == "call" and node.at == at:
            call_args(report, world, node)
            return
        if node.kind == "path" and node.start <= at < node.end:
            path_of(report, world, node)
            return


def args_as_asked(report, world, at):
    """A creation with the region arguments of the local or the field that it is for, or a local declared with those of the creation."""
    class_node, method = method_at(world, at)
    if method is None:
        return False
    body, mends = Body(world, class_node, method), []
    for node in method.body.walk():
        if node.kind not in ("local", "assign") or not node.start <= at < node.end or node.value.kind not in ("new", "new_array"):
            continue
        wanted = body.type(node.type) if node.kind == "local" else body.types.get(id(node.target))
        text = "Create it with the region arguments that are asked."
        if node.value.kind == "new_array" and wanted and wanted[0] == "array":
            length = report.source.text[node.value.length.start : node.value.length.end]
            mends.append((text, [instead(node.value, array_text(body, length, wanted))]))
        elif node.value.kind == "new" and wanted and wanted[0] == "class":
            mends.append((text, [instead(node.value.type, world.show_type(wanted, class_node.name, body.heads))]))
        found = body.types.get(id(node.value))
        if node.kind == "local" and found and found != wanted:
            mends.append(("Declare it with the type of the value.", [instead(node.type, world.show_type(found, class_node.name, body.heads))]))
    return report.best(mends)


def number_of_args(report, world, node):
    """A type with another number of region arguments than its class has parameters."""
    owner = world.classes.get(node.base)
    if owner is None or len(owner.params) == len(node.args):
        return False
    params = ", ".join(name for name, _ in owner.params)
    report.say(f"{owner.name} has {len(owner.params)} region parameter{'s' * (len(owner.params) != 1)}" + (f" ({params})" if params else "")
               + f"; here {len(node.args)} are given.")  # fmt: skip
    report.name(owner.start, owner.opened, "the declaration")
    if len(node.args) > len(owner.params):
        kept = node.args[: len(owner.params)]
        start = node.start + len(node.base)
        end = report.source.text.index(">", node.args[-1].end) + 1
        shown = ", ".join(report.source.text[path.start : path.end] for path in kept)
        report.mends("Leave out what is too much.", [Edit(start, end, f"<{shown}>" if shown else "")], quiet=True)
        return True
    missing = owner.params[len(node.args) :]
    if not node.args and any(is_atomic for _, is_atomic in missing):
        report.say("A list that is left out is `Root` for each parameter, and Root isn't atomic.")
    fill_up(report, world, node, missing)
    return True


def fill_up(report, world, node, missing):
    """Region names of the class for the arguments that a type lacks, at each such type of the statement."""
    class_node = next(its for its in world.classes.values() if its.start <= node.start < its.end)
    start, end = statement_around(report.source, node.start)
    text, given = report.source.text, [report.source.text[path.start : path.end] for path in node.args]
    same = [its for its in class_node.walk() if its.kind == "type" and start <= its.start < end and its.base == node.base and len(its.args) == len(node.args)]
    heads = [name for name, _ in class_node.params]
    ways = []
    for count in range(4):
        added = []
        for number, (_, is_atomic) in enumerate(missing):
            names = regions_of(class_node, is_atomic) + ([] if is_atomic else heads)
            names = [name for name in names if name not in given + added] or (["Root"] if not is_atomic else [])
            added += names[(count + number) % len(names) :][:1] if names else []
        if len(added) == len(missing):
            ways.append([list_after(text, its, f"<{', '.join(given + added)}>") for its in same])
    report.best_of("Give each parameter a region.", [edits for number, edits in enumerate(ways) if edits not in ways[:number]])


def list_after(text, its, arguments):
    """The edit that gives a type a list of region arguments."""
    start = its.start + len(its.base)
    end = text.index(">", its.args[-1].end) + 1 if its.args else start
    return Edit(start, end, arguments)


def regions_of(class_node, is_atomic):
    """The region names of a class that are atomic, or those that aren't."""
    members = [member for member in class_node.members if member.kind == "regions" and member.atomic == is_atomic]
    return [token.text for member in members for token in member.names]


def parameter_atomic(report, world, node):
    """The region parameter that a path begins with as an atomic one."""
    class_node, name = next(its for its in world.classes.values() if its.start <= node.start < its.end), node.elements[0]
    method = method_at(world, node.start)[1]
    holder = next((its for its in (method, class_node) if its is not None and (name, False) in its.params), None)
    if holder is None:
        return False
    tokens = report.source.tokens[report.source.token_at(holder.start) :]
    first = next(token for token in tokens if token.text == "<")
    last = next(token for token in tokens if token.text in ("|", ">") and token.start > first.start)
    listed = ", ".join(("atomic " if is_atomic or its == name else "") + f"region {its}" for its, is_atomic in holder.params)
    return report.mends(f"Take an atomic parameter `{name}`.", [Edit(first.end, last.start, listed + (" " if last.text == "|" else ""))], quiet=True)


def declared_atomic(report, world, node):
    """The declaration of a path's last region name as an atomic one."""
    class_node = next(its for its in world.classes.values() if its.start <= node.start < its.end)
    owner, _, region = world.element(node.elements[-1], class_node.name).rpartition(".")
    for member in world.classes[owner].members if owner in world.classes else []:
        names = [token.text for token in member.names] if member.kind == "regions" else []
        if region not in names:
            continue
        rest = ", ".join(name for name in names if name != region)
        edit = instead(member, f"region {rest}; atomic region {region};") if rest else Edit(member.start, member.start, "atomic ")
        report.name(member.start, member.end, f"declares `{region}`, and not as atomic")
        report.mends(f"Declare `{region}` as an atomic region.", [edit], quiet=True)


def call_args(report, world, node):
    class_node, method = method_at(world, node.at)
    body = Body(world, class_node, method)
    met = world.member(body.types.get(id(node.of)), "method", node.name)
    if met:
        params = ", ".join(name for name, _ in met[1].params)
        count = f"{len(met[1].params)} region parameters" + (f" ({params})" if params else "")
        report.say(f"{met[0].name}.{node.name} has {count}; here {len(node.args)} are given.")
        report.name(met[1].start, met[1].body.start, "the declaration")


def path_of(report, world, node):
    """A path that isn't fully specified, isn't atomic, or has an index that is no index variable."""
    shown = report.source.text[node.start : node.end]
    class_node, method = method_at(world, node.start)
    indexes = [element[1:-1] for element in node.elements if element[0] == "[" and element[1:-1].isidentifier()]
    if method is not None:
        for other in method.body.walk():
            if other.kind == "local" and other.name in indexes and not other.final and other.start < node.start:
                report.name(other.start, other.end, f"`{other.name}` isn't `final`")
                report.say(f"`{other.name}` may change, so it's no index variable: that is a `final int` local or the variable of a loop.")
                if report.mends("Declare it `final`.", [Edit(other.start, other.start, "final ")], quiet=True):
                    return
        formals = [formal for formal in method.formals if formal.name in indexes]
        if formals and method.body.start < node.start:
            name = formals[0].name
            report.say(f"The formal `{name}` is no index variable; a `final int` local that takes it is one.")
            start = statement_around(report.source, node.start)[0]
            edits = [Edit(start, start, f"final int {name}At = {name}; ")]
            edits += [Edit(node.start, node.end, shown.replace(f"[{name}]", f"[{name}At]"))]
            report.mends("Take it into a final local.", edits, quiet=True)
            return
        if formals:
            report.say(
                "A summary, a formal's type and a result name no index variable: let the method take a region parameter, and call it with the index."
            )
            return
    if "*" in node.elements or "[?]" in node.elements:
        report.say(f"`{shown}` stands for more than one region; here one has to be named exactly, without `*` and `[?]`.")
        kept = next(number for number, element in enumerate(node.elements) if element in ("*", "[?]"))
        if kept:
            report.mends("Name one region.", [instead(node, ":".join(node.elements[:kept]))], quiet=True)
    else:
        report.say(f"`{shown}` isn't atomic, and the parameter is; it has to end with a name that is declared `atomic region`.")
        if len(node.elements) == 1 or all(element[0] == "[" for element in node.elements[1:]):
            parameter_atomic(report, world, node)
        declared_atomic(report, world, node)


def explain_constraint(report, world):
    """Fills in a report on `constraint`."""
    report.name(*statement_around(report.source, report.answer.offset), "its region arguments aren't known to be disjoint")
    at = report.answer.offset
    for node in world.program.walk():
        its = node.type if node.kind == "new" and node.start == at else node if node.kind == "type" and node.start == at else None
        owner = world.classes.get(its.base) if its is not None else None
        if owner is not None and owner.constraints:
            listed = ", ".join(report.source.text[part.start : part.end] for part in owner.constraints)
            report.name(owner.start, owner.opened, f"asks that {listed}")
            if args_as_asked(report, world, at):
                return
            given = {name: report.source.text[path.start : path.end] for (name, _), path in zip(owner.params, its.args)}
            disjoint(report, world, owner, given, its.args)
            return
        if node.kind == "call" and node.at == at:
            constraint_of_call(report, world, node)
            return


def constraint_of_call(report, world, node):
    """A method whose constraint isn't known to hold at a call."""
    class_node, method = method_at(world, node.at)
    met = world.member(Body(world, class_node, method).types.get(id(node.of)), "method", node.name)
    if met and met[1].constraints:
        text = report.source.text
        listed = ", ".join(text[part.start : part.end] for part in met[1].constraints)
        report.name(met[1].start, met[1].body.start, f"asks that {listed}")
        given = {name: text[path.start : path.end] for (name, _), path in zip(met[1].params, node.args)}
        disjoint(report, world, met[1], given, node.args)


def disjoint(report, world, owner, given, args):
    """Arguments that are disjoint: by a constraint on the parameters around, or another region for one of them."""
    at, text = report.answer.offset, report.source.text
    class_node = next(node for node in world.classes.values() if node.start <= at < node.end)
    method = method_at(world, at)[1]
    holder = method if method is not None and method.params else class_node
    for part in owner.constraints:
        sides = []
        for side in (part.left, part.right):
            first, *rest = side.elements
            sides.append(":".join([given.get(first, first), *rest]))
        if holder.params and sides[0] != sides[1]:
            end = text.index(">", holder.start)
            lead = ", " if holder.constraints else " | "
            asked = f"{sides[0]} # {sides[1]}"
            if report.mends(f"Let {holder.name} ask for `{asked}` too.", [Edit(end, end, lead + asked)], quiet=True):
                return
    new = fresh_region(report.source, "other")
    for name in [*regions_of(class_node, False), new]:
        for path in reversed(args):
            edits = same_path(report, class_node, path, name)
            edits += [Edit(class_node.opened + 1, class_node.opened + 1, f" region {new};")] if name == new else []
            if report.mends("Use regions that are disjoint.", edits, quiet=True):
                return


def same_path(report, class_node, path, name):
    """Edits of a region argument, and of its like in types of the same form in the statement."""
    text = report.source.text
    start, end = statement_around(report.source, path.start)
    types = [node for node in class_node.walk() if node.kind == "type" and start <= node.start < end]
    mine = next((node for node in types if path in node.args), None)
    if mine is None:
        return [instead(path, name)]
    place, shown = mine.args.index(path), [text[arg.start : arg.end] for arg in mine.args]
    same = [node for node in types if node.base == mine.base and [text[arg.start : arg.end] for arg in node.args] == shown]
    return [instead(node.args[place], name) for node in same]
