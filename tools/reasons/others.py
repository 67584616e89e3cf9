"""The refusals of which little more can be said than the place: Main, partial writes, blocks, overriding, cycles and local regions."""

from .alone import name_of
from .branches import method_at
from .duplicates import renamed_calls
from .leaving import Edit, instead, is_around
from .names import near
from .source import statement_around
from .typed import Body


def around(report, role):
    report.name(*statement_around(report.source, report.answer.offset), role)


def explain_main(report, world):
    """Fills in a report on `main`."""
    main = world.classes.get("Main")
    if main is None:
        homes = [node for node in world.classes.values() for member in node.members if member.kind == "method" and member.name == "main"]
        node = homes[0] if homes else world.program.classes[0]
        report.name(node.start, node.opened, "no class is named `Main`")
        if homes:
            edits = [Edit(token.start, token.end, "Main") for token in report.source.tokens if token.text == node.name]
            report.mends(f"Name the class with `main` so, in place of `{node.name}`.", edits, quiet=True)
        return
    methods = [member for member in main.members if member.kind == "method" and member.name == "main"]
    constructor = world.constructor("Main")
    if main.params:
        report.name(main.start, main.opened, "Main has region parameters")
    if constructor:
        constructor_of_main(report, constructor, methods)
    if not methods:
        report.name(main.start, main.opened, "Main has no method `int main(int n)`")
        for member in main.members:
            if member.kind == "method" and near("main", [member.name]):
                report.name(member.start, member.body.start, "this may be meant")
                if report.mends("`main` may be meant.", [Edit(member.name_at, member.name_at + len(member.name), "main")], quiet=True):
                    return
        end = main.end - 1
        report.mends("Write one.", [Edit(end, end, "int main(int n) { return 0; } ")], quiet=True)
        return
    method = methods[0]
    types = [formal.type.base + "[]" * len(formal.type.suffixes) for formal in method.formals]
    if method.result is not None and method.result.base == "int" and types == ["int"] and not method.params:
        return
    report.name(method.start, method.body.start, "`main` isn't declared as `int main(int n)`")
    head = [Edit(method.start, (method.summary.start if method.summary.items is not None else method.body.start), "int main(int n) ")]
    end = method.body.end - 1
    if report.mends("Declare it so:", head, quiet=True) and report.mend["answer"] == "accepted":
        return
    report.mends("Declare it so, with a result at its end:", head + [Edit(end, end, "return 0; ")], quiet=True)


def constructor_of_main(report, constructor, methods):
    """What a constructor of Main does goes into a method."""
    report.name(constructor.start, constructor.body.start, "Main has a constructor; what it does goes into `main`")
    name = unused(report, "start")
    edits = [Edit(constructor.name_at, constructor.name_at + len("Main"), f"void {name}")]
    edits += [Edit(method.body.start + 1, method.body.start + 1, f" this.{name}();") for method in methods if not constructor.formals]
    report.mends("Make it a method that `main` calls.", edits, quiet=True)


def explain_partial_write(report, world):
    """Fills in a report on `partial-write`."""
    around(report, "needs to know exactly in which region an object lies")
    at = report.answer.offset
    class_node, method = method_at(world, at)
    if method is None:
        return
    body = Body(world, class_node, method)
    for node in method.body.walk():
        target = node.target if node.kind == "assign" and node.sign == at else node
        here = node.kind == "assign" and node.sign == at or node.kind in ("call", "field_of", "element") and node.at == at
        if here and target.kind in ("field_of", "call", "element"):
            of = target.of
            shown = world.show_type(body.types.get(id(of)), class_node.name, body.heads)
            report.say(f"`{report.source.text[of.start : of.end]}` has type {shown}.")
            if known_exactly(report, body, of) or final_index(report, target, node):
                return


def known_exactly(report, body, of):
    """The type of its value for a local that was declared with one that is known in part."""
    if of.kind != "name":
        return False
    for node in body.method.body.walk():
        if node.kind == "local" and node.name == of.name and node.value.kind in ("new", "new_array"):
            report.name(node.start, node.end, "the declaration")
            shown = body.world.show_type(body.types.get(id(node.value)), body.class_node.name, body.heads)
            if report.mends("Declare the local with the exact type of its value.", [instead(node.type, shown)], quiet=True):
                return True
    return False


def final_index(report, target, node):
    """An index in a final local."""
    if target.kind != "element" or target.index.kind == "int":
        return False
    text = report.source.text
    start = statement_around(report.source, node.start)[0]
    taken = {token.text for token in report.source.tokens}
    name = next(name for name in ("k", "at", "place", "index", "number", "position") if name not in taken)
    index = text[target.index.start : target.index.end]
    edits = [Edit(start, start, f"final int {name} = {index}; "), instead(target.index, name)]
    report.say(f"The index `{index}` is neither a number nor an index variable.")
    return report.mends("Take the index into a `final` local.", edits, quiet=True)


def explain_atomic_body(report, world):
    """Fills in a report on `atomic-body`."""
    at = report.answer.offset
    class_node, method = method_at(world, at)
    block = next(node for node in method.body.walk() if node.kind == "atomic" and node.start == at)
    report.name(block.start, block.block.start, "the atomic block")
    body = Body(world, class_node, method)
    for node in block.block.walk():
        keyword = node.parts.get("keyword", "")
        if keyword.endswith("_nd"):
            report.name(node.start, node.start + len(keyword), f"a {keyword} inside it")
            if report.mends(f"Use `{keyword[:-3]}` there.", [Edit(node.start, node.start + len(keyword), keyword[:-3])], quiet=True):
                return
        met = body.callee(node)
        if met:
            change = "without the call at {}:{}".format(*report.source.place(node.start))
            answer, offset = report.attempt(change, without_call(block, node))
            if not report.is_gone(answer, offset):
                report.tried.pop()
                continue
            report.name(node.start, node.end, f"{name_of(*met)}, or a method that overrides it, reaches an nd construct")
            name_reached(report, world, met)


def name_reached(report, world, met):
    """Names the nd construct that a method reaches by calls, with the methods on the way."""
    waiting, seen = [(met, [name_of(*met)])], set()
    while waiting:
        (owner, method), way = waiting.pop(0)
        if id(method) in seen:
            continue
        seen.add(id(method))
        body = Body(world, owner, method)
        for node in method.body.walk():
            keyword = node.parts.get("keyword", "")
            if keyword.endswith("_nd"):
                report.name(node.start, node.start + len(keyword), f"the {keyword} that is reached, by {', '.join(way)}")
                report.say("Inside a block only `cobegin` and `foreach` may come, also through calls: call it outside of the block.")
                return
            for called in overriding(world, body.callee(node)):
                waiting.append((called, [*way, name_of(*called)]))


def overriding(world, met):
    """A method with those that override it."""
    if met is None:
        return []
    owner, method = met
    below = [node for node in world.classes.values() if node is not owner and owner in world.chain(node.name)]
    kept = [(node, member) for node in below for member in node.members if member.kind == "method" and member.name == method.name]
    return [met] + ([] if method.constructor else kept)


def without_call(block, node):
    """Edits that leave out the statement of a call."""
    holders = [other for other in block.walk() if other.kind in ("effect", "assign", "print") and is_around(other, node)]
    return [instead(holders[-1], "{}")] if holders else []


def explain_override(report, world):
    """Fills in a report on `override`."""
    class_node, method = method_at(world, report.answer.offset)
    met = world.overridden(class_node.name, method.name) if method else None
    if not met:
        of_constructor(report, world)
        return
    around(report, "the overriding method")
    owner, top = met
    report.name(top.start, top.body.start, f"the method of {owner.name} that it overrides")
    report.say("There is no overloading: both have the same region parameters, formals and result, or different names.")
    new = unused(report, method.name + "2")
    edits = [Edit(method.name_at, method.name_at + len(method.name), new), *renamed_calls(world, class_node, method, new)]
    report.mends(f"Give it another name, say `{new}`, where it is meant as another method.", edits, quiet=True)


def of_constructor(report, world):
    """A class that extends one with a constructor."""
    around(report, "extends a class that has a constructor")
    report.say("A class can't extend one that has a constructor: what that does goes into a method, which the subclasses' constructors call.")
    node = next((node for node in world.program.classes if node.parent and node.parent_at == report.answer.offset), None)
    constructor = world.constructor(node.parent) if node else None
    if constructor:
        report.name(constructor.start, constructor.body.start, f"the constructor of {node.parent}")
        name = unused(report, "start")
        edits = [Edit(constructor.name_at, constructor.name_at + len(constructor.name), f"void {name}")]
        report.mends(f"Make the constructor a method, say `{name}`.", edits, quiet=True)


def unused(report, name):
    """A name that the text doesn't have."""
    taken = {token.text for token in report.source.tokens}
    while name in taken:
        name += "2"
    return name


def explain_cycle(report, world):
    """Fills in a report on `cycle`."""
    for node in world.program.classes:
        if node.parent and node.name in [other.name for other in list(world.chain(node.parent))]:
            report.name(node.start, node.opened, f"extends {node.parent}")
    for node in world.program.classes:
        if node.parent and node.parent_at == report.answer.offset:
            start = report.source.text.rindex("extends", 0, node.parent_at)
            end = node.opened
            report.mends(f"Let {node.name} extend nothing.", [Edit(start, end, "")], quiet=True)


def explain_local_region(report, world):
    """Fills in a report on `local-region`."""
    at = report.answer.offset
    around(report, "names a local region where it can't be")
    report.say(
        "A local region is for arrays of ints and booleans that don't leave the method. What is to be kept lies in a region that the class declares."
    )
    class_node, method = method_at(world, at)
    for node in method.body.walk() if method else []:
        if node.kind == "local_regions" and report.source.text[at : at + len(node.names[0].text)] == node.names[0].text:
            report.name(node.start, node.end, "the local region")
    path = next((node for node in class_node.walk() if node.kind == "path" and node.start == at), None) if class_node else None
    if path is None:
        return
    name = path.elements[0]
    edits = [instead(node, name + "Kept") for node in method.body.walk() if node.kind == "path" and node.elements == [name]]
    edits.append(Edit(class_node.opened + 1, class_node.opened + 1, f" region {name}Kept;"))
    report.mends("Declare the region in the class.", edits, quiet=True)
