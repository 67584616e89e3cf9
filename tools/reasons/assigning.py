"""Why an assignment of a local is refused, and which return is missing or too much."""

from .branches import method_at
from .leaving import Edit, instead, is_around, quiet
from .source import statement_around
from .typed import Body
from .world import default_of


def explain_assign(report, world):
    """Fills in a report on `assign`."""
    at = report.answer.offset
    class_node, method = method_at(world, at)
    if method is None:
        return
    body = Body(world, class_node, method)
    for node in method.body.walk():
        if node.kind == "assign" and node.sign == at:
            return fixed_local(report, body, node)
        if node.kind in ("cobegin", "foreach") and node.start == at:
            return shared_local(report, body, node)
    return None


def fixed_local(report, body, node):
    """A `final` local, the variable of a loop or a part is assigned."""
    local = body.scopes[id(node)].get(node.target.name)
    report.name(node.start, node.end, f"assigns `{node.target.name}`")
    if local is None:
        return
    forms = {"final": "a `final` local", "variable": "the variable of a loop", "part": "a part of an array"}
    report.say(f"`{local.name}` is {forms.get(local.form, 'a local')}, which isn't assigned.")
    for other in body.method.body.walk():
        if other.kind == "local" and other.name_at == local.at:
            report.name(other.start, other.end, "the declaration")
            gap = report.source.text[other.start :].index("final") + 5
            if report.mends("Declare it without `final`.", [Edit(other.start, other.start + gap + 1, "")], quiet=True):
                return
    new = "next" + local.name.capitalize()
    shown = body.world.show_type(local.type, body.class_node.name, body.heads) if local.type else "int"
    value = report.source.text[node.value.start : node.value.end]
    report.mends("Take the value into a local of its own.", [instead(node, f"{shown} {new} = {value};")], quiet=True)


def uses_of(body, fork):
    """The uses of locals from outside of a construct: by local, pairs of the branch's number and the use."""
    branches = fork.block.statements if fork.kind == "cobegin" else [fork.body]
    found = {}
    for number, branch in enumerate(branches, 1):
        for use in body.uses:
            declared_outside = not (fork.start <= use.local.at < fork.end) or use.local.at == fork.start
            if declared_outside and branch.start <= use.at < branch.end:
                found.setdefault(use.local, []).append((number, use))
    return found


def shared_local(report, body, fork):
    """Branches that assign a local which others use, or a loop that assigns locals from outside."""
    is_loop = fork.kind == "foreach"
    shared = []
    for local, uses in uses_of(body, fork).items():
        assigned = [(number, use) for number, use in uses if use.kind == "assigned"]
        if not is_loop:
            assigned = [(number, use) for number, use in assigned if any(other != number for other, _ in uses)]
        if assigned:
            shared.append((local, uses, assigned))
    faulty = [entry for entry in shared if is_faulty(report, entry, shared)]
    for local, uses, assigned in faulty:
        where = "the loop" if is_loop else "the construct"
        line = "{}:{}".format(*report.source.place(local.at))
        report.say(f"The local `{local.name}` is declared outside of {where}, at {line}.")
        (of_loop if is_loop else of_branches)(report, local, uses, assigned)
    if faulty and is_loop:
        report.say(
            "The iterations may run side by side, so they have no order in which to assign it. Put what each finds into an array by index,"
            " and put that together after the loop; or use foreach_nd and a field of an atomic region in atomic blocks."
        )
    elif faulty:
        report.say("Let each branch assign a local of its own, and put the results together after the construct.")
    if len(faulty) == 1:
        local, uses, assigned = faulty[0]
        if is_loop:
            loop_mend(report, body, fork, local)
        else:
            number = assigned[0][0]
            branch_mend(report, body, fork, local, (number, [(other, use) for other, use in uses if other != number]))


def of_loop(report, local, _, assigned):
    """Names the assignments of a local in a loop."""
    for _, use in assigned:
        report.name(*head(use.statement), f"assigns `{local.name}` in every iteration")


def of_branches(report, local, uses, assigned):
    """Names the assignment of a local in one branch, and its uses in others."""
    number, use = assigned[0]
    report.name(*head(use.statement), f"branch {number} assigns `{local.name}`")
    for other, use in [(other, use) for other, use in uses if other != number][:3]:
        does = "assigns it too" if use.kind == "assigned" else "reads it"
        report.name(*head(use.statement), f"branch {other} {does}")


def head(node):
    """The span of a statement, of one with a body that of its head."""
    for part in ("then", "body"):
        if part in node.parts:
            return node.start, node.parts[part].start
    return node.start, node.end


def is_faulty(report, entry, shared):
    """Whether the fault stays without the assignments of all other locals, and goes with this one's too, by asking."""
    others = [edit for other in shared if other is not entry for _, use in other[2] for edit in quiet(use.statement)]
    mine = [edit for _, use in entry[2] for edit in quiet(use.statement)]
    if others:
        answer, offset = report.attempt(f"of the locals assigned, `{entry[0].name}` alone", others)
        if report.is_gone(answer, offset):
            report.tried.pop()
            return False
    answer, offset = report.attempt(f"`{entry[0].name}` not assigned" + (", nor the others" if others else ""), others + mine)
    if report.is_gone(answer, offset):
        return True
    report.tried.pop()
    return False


def own_line(report, fork):
    """A line end and the indent of a construct, or a blank where it doesn't begin its line."""
    start = report.source.starts[report.source.place(fork.start)[0] - 1]
    indent = report.source.text[start : fork.start]
    return " " if indent.strip() else "\n" + indent


def branch_mend(report, body, fork, local, found):
    """A local of its own for the first branch that assigns, or the old value for those that read it before."""
    number, others = found
    name, scope = local.name, body.scopes[id(fork)]
    gap, shown = own_line(report, fork), body.world.show_type(local.type, body.class_node.name, body.heads)
    if shown and all(other < number and use.kind == "read" for other, use in others):
        new = fresh("old" + name[:1].upper() + name[1:], scope, report)
        edits = [Edit(fork.start, fork.start, f"{shown} {new} = {name};{gap}")]
        edits += [Edit(use.at, use.at + len(name), new) for _, use in others]
        report.mends(f"The branches that read `{name}` come first: let them read a local that took it before the {fork.keyword}.", edits, quiet=True)
    elif shown:
        mine = [(other, use) for other, use in uses_of(body, fork)[local] if other == number]
        if mine[0][1].kind != "assigned" or any(use.kind == "read" and use.at < mine[0][1].at for _, use in mine):
            return
        new = fresh(name + "Of" + str(number), scope, report)
        edits = [Edit(fork.start, fork.start, f"{shown} {new} = {default_of(local.type)};{gap}")]
        edits += [Edit(use.at, use.at + len(name), new) for _, use in mine]
        report.mends(f"Branch {number} assigns a local of its own, `{new}`, which is used after the construct.", edits, quiet=True)


def fresh(name, scope, report):
    taken = {token.text for token in report.source.tokens} | set(scope)
    while name in taken:
        name += "2"
    return name


def loop_mend(report, body, fork, local):
    """An array by index for a loop whose only use of the local is one assignment that doesn't read it."""
    uses = uses_of(body, fork).get(local, [])
    writes = [use for _, use in uses if use.kind == "assigned"]
    if fork.part or len(writes) != 1:
        return
    use = writes[0]
    text = report.source.text
    reads = [other for _, other in uses if other.kind == "read"]
    sums = use.statement.kind == "assign" and use.statement.value.kind == "binary" and use.statement.value.sign == "+"
    if local.type != ("int",) or not sums or len(reads) != 1 or not is_around(use.statement.value.left, Edit(reads[0].at, reads[0].at + 1, "")):
        return
    value, name = use.statement.value.right, local.name
    each, at = fresh("each", {}, report), fresh("k", {}, report)
    region, gap = fresh("Each", {}, report), own_line(report, fork)
    first, count = (text[part.start : part.end] for part in (fork.first, fork.count))
    if first != "0":
        return
    array = f"int[]<{region}:[{fork.name}]>#{fork.name}"
    edits = [Edit(fork.start, fork.start, f"{array} {each} = new int[{count}]<{region}:[{fork.name}]>#{fork.name};{gap}")]
    edits += [instead(use.statement, f"{each}[{fork.name}] = {text[value.start : value.end]};")]
    after = f"{gap}int {at} = 0;{gap}while ({at} < {count}) {{ {name} = {name} + {each}[{at}]; {at} = {at} + 1; }}"
    opened = body.class_node.opened + 1
    edits += [Edit(fork.end, fork.end, after), Edit(opened, opened, f" region {region};")]
    report.mends("Put what each iteration adds into an array by index, and add it up after the loop.", edits, quiet=True)


def explain_return(report, world):
    """Fills in a report on `return`."""
    at = report.answer.offset
    class_node, method = method_at(world, at)
    if method is None:
        return
    if method.name_at == at:
        no_result(report, method, world.type(method.result, class_node.name, set()) if method.result else None)
        return
    for node in method.body.walk():
        if node.start == at and node.kind == "return" and wrong_return(report, method, node):
            return
    after_the_end(report, method, at)


def no_result(report, method, its_type):
    """A method that can end without its result: the statements after which it does."""
    report.name(method.start, method.body.start, "can end without a result")
    last = method.body.statements[-1] if method.body.statements else None
    where = method.body.end - 1
    if last is not None:
        report.name(*head(last), "after this statement nothing is returned")
        if last.kind == "while":
            report.say("A `while` counts as one that ends, even where its condition is `true`.")
        elif last.kind == "if":
            report.say("An `if` returns only where it has an `else` and both parts return.")
    value = default_of(its_type) if its_type else "0"
    report.say(f"Return on every path, say by a `return` at the end of the body; `{value}` stands for the result that is meant there.")
    gap = "" if report.source.text[where - 1].isspace() else " "
    report.mends("A `return` at the end:", [Edit(where, where, f"{gap}return {value}; ")], quiet=True)


def wrong_return(report, method, node):
    """A return inside a construct or a block, or with or without a value against the method's result; whether it is one."""
    around = [other for other in method.body.walk() if other.kind in ("cobegin", "foreach", "atomic") and is_around(other, node)]
    if not around and (node.value is None) == (method.result is None):
        return False
    report.name(node.start, node.end, "this return")
    if around:
        outer = around[-1]
        keyword = outer.parts.get("keyword", "atomic")
        report.name(outer.start, outer.start + len(keyword), f"the {keyword} that it stands in")
        report.say(f"Nothing is returned out of a {keyword}: hand on what was found by a local from outside, and return after it.")
    elif node.value is None:
        report.say(f"`{method.name}` has a result, so each return has a value.")
    else:
        report.say(f"`{method.name}` has no result, so no return has a value.")
        report.mends("Return without a value.", [Edit(node.start + 6, node.end - 1, "")], quiet=True)
    return True


def after_the_end(report, method, at):
    """A statement that can't be reached, and the one that ends before it."""
    for block in method.body.walk():
        listed = block.parts.get("statements", [])
        for before, node in zip(listed, listed[1:]):
            if node.start == at:
                report.name(node.start, node.end, "can't be reached")
                report.name(*head(before), "never goes on to it")
                report.mends("Leave out what can't be reached.", [Edit(node.start, listed[-1].end, "")], quiet=True)
                return
    report.name(*statement_around(report.source, at), "can't be reached")
