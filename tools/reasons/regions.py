"""Whether an access touches the region that is told, by asking: its statement alone is covered by a summary of that region, and not by `pure`."""

from .alone import summary_for, summary_text
from .leaving import Edit, instead, is_around, quiet
from .world import default_of


def confirm(report, body, alone, access):
    """Tries an access alone in its method under a summary of its region, and under `pure`; None where that can't be written, or the
    access is a call of the method itself, which has the effects of the very summary that is changed."""
    node = access.node
    met = body.callee(node)
    if met and met[1] is body.method:
        return None
    statement = alone.statement(access)
    reads, writes = summary_for(body.world, body, [other for other in body.accesses if other.node is node])
    if statement is None or not reads + writes:
        return None
    edits = only_statement(report, body, access, statement)
    if edits is None:
        return None
    summary = summary_text(reads, writes)
    expression = report.source.text[access.node.start : access.node.end]
    confirmed = True
    for written, covered in ((summary, True), ("pure", False)):
        edit = summary_edit(body.method, written)
        answer, offset = report.attempt(f"`{expression}` alone under `{written}`", [*edits, edit])
        is_covered = answer.name != "summary" or answer.line != report.source.place(body.method.name_at)[0]
        confirmed = confirmed and is_covered == covered and offset >= 0
    return confirmed


def summary_edit(method, written):
    if method.summary.items is None:
        return Edit(method.summary.end, method.summary.end, " " + written)
    return instead(method.summary, written)


def only_statement(report, body, access, statement):
    """Edits by which a method does nothing but one access, its constructs in sequence."""
    method = body.method
    edits = [instead(access.statement, statement)]
    result = body.world.type(method.result, body.class_node.name, body.heads) if method.result else None
    for node in method.body.walk():
        if node is access.statement or is_around(access.statement, node):
            continue
        if node.kind == "foreach" and is_around(node, access.statement):
            if node.part:
                return None
            edits.append(Edit(node.start, node.body.start, f"{{ final int {node.name} = 0; "))
            edits.append(Edit(node.end, node.end, " }"))
        elif node.kind == "cobegin" and is_around(node, access.statement):
            edits.append(Edit(node.start, node.start + len(node.keyword), ""))
        elif node.kind in ("cobegin", "foreach"):
            edits.append(instead(node, "{}"))
        elif node.kind == "return" and node.value is not None:
            edits.append(instead(node.value, default_of(result)))
        else:
            edits += quiet(node)
    if access.statement.kind == "local" and report.source.text.count(access.statement.name) > 1:
        value = default_of(body.type(access.statement.type))
        edits[0] = Edit(access.statement.start, access.statement.start, statement + " ")
        edits.append(instead(access.statement.value, value))
    return edits
