"""Names that are declared twice: where the first one is, and another name for the second."""

from .branches import method_at
from .leaving import Edit
from .names import Place, name_here, token_here
from .source import statement_around
from .typed import Body


def explain_duplicate(report, world):
    """Fills in a report on `duplicate`."""
    token = token_here(report)
    name_here(report, f"the second `{token.text}`")
    first = first_of(report, world, token)
    if first is not None:
        report.name(*statement_around(report.source, first), f"the first `{token.text}`, which is visible there")
    rename(report, world, token)


def first_of(report, world, token):
    """Where the name that is declared once more was declared first."""
    class_node, method = method_at(world, token.start)
    if method is not None and method.name_at != token.start:
        place = Place(report, world, token).scope().get(token.text)
        if place and place.at != token.start:
            return place.at
    for node in world.program.classes:
        if node.name_at == token.start:
            return next(other.name_at for other in world.program.classes if other.name == token.text)
    class_node = class_node or next((node for node in world.program.classes if node.start <= token.start < node.end), None)
    for node in world.chain(class_node.name) if class_node else []:
        for member in node.members:
            names = member.names if member.kind == "regions" else []
            places = [one.start for one in names if one.text == token.text]
            if member.kind in ("field", "method") and member.name == token.text:
                places.append(member.name_at)
            places = [place for place in places if place != token.start]
            if places:
                return places[0]
    return None


def rename(report, world, token):
    """Another name for a local and its uses; for a method that and its calls as their actuals tell; for what else is declared the declaration alone."""
    class_node, method = method_at(world, token.start)
    new = token.text + "2"
    taken = {other.text for other in report.source.tokens}
    while new in taken:
        new += "2"
    edits = [Edit(token.start, token.end, new)]
    if method is not None and method.name_at != token.start:
        body = Body(world, class_node, method)
        places = sorted({use.at for use in body.uses if use.local.at == token.start})
        edits += [Edit(place, place + len(token.text), new) for place in places]
    elif method is not None and not method.constructor:
        edits += renamed_calls(world, class_node, method, new)
    report.mends(f"Give it another name, say `{new}`.", edits, quiet=True)


def renamed_calls(world, class_node, method, new):
    """Edits of the calls that are meant for a method, where another one of its name takes another number of actuals."""
    others = [
        member for node in world.chain(class_node.name) for member in node.members
        if member.kind == "method" and member.name == method.name and member is not method
    ]  # fmt: skip
    if any(len(other.formals) == len(method.formals) for other in others):
        return []
    calls = [node for node in world.program.walk() if node.kind == "call" and node.name == method.name]
    return [Edit(node.at, node.at + len(node.name), new) for node in calls if len(node.actuals) == len(method.formals)]
