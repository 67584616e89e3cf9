"""Words and mends for branches that go to one object, or to two that aren't told apart."""

from .leaving import Edit, instead
from .source import fresh_region


def same_object(report, found):
    """One object for both branches, or one region for what may be two; whether a mend was found."""
    one, two = found.pair
    if found.is_loop or ("of" in one.node.parts) != ("of" in two.node.parts):
        return False
    if "of" not in one.node.parts:
        if one.path == two.path:
            report.say(
                "A region name is one region for all objects of a class. Let the class take a region parameter, and create each object in a region of"
                " its own."
            )
        return False
    first, second = (found.text[part.node.of.start : part.node.of.end] for part in (one, two))
    if first == second:
        of_one_object(report, found, first)
        return False
    return of_two_objects(report, found, first, second)


def of_one_object(report, found, of):
    """Both branches go to what one expression names."""
    one, two = (access.node for access in found.pair)
    if one.kind == "element" or two.kind == "element":
        return
    keyword, (left, right) = found.fork.keyword, (found.region(access) for access in found.pair)
    if one.name == two.name:
        shared = shared_array(found, one, two)
        if shared:
            report.say(
                f"Both calls get the array `{shared}`, and no method can be given a part of one: `foreach_parts` cuts an array at equal distances, a tree"
                " of objects goes down over halves, and what depends on one index goes by `foreach`."
            )
        report.say(
            f"Both branches go to `{of}.{one.name}`, so they can't run side by side: do one before or after the {keyword}, or let it work on something"
            " of its own."
        )
        return
    both = f"`{of}.{one.name}` and `{of}.{two.name}` both touch {left} of one object"
    if left != right:
        both = f"`{of}.{one.name}` touches {left} of an object, and `{of}.{two.name}` touches {right} of the same, which may be one region"
    report.say(
        f"{both}, so they can't run side by side: do one before or after the {keyword}, or let what each of them touches lie in a region of its own."
    )


def shared_array(found, one, two):
    """The array that two calls get as one of their actuals."""
    if one.kind != "call" or two.kind != "call":
        return None
    mine = {found.text[actual.start : actual.end]: found.body.types.get(id(actual)) for actual in one.actuals}
    both = [found.text[actual.start : actual.end] for actual in two.actuals]
    return next((text for text in both if mine.get(text) and mine[text][0] == "array"), None)


def of_two_objects(report, found, first, second):
    """The branches go to what two expressions name, which aren't told apart."""
    one, two = found.pair
    types = [found.body.types.get(id(access.node.of)) for access in found.pair]
    if types[0] == types[1] and types[0] and types[0][0] == "class" and types[0][2]:
        shown = found.world.show_type(types[0], found.body.class_node.name, found.body.heads)
        report.say(f"`{first}` and `{second}` both have type {shown}, so they aren't told apart. Give each object a region of its own.")
        return any(other_argument(report, found, access.node.of) for access in (two, one))
    if one.path == two.path:
        report.say(
            f"A region name is one region for all objects of a class, so `{first}` and `{second}` aren't told apart. Let the class take a region"
            " parameter, and give each object a region of its own."
        )
    return False


def declaration(found, of):
    """The class that has the regions for a local or a field, its declared type, and where a local is created."""
    if of.kind == "name":
        for node in found.body.method.body.walk():
            if node.kind == "local" and node.name == of.name:
                return found.body.class_node, node.type, node.value.type if node.value.kind == "new" else None
    if of.kind == "field_of":
        met = found.world.member(found.body.types.get(id(of.of)), "field", of.name)
        if met:
            return met[0], met[1].type, None
    return None


def other_argument(report, found, of):
    """Another region as the last argument of the type of a local or a field: one that its class has, or a new one."""
    met = declaration(found, of)
    if met is None or not met[1].args or met[1].suffixes:
        return False
    owner, its_type, created = met
    arg, text = its_type.args[-1], found.text
    names = [token.text for member in owner.members if member.kind == "regions" and not member.atomic for token in member.names]
    new = fresh_region(report.source, of.name)
    for name in [*names, new]:
        path = ":".join([*arg.elements[:-1], name])
        edits = [instead(arg, path)]
        if created is not None and created.args and text[created.args[-1].start : created.args[-1].end] == text[arg.start : arg.end]:
            edits.append(instead(created.args[-1], path))
        if name == new:
            edits.append(Edit(owner.opened + 1, owner.opened + 1, f" region {new};"))
        if path != text[arg.start : arg.end] and report.mends(f"Let `{text[of.start : of.end]}` be of another region.", edits, quiet=True):
            return True
    return False
