"""Mends of branches that interfere, each tried."""

from .alone import name_of, summaries_of
from .atomics import atomic_blocks, nd_construct
from .elements import in_branches, own_index, table_region
from .leaving import Edit, instead
from .objects import same_object
from .source import fresh_region
from .world import heads_of


def branch_mends(report, found):
    """Says what may be done about two accesses, and keeps the first mend that helps."""
    if found.pair is None:
        return
    is_nd = found.fork.keyword.endswith("_nd")
    say_bare_types(report, found)
    forms = [missing_summaries, unplaced_fields]
    forms += [table_region, atomic_blocks] if is_nd else [nd_construct]
    forms += [link_before, other_region, constraint, own_index, in_branches, value_before]
    for form in forms:
        if form(report, found):
            return


def say_bare_types(report, found):
    """A local or a formal of a class with region parameters that is declared without arguments: each of them is Root."""
    declared = {node.name_at: node.type for node in found.body.method.body.walk() if node.kind == "local"}
    declared.update({formal.name_at: formal.type for formal in found.body.method.formals})
    for access in dict.fromkeys(found.pair):
        scope = found.body.scopes[id(access.statement)]
        for name in [node.name for node in access.node.walk() if node.kind == "name"]:
            its = declared.get(scope[name].at) if name in scope else None
            owner = found.world.classes.get(its.base) if its is not None else None
            if owner is not None and owner.params and not its.args:
                full = ", ".join(["Root"] * len(owner.params))
                report.say(f"`{name}` is declared as `{its.base}` without region arguments, which is `{its.base}<{full}>`.")


def missing_summaries(report, found):
    """A method without a summary writes everything: one that its body fits is tried."""
    is_nd = found.fork.keyword.endswith("_nd")
    lacking = [found.body.callee(access.node) for access in dict.fromkeys(found.pair)]
    lacking = list(dict.fromkeys(met for met in lacking if met and met[1].summary.items is None))
    if not lacking:
        return False
    report.say("A method without a summary is taken to write everything (`writes Root:*`), so it interferes with whatever touches a region.")
    ways = [summaries_of(found.world, *met, marks=is_nd) for met in lacking]
    tried = [[Edit(method.summary.end, method.summary.end, f" {summary}") for (_, method), summary in zip(lacking, way)] for way in zip(*ways)]
    return report.best_of(f"Write a summary for {', '.join(name_of(*met) for met in lacking)}.", tried)


def unplaced_fields(report, found):
    """Fields that are declared without a region, where others of their class have one."""
    fields = [(owner, field) for owner, field in fields_of(found) if field.region is None]
    edits_by_path = {}
    for owner, field in dict.fromkeys(fields):
        for path in sibling_paths(report.source.text, owner):
            edits_by_path.setdefault(path, []).append(Edit(field.end - 1, field.end - 1, f" in {path}"))
    names = ", ".join(f"`{field.name}`" for _, field in dict.fromkeys(fields))
    if not report.best_of(f"Declare {names} in a region.", edits_by_path.values()):
        return False
    for _, field in dict.fromkeys(fields):
        report.name(field.start, field.end, "declared without a region, so it lies in Root")
    return True


def sibling_paths(text, owner):
    """The regions of the other fields of a class, and then its parameters and region names."""
    regions = [member.region for member in owner.members if member.kind == "field" and member.region is not None]
    paths = [text[region.start : region.end] for region in regions] + [name for name, _ in owner.params]
    paths += [token.text for member in owner.members if member.kind == "regions" for token in member.names]
    return list(dict.fromkeys(paths))


def parents(root):
    """Each node below a root with the node that holds it."""
    return {id(kid): node for node in root.walk() for kid in node.kids()}


def link_before(report, found):
    """A branch that only reads a link on its way to something else: the link is taken into a local before the construct."""
    holders = parents(found.fork)
    for access in dict.fromkeys(found.pair):
        node, holder = access.node, holders.get(id(access.node))
        is_link = holder is not None and holder.kind in ("call", "field_of", "element") and holder.parts.get("of") is node
        if access.kind == "reads" and node.kind in ("field_of", "element") and is_link:
            other = found.pair[1] if access is found.pair[0] else found.pair[0]
            link = found.text[node.start : node.end]
            report.say(
                f"To get at `{found.text[holder.start : holder.end]}` the branch reads the link `{link}` itself, which lies in"
                f" {found.region(access)}; {'another iteration' if found.is_loop else 'the other branch'} writes"
                f" {found.region(other)}. A local that takes the link before the construct needs no read in the branch."
            )
            if take_link(report, found, node, link):
                return True
    return False


def value_before(report, found):
    """A value that a branch reads and another writes: that from before the construct may be meant."""
    for access in dict.fromkeys(found.pair):
        node = access.node
        if access.kind == "reads" and node.kind in ("field_of", "element") and not any(part.kind in ("call", "new") for part in node.walk()):
            value = found.text[node.start : node.end]
            if take_link(report, found, node, value):
                report.say(f"If the value that `{value}` has before the {found.fork.keyword} is meant, a local takes it there.")
                return True
    return False


def take_link(report, found, node, link):
    """Tries a local for a link in front of the construct."""
    scope, fork = found.body.scopes.get(id(found.fork), {}), found.fork
    names = {part.name for part in node.walk() if part.kind == "name"}
    its_type = found.body.types.get(id(node))
    if its_type is None or not names <= set(scope):
        return False
    name = node.name if node.kind == "field_of" else "link" if its_type[0] in ("class", "array") else "value"
    while name in scope or any(token.text == name and node.kind != "field_of" for token in report.source.tokens):
        name += "Link"
    shown = found.world.show_type(its_type, found.body.class_node.name, found.body.heads)
    start = report.source.starts[report.source.place(fork.start)[0] - 1]
    indent = found.text[start : fork.start]
    gap = "\n" + indent if not indent.strip() else " "
    edits = [Edit(fork.start, fork.start, f"{shown} {name} = {link};{gap}")]
    same = [part for part in fork.walk() if part.kind == node.kind and found.text[part.start : part.end] == link]
    edits += [instead(part, name) for part in same if not is_written(fork, part)]
    return report.mends(f"Take `{link}` into a local before the {fork.keyword}.", edits)


def is_written(fork, part):
    return any(node.kind == "assign" and node.target is part for node in fork.walk())


def fields_of(found):
    """The declarations of the fields that the two accesses touch, with their classes."""
    fields = []
    for access in found.pair:
        if access.node.kind == "field_of":
            met = found.world.member(found.body.types.get(id(access.node.of)), "field", access.node.name)
            if met:
                fields.append((met[0], met[1]))
    return fields


def other_region(report, found):
    """Two fields of one region: another region of the class for one of them, or a new one."""
    fields = fields_of(found)
    if len(fields) < 2 or fields[0][1] is fields[1][1] or found.pair[0].path != found.pair[1].path:
        return same_object(report, found)
    owner, field = fields[1]
    world, place = found.world, field.region
    shown = found.region(found.pair[1])
    report.say(f"`{fields[0][1].name}` and `{field.name}` both lie in {shown}.")
    names = [token.text for member in owner.members if member.kind == "regions" for token in member.names]
    mine = place.elements[-1] if place else None
    for name in names:
        if name != mine and place is not None and (len(place.elements) == 1) and place.elements[0] in names:
            text = f"Put `{field.name}` into the region {name}."
            if report.mends(text, [instead(place, name)], quiet=True):
                return True
    if place is None or world is None:
        report.say("Put what the branches write into regions of their own.")
        return False
    new = fresh_region(report.source, field.name)
    path = f"{place.elements[0]}:{new}" if place.elements[0] in heads_of(owner) else new
    edits = [Edit(field.start, field.start, f"region {new}; "), instead(place, path)]
    return report.mends(f"Put `{field.name}` into a region of its own.", edits)


def constraint(report, found):
    """Two region parameters that may be the same: a constraint is tried."""
    one, two = (access.path for access in found.pair)
    class_node, method = found.body.class_node, found.body.method
    heads = heads_of(class_node, method)
    if one[0] == two[0] or not heads & {one[0], two[0]}:
        return False
    of_method = {name for name, _ in method.params}
    holder = method if of_method & {one[0], two[0]} else class_node
    end = params_end(report.source, holder)
    if end is None:
        return False
    report.say(f"{found.region(found.pair[0])} and {found.region(found.pair[1])} may be one region, since a parameter may stand for any.")
    for tail in ("", ":*"):
        sides = [found.world.show((path[0],) if path[0] in heads else path, class_node.name, heads) for path in (one, two)]
        asked = f"{sides[0]}{tail} # {sides[1]}{tail}"
        lead = ", " if holder.constraints else " | "
        if report.mends(f"Ask for a constraint: `{asked}`.", [Edit(end, end, lead + asked)], quiet=True):
            return True
    return False


def params_end(source, holder):
    """Where the list of region parameters of a class or method ends."""
    if not holder.params:
        return None
    number = source.token_at(holder.start)
    tokens = source.tokens[number:]
    return next(token.start for token in tokens if token.text == ">")
