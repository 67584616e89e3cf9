"""Names that aren't declared, or twice: the nearest names in scope, each tried."""

import re

from .alone import summary_text
from .branches import method_at
from .java_names import METHODS_OF_MATH, NAMES_OF_JAVA
from .leaving import Edit, is_around
from .source import KEYWORDS, statement_around, without_comments
from .typed import Body
from .world import heads_of, put_in_type

TRIALS_AT_MOST = 10
NAMES_AT_MOST = 8


def token_here(report):
    number = report.source.token_at(report.answer.offset)
    return report.source.tokens[number]


def name_here(report, role):
    """Names the statement around the place."""
    at = report.answer.offset
    report.name(*statement_around(report.source, at), role)


def explain_unknown(report, world):
    """Fills in a report on `unknown`."""
    token = token_here(report)
    name_here(report, f"`{token.text}` isn't declared")
    if token.text in NAMES_OF_JAVA and not near(token.text, world.classes) and token.text not in world.classes:
        if token.text == "Math" and of_math(report, world, token):
            return
        says, instead = NAMES_OF_JAVA[token.text]
        if token.text != "System" or not println(report):
            report.say(says)
        if report.mend is None and instead is not None:
            what = f"Write `{instead}`." if instead else "Leave it out."
            report.mends(what, [Edit(token.start, token.end, instead)], quiet=True)
        return
    place = Place(report, world, token)
    proposals = place.proposals()
    edits = best_proposal(report, (misspelt_declarations(report, token, proposals) + proposals)[:TRIALS_AT_MOST])
    if edits is not None:
        place.name_declaration(edits[0].new.removeprefix("this."))
        if edits[0].new == token.text:
            report.name(*statement_around(report.source, edits[0].start), f"declares what is nearly `{token.text}`")


def best_proposal(report, proposals):
    """Tries proposals: the first one with which the text is accepted, or else the first one whose next fault isn't in the same statement, or any."""
    start, end = statement_around(report.source, report.answer.offset)
    lines, kept = {report.source.place(start)[0], report.source.place(end)[0]}, None
    for word, edits in proposals:
        if not report.mends(word, edits, quiet=True):
            continue
        answer = report.mend["answer"]
        rank = 0 if answer == "accepted" else 1 + (int(answer.split()[1].split(":")[0]) in lines)
        if kept is None or rank < kept[0]:
            kept = (rank, report.mend, report.tried.pop(), edits)
        else:
            report.tried.pop()
        if rank == 0:
            break
    if kept is None:
        return None
    report.mend = kept[1]
    report.tried.append(kept[2])
    return kept[3]


def of_math(report, world, token):
    """A method of Java's class Math that is written in a line: as one of the class."""
    name = re.match(r"Math\s*\.\s*(\w+)", report.source.text[token.start :])
    method = METHODS_OF_MATH.get(name[1]) if name else None
    class_node = next((node for node in world.classes.values() if node.start <= token.start < node.end), None)
    if method is None or class_node is None or class_node.name == "Math":
        return False
    report.say("There is no library: the method is written in the class itself.")
    declared = any(member.kind == "method" and member.name == name[1] for node in world.chain(class_node.name) for member in node.members)
    uses = [other for other in report.source.tokens if other.text == "Math" and class_node.start < other.start < class_node.end]
    edits = [Edit(other.start, other.end, "this") for other in uses]
    edits += [] if declared else [Edit(class_node.end - 1, class_node.end - 1, f"  {method}\n")]
    return report.mends(f"Write the method `{name[1]}`.", edits, quiet=True)


def misspelt_declarations(report, token, proposals):
    """Declarations of nearly the same name that nothing uses, while the name itself is used more than once."""
    found, tokens = [], report.source.tokens
    if sum(other.text == token.text for other in tokens) < 2:
        return []
    for _, edits in proposals:
        name = edits[0].new.removeprefix("this.")
        places = [other for other in tokens if other.text == name]
        if len(places) == 1 and near(token.text, [name]):
            declared = places[0]
            found.append((f"The declaration of `{name}` may be misspelt.", [Edit(declared.start, declared.end, token.text)]))
    return found


def println(report):
    """`System.out.println(..)` and its like, by the table of habits."""
    from .syntax import find_habit

    return find_habit(report, without_comments(report.source.text), report.answer.offset)


def near(name, others):
    """Names that are nearly the same, the nearest first."""
    found, plain = [], name.lower().replace("_", "")
    for other in dict.fromkeys(others):
        away, shorter = distance(name.lower(), other.lower()), min(len(name), len(other))
        is_short = len(plain) > 1 and re.match(".*".join(map(re.escape, plain)), other.lower()) and other[0].lower() == plain[0]
        if other != name and (away <= max(1, len(name) // 3) and away < shorter or is_short or other.lower().replace("_", "") == plain):
            found.append((away, other))
    return [other for _, other in sorted(found)]


def distance(one, two):
    """How many letters are put in, left out, changed, or swapped with their neighbour."""
    rows = [list(range(len(two) + 1))]
    for place, letter in enumerate(one, 1):
        row = [place]
        for other, wanted in enumerate(two, 1):
            row.append(min(rows[-1][other] + 1, row[-1] + 1, rows[-1][other - 1] + (letter != wanted)))
            if place > 1 and other > 1 and letter == two[other - 2] and one[place - 2] == wanted:
                row[-1] = min(row[-1], rows[-2][other - 2] + 1)
        rows.append(row)
    return rows[-1][-1]


class Place:
    """Where a name that isn't declared stands, and what may have been meant."""

    def __init__(self, report, world, token):
        self.report = report
        self.world = world
        self.token = token
        self.class_node, self.method = method_at(world, token.start)
        if self.class_node is None:
            self.class_node = next(node for node in world.classes.values() if node.start <= token.start < node.end)
        self.body = Body(world, self.class_node, self.method) if self.method else None

    def edit(self, new):
        return [Edit(self.token.start, self.token.end, new)]

    def instead(self, names, lead=""):
        return [(f"`{lead}{name}` may be meant.", self.edit(lead + name)) for name in names]

    def proposals(self):
        """Changes to be tried, the likely ones first."""
        at = self.token.start
        for node in self.class_node.walk():
            if node.kind in ("field_of", "call") and node.at == at:
                return self.of_object(node)
            if node.kind == "name" and node.start == at:
                return self.of_local(node)
            if node.kind == "path" and is_around(node, Edit(at, self.token.end, "")):
                return self.of_region(node)
            if node.kind == "type" and node.start == at:
                return self.of_class()
            if node.kind == "method" and node.name_at == at:
                return self.of_constructor(node)
        return self.of_class()

    def name_declaration(self, name):
        """Names the declaration of what may be meant, since that may be what is misspelt."""
        if name == self.token.text or not near(self.token.text, [name]):
            return
        for node in self.world.program.walk():
            end = {"field": node.end, "local": node.end, "formal": node.end, "regions": node.end}.get(node.kind)
            if node.kind == "method":
                end = node.body.start
            names = [token.text for token in node.names] if node.kind == "regions" else [node.parts.get("name")]
            if node.kind == "class":
                end = node.opened
            if end is not None and name in names:
                self.report.name(node.start, end, f"declares `{name}`")
                return

    def members(self, its_type, kind):
        """The names of the fields or methods of a class type."""
        if not its_type or its_type[0] != "class":
            return []
        classes = self.world.chain(its_type[1])
        return [member.name for node in classes for member in node.members if member.kind == kind and not (kind == "method" and member.constructor)]

    def fields_in(self, its_type, region):
        """The fields of an object that lie in a region of this name."""
        if not its_type or its_type[0] != "class" or not self.world.home(its_type[1], region):
            return []
        self.report.say(f"`{region}` is a region name; the fields that lie in it have names of their own.")
        fields = [member for node in self.world.chain(its_type[1]) for member in node.members if member.kind == "field" and member.region]
        return [field.name for field in fields if field.region.elements[-1] == region]

    def of_object(self, node):
        """A field or a method of an object."""
        its_type = self.body.types.get(id(node.of)) if self.body else None
        mine, other = ("method", "field") if node.kind == "call" else ("field", "method")
        its_class = its_type[1] if its_type and its_type[0] == "class" else "what stands before the dot"
        names = list(dict.fromkeys(self.members(its_type, mine)))
        listed = ", ".join(f"`{name}`" for name in names[:8])
        self.report.say(f"{its_class} has no {mine} `{node.name}`; it has {listed}." if names else f"{its_class} has no {mine}s.")
        found = self.instead(near(node.name, names)) + self.instead(self.fields_in(its_type, node.name) if node.kind == "field_of" else [])
        if node.kind == "field_of" and node.name in self.members(its_type, other):
            found.insert(0, ("A method is called with parentheses.", self.edit(node.name + "()")))
        scope = self.scope()
        if node.kind == "field_of" and node.of.kind == "this" and node.name in scope:
            found.append((f"`{node.name}` is a local.", [Edit(node.start, node.end, node.name)]))
        if node.kind == "call":
            homes = [its for its in self.world.classes if node.name in self.members(("class", its, ()), "method")]
            if homes:
                self.report.say(f"A method `{node.name}` is declared in {', '.join(homes)}.")
            found += self.through_fields(node, its_type) + self.of_library(node)
        return found

    def of_library(self, node):
        """`a.equals(b)`, which every object of Java has."""
        if node.name != "equals" or len(node.actuals) != 1:
            return []
        one, two = (self.report.source.text[part.start : part.end] for part in (node.of, node.actuals[0]))
        return [("References are compared by `==`.", [Edit(node.start, node.end, f"({one} == {two})")])]

    def through_fields(self, node, its_type):
        """The fields of an object whose own class has the method."""
        found, end = [], node.of.end
        for name in self.members(its_type, "field"):
            owner, field, given = self.world.member(its_type, "field", name)
            its = put_in_type(self.world.type(field.type, owner.name, heads_of(owner)), given)
            if node.name in self.members(its, "method"):
                found.append((f"The method of its field `{name}` may be meant.", [Edit(end, end, f".{name}")]))
        return found

    def scope(self):
        """The locals in scope at the place."""
        if not self.body:
            return {}
        found, size = {}, None
        for node in self.method.body.walk():
            if id(node) in self.body.scopes and node.start <= self.token.start < node.end and (size is None or node.end - node.start <= size):
                found, size = self.body.scopes[id(node)], node.end - node.start
        return found

    def of_local(self, node):
        """A bare name: a field without its object, another local, or a local whose scope has ended."""
        this = ("class", self.class_node.name, ())
        fields, locals_ = self.members(this, "field"), list(self.scope())
        found = []
        if node.name in fields:
            self.report.say("A bare name is a local or a formal; fields are written with their object.")
            found += self.everywhere(node.name) + [("Write the field with its object.", self.edit(f"this.{node.name}"))]
        if node.name in self.world.classes:
            self.report.say(f"`{node.name}` is a class. Nothing is static: a method is called on an object, as `new {node.name}().f()`.")
            found.append((f"Make an object of {node.name}.", self.edit(f"new {node.name}()")))
        for other in self.method.body.walk():
            if other.kind == "local" and other.name == node.name:
                line = "{}:{}".format(*self.report.source.place(other.name_at))
                after = "ends before here" if other.start < node.start else "begins later"
                self.report.say(f"The local `{node.name}` of {line} isn't in scope here: its block {after}; each branch and each body is a block.")
                self.report.name(other.start, other.end, "the declaration, whose scope doesn't reach here")
        found += self.instead(near(node.name, locals_ + ["this", "true", "false", "null"])) + self.instead(near(node.name, fields), "this.")
        if not found:
            listed = ", ".join(f"`{name}`" for name in locals_[:NAMES_AT_MOST])
            self.report.say(f"`{node.name}` is no local or formal here; " + (f"in scope: {listed}." if listed else "none is in scope."))
        return found + self.declaration(node)

    def declaration(self, node):
        """The first assignment of a name as its declaration."""
        for other in self.method.body.walk():
            if other.kind == "assign" and other.target is node:
                its_type = self.body.types.get(id(other.value))
                shown = self.world.show_type(its_type, self.class_node.name, self.body.heads) if its_type and its_type != ("null",) else None
                return [(f"Declare the local `{node.name}`.", [Edit(node.start, node.start, f"{shown} ")])] if shown else []
        return []

    def everywhere(self, name):
        """`this.` in front of all uses of a field's name in the method, where no local has that name."""
        tokens = self.report.source.tokens
        if any(node.kind == "local" and node.name == name for node in self.method.body.walk()):
            return []
        places = [
            token.start
            for before, token in zip(tokens, tokens[1:])
            if token.text == name and before.text != "." and self.method.body.start < token.start < self.method.body.end
        ]
        if len(places) < 2:
            return []
        edits = [Edit(place, place + len(name), f"this.{name}") for place in places]
        return [(f"Write the field with its object, {len(places)} times in this method.", edits)]

    def of_class(self):
        """A class."""
        name = self.token.text
        names = list(self.world.classes) + sorted(KEYWORDS)
        found = self.instead(near(name, names))
        self.report.say(f"No class `{name}` is declared.")
        return found

    def of_constructor(self, node):
        """A constructor of another name than that of its class, or a method without a result."""
        self.report.say("A constructor has the name of its class; a method has a result, or `void`, in front of its name.")
        if any(other.kind == "return" and other.value for other in node.body.walk()):
            return [("It returns something, so as a method it has that type in front.", [Edit(node.start, node.start, "int ")])]
        found = [("Give it the name of its class.", self.edit(self.class_node.name))]
        found.append(("As a method it has `void` in front.", [Edit(node.start, node.start, "void ")]))
        return found if distance(node.name.lower(), self.class_node.name.lower()) < 3 else found[::-1]

    def of_region(self, node):
        """A region name, a parameter or an index variable in a path."""
        name, at = self.token.text, self.token.start
        text = self.report.source.text
        if text[:at].rstrip().endswith("[") and at > node.start:
            return self.of_index(node)
        after = re.match(r"\w+\s*\.", text[at:])
        if after and name in heads_of(self.class_node, self.method):
            dot = at + after.end() - 1
            return [("The elements of a path stand behind `:`.", [Edit(dot, dot + 1, ":")])]
        chain = list(self.world.chain(self.class_node.name))
        declared = [token.text for its in chain for member in its.members if member.kind == "regions" for token in member.names]
        params = sorted(heads_of(self.class_node, self.method))
        found = self.instead(near(name, declared + params))
        for its in self.world.classes.values():
            if its not in chain and self.world.home(its.name, name) == its.name:
                self.report.say(f"The region name `{name}` is declared in {its.name}, and is written with that class elsewhere.")
                found.insert(0, (f"Write `{its.name}.{name}`.", self.edit(f"{its.name}.{name}")))
        opened = self.class_node.opened + 1
        if self.method is not None and node in self.method.summary.paths and self.is_local_region(name):
            return self.without_item(node)
        found += self.as_asked(node)
        if not found:
            self.report.say(f"No region name `{name}` is declared in {self.class_node.name}, and no region parameter.")
        found.append(("Declare the region name.", [Edit(opened, opened, f" region {name};")]))
        return found


    def is_local_region(self, name):
        """Whether the method declares a local region of this name."""
        declared = [node for node in self.method.body.walk() if node.kind == "local_regions"]
        return any(token.text == name for node in declared for token in node.names)

    def without_item(self, path):
        """A summary without a local region."""
        self.report.say(f"`{self.token.text}` is a local region: its effects end with its block, so a summary says nothing of it.")
        kept = {"reads": [], "writes": []}
        for kind, its, marked in self.method.summary.items:
            if its is not path:
                kept[kind].append("atomic " * marked + self.report.source.text[its.start : its.end])
        start, end = self.method.summary.start, self.method.summary.end
        return [("Leave it out of the summary.", [Edit(start, end, summary_text(kept["reads"], kept["writes"]))])]

    def as_asked(self, path):
        """The regions that are asked, for a creation with a region name that isn't declared."""
        for node in self.method.body.walk() if self.method else []:
            if node.kind in ("local", "assign") and node.value.kind == "new" and path in node.value.type.args:
                asked = self.body.type(node.type) if node.kind == "local" else self.body.types.get(id(node.target))
                shown = self.world.show_type(asked, self.class_node.name, self.body.heads) if asked and asked[0] == "class" else None
                its = node.value.type
                return [("Create it with the region arguments that are asked.", [Edit(its.start, its.end, shown)])] if shown else []
        return []

    def of_index(self, node):
        """An index in a path."""
        name = self.token.text
        if self.method is None or self.token.start < self.method.body.start:
            self.report.say(
                f"`{name}` is no index variable: a field, a formal, a result and a summary name none but the index name of the array type around. Let the"
                f" {'class' if self.method is None else 'method'} take a region parameter, which is given the region with the index."
            )
            return self.instead(["?"]) if self.method is not None and node in self.method.summary.paths else []
        indexes = [local.name for local in reversed(self.scope().values()) if local.is_index]
        self.report.say(f"`{name}` is no index variable; " + (f"these are: {', '.join(indexes)}." if indexes else "none is in scope."))
        return self.instead(list(dict.fromkeys(near(name, indexes) + indexes))) + self.instead(["?"])
