"""The rules V9 to V21: which names an expression may use where it stands. Decided apart from the program, after docs/RULES.md; rules.py,
which stands on this, has the rules before.

They are looked at only where V1 to V8 hold. V13, V15 and V16 are about two actions, which mustn't be under way side by side."""
import functions
import rules
import templates

LOOPS = ("foreach", "until")
CONTAINERS = LOOPS + ("scope", "if", "switch")
WORDS, MOMENTS = ("guid", "rand"), ("utcnow", "getfuturetime", "getpasttime")
# which types of variables an action writes
SUITED = {"setvariable": "boolean integer string array object".split(), "incrementvariable": ["integer"], "decrementvariable": ["integer"],
          "appendtoarrayvariable": ["array"], "appendtostringvariable": ["string"]}
SORTS = {"int": "I", "string": "T", "bool": "B", "array": "L", "object": "O", "securestring": "T", "secureobject": "O"}


# An action with the containers round it, from the outermost.
class Node:
    def __init__(self, path, action, within):
        self.name, self.path, self.graph = path[-1], path, path[:-1]
        self.kind, self.action, self.within = rules.type_of(action), action, within

    def line(self):
        return self.within + [self]

    def loops(self):
        return [other for other in self.within if other.kind in LOOPS]


# A place at which expressions stand: its pointer, the kind of the site, the action if it is one's, and the calls in it by their lower-case
# names, each with its first argument.
class Site:
    def __init__(self, path, kind, node, texts):
        self.path, self.kind, self.node = path, kind, node
        self.calls = [(name.lower(), parts[0][1] if parts and parts[0][0] == "lit" else None) for text in texts
                      for made in templates.expressions(text) for _, name, parts in templates.calls(made)]

    def named(self, *functions):
        return [name for function, name in self.calls if function in functions]

    def uses(self, *functions):
        return any(function in functions for function, _ in self.calls)

    # the loops inside which it stands: an Until's own test is inside that Until
    def loops(self):
        if self.node is None:
            return []
        return self.node.loops() + [self.node] * (self.kind == "test")


# The site of an action at which the template of this path stands.
def kind_of(node, path):
    step = path[len(node.path):]
    if step[0] == "trackedProperties":
        return "tracked"
    if node.kind == "until" and step[0] == "expression":
        return "test"
    return "items" if (node.kind, step[1:2]) in (("select", ("select",)), ("query", ("where",))) else "inputs"


# The graph of a container in which an action stands, at whatever depth.
def branch(node, holder):
    line = node.line()
    return line[line.index(holder) + 1].graph


class Whole:
    def __init__(self, definition):
        self.definition = definition
        self.above = {path: rules.ancestors(members) for path, members, _ in rules.graphs(definition)}
        self.nodes = []
        for path, action, _ in sorted(rules.actions(definition), key=lambda found: len(found[0])):
            self.nodes.append(Node(path, action, [node for node in self.nodes if path[:len(node.path)] == node.path]))
        self.by_name = {node.name: node for node in self.nodes}
        self.sites = list(self.all_sites())

    def all_sites(self):
        for node in self.nodes:
            found = {}
            for path, text in rules.templates_of(node.action, node.path):
                found.setdefault(kind_of(node, path), []).append(text)
            for kind, texts in found.items():
                yield Site(node.path, kind, node, texts)
        for path, output in rules.members(self.definition, "outputs"):
            yield Site(path, "output", None, [output["value"]])
        for path, trigger in rules.members(self.definition, "triggers"):
            texts = [condition["expression"] for condition in trigger.get("conditions", [])]
            yield Site(path, "trigger", None, texts + [trigger[member] for member in ("splitOn",) if member in trigger])

    # Whether a container-or-self of the one is an ancestor, in one graph, of a container-or-self of the other.
    def is_before(self, one, other):
        return any(holder.graph == late.graph and holder.name in self.above[late.graph][late.name]
                   for holder in one.line() for late in other.line())

    # Whether they stand in different branches of one If or Switch.
    def is_apart(self, one, other):
        shared = [holder for holder in one.within if holder in other.within and holder.kind in ("if", "switch")]
        return any(branch(one, holder) != branch(other, holder) for holder in shared)

    # Whether the two are never under way side by side.
    def is_settled(self, one, other):
        return self.is_before(one, other) or self.is_before(other, one) or self.is_apart(one, other)

    def may_name(self, site, name):
        node = self.by_name.get(name)
        if node is None or site.kind == "output":
            return node is not None
        return self.is_before(node, site.node) or site.kind == "test" and site.node in node.within

    # How many loops a reference leaves.
    def left(self, site, name, is_result):
        node = self.by_name[name]
        round_it = node.loops() + [node] * (is_result and node.kind in LOOPS)
        return sum(loop not in site.loops() for loop in round_it)

    def is_round(self, site, name, kind):
        node = self.by_name.get(name)
        if node is None or node.kind != kind or site.node is None:
            return False
        return node in site.node.within or kind == "until" and site.kind == "test" and node is site.node


def references(whole):
    for site in whole.sites:
        names = site.named("actions", "outputs", "body", "result") if site.kind != "trigger" else []
        if not all(whole.may_name(site, name) for name in names):
            yield site.path


def is_of(value, sort):
    return functions.depth(value) <= functions.DEEP and functions.weight(value) <= functions.HEAVY and sort in ("V", functions.kind(value))


def parameters(whole, given):
    declared = whole.definition.get("parameters", {})
    for site in whole.sites:
        if not all(name in declared for name in site.named("parameters")):
            yield site.path
    for name, parameter in declared.items():
        sort = SORTS[rules.type_of(parameter)]
        values = parameter.get("allowedValues", []) + [parameter[member] for member in ("defaultValue",) if member in parameter]
        if not all(is_of(value, sort) for value in values) or name in given and not is_of(given[name], "V"):
            yield ("parameters", name)


# The variables that an action initialises, each as it is written down.
def initials(node):
    return node.action["inputs"]["variables"] if node.kind == "initializevariable" else []


# The name of the variable that it writes, if it is of a kind that does.
def written(node):
    return node.action["inputs"]["name"] if node.kind in SUITED else None


# Of each name of a variable, the actions that initialise it, by their pointers, each as often as it does.
def initialised(whole):
    found = {}
    for node in sorted(whole.nodes, key=lambda node: rules.pointer(node.path).encode()):
        for initial in initials(node):
            found.setdefault(initial["name"], []).append((node, rules.low(initial["type"])))
    return found


# What names a variable: its place, the action if it is one's, and the name.
def accesses(whole):
    for site in whole.sites:
        if site.kind != "trigger":
            yield from ((site.path, site.node, name) for name in site.named("variables"))
    for node in whole.nodes:
        yield from ((node.path, node, name) for name in [initial["name"] for initial in initials(node)] + [written(node)]
                    if name is not None)


def variables(whole):
    by_name = initialised(whole)
    for found in by_name.values():
        yield from (node.path for node, _ in found[1:])
    for path, node, name in accesses(whole):
        found = by_name.get(name, [])
        if not found or len(found) == 1 and found[0][0].within:
            yield path
        elif len(found) == 1 and node is not None and written(node) == name and found[0][1] not in SUITED[node.kind]:
            yield path


def initialised_late(whole):
    by_name = initialised(whole)
    for path, node, name in accesses(whole):
        if node is not None and any(other is not node and not whole.is_before(other, node) for other, _ in by_name.get(name, [])):
            yield path


# The variables that the expressions of an action read at sites of these kinds.
def read_at(whole, node, *kinds):
    return {name for site in whole.sites if site.node is node and site.kind in kinds for name in site.named("variables")}


def all_written(node):
    return {initial["name"] for initial in initials(node)} | {written(node)} - {None}


# Whether the iterations of a loop come one after the other.
def is_sequential(loop):
    options = [rules.low(option.strip(" ")) for option in loop.action.get("operationOptions", "").split(",")]
    turns = rules.at(loop.action, "runtimeConfiguration", "concurrency", "repetitions", absent=20)
    return loop.kind == "until" or "sequential" in options or turns == 1


# Of two actions the path whose pointer is less.
def lesser(one, other):
    return min(one.path, other.path, key=lambda path: rules.pointer(path).encode())


# The variables that an action accesses, as far as a writer has to be in order with it. What a container evaluates as it opens comes before
# all inside it, and an Until's expression after all inside that; but nothing says so of tracked properties.
def accessed(whole, node, writer):
    reads = set() if node in writer.within else read_at(whole, node, "inputs", "items", "test")
    return all_written(node) | read_at(whole, node, "tracked") | reads


def side_by_side(whole):
    for writer in whole.nodes:
        names = all_written(writer)
        if names and not all(map(is_sequential, writer.loops())):
            yield writer.path
        for other in whole.nodes if names else ():
            if other is not writer and names & accessed(whole, other, writer) and not whole.is_settled(writer, other):
                yield lesser(writer, other)


# The actions that may be under way as a Terminate ends the run.
def beside(whole, end):
    return [other for other in whole.nodes if other is not end and other not in end.within and not whole.is_settled(other, end)]


def under_way_at_the_end(whole):
    yield from (end.path for end in whole.nodes if end.kind == "terminate" and beside(whole, end))


def two_responses(whole):
    responses = [node for node in whole.nodes if node.kind == "response"]
    yield from (lesser(one, other) for one in responses for other in responses if one is not other and not whole.is_settled(one, other))


def items(whole):
    for site in whole.sites:
        if site.kind == "trigger":
            continue
        fine = all(whole.is_round(site, name, "foreach") for name in site.named("items"))
        fine = fine and all(whole.is_round(site, name, "until") for name in site.named("iterationindexes"))
        in_a_list = site.node is not None and any(node.kind == "foreach" for node in site.node.within)
        if not fine or site.uses("item") and not in_a_list and site.kind != "items":
            yield site.path


def ends(whole):
    yield from (node.path for node in whole.nodes if node.kind in ("terminate", "response") and node.loops())


def loops_left(whole):
    for site in whole.sites:
        if site.kind == "trigger":
            continue
        counts = [whole.left(site, name, False) for name in site.named("actions", "outputs", "body")]
        if max(counts + [whole.left(site, name, True) for name in site.named("result")], default=0) > 1:
            yield site.path


def results(whole):
    for site in whole.sites:
        if site.kind != "trigger" and not all(whole.by_name[name].kind in CONTAINERS for name in site.named("result")):
            yield site.path


def tracked(whole):
    for site in whole.sites:
        if site.kind == "tracked" and site.uses("variables", "workflow", *WORDS, *MOMENTS):
            yield site.path
        if site.kind not in ("tracked", "trigger") and site.uses("action"):
            yield site.path


def triggers(whole):
    for site in whole.sites:
        if site.kind == "trigger" and site.uses("actions", "outputs", "body", "result", "variables", "item", "items", "iterationindexes",
                                                "action", *WORDS):
            yield site.path


# The numbers of the rules with the places at which each is broken, in the order in which they are looked at.
def broken(definition, given):
    whole = Whole(definition)
    yield 9, references(whole)
    yield 10, parameters(whole, given)
    yield 11, variables(whole)
    yield 12, initialised_late(whole)
    yield 13, side_by_side(whole)
    yield 14, items(whole)
    yield 15, under_way_at_the_end(whole)
    yield 16, two_responses(whole)
    yield 17, ends(whole)
    yield 18, loops_left(whole)
    yield 19, results(whole)
    yield 20, tracked(whole)
    yield 21, triggers(whole)
