"""Why a definition breaks a rule, and every place at which it does: told by the judge of rules.py and references.py, apart from the
program. bin/check-all asks for it, as a help beside the verdict.

`causes` gives, for a rule's number, each place that breaks it, as a path, with the cause in words, or None where the judge knows none."""
import difflib

import references
import rules
import templates

CONDITION = "a text, or an object of one member, as {\"greater\": [\"@a\", 1]}"
# What the actions of a type are asked for.
ASKED = {
    "compose": "inputs", "wait": "inputs, an object", "response": "inputs with statusCode", "terminate": "inputs with runStatus",
    "select": "inputs with from and select", "query": "inputs with from, and where, a text", "join": "inputs with from and joinWith",
    "parsejson": "inputs with content, and where there is a schema, one of the form that is taken",
    "initializevariable": "inputs.variables, a list of 1 to 20 objects with name, and type: boolean, integer, string, array or object",
    "if": "expression, a condition: " + CONDITION,
    "switch": "expression, a text, and cases, each with case, a text or a whole number, no two of which are the same",
    "foreach": "foreach, a text or a list; where runtimeConfiguration.concurrency has repetitions, 1 to 50",
    "until": "expression, a condition: " + CONDITION + "; limit.count from 1 to 5000; limit.timeout a duration, as PT1H",
    "scope": "actions",
    "incrementvariable": "inputs with name, a text", "decrementvariable": "inputs with name, a text",
}
FORMS = {"runAfter": "an object of lists of texts, as {\"Before\": [\"Succeeded\"]}", "allowedValues": "a list", "contentVersion": "a text"}
NAMED = ("actions", "outputs", "body", "result")
# Which functions tracked properties and triggers may not use.
BARRED = {
    "tracked": ("variables", "workflow") + references.WORDS + references.MOMENTS,
    "trigger": NAMED + ("variables", "item", "items", "iterationindexes", "action") + references.WORDS,
}


# A name as it is told, with one of those that are there which is like it.
def close(name, there, likeness=0.6):
    like = difflib.get_close_matches(name, list(there), 1, likeness)
    return "; perhaps %r" % like[0] if like else ""


def standing(value, path):
    for step in path:
        value = value[step]
    return value


def form(definition, path):
    return "this has to be " + FORMS.get(path[-1] if path else "", "an object")


def schema(definition, path):
    return "$schema is %r; leave it out, or write %s" % (definition["$schema"], rules.SCHEMA)


def limits(definition, path):
    counts = {"actions": "500 actions, or 250 variables", "parameters": "50 parameters", "triggers": "10 triggers", "outputs": "10 outputs"}
    if len(path) == 1:
        return "more than " + counts[path[0]]
    return "more than 25 cases" if rules.type_of(standing(definition, path[:-1])) == "switch" else "it stands in more than 7 others"


def names(definition, path):
    if not rules.is_name(path[-1]):
        return "a name has 1 to 80 characters, none a control character"
    others = [rules.pointer(other) for other, _, _ in rules.actions(definition) if other[-1] == path[-1] and other != path]
    return "%r is borne by %s too; names are borne once in the whole definition" % (path[-1], " and ".join(others))


def types(definition, path):
    value = standing(definition, path)
    there = rules.PARAMETER_TYPES if path[0] == "parameters" else rules.LEAVES + rules.HOLDING_ONE + ["switch"]
    return "type %r isn't taken%s" % (value["type"], close(str(value["type"]).lower(), there)) if "type" in value else "there is no type"


def lacking(definition, path):
    value = standing(definition, path)
    if path[0] == "triggers":
        return "splitOn is a text, conditions a list of objects with expression, a text"
    if path[0] == "outputs":
        return "an output has a value"
    kind = rules.type_of(value)
    if not isinstance(value.get("operationOptions", ""), str):
        return "operationOptions is a text"
    if kind in rules.CONNECTORS:
        if not isinstance(value.get("inputs"), dict):
            return "%s asks for inputs, an object" % value["type"]
        return "retryPolicy has type none, default, fixed or exponential; the last two have count from 1 to 90, and interval, as PT10S"
    return "%s asks for %s" % (value["type"], ASKED.get(kind, "inputs with name, a text, and value"))


# How many arguments a function takes, in words.
def counted(counts):
    least, _, most = counts.partition("-")
    words = "%s or more" % least if most == "*" else "%s to %s" % (least, most) if most else least
    return words + (" argument" if words == "1" else " arguments")


def expressions(definition, path):
    text = standing(definition, path)
    try:
        calls = [call for made in templates.expressions(text) for call in templates.calls(made)]
    except templates.Refused as refused:
        at = refused.args[0]
        begins = "; a text that begins with @ and is none is written with @@" if text.startswith("@") and not text.startswith("@{") else ""
        if at >= len(text):
            return "it ends where more is asked for" + begins
        return "it can't be read on from character %d: %r%s" % (at + 1, text[at:at + 20], begins)
    for _, name, given in calls:
        counts = rules.FUNCTIONS.get(name.lower())
        if counts is None:
            return "%s is no function here%s" % (name, close(name.lower(), rules.FUNCTIONS, 0.8))
        if not rules.is_call(name, given):
            if name.lower() in rules.NAMING and len(given) == 1:
                return "%s takes a name in quotes, and no other expression" % name
            return "%s takes %s, here it has %d" % (name, counted(counts), len(given))
    return None


def run_after(definition, path):
    graph, name = standing(definition, path[:-1]), path[-1]
    for other, statuses in graph[name].get("runAfter", {}).items():
        if other not in graph:
            return "%r is no action beside it%s" % (other, close(other, graph))
        for status in statuses:
            if rules.low(status) not in rules.STATUSES:
                return "%r is no status; there are Succeeded, Failed, Skipped and TimedOut" % status
    return "it waits for itself, at however many removes: take one of the runAfter of the circle out"


def sites(whole, path):
    return [site for site in whole.sites if site.path == path]


def reference(whole, path):
    for site in sites(whole, path):
        for name in site.named(*NAMED):
            if name not in whole.by_name:
                return "there is no action %r%s" % (name, close(name, whole.by_name))
            if not whole.may_name(site, name):
                return "%r isn't before it: runAfter has to lead there, from it or from a container round it" % name
    return None


def parameters(whole, path):
    declared = whole.definition.get("parameters", {})
    for site in sites(whole, path):
        for name in site.named("parameters"):
            if name not in declared:
                return "there is no parameter %r%s" % (name, close(name, declared))
    if path[0] != "parameters":
        return None
    return "a default, an allowed or a given value isn't of type %s, or is too deep or heavy" % declared[path[1]]["type"]


def variables(whole, path):
    by_name = references.initialised(whole)
    for place, node, name in references.accesses(whole):
        found = by_name.get(name, [])
        if place != path:
            continue
        if not found:
            return "variable %r is initialised nowhere%s" % (name, close(name, by_name))
        if len(found) > 1:
            return "variable %r is initialised more than once" % name
        if found[0][0].within:
            return "variable %r is initialised inside a container: do it at the top" % name
        if node is not None and references.written(node) == name and found[0][1] not in references.SUITED[node.kind]:
            return "variable %r is of type %s, which this action doesn't write" % (name, found[0][1])
    return None


def initialised_late(whole, path):
    by_name = references.initialised(whole)
    for place, node, name in references.accesses(whole):
        late = [other for other, _ in by_name.get(name, []) if node is not None and other is not node and not whole.is_before(other, node)]
        if place == path and late:
            return "%r, which initialises %r, isn't before it: runAfter has to lead there" % (late[0].name, name)
    return None


def node_at(whole, path):
    return next((node for node in whole.nodes if node.path == path), None)


# A name, with how many others there are.
def and_others(names):
    more = len(names) - 1
    return repr(names[0]) + (" and %d other%s" % (more, "s" * (more > 1)) if more else "")


def side_by_side(whole, path):
    node = node_at(whole, path)
    writes = references.all_written(node)
    loops = [loop.name for loop in node.loops() if not references.is_sequential(loop)]
    if writes and loops:
        return "it writes %r in %r, whose iterations go side by side: it has to have \"operationOptions\": \"Sequential\"" % (
            min(writes), loops[-1])
    for other in whole.nodes:
        for writer, late in ((node, other), (other, node)):
            shared = references.all_written(writer) & references.accessed(whole, late, writer) if other is not node else ()
            if shared and not whole.is_settled(node, other):
                does, too = ("writes", "accesses") if writer is node else ("accesses", "writes")
                return "it %s %r, which %r %s in no order with it: runAfter has to lead from one to the other" % (
                    does, min(shared), other.name, too)
    return None


def ends_beside(whole, path):
    names = [other.name for other in references.beside(whole, node_at(whole, path))]
    return "%s may be under way as it ends the run: runAfter has to lead from one to the other" % and_others(names)


def responses(whole, path):
    node = node_at(whole, path)
    names = [other.name for other in whole.nodes
             if other is not node and other.kind == "response" and not whole.is_settled(node, other)]
    return "%s is a Response in no order with it: let one wait for the other as Skipped, or put them into branches" % and_others(names)


def in_a_loop(whole, path):
    node = node_at(whole, path)
    return "it is a %s in the loop %r: decide behind the loop" % (node.action["type"], node.loops()[-1].name)


def items(whole, path):
    for site in sites(whole, path):
        for function, kind, called in (("items", "foreach", "Foreach"), ("iterationindexes", "until", "Until")):
            for name in site.named(function):
                if not whole.is_round(site, name, kind):
                    return "%r is no %s round it" % (name, called)
    return "item() stands in no Foreach, and in no select of a Select or where of a Query"


def loops_left(whole, path):
    for site in sites(whole, path):
        for name in site.named(*NAMED):
            if whole.left(site, name, name in site.named("result")) > 1:
                return "%r stands in more than one loop that this is outside of" % name
    return None


def results(whole, path):
    for site in sites(whole, path):
        for name in site.named("result"):
            node = whole.by_name[name]
            if node.kind not in references.CONTAINERS:
                return "%r is of type %s, no container: outputs(..) or body(..) gives what it put out" % (name, node.action["type"])
    return None


def used(whole, path):
    for site in sites(whole, path):
        barred = BARRED.get(site.kind, ("action",))
        for function, _ in site.calls:
            if function in barred:
                return "%s may not be used here" % function
    return None


FIRST = {1: form, 2: schema, 3: limits, 4: names, 5: types, 6: lacking, 7: expressions, 8: run_after}
LATER = {9: reference, 10: parameters, 11: variables, 12: initialised_late, 13: side_by_side, 14: items, 15: ends_beside, 16: responses,
         17: in_a_loop, 18: loops_left, 19: results, 20: used, 21: used}


def causes(value, number):
    definition = rules.definition_in(value)
    if number in FIRST:
        cause, asked, places = FIRST[number], definition, rules.RULES[number - 1](definition)
    else:
        cause, asked = LATER[number], references.Whole(definition)
        places = next((found for rule, found in references.broken(definition, rules.given_in(value)) if rule == number), ())
    return [(path, cause(asked, path)) for path in sorted(set(places), key=lambda path: rules.pointer(path).encode())]
