"""Random definitions of all kinds, with containers in one another and expressions that name what is there and what isn't: what fuzz.py
hands to `wflow check`."""
import rules

STATUSES = ["Succeeded", "Failed", "Skipped", "TIMEDOUT"]
NAMES = ["A", "B", "C", "D", "E", "F", "G", "H", "I", "J", "b", "A-1", "A/0", "x~y", "é", "Z z", "😀"]
KINDS = ["Compose"] * 6 + ["Scope", "If", "Switch", "Foreach", "Foreach", "Until", "Http", "Select", "Query", "Join", "ParseJson", "Wait"]
CHANGES = {"SetVariable": None, "IncrementVariable": "integer", "DecrementVariable": "integer", "AppendToArrayVariable": "array",
           "AppendToStringVariable": "string"}
TYPES = ["integer", "integer", "array", "string", "boolean", "Object"]
CALLS = ["outputs(%s)"] * 4 + ["body(%s)", "actions(%s).status", "outputs(%s)?['x']", "result(%s)", "items(%s)", "iterationIndexes(%s)"]
ALONE = ["item()", "item()?.x", "trigger()", "triggerBody()", "workflow().run.name", "utcNow()", "guid()", "rand(0,9)", "action()",
         "parameters('p')", "action().status", "parameters('q')", "getFutureTime(1,'Day')", "variables('v')"]


def quoted(name):
    return "'%s'" % name.replace("'", "''")


# A definition in the making: which names are used, and what an expression may ask for where it stands, most of the time.
class Maker:
    def __init__(self, rng):
        self.rng, self.left, self.astray = rng, list(NAMES), rng.choice([0, 0, 0.05, 0.2, 0.4])
        rng.shuffle(self.left)
        self.budget = rng.choice([1, 3, 5, 8, 12, 16])
        self.counts = [1, 2, 2, 3, 4]
        self.variables = {name: rng.choice(TYPES) for name in rng.sample("vwx", rng.choice([0, 0, 1, 2, 3]))}
        changes = [kind for kind, its in CHANGES.items() if self.suited(its)]
        self.kinds = KINDS + changes * 4 + rng.choice([[], [], ["Terminate"] * 2, ["Response"] * 4])
        # how many of the actions before it an action waits for
        self.chained = rng.choice([0.4, 0.7, 0.95]) if self.variables else 0.7

    def expression(self, seen, inside):
        rng = self.rng
        if rng.random() < self.astray:
            name = rng.choice([other for other, _, _ in seen] or NAMES if rng.random() < 0.7 else NAMES)
            return rng.choice([rng.choice(CALLS) % quoted(name), rng.choice(ALONE)])
        picks = ["1", "'a'", "trigger()", "parameters('p')"] + inside + ["variables('%s')" % name for name in self.variables]
        for name, kind, left in seen:
            picks += ["outputs(%s)", "body(%s)?['x']", "actions(%s).code"] * (left < 2)
            picks += ["result(%s)"] * (kind in ("Scope", "If", "Switch") and left < 2 or kind in ("Foreach", "Until") and left < 1)
            picks = [pick % quoted(name) if "%s" in pick else pick for pick in picks]
        made = rng.choice(picks)
        return "concat(%s,%s)" % (made, self.expression(seen, inside)) if rng.random() < 0.2 else made

    def value(self, seen, inside):
        made = "@" + self.expression(seen, inside)
        return self.rng.choice([made, made, [made, 1], {"a": made, "b": "x@{%s}" % made[1:]}, "plain", 5])

    def condition(self, seen, inside):
        return self.rng.choice([
            "@" + self.expression(seen, inside), {"equals": [self.value(seen, inside), 1]},
            {"and": [{"not": "@" + self.expression(seen, inside)}, {"less": [1, self.value(seen, inside)]}]}])

    # the members of one graph, and what is seen of them from behind: names with kinds and how many loops stand between
    def graph(self, seen, inside, level):
        rng, made, mine = self.rng, {}, []
        for _ in range(rng.choice(self.counts)):
            if not self.left or self.budget <= 0:
                break
            name, self.budget = self.left.pop(), self.budget - 1
            before = mine if rng.random() < self.chained else mine[:rng.randrange(len(mine) + 1)]
            action, within = self.action(name, seen + [one for _, known in before for one in known], inside, level)
            if before:
                action["runAfter"] = {other: rng.choice([["Succeeded"], STATUSES, []]) for other, _ in before}
            made[name] = action
            mine.append((name, [(name, action["type"], 0)] + within))
        return made, [one for _, known in mine for one in known]

    def action(self, name, seen, inside, level):
        rng, kind = self.rng, self.rng.choice(self.kinds)
        if level > 4 and kind in ("Scope", "If", "Switch", "Foreach", "Until"):
            kind = "Compose"
        made, within = {"type": kind}, []
        value = self.value(seen, inside)
        more = {"Foreach": ["item()", "items(%s)" % quoted(name)], "Until": ["iterationIndexes(%s)" % quoted(name)]}.get(kind, [])
        if kind in ("Scope", "If", "Foreach", "Until"):
            made["actions"], within = self.graph(seen, inside + more, level + 1)
        if kind == "If":
            made["expression"] = self.condition(seen, inside)
            if rng.random() < 0.7:
                graph, others = self.graph(seen, inside, level + 1)
                made["else"], within = {"actions": graph}, within + others
        elif kind == "Switch":
            made["expression"], made["cases"] = "@" + self.expression(seen, inside), {}
            for case in rng.sample(["one", "two"], rng.randrange(3)):
                graph, others = self.graph(seen, inside, level + 1)
                made["cases"][case], within = {"case": case, "actions": graph}, within + others
        elif kind == "Foreach":
            made["foreach"] = rng.choice(["@" + self.expression(seen, inside), [1, 2]])
            turns = {"runtimeConfiguration": {"concurrency": {"repetitions": rng.choice([1, 1, 2])}}}
            made.update(rng.choice([{}, {"operationOptions": "Sequential"}, {"operationOptions": "x, sequential "}, turns]))
        elif kind == "Until":
            made["expression"] = self.condition(seen + within, inside + more)
        elif kind in ("Select", "Query", "Join"):
            made["inputs"] = {"from": value, "select": self.value(seen, inside + ["item()"]), "joinWith": value,
                              "where": "@" + self.expression(seen, inside + ["item()"])}
        elif kind in CHANGES:
            made["inputs"] = {"name": self.variable(CHANGES[kind]), "value": value}
        elif kind in ("Terminate", "Response"):
            made["inputs"] = {"runStatus": "Failed", "statusCode": value}
        elif kind != "Scope":
            made["inputs"] = {"content": value, "uri": value} if kind != "Compose" else value
        if rng.random() < 0.15:
            made["trackedProperties"] = {"t": self.value(seen, inside + ["action()", "action().status"])}
        deeper = kind in ("Foreach", "Until")
        return made, [(other, its, left + deeper) for other, its, left in within]

    # A variable that an action may write, most of the time.
    def variable(self, kind):
        return self.rng.choice(self.suited(kind) if self.rng.random() < 0.99 else list(self.variables) + ["y"])

    def suited(self, kind):
        return [name for name, its in self.variables.items() if kind in (None, its)]

    # The actions that initialise the variables, each after the one before; the last is waited for by what waits for nothing else.
    def initialise(self, graph):
        rng, names, made = self.rng, list(self.variables), []
        first = [action for action in graph.values() if "runAfter" not in action]
        while names and self.left:
            count = rng.choice([1, 2])
            value = rng.choice([{}, {"value": "@json('[]')"}])
            listed = [{"name": name, "type": self.variables[name]} | value for name in names[:count]]
            names = names[count - (rng.random() < 0.02):]
            action = {"type": "InitializeVariable", "inputs": {"variables": listed}}
            if made:
                action["runAfter"] = {made[-1]: ["Succeeded"]}
            made.append(self.left.pop())
            graph[made[-1]] = action
        for action in first if made else ():
            if rng.random() < 0.97:
                action["runAfter"] = {made[-1]: rng.choice([["Succeeded"], STATUSES])}

    def parameters(self):
        rng = self.rng
        kinds = [("int", 1), ("String", "x"), ("array", []), ("object", {}), ("bool", True), ("securestring", "s")]
        made = {}
        for name in rng.sample(["p", "q", "r"], rng.choice([1, 2, 3])):
            kind, value = rng.choice(kinds)
            made[name] = {"type": kind, "defaultValue": value, "allowedValues": [value]}
            if rng.random() < 0.04:
                made[name][rng.choice(["defaultValue", "allowedValues"])] = rng.choice([None, [None], 5, ["x"], [rng.choice([1, "x"])]])
            if not isinstance(made[name]["allowedValues"], list):
                del made[name]["allowedValues"]
        return made

    def definition(self):
        rng = self.rng
        graph, seen = self.graph([], [], 1)
        self.initialise(graph)
        whole = {"actions": graph, "parameters": self.parameters()}
        if "p" not in whole["parameters"] and rng.random() < 0.9:
            whole["parameters"]["p"] = {"type": "int", "defaultValue": 1}
        if rng.random() < 0.4:
            near = [one for one in seen if one[2] < 2]
            whole["outputs"] = {name: {"value": self.value(near, [])} for name in rng.sample("oxy", rng.choice([1, 2]))}
        if rng.random() < 0.4:
            asked = "@" + rng.choice(["triggerBody()", "parameters('p')", "utcNow()", "workflow().run.name", self.expression([], [])])
            members = rng.choice([{"splitOn": asked}, {"conditions": [{"expression": asked}]}])
            whole["triggers"] = {"t": {"type": "Request"} | members}
        if rng.random() < 0.05:
            wrong = {"type": rng.choice(rules.LEAVES), "inputs": {"name": "v", "value": 1, "statusCode": 200, "runStatus": "Failed"}}
            whole["actions"][rng.choice(NAMES + ["X"])] = wrong
        if rng.random() < 0.3:
            given = rng.choice([1, 1, 1, [1] * 2**10, "x" * 2**20 if rng.random() < 0.1 else "x"])
            return {"definition": whole, "parameters": {rng.choice("pz"): {"value": given}, "y": 1}}
        return whole
