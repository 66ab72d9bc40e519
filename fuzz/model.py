"""A second engine, apart from the program and from the judges here, where there is one: a folder with a package `wfo` in Python whose
module `say` has `set_stage(number)` and `say(words, files)`, the status and the text of a call on files held by name. Where its other
modules hold a talk, or read a definition and inputs and give the record of an environment with layers, that is asked, too. This repository
has none."""
import importlib
import json
import sys

# The engine of that folder that has every command of the program.
STAGE = 20


def of(folder):
    """What the engine in a folder says of a call: a function from words and files to status and text."""
    sys.path.insert(0, folder)
    say = importlib.import_module("wfo.say")
    say.set_stage(STAGE)

    def said(words, files):
        status, text = say.say(words, files)
        return status, text.encode()
    return said


def talking(folder):
    """What the engine in a folder says of `session`: a function from its words, files and the bytes of standard input to status, text and
    how many of the bytes are taken. Of so many `blanks` before these bytes it is told by their number alone."""
    sys.path.insert(0, folder)
    say, session = importlib.import_module("wfo.say"), importlib.import_module("wfo.session")
    say.set_stage(STAGE)
    most = session.MOST_BYTES

    def said(words, files, source, blanks=0):
        session.MOST_BYTES = most - blanks
        try:
            status, text, taken = session.session(files, say.parse_words(words)[1], source)
            return status, text.encode(), taken and taken + blanks
        except say.Stop as refused:
            return refused.status, (refused.line + "\n").encode(), 0
    return said


def layered(folder):
    """What the engine in a folder says a fresh run in layers leaves: a function from the bytes of a definition and of inputs, the name of a
    run that they start, and layers, each a set of names of actions and the value of inputs, to the line of a record."""
    sys.path.insert(0, folder)
    parts = {name: importlib.import_module("wfo." + name) for name in ("val", "rules", "inputs", "trigger", "meaning", "record")}
    importlib.import_module("wfo.say").set_stage(STAGE)

    def line(definition, base, run, layers):
        held, order = parts["rules"].accept(parts["val"].jread(definition))
        handed = parts["inputs"].read_inputs(parts["val"].jread(base))
        start = next(one for one in parts["trigger"].runs(held, handed) if one.run == run)
        environment = parts["meaning"].Env(start, handed)
        for redone, inputs in layers:
            numbers = [action.number for action in held.actions if action.name in redone]
            environment = environment.plus(numbers, parts["inputs"].read_inputs(parts["val"].jread(json.dumps(inputs).encode())))
        return parts["val"].jtext(parts["record"].to_val(parts["meaning"].meaning(held, order, environment)))
    return line
