"""A section on talks: answers that come as lines while a run goes on."""
import json
import subprocess

from measure import file, handed, head, least, line, mib, output, path, ratio

AT_A_TIME = 50
SIDE_BY_SIDE = {"runtimeConfiguration": {"concurrency": {"repetitions": AT_A_TIME}}}
CALL = {"type": "Http", "inputs": {"method": "GET", "uri": "https://contoso.com/@{item()}"}}


def each(count, actions):
    return {"type": "Foreach", "foreach": "@range(0,%d)" % count, "actions": actions} | SIDE_BY_SIDE


def single(count):
    return {"Each": each(count, {"Call": CALL})}, [[k] for k in range(count)]


def nested(count):
    whole = {"Each": each(count // AT_A_TIME, {"Inner": each(AT_A_TIME, {"Call": CALL})})}
    return whole, [[k // AT_A_TIME, k % AT_A_TIME] for k in range(count)]


def reversed_at_a_time(answers):
    """The answers with the last of those first that wait together."""
    return [one for at in range(0, len(answers), AT_A_TIME) for one in reversed(answers[at:at + AT_A_TIME])]


TALKS = [
    ("a Foreach, 50 at a time", single, list),
    ("the same, each 50 in reverse", single, reversed_at_a_time),
    ("two Foreachs, all at a time", nested, list),
    ("the same, in reverse", nested, lambda answers: answers[::-1]),
]


def sessions(wflow):
    """`session` of loops with a connector, all answers piped in at once, beside `run` with all of them in INPUTS, and how its time grows from
    half as many on. It is to take 5 times what `run` does at most, and to grow by less than 2.5."""
    head("talk", "answers", "wflow s", "growth", "of run", "run s", "ratio", "memory", "said")
    for name, made, order in TALKS:
        before = None
        for count in (1000, 2000):
            actions, ats = made(count)
            answers = [{"action": "Call", "at": at, "status": 200, "body": {"id": at}} for at in ats]
            definition = file("definition.json", {"actions": actions})
            run = [wflow, "run", definition, file("inputs.json", handed(answers=answers))]
            talk = [wflow, "session", definition, file("asked.json", handed())]
            with open(path("lines"), "w") as out:
                out.writelines(json.dumps(answer, separators=(",", ":")) + "\n" for answer in order(answers))
            with open(path("lines")) as given:
                said = subprocess.run(talk, stdin=given, stdout=subprocess.PIPE, text=True).stdout.splitlines()
            assert said[-2:-1] == output(run).splitlines()[:1], "another record than that of run"
            ours, theirs = least(talk, path("lines")), least(run)
            growths = ("-", "-") if before is None else (ratio(ours, before[0]), ratio(theirs, before[1]))
            line(name, count, ours, *growths, theirs, ratio(ours, theirs), mib(talk, path("lines")), said[-1][2:])
            before = ours, theirs
