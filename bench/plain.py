"""Writes the record that a run of a loop of loops.py leaves, by a plain loop: what the program is told beside.

  plain.py loop|nested|appends COUNT DIGEST"""
import json
import sys


def row(name, at, inputs, outputs):
    return {"at": at, "attempts": [], "code": "OK", "error": None, "inputs": inputs, "name": name, "outputs": outputs,
            "status": "Succeeded", "tracked": {}}


def loop(count):
    rows = [row("Each", [], list(range(count)), None)]
    for k in range(count):
        rows.append(row("Item", [k], k, k))
    return rows


def nested(count):
    rows = [row("Each", [], list(range(count)), None)]
    for k in range(count):
        rows.append(row("Inner", [k], list(range(count)), None))
    for k in range(count):
        for m in range(count):
            rows.append(row("Item", [k, m], m, m))
    return rows


def appends(count):
    made, rows = [], []
    for k in range(count):
        made = made + [k]
        rows.append(row("Add", [k], {"name": "l", "value": k}, {"body": {"name": "l", "value": made}}))
    variables = [{"name": "n", "type": "integer", "value": 0}, {"name": "l", "type": "array", "value": []}]
    rows.append(row("Begin", [], {"variables": variables}, {"body": [{"name": "n", "value": 0}, {"name": "l", "value": []}]}))
    rows.append(row("Each", [], list(range(count)), None))
    return rows


def main():
    shape, count, digest = sys.argv[1:]
    rows = {"loop": loop, "nested": nested, "appends": appends}[shape](int(count))
    record = {"definition": digest, "error": None, "form": 2, "outputs": {}, "parameters": {}, "response": None, "rows": rows,
              "run": "bench", "status": "Succeeded", "trigger": {"name": None, "outputs": None}}
    print(json.dumps(record, sort_keys=True, separators=(",", ":")))


if __name__ == "__main__":
    main()
