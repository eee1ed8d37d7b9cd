"""The file and line of the rows of a script's table, which name failing rows."""
import ast
import os

TOP = os.path.realpath(os.path.join(os.path.dirname(os.path.abspath(__file__)), ".."))


def places(scope, table="RUNS"):
    """Returns the file and line of each row of a table that is a list in a script, by the script's
    names."""
    path = scope["__file__"]
    with open(path, encoding="utf-8") as file:
        assigned = [node for node in ast.parse(file.read()).body if isinstance(node, ast.Assign)]
    rows, = (node.value.elts for node in assigned if getattr(node.targets[0], "id", "") == table)
    found = []
    for row in rows:
        count = 1
        if isinstance(row, ast.Starred):
            code = compile(ast.Expression(row.value), path, "eval")
            count = len(eval(code, scope))
        found += [f"{os.path.relpath(os.path.realpath(path), TOP)}:{row.lineno}"] * count
    return found
