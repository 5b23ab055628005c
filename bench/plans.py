"""The schemas of a plan's nodes, for scripts that draw plans or make them up. It takes plans that
the programs accept; the programs say which those are."""

LONG_OPS = {"add", "sub", "mul", "div", "rem"}
TEXT_LIMIT = 16_382


def bound_of(field_type):
    """The bound of a str, else None."""
    return int(field_type[4:]) if field_type.startswith("str:") else None


def widened(a, b):
    """The type that two types of one kind are widened to."""
    if bound_of(a) is None or bound_of(b) is None:
        return a
    return f"str:{max(bound_of(a), bound_of(b))}"


def all_widened(schemas):
    first, *others = schemas
    for other in others:
        first = [widened(a, b) for a, b in zip(first, other)]
    return first


def literal_type(value):
    if isinstance(value, bool):
        return "bool"
    if isinstance(value, int):
        return "long"
    return f"str:{len(value.encode())}"


def expr_type(expr, fields):
    """The type of an expression over fields."""
    if not isinstance(expr, list):
        return literal_type(expr)
    word, *parts = expr
    if word == "f":
        return fields[parts[0]]
    if word in LONG_OPS or word == "len":
        return "long"
    if word == "if":
        return widened(expr_type(parts[1], fields), expr_type(parts[2], fields))
    if word == "cat":
        return f"str:{sum(bound_of(expr_type(part, fields)) for part in parts)}"
    if word == "cut":
        return f"str:{min(bound_of(expr_type(parts[0], fields)), parts[1])}"
    return "bool"


def column_types(columns, fields):
    return [expr_type(column, fields) for column in columns]


def keyed(node, known):
    """The schema of a group or a cogroup: the key, and a long for each fold."""
    if node["op"] == "group":
        fields = known[node["input"]]
        return [fields[i] for i in node["key"]] + ["long"] * len(node["aggs"])
    left, right = known[node["left"]], known[node["right"]]
    key = [widened(left[i], right[j]) for i, j in zip(node["left_key"], node["right_key"])]
    return key + ["long"] * (len(node["left_aggs"]) + len(node["right_aggs"]))


def node_schema(node, known, solution=None):
    """The schema of a node's rows, by those of the names before it; `solution` is that of the
    delta in whose body it stands."""
    op = node["op"]
    if op == "source":
        return list(node["fields"])
    if op in ("filter", "distinct", "top"):
        return known[node["input"]]
    if op == "map":
        return column_types(node["columns"], known[node["input"]])
    if op == "flat_map":
        fields = known[node["input"]]
        return all_widened([column_types(row["columns"], fields) for row in node["rows"]])
    if op == "union":
        return all_widened([known[name] for name in node["inputs"]])
    if op in ("group", "cogroup"):
        return keyed(node, known)
    if op == "join":
        return column_types(node["columns"], known[node["left"]] + known[node["right"]])
    if op == "probe":
        return column_types(node["columns"], known[node["input"]] + solution)
    return known[node["init"] if op == "bulk" else node["solution"]]


def schemas_of(plan):
    """The schema of each name and bind name of a plan."""
    known = {}
    for node in plan["nodes"]:
        schema = node_schema(node, known)
        if "body" in node:
            known[node["bind"]] = known[node["init" if node["op"] == "bulk" else "workset"]]
            for inner in node["body"]:
                known[inner["name"]] = node_schema(inner, known, schema)
        known[node["name"]] = schema
    return known


def references(node):
    """The names that a node takes rows of, with the word of each, its body's end left out."""
    for word in ("input", "left", "right", "init", "solution", "workset"):
        if word in node:
            yield word, node[word]
    for name in node.get("inputs", []):
        yield "input", name


def end_references(node):
    """The names of a body's end that an iteration takes, with the word of each."""
    for word in ("delta", "next", "until"):
        if word in node:
            yield word, node[word]
