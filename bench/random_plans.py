"""Random plans with random inputs, the same ones for the same seed. They are plans that the
programs accept, of the ops that the caller names, and small enough that no join of joins outgrows
a few thousand rows. An input has at most 40 lines."""
import random

import plans

KEYED = ("group", "top", "distinct")
MOST_ROWS = 3_000
LONGS = [0, 1, 2, 3, -1, 7, 40, 9223372036854775807, -9223372036854775808]
TEXTS = ["", "a", "b", "ab", "zz", "é", "€uro", "a,b", "x y", "10"]
COMPARISONS = ["eq", "ne", "lt", "le", "gt", "ge"]


def kind_of(field_type):
    return field_type.split(":")[0]


def cut_to(text, bound):
    """The longest start of a text that has at most so many bytes."""
    while len(text.encode()) > bound:
        text = text[:-1]
    return text


class Exprs:
    """Random expressions over fields, by the kind that is wanted."""

    def __init__(self, rng):
        self.rng = rng

    def of(self, kind, fields, depth=2):
        """An expression of this kind; its text stays below a few hundred bytes."""
        held = [["f", i] for i, f in enumerate(fields) if kind_of(f) == kind]
        if depth == 0 or self.rng.random() < 0.3:
            if held and self.rng.random() < 0.8:
                return self.rng.choice(held)
            return self.literal(kind)
        return {"long": self.long, "bool": self.bool, "str": self.str}[kind](fields, depth - 1)

    def literal(self, kind):
        pool = {"long": LONGS, "bool": [True, False], "str": TEXTS}[kind]
        return self.rng.choice(pool)

    def long(self, fields, depth):
        word = self.rng.choice(["add", "sub", "mul", "div", "rem", "len", "if"])
        if word == "len":
            return ["len", self.of("str", fields, depth)]
        if word == "if":
            return self.choice("long", fields, depth)
        return [word, self.of("long", fields, depth), self.of("long", fields, depth)]

    def bool(self, fields, depth):
        word = self.rng.choice(COMPARISONS * 2 + ["and", "or", "not", "if"])
        if word == "not":
            return ["not", self.of("bool", fields, depth)]
        if word == "if":
            return self.choice("bool", fields, depth)
        kind = "bool" if word in ("and", "or") else self.rng.choice(["long", "bool", "str"])
        return [word, self.of(kind, fields, depth), self.of(kind, fields, depth)]

    def str(self, fields, depth):
        word = self.rng.choice(["cat", "cut", "if"])
        if word == "cut":
            return ["cut", self.of("str", fields, depth), self.rng.randrange(12)]
        if word == "if":
            return self.choice("str", fields, depth)
        return [word, self.of("str", fields, depth), self.of("str", fields, depth)]

    def choice(self, kind, fields, depth):
        return ["if", self.of("bool", fields, depth),
                self.of(kind, fields, depth), self.of(kind, fields, depth)]

    def fitting(self, field_type, fields):
        """An expression whose type fits a field's."""
        kind = kind_of(field_type)
        expr = self.of(kind, fields, 1)
        return ["cut", expr, plans.bound_of(field_type)] if kind == "str" else expr

    def columns(self, fields):
        kinds = self.rng.choices(["long", "bool", "str"], [4, 1, 3], k=self.rng.randint(1, 4))
        columns = [self.of(kind, fields) for kind in kinds]
        for i, column in enumerate(columns):
            if kinds[i] == "str":
                columns[i] = ["cut", column, 20]
        return columns


class Names:
    """The names that can be seen, each with its schema and the most rows that it may have."""

    def __init__(self, outer=None):
        self.seen = dict(outer.seen) if outer else {}

    def add(self, name, schema, rows):
        self.seen[name] = (schema, rows)

    def schema(self, name):
        return self.seen[name][0]

    def rows(self, name):
        return self.seen[name][1]


class Maker:
    """Makes one plan."""

    def __init__(self, rng, ops):
        self.rng, self.ops, self.count = rng, set(ops), 0
        self.exprs = Exprs(rng)

    def new_name(self):
        self.count += 1
        return f"n{self.count}"

    # ---- members

    def key(self, fields, least, most=3):
        count = self.rng.randint(least, max(least, min(most, len(fields))))
        return self.rng.sample(range(len(fields)), min(count, len(fields)))

    def order(self, fields):
        items = self.rng.randint(0, min(2, len(fields)))
        return [[self.rng.randrange(len(fields)), self.rng.choice(["asc", "desc"])]
                for _ in range(items)]

    def folds(self, fields):
        longs = [i for i, f in enumerate(fields) if f == "long"]
        out = []
        for _ in range(self.rng.randint(0, 3)):
            word = self.rng.choice(["count", "sum", "min", "max"]) if longs else "count"
            fold = [word] if word == "count" else [word, self.rng.choice(longs)]
            if word in ("min", "max") and self.rng.random() < 0.3:
                fold.append(self.rng.choice(LONGS))
            out.append(fold)
        return out

    def two_keys(self, left, right):
        """Two keys of the same kinds, or None where the sides share none."""
        pairs = [(i, j) for i, a in enumerate(left) for j, b in enumerate(right)
                 if kind_of(a) == kind_of(b)]
        self.rng.shuffle(pairs)
        left_key, right_key = [], []
        for i, j in pairs:
            if len(left_key) < self.rng.randint(1, 2) and i not in left_key and j not in right_key:
                left_key.append(i)
                right_key.append(j)
        return (left_key, right_key) if left_key else None

    def literals(self, fields):
        out = []
        for field in fields:
            value = self.exprs.literal(kind_of(field))
            out.append(cut_to(value, plans.bound_of(field)) if isinstance(value, str) else value)
        return out

    # ---- nodes: each gives its members and the most rows that it may have, or None

    def any_name(self, names):
        return self.rng.choice(list(names.seen))

    def by_row(self, op, names):
        source = self.any_name(names)
        fields, rows = names.seen[source]
        if op == "filter":
            return {"input": source, "test": self.test(fields)}, rows
        if op == "map":
            return {"input": source, "columns": self.exprs.columns(fields)}, rows
        kinds = [plans.expr_type(c, fields) for c in self.exprs.columns(fields)]
        branches = [{"when": self.exprs.of("bool", fields),
                     "columns": [self.exprs.fitting(kind, fields) for kind in kinds]}
                    for _ in range(self.rng.randint(1, 3))]
        return {"input": source, "rows": branches}, rows * len(branches)

    def test(self, fields):
        """A bool; half of them are of two parts, so that not too many rows are lost."""
        test = self.exprs.of("bool", fields, 3)
        return ["or", test, self.exprs.of("bool", fields)] if self.rng.random() < 0.5 else test

    def union(self, op, names):
        first = self.any_name(names)
        kinds = list(map(kind_of, names.schema(first)))
        alike = [n for n in names.seen if list(map(kind_of, names.schema(n))) == kinds]
        inputs = [first] + [self.rng.choice(alike) for _ in range(self.rng.randint(1, 3))]
        return {"inputs": inputs}, sum(map(names.rows, inputs))

    def keyed(self, op, names):
        source = self.any_name(names)
        fields, rows = names.seen[source]
        if op == "distinct":
            return {"input": source}, rows
        node = {"input": source, "key": self.key(fields, 0)}
        if op == "top":
            node.update(order=self.order(fields), count=self.rng.randint(1, 4))
            return node, rows
        node["aggs"] = self.folds(fields)
        if not node["key"] and not node["aggs"]:
            node["aggs"] = [["count"]]
        return node, rows

    def two_sides(self, op, names):
        left, right = self.any_name(names), self.any_name(names)
        keys = self.two_keys(names.schema(left), names.schema(right))
        if keys is None:
            return None
        node = {"left": left, "right": right, "left_key": keys[0], "right_key": keys[1]}
        if op == "cogroup":
            node["left_aggs"] = self.folds(names.schema(left))
            node["right_aggs"] = self.folds(names.schema(right))
            return node, names.rows(left) + names.rows(right)
        node["columns"] = self.exprs.columns(names.schema(left) + names.schema(right))
        node["kind"] = self.rng.choice(["inner", "left", "right", "full"])
        if node["kind"] in ("right", "full"):
            node["left_default"] = self.literals(names.schema(left))
        if node["kind"] in ("left", "full"):
            node["right_default"] = self.literals(names.schema(right))
        return node, names.rows(left) * names.rows(right) + names.rows(left) + names.rows(right)

    def node(self, op, names, solution=None):
        """A node of an op that sees these names, or None where none was found."""
        if op == "probe":
            source = self.any_name(names)
            both = names.schema(source) + solution["schema"]
            made = ({"input": source, "columns": self.exprs.columns(both)}, names.rows(source))
            keys = [i for i, f in enumerate(names.schema(source))]
            fit = [next((i for i in keys if kind_of(names.schema(source)[i]) == kind), None)
                   for kind in solution["kinds"]]
            if None in fit or len(set(fit)) < len(fit):
                return None
            made[0]["key"] = fit
        elif op in ("map", "filter", "flat_map"):
            made = self.by_row(op, names)
        elif op in KEYED:
            made = self.keyed(op, names)
        else:
            made = self.union(op, names) if op == "union" else self.two_sides(op, names)
        if made is None or made[1] > MOST_ROWS:
            return None
        node = {"name": self.new_name(), "op": op, **made[0]}
        schema = plans.node_schema(node, {n: names.schema(n) for n in names.seen},
                                   solution and solution["schema"])
        names.add(node["name"], schema, made[1])
        return node

    # ---- iterations

    def body(self, names, solution=None):
        """Some nodes of a body; which ops may stand there goes by the ops that are served."""
        ops = sorted(self.ops - {"source", "bulk", "delta", "probe"})
        if solution and "probe" in self.ops:
            ops += ["probe"] * 4
        out = []
        for _ in range(self.rng.randint(0, 4) if ops else 0):
            node = self.node(self.rng.choice(ops), names, solution)
            if node:
                out.append(node)
        return out

    def fitted(self, body, names, bind, schema):
        """The name of a node at the body's end whose rows fit a schema and aren't many."""
        if "map" not in self.ops:
            return bind if "filter" not in self.ops else self.some_of(body, names, bind)
        source = self.any_name(names) if "top" in self.ops else bind
        if names.rows(source) > names.rows(bind) and source != bind:
            name = self.new_name()
            body.append({"name": name, "op": "top", "input": source, "key": [], "order": [],
                         "count": self.rng.randint(1, 10)})
            names.add(name, names.schema(source), 10)
            source = name
        name = self.new_name()
        columns = [self.exprs.fitting(field, names.schema(source)) for field in schema]
        body.append({"name": name, "op": "map", "input": source, "columns": columns})
        names.add(name, schema, names.rows(source))
        return name

    def some_of(self, body, names, bind):
        """Some of the rows of the bind name."""
        name = self.new_name()
        body.append({"name": name, "op": "filter", "input": bind,
                     "test": self.exprs.of("bool", names.schema(bind))})
        names.add(name, names.schema(bind), names.rows(bind))
        return name

    def bulk(self, names):
        init, name, bind = self.any_name(names), self.new_name(), self.new_name()
        schema, rows = names.seen[init]
        inside = Names(names)
        inside.add(bind, schema, rows)
        body = self.body(inside)
        node = {"name": name, "op": "bulk", "init": init, "bind": bind,
                "max": self.rng.randint(1, 4), "body": body,
                "next": self.fitted(body, inside, bind, schema)}
        if self.rng.random() < 0.5:
            node["until"] = self.any_name(inside)
        names.add(name, schema, rows + 10)
        return node

    def delta(self, names):
        solution, workset = self.any_name(names), self.any_name(names)
        name, bind = self.new_name(), self.new_name()
        schema = names.schema(solution)
        key = self.key(schema, 1, 2)
        held = {"schema": schema, "kinds": [kind_of(schema[i]) for i in key]}
        inside = Names(names)
        inside.add(bind, *names.seen[workset])
        body = self.body(inside, held)
        if "map" not in self.ops and names.schema(workset) != schema:
            return None
        node = {"name": name, "op": "delta", "solution": solution, "workset": workset,
                "bind": bind, "key": key, "order": self.order(schema),
                "merge": self.rng.choice(["replace", "greatest"]), "max": self.rng.randint(1, 4),
                "body": body, "delta": self.fitted(body, inside, bind, schema),
                "next": self.fitted(body, inside, bind, names.schema(workset))}
        names.add(name, schema, names.rows(solution) + 4 * names.rows(workset) + 40)
        return node

    # ---- the plan and its inputs

    def source(self):
        kinds = self.rng.choices(["long", "bool", "str"], [4, 1, 3], k=self.rng.randint(1, 4))
        fields = [f"str:{self.rng.choice([1, 3, 8, 20])}" if k == "str" else k for k in kinds]
        node = {"name": self.new_name(), "op": "source", "fields": fields}
        if self.rng.random() < 0.3:
            node["delimiter"] = self.rng.choice([";", "|", "\t"])
        return node

    def plan(self):
        names, nodes = Names(), []
        for _ in range(self.rng.randint(1, 3)):
            nodes.append(self.source())
            names.add(nodes[-1]["name"], nodes[-1]["fields"], 40)
        ops = sorted(self.ops - {"source", "probe"})
        for _ in range(self.rng.randint(1, 6) if ops else 0):
            op = self.rng.choice(ops)
            make = {"bulk": self.bulk, "delta": self.delta}.get(op)
            node = make(names) if make else self.node(op, names)
            if node:
                nodes.append(node)
        result = self.rng.choice([nodes[-1]["name"]] * 3 + [node["name"] for node in nodes])
        plan = {"version": 1, "nodes": nodes, "result": result}
        if self.rng.random() < 0.7:
            plan["segment"] = self.rng.choice([4096, 8192, 16384, 32768])
        return plan


def value_of(rng, field, delimiter):
    kind = kind_of(field)
    if kind == "long":
        return str(rng.choice(LONGS) if rng.random() < 0.6 else rng.randint(-50, 50))
    if kind == "bool":
        return rng.choice(["true", "false"])
    return cut_to(rng.choice(TEXTS).replace(delimiter, "_"), plans.bound_of(field))


def lines_of(rng, source):
    """A source's input, of the form that is served: no line is empty."""
    delimiter, out = source.get("delimiter", ","), []
    for _ in range(rng.choice([0, 1, 3, 8, 20, 40, 40])):
        line = delimiter.join(value_of(rng, f, delimiter) for f in source["fields"])
        out.append((line or "a") + "\n")
    return "".join(out)


def case_of(seed, ops):
    """The plan of a seed, and the input of each of its sources."""
    rng = random.Random(seed)
    plan = Maker(rng, ops).plan()
    inputs = {node["name"]: lines_of(rng, node) for node in plan["nodes"]
              if node["op"] == "source"}
    return plan, inputs
