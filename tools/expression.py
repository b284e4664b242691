"""Expressions and predicates of a topology: what is wrong with one, and what it can give."""

from finding import as_text, bad_number, bad_shape, close_to, kind_of, listed, too_many

DEEPEST = 16
PAIRS = ("add", "sub", "mul")
PREDICATES = ("has", "eq", "lt", "not", "and", "or")
# What people write for what there isn't.
NO_SUCH = {
    "gt": 'a > b is {"lt":[b,a]}', "ge": 'a >= b is {"not":{"lt":[a,b]}}', "gte": 'a >= b is {"not":{"lt":[a,b]}}',
    "le": 'a <= b is {"not":{"lt":[b,a]}}', "lte": 'a <= b is {"not":{"lt":[b,a]}}', "ne": 'a != b is {"not":{"eq":[a,b]}}',
    "neq": 'a != b is {"not":{"eq":[a,b]}}', "div": "there is no division", "exists": 'write {"has":E}', "in": 'write {"or":[{"eq":..},..]}',
}


class TreeFault:
    """What is wrong at a value of a tree. `rank` orders faults of one tree: 0 shape, 1 number, 2 depth."""

    def __init__(self, rank, value, path, why, todo, shown=True):
        self.rank, self.value, self.path, self.why, self.todo = rank, value, path, why, todo
        self.shown = value if shown else None

    def fault(self, member):
        return (bad_shape(member), bad_number(member), too_many("depth", DEEPEST))[self.rank]


class _Tree:
    """Walks one tree; `sides` where its fields are of the two sides of a join."""

    def __init__(self, sides):
        self.sides, self.faults = sides, []
        self.fields = ("left", "right") if sides else ("field",)

    def wrong(self, value, path, why, todo):
        self.faults.append(TreeFault(0, value, path, why, todo))
        return 1

    def expression(self, value, path):
        """The depth of an expression, whose faults are noted."""
        forms = f"an expression is one of {listed('{' + as_text(each) + ':..}' for each in (*self.fields, 'int', 'text', *PAIRS))}"
        member = self.only_member(value, path, forms)
        if member is None:
            return 1
        name, inner = member
        path = f"{path}.{name}"
        if name in PAIRS:
            return self.pair(inner, path, self.expression)
        if name in ("int", "text", *self.fields):
            self.leaf(name, inner, path)
            return 1
        if name in ("field", "left", "right"):
            todo = f"a {'join' if self.sides else 'filter or map_values'} names fields by {' or '.join(self.fields)}"
        else:
            todo = self.meant(name, (*self.fields, "int", "text", *PAIRS), forms)
        return self.wrong(value, path, f"there is no expression {as_text(name)} here", todo)

    def meant(self, name, known, forms):
        if name in NO_SUCH:
            return NO_SUCH[name]
        near = close_to(name, known)
        return f"is {near} meant? {forms}" if near else forms

    def only_member(self, value, path, forms):
        """Name and value of an object's one member; None after a fault."""
        if value.kind in ("number", "text", "truth", "null", "array"):
            todo = forms
            if value.is_integer:
                todo = f"write the constant as {{\"int\":{value.value}}}"
            elif value.kind == "text":
                todo = f"write the constant as {{\"text\":..}}, or a field as {{{as_text(self.fields[0])}:..}}"
            self.wrong(value, path, f"it has to be an object with one member, not {kind_of(value)}", todo)
            return None
        if len(value.last()) != 1:
            self.wrong(value, path, f"it has to have one member, not {len(value.last())}", forms)
            return None
        [member] = value.last().items()
        return member

    def leaf(self, name, value, path):
        if name == "int":
            if value.kind != "number":
                self.wrong(value, path, f"it has to be a number, not {kind_of(value)}", 'write {"int":5}, or a text as {"text":"a"}')
            elif not value.is_integer:
                todo = "take a whole number; count cents, grams, pieces"
                self.faults.append(TreeFault(1, value, path, "it has to be a whole number of 64 bits, written without point and exponent", todo))
        elif value.kind != "text":
            what = "a text" if name == "text" else "the name of a field"
            self.wrong(value, path, f"it has to be {what}, not {kind_of(value)}", f'write {{"{name}":"..."}}')
        elif name != "text" and not 1 <= len(value.value.encode()) <= 64:
            self.wrong(value, path, "a field's name has 1 to 64 bytes", "name a field of the row")

    def pair(self, value, path, read):
        """Depth of two trees under a form."""
        if value.kind != "array" or len(value.items) != 2:
            found = kind_of(value) if value.kind != "array" else f"an array of {len(value.items)}"
            self.wrong(value, path, f"it has to be an array of two, not {found}", "write [A,B]; nest the form for more than two")
            return 2
        return 1 + max(read(each, f"{path}[{at}]") for at, each in enumerate(value.items))

    def predicate(self, value, path):
        forms = f"a predicate is one of {listed('{' + as_text(each) + ':..}' for each in PREDICATES)}"
        member = self.only_member(value, path, forms)
        if member is None:
            return 1
        name, inner = member
        path = f"{path}.{name}"
        if name == "has":
            return 1 + self.expression(inner, path)
        if name == "not":
            return 1 + self.predicate(inner, path)
        if name in ("eq", "lt"):
            return self.pair(inner, path, self.expression)
        if name in ("and", "or"):
            return self.pair(inner, path, self.predicate)
        todo = 'compare it: {"eq":[{"field":"state"},{"text":"paid"}]}' if name == "field" else self.meant(name, PREDICATES, forms)
        return self.wrong(value, path, f"there is no predicate {as_text(name)}", todo)


def _ranked(tree, depth, value):
    if depth > DEEPEST:
        todo = "split it over two nodes"
        tree.faults.append(TreeFault(2, value, "", f"it has {depth} levels, more than {DEEPEST}", todo, shown=False))
    return sorted(tree.faults, key=lambda fault: fault.rank)


def expression_faults(value, sides):
    """All that is wrong with an expression, as the program ranks it."""
    tree = _Tree(sides)
    return _ranked(tree, tree.expression(value, ""), value)


def predicate_faults(value):
    tree = _Tree(False)
    return _ranked(tree, tree.predicate(value, ""), value)
