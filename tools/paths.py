"""Reads location paths and finds what they mean on a tree of tools/replay, as docs/PROFILE.md, "Paths", tells.

It shares no line with the program. For others: `read`, `found`, `text_of`, `random_path`.
"""

import re

MOST_NESTED, MOST_DIGITS, GREATEST = 50, 18, 999_999_999_999_999_999


class Refusal(Exception):
    """Why a text is no path, and the token's place in bytes: `Syntax 3`, `Unsupported 9 axis`, `Deep 101`."""


# ---- tokens

START = ("A-Z_a-z\u00c0-\u00d6\u00d8-\u00f6\u00f8-\u02ff\u0370-\u037d\u037f-\u1fff\u200c-\u200d\u2070-\u218f\u2c00-\u2fef"
         "\u3001-\ud7ff\uf900-\ufdcf\ufdf0-\ufffd\U00010000-\U000effff")
RUN = "[%s][%s.0-9\u00b7\u0300-\u036f\u203f-\u2040-]*" % (START, START)
TOKEN = re.compile(
    r"(?P<prefix>{run}:\*)|(?P<name>{run}(?::{run})?)|(?P<variable>\${run}(?::{run})?)"
    r"|(?P<fraction>[0-9]+\.[0-9]*|\.[0-9]+)|(?P<number>[0-9]+)|(?P<literal>'[^']*'|\"[^\"]*\")"
    r"|(?P<sign>//|::|\.\.|!=|<=|>=|[/.@*()\[\],=<>+|-])".format(run=RUN))
SPACE = re.compile("[ \t\r\n]*")


def tokens_of(text):
    """Each token's kind, text and place; behind them the end, or what is no token."""
    tokens, at = [], 0
    while True:
        at = SPACE.match(text, at).end()
        place = len(text[:at].encode())
        found = TOKEN.match(text, at)
        if not found:
            return tokens + [("end" if at == len(text) else "none", "", place)]
        tokens.append((found.lastgroup, found[0], place))
        at = found.end()


# ---- the grammar

AXES = ("child descendant parent ancestor following-sibling preceding-sibling following preceding attribute self "
        "descendant-or-self ancestor-or-self").split()
# How many arguments at least and at most; whether they are node sets.
FUNCTIONS = {
    "position": (0, 0, False), "last": (0, 0, False), "count": (1, 1, True), "sum": (1, 1, True), "name": (0, 1, True),
    "string": (0, 1, False), "concat": (2, None, False), "starts-with": (2, 2, False), "contains": (2, 2, False),
    "substring-before": (2, 2, False), "substring-after": (2, 2, False), "substring": (2, 3, False), "string-length": (0, 1, False),
    "normalize-space": (0, 1, False), "boolean": (1, 1, False), "not": (1, 1, False), "true": (0, 0, False), "false": (0, 0, False),
    "number": (0, 1, False),
}
LEVELS = [["or"], ["and"], ["=", "!="], ["<", "<=", ">", ">="], ["+", "-"], ["*"]]
OPERATORS = sum(LEVELS, [])
FOREIGN = ["|", "div", "mod"]
BELOW = ("descendant-or-self", "node()", [])


class Reader:
    def __init__(self, text):
        self.tokens, self.nested = tokens_of(text), 0

    def sees(self, *signs):
        kind, text, _ = self.tokens[0]
        return kind in ("sign", "name") and text in signs

    def kind(self):
        return self.tokens[0][0]

    def take(self):
        return self.tokens.pop(0)[1]

    def refuse(self, what=None):
        place = self.tokens[0][2]
        raise Refusal("Unsupported %d %s" % (place, what) if what else "Syntax %d" % place)

    def close(self, sign):
        if not self.sees(sign):
            self.refuse("operator" if self.sees(*FOREIGN) else None)
        self.take()

    def opens(self):
        """Takes the token that opens a nested part."""
        if self.nested == MOST_NESTED:
            raise Refusal("Deep %d" % self.tokens[0][2])
        self.nested += 1
        self.take()

    # ---- paths

    def whole(self):
        path = self.lone_path("expression")
        if self.kind() != "end":
            self.refuse("expression" if self.sees(*FOREIGN, *OPERATORS) else None)
        return path

    def lone_path(self, what):
        """A path where no other expression may stand."""
        if self.kind() in ("number", "fraction", "literal", "variable") or self.sees("(", "-"):
            self.refuse(what)
        return self.path(what)

    def path(self, call=None):
        if self.sees("//"):
            self.take()
            return True, self.steps([BELOW, self.step()])
        if not self.sees("/"):
            return False, self.steps([self.step(call)])
        self.take()
        if self.kind() in ("name", "prefix") or self.sees(".", "..", "@", "*"):
            return True, self.steps([self.step()])
        return True, []

    def steps(self, found):
        while self.sees("/", "//"):
            found += [BELOW] if self.take() == "//" else []
            found.append(self.step())
        return found

    def step(self, call=None):
        if self.kind() == "sign" and self.sees(".", ".."):
            return {".": "self", "..": "parent"}[self.take()], "node()", []
        if self.sees("@"):
            self.take()
            return self.step_along("attribute")
        if self.kind() == "name":
            return self.named_step(self.take(), call)
        return self.step_along("child")

    def named_step(self, name, call=None):
        if not self.sees("::"):
            return "child", self.named_test(name, call), self.predicates()
        if name not in AXES:
            self.refuse("axis" if name == "namespace" else None)
        self.take()
        return self.step_along(name)

    def step_along(self, axis):
        if self.kind() == "prefix":
            self.refuse("prefix")
        if self.sees("*") and self.kind() == "sign":
            test = self.take()
        elif self.kind() == "name":
            test = self.named_test(self.take())
        else:
            self.refuse()
        return axis, test, self.predicates()

    def named_test(self, name, call=None):
        if not self.sees("("):
            return (name,)
        if name in ("comment", "processing-instruction"):
            self.refuse("node test")
        if name not in ("text", "node"):
            self.refuse(call)
        self.take()
        if not self.sees(")"):
            self.refuse()
        self.take()
        return name + "()"

    def predicates(self):
        found = []
        while self.sees("["):
            self.opens()
            found.append(self.expression())
            self.close("]")
            self.nested -= 1
        return found

    # ---- expressions

    def expression(self, level=0):
        if level == len(LEVELS):
            return self.unary()
        left = self.expression(level + 1)
        while self.sees(*LEVELS[level]):
            operator = self.take()
            left = ("binary", operator, left, self.expression(level + 1))
        return left

    def unary(self):
        if not self.sees("-"):
            return self.operand()
        self.opens()
        inner = self.unary()
        self.nested -= 1
        return "negate", inner

    def operand(self):
        kind = self.kind()
        if kind in ("fraction", "variable"):
            self.refuse(kind)
        if kind == "number":
            if len(self.tokens[0][1]) > MOST_DIGITS:
                self.refuse("number")
            return self.unfiltered(("number", int(self.take())))
        if kind == "literal":
            return self.unfiltered(("literal", self.take()[1:-1]))
        if self.sees("("):
            self.opens()
            inner = self.expression()
            self.close(")")
            self.nested -= 1
            return self.unfiltered(inner)
        if kind == "name":
            return self.named_operand(self.take())
        return ("path",) + self.path()

    def unfiltered(self, expression):
        if self.sees("[", "/", "//"):
            self.refuse("filter")
        return expression

    def named_operand(self, name):
        if self.sees("(") and name not in ("text", "node", "comment", "processing-instruction"):
            return self.call(name)
        return "path", False, self.steps([self.named_step(name)])

    def call(self, name):
        if name not in FUNCTIONS:
            self.refuse("function")
        least, most, are_nodes = FUNCTIONS[name]
        self.opens()
        found = []
        if self.sees(")") and least == 0:
            self.take()
        else:
            if most == 0:
                self.refuse()
            found = self.arguments(least, most, are_nodes)
        self.nested -= 1
        return self.unfiltered(("call", name, found))

    def arguments(self, least, most, are_nodes):
        found = []
        while True:
            found.append(self.argument_path() if are_nodes else self.expression())
            if self.sees(")") and len(found) >= least:
                self.take()
                return found
            if not (self.sees(",") and (most is None or len(found) < most)):
                self.refuse("operator" if self.sees(*FOREIGN) else None)
            self.take()

    def argument_path(self):
        path = self.lone_path("argument")
        if self.sees(*FOREIGN):
            self.refuse("operator")
        if self.sees(*OPERATORS):
            self.refuse("argument")
        return ("path",) + path


def read(text):
    """Whether a path is absolute, and its steps: each an axis, a test (a name as a tuple) and predicates."""
    return Reader(text).whole()


# ---- positions: a node, or a node and the name of one of its attributes


def key_of(position):
    node, name = position
    return node.label, (name or "").encode()


def in_order(positions):
    return [position for _, position in sorted({key_of(position): position for position in positions}.items(), key=lambda pair: pair[0])]


def text_of(position):
    """`1.1001.1003`, and of an attribute `1.1001.1003/@k`."""
    node, name = position
    return ".".join(map(str, node.label)) + ("" if name is None else "/@" + name)


class Tree:
    """A document's tree, with a list of what was looked at, in the order of the first looks: `at node 1.1001`, `at row 1.1001` .."""

    def __init__(self, document):
        self.document, self.looks, self.looked, self.parents = document, [], set(), {}
        for node in document.all():
            self.parents.update((child.label, node) for child in node.children)

    def look(self, *what):
        if what not in self.looked:
            self.looked.add(what)
            self.looks.append(what)

    def around(self, node):
        """The ancestors of a node, its parent first."""
        found = []
        while node.label in self.parents:
            node = self.parents[node.label]
            found.append(node)
        return found

    def ancestors(self, position):
        node, name = position
        found = self.around(node) if name is None else [node] + self.around(node)
        for ancestor in found:
            self.look("node", ancestor.label)
        return [(ancestor, None) for ancestor in found]

    def parent(self, position):
        node, name = position
        found = [node] if name is not None else self.around(node)[:1]
        for parent in found:
            self.look("node", parent.label)
        return [(parent, None) for parent in found]

    def children(self, position):
        node, name = position
        if name is not None:
            return []
        self.look("row", node.label)
        return [(child, None) for child in node.children]

    def descendants(self, position):
        node, name = position
        if name is not None:
            return []
        self.look("tree", node.label)
        return [(below, None) for below in node.all()][1:]

    def siblings(self, position):
        """The children of the parent, with the node's own place among them."""
        node, name = position
        if name is not None or node.kind == "document":
            return [], 0
        parent = self.parents[node.label]
        self.look("row", parent.label)
        return [(child, None) for child in parent.children], parent.children.index(node)

    def attributes(self, position, test):
        node, name = position
        if name is not None or node.kind != "element":
            return []
        if isinstance(test, tuple):
            self.look("attribute", node.label, test[0])
            return [(node, test[0])] if test[0] in node.attributes else []
        self.look("attributes", node.label)
        return [(node, key) for key in sorted(node.attributes, key=str.encode)]

    def whole(self):
        self.look("tree", self.document.label)
        return [(node, None) for node in self.document.all()]

    def following(self, position):
        node, name = position
        under = {below.label for below in node.all()}
        return [other for other in self.whole()
                if other[0].label > node.label and (name is not None or other[0].label not in under)]

    def preceding(self, position):
        node, _ = position
        above = {ancestor.label for ancestor in self.around(node)}
        return [other for other in self.whole() if other[0].label < node.label and other[0].label not in above][::-1]

    def axis(self, axis, test, position):
        """The positions on an axis, as it counts them."""
        if axis in ("following-sibling", "preceding-sibling"):
            row, place = self.siblings(position)
            return row[place + 1:] if axis == "following-sibling" else row[:place][::-1]
        if axis == "attribute":
            return self.attributes(position, test)
        if axis == "self":
            return [position]
        if axis.endswith("-or-self"):
            return [position] + {"descendant": self.descendants, "ancestor": self.ancestors}[axis[:-8]](position)
        return {"child": self.children, "descendant": self.descendants, "parent": self.parent, "ancestor": self.ancestors,
                "following": self.following, "preceding": self.preceding}[axis](position)

    def string(self, position):
        node, name = position
        if name is not None:
            return node.attributes[name]
        if node.kind == "text":
            return node.value
        self.look("tree", node.label)
        return "".join(below.value for below in node.all() if below.kind == "text")


def passes(axis, test, position):
    node, name = position
    if isinstance(test, tuple):
        return name == test[0] if name is not None else axis != "attribute" and node.kind == "element" and node.value == test[0]
    if test == "*":
        return name is not None if axis == "attribute" else name is None and node.kind == "element"
    return test == "node()" or name is None and node.kind == "text"


# ---- values: a list of positions, a number, None for not-a-number, a text, or a boolean


def number_in_text(text):
    found = re.fullmatch("[ \t\r\n]*(-?[0-9]{1,%d})[ \t\r\n]*" % MOST_DIGITS, text, re.ASCII)
    return int(found[1]) if found else None


def is_number(value):
    return value is None or type(value) is int


def in_range(number):
    return number if -GREATEST <= number <= GREATEST else None


def as_boolean(value):
    return bool(value)


def as_number(value):
    return value if is_number(value) else int(value) if isinstance(value, bool) else number_in_text(value)


def as_text(value):
    if isinstance(value, bool):
        return "true" if value else "false"
    return value if isinstance(value, str) else "NaN" if value is None else str(value)


ORDERS = {
    "=": lambda a, b: a == b, "!=": lambda a, b: a != b,
    "<": lambda a, b: a < b, "<=": lambda a, b: a <= b, ">": lambda a, b: a > b, ">=": lambda a, b: a >= b,
}


def compared(operator, a, b):
    """Two values without node sets."""
    if operator in ("=", "!="):
        if isinstance(a, bool) or isinstance(b, bool):
            return ORDERS[operator](as_boolean(a), as_boolean(b))
        if not is_number(a) and not is_number(b):
            return ORDERS[operator](a, b)
    a, b = as_number(a), as_number(b)
    return operator == "!=" if a is None or b is None else ORDERS[operator](a, b)


class Evaluation:
    def __init__(self, tree):
        self.tree = tree

    def path(self, absolute, steps, position):
        at = [position]
        if absolute:
            self.tree.look("node", self.tree.document.label)
            at = [(self.tree.document, None)]
        for axis, test, predicates in steps:
            found = []
            for position in at:
                row = [p for p in self.tree.axis(axis, test, position) if passes(axis, test, p)]
                for predicate in predicates:
                    row = self.kept(predicate, row)
                found += row
            at = in_order(found)
        return at

    def kept(self, predicate, row):
        found = []
        for place, position in enumerate(row, 1):
            value = self.value(predicate, position, place, len(row))
            if value == place if is_number(value) else as_boolean(value):
                found.append(position)
        return found

    # A node set's string-values, those of one side after the other's.

    def strings(self, value):
        return [self.tree.string(position) for position in value] if isinstance(value, list) else value

    def first(self, value):
        """With the string-value of a node set's first node in its place."""
        return (self.tree.string(value[0]) if value else "") if isinstance(value, list) else value

    def number(self, value):
        return as_number(self.first(value))

    def text(self, value):
        return as_text(self.first(value))

    def compare(self, operator, a, b):
        sets = isinstance(a, list), isinstance(b, list)
        if not any(sets):
            return compared(operator, a, b)
        if isinstance(a, bool) or isinstance(b, bool):
            return compared(operator, as_boolean(a), as_boolean(b))
        a, b = self.strings(a), self.strings(b)
        lefts, rights = (a if sets[0] else [a]), (b if sets[1] else [b])
        return any(compared(operator, left, right) for left in lefts for right in rights)

    def value(self, expression, position, place, size):
        kind = expression[0]
        if kind == "path":
            return self.path(expression[1], expression[2], position)
        if kind in ("number", "literal"):
            return expression[1]
        if kind == "negate":
            number = self.number(self.value(expression[1], position, place, size))
            return None if number is None else -number
        if kind == "call":
            return self.call(expression[1], expression[2], position, place, size)
        _, operator, left, right = expression
        a = self.value(left, position, place, size)
        if operator in ("and", "or"):
            if as_boolean(a) == (operator == "or"):
                return operator == "or"
            return as_boolean(self.value(right, position, place, size))
        b = self.value(right, position, place, size)
        if operator not in ("+", "-", "*"):
            return self.compare(operator, a, b)
        a, b = self.number(a), self.number(b)
        if a is None or b is None:
            return None
        return in_range(a + b if operator == "+" else a - b if operator == "-" else a * b)

    def call(self, name, arguments, position, place, size):
        values = [self.value(argument, position, place, size) for argument in arguments]
        if name in ("position", "last"):
            return place if name == "position" else size
        if name in ("true", "false"):
            return name == "true"
        if name == "count":
            return len(values[0])
        if name == "sum":
            return self.sum(values[0])
        if name == "name":
            return name_of(values[0] if values else [position])
        if name in ("boolean", "not"):
            return as_boolean(values[0]) == (name == "boolean")
        if name == "number":
            return self.number(values[0] if values else [position])
        if name == "substring":
            return self.substring(*values)
        texts = [self.text(value) for value in values or [[position]]]
        return TEXT_FUNCTIONS[name](*texts)

    def sum(self, positions):
        total = 0
        for text in self.strings(positions):
            number = number_in_text(text)
            total = None if total is None or number is None else in_range(total + number)
        return total

    def substring(self, text, start, count=False):
        text, start = self.text(text), self.number(start)
        if count is False:
            return "" if start is None else text[max(start - 1, 0):]
        count = self.number(count)
        if start is None or count is None:
            return ""
        return "".join(char for at, char in enumerate(text, 1) if start <= at < start + count)


def name_of(positions):
    if not positions:
        return ""
    node, name = positions[0]
    return name if name is not None else node.value if node.kind == "element" else ""


def before(text, part):
    return text[:text.find(part)] if part in text else ""


def after(text, part):
    return text[text.find(part) + len(part):] if part in text else ""


TEXT_FUNCTIONS = {
    "string": lambda text: text, "concat": lambda *texts: "".join(texts), "starts-with": str.startswith,
    "contains": lambda text, part: part in text, "substring-before": before, "substring-after": after,
    "string-length": len, "normalize-space": lambda text: " ".join(part for part in re.split("[ \t\r\n]+", text) if part),
}


def found(document, path, position):
    """The positions that a path, as `read` answers it, finds from one of a document's; and what was looked at."""
    tree = Tree(document)
    return Evaluation(tree).path(*path, position), tree.looks


# ---- random paths

NAMES = ["a", "b", "c", "k", "book", "price", "and", "div", "text", "a:b", "é", "position"]


def random_test(source):
    return source.choice(["*", "node()", "text()"] + 2 * NAMES[:4] + [source.choice(NAMES)])


def random_step(source, depth):
    chance = source.random()
    if chance < 0.15:
        return source.choice([".", ".."])
    if chance < 0.25:
        step = "@" + source.choice(["*", "node()", "a", "b", "text()"])
    else:
        step = random_test(source) if chance < 0.55 else source.choice(AXES) + "::" + random_test(source)
    while depth > 0 and source.random() < 0.35:
        step += "[%s]" % random_expression(source, depth - 1)
    return step


def random_path(source, depth=2):
    start = source.choice(["", "", "", "/", "//", ".//"])
    if start == "/" and source.random() < 0.2:
        return "/"
    steps = [random_step(source, depth) for _ in range(source.randint(1, 3))]
    return start + source.choice(["/", "/", "//"]).join(steps)


def random_call(source, depth):
    name = source.choice(list(FUNCTIONS))
    least, most, are_nodes = FUNCTIONS[name]
    count = source.randint(least, least + 2 if most is None else most)
    arguments = [random_path(source, depth) if are_nodes else random_expression(source, depth) for _ in range(count)]
    return "%s(%s)" % (name, ", ".join(arguments))


def random_operand(source, depth):
    text = random_expression(source, depth)
    # A lone / takes a following * or name for its step.
    return "(%s)" % text if text.endswith("/") or source.random() < 0.1 else text


def random_expression(source, depth):
    chance = source.random()
    if depth <= 0 or chance < 0.25:
        return source.choice(["0", "1", "2", "3", "10", "'t'", '"7"', "''", "'ab'", "position()", "last()", ".", "@a", random_path(source, 0)])
    if chance < 0.45:
        return random_path(source, depth - 1)
    if chance < 0.65:
        return random_call(source, depth - 1)
    if chance < 0.72:
        return "-" + random_operand(source, depth - 1)
    if chance < 0.78:
        return "(%s)" % random_expression(source, depth - 1)
    return "%s %s %s" % (random_operand(source, depth - 1), source.choice(OPERATORS), random_operand(source, depth - 1))
