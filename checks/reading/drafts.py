"""Trees to nodes: names and what is in sight, kinds, bounds, and named code written out where it is used."""

from . import code
from .code import Fault
from .slots import GREATEST, SMALLEST, Slot

UNKNOWN = (None, None)
MOST_VARS = 16
MOST_ORDER = 64
NULL = ["literal", None]
ZERO = ["literal", 0]
ONE = ["literal", 1]


class Sight:
    """What a piece of code sees."""

    def __init__(self, seat, hidden, context, work, events):
        self.seat, self.hidden, self.context, self.work, self.events = seat, hidden, context, work, events


SETUP = Sight(False, True, False, True, False)
WHEN = Sight(True, False, True, False, False)
MOVE = Sight(True, True, True, True, True)
HOOK = Sight(False, True, True, True, True)
END = Sight(False, True, True, False, False)


def known(a, b, combine):
    return None if a is None or b is None else combine(a, b)


def bounds_of(operator, a, b):
    """The bounds of what an operator makes of two numbers with these bounds."""
    (a_least, a_most), (b_least, b_most) = a, b
    if operator == "+":
        return known(a_least, b_least, int.__add__), known(a_most, b_most, int.__add__)
    if operator == "-":
        return known(a_least, b_most, int.__sub__), known(a_most, b_least, int.__sub__)
    if operator == "*":
        if None in (a_least, a_most, b_least, b_most):
            return UNKNOWN
        products = [x * y for x in a for y in b]
        return min(products), max(products)
    if operator == "/":
        return quotient(a_least, b), quotient(a_most, b)
    if operator == "%":
        return 0, None if b_most is None else max(b_most - 1, 0)
    if operator == "min":
        return tuple(min((end for end in ends if end is not None), default=None) for ends in zip(a, b))
    return known(a_least, b_least, max), known(a_most, b_most, max)


def quotient(number, divisor):
    """The end of a quotient that is farthest from 0: of a number from 0 on by the least divisor, and so of a negative one."""
    return None if number is None else number // max(divisor[0] or 1, 1)


def either(a, b):
    return known(a[0], b[0], min), known(a[1], b[1], max)


class Draft:
    """A node with its kind (number, text, condition or null) and bounds."""

    def __init__(self, node, kind, bounds=UNKNOWN):
        self.node, self.kind, self.bounds = node, kind, bounds

    def as_number(self):
        if self.kind not in ("number", "null"):
            raise Fault("wants-number")
        return self

    def as_condition(self):
        if self.kind != "condition":
            raise Fault("wants-condition")
        return self

    def as_value(self):
        """What a let holds: of a condition 1 or 0."""
        return ["choose", self.node, ONE, ZERO] if self.kind == "condition" else self.node

    def stored(self):
        """What is put into a slot."""
        if self.kind == "condition":
            raise Fault("wants-value")
        return self


def same_kind(one, other):
    if one.kind == "null" or one.kind == other.kind:
        return other.kind
    if other.kind != "null":
        raise Fault("kinds-differ")
    return one.kind


class Local:
    """A name for a value, by its place among the locals."""

    def __init__(self, place, kind, bounds=UNKNOWN):
        self.place, self.kind, self.bounds = place, kind, bounds


class Var:
    """A name for a slot of work of this piece."""

    def __init__(self, place, slot):
        self.place, self.slot = place, slot


class Drafter:
    """Drafts one piece of code of a description. Locals count from the outermost; `scope` maps names to them, and `depth` is how many there are."""

    def __init__(self, game, sight, arguments=()):
        self.game, self.sight = game, sight
        self.arguments = {argument.name: (place, argument) for place, argument in enumerate(arguments)}
        self.vars, self.work = [], {}
        self.inside = []
        self.hidden = self.writes = False

    # Pieces.

    def statements(self, tree):
        """A whole piece of statements, behind the slots of work that it uses."""
        block = self.block(tree, {}, 0)
        if len(self.vars) > MOST_VARS:
            raise Fault("too-many-vars")
        return [["var", place, ["literal", slot.start], slot.most or 0] for place, slot in self.work.values()] + block

    def condition(self, tree):
        return self.value(tree, {}, 0).as_condition().node

    def number(self, tree):
        return self.value(tree, {}, 0).as_number().node

    # Names.

    def bind(self, scope, name, meaning):
        """The scope with one more name, which means nothing else."""
        if name in scope or name in self.game.names or not self.inside and name in self.arguments:
            raise Fault("name-taken", name)
        return {**scope, name: meaning}

    def argument(self, name):
        return None if self.inside else self.arguments.get(name)

    def slot(self, tree, scope, depth):
        """What stands before the place of a slot, and the slot: `[part, name]`, or `[seat, name]` with a node."""
        form, name = tree[0], tree[1]
        if form == "name":
            return self.bare(name, scope)
        if form == "me":
            if not self.sight.seat:
                raise Fault("no-seat-here")
            return "seat", [["context", "seat"], name], self.of_part("players", name)
        if not self.sight.hidden:
            raise Fault("reads-hidden")
        self.hidden = True
        if form == "secret":
            return "", ["secret", name], self.of_part("secret", name)
        seat = self.value(tree[2], scope, depth).as_number()
        return "seat", [seat.node, name], self.of_part("players", name)

    def bare(self, name, scope):
        meaning = scope.get(name)
        if isinstance(meaning, Var):
            return "", ["work", meaning.place], meaning.slot
        if meaning or self.argument(name):
            raise Fault("not-a-list", name)
        if name in self.game.parts["common"]:
            return "", ["common", name], self.game.parts["common"][name]
        if name in self.game.parts["work"]:
            return "", ["work", self.work_place(name)], self.game.parts["work"][name]
        raise Fault("unknown-name", name)

    def work_place(self, name):
        if not self.sight.work:
            raise Fault("no-work-here")
        if name not in self.work:
            slot = self.game.parts["work"][name]
            self.work[name] = (len(self.vars), slot)
            self.vars.append(slot)
        return self.work[name][0]

    def of_part(self, part, name):
        if name not in self.game.parts[part]:
            raise Fault("unknown-name", name)
        return self.game.parts[part][name]

    def list(self, tree, scope, depth):
        """A list as a node, and what it holds."""
        if tree[0] == "order":
            self.want_context()
            return ["order"], Slot("number", 0, self.game.most - 1, most=MOST_ORDER)
        row = self.game.constants.get(tree[1]) if tree[0] == "name" and tree[1] not in scope else None
        if isinstance(row, list):
            return ["row", row], row_slot(row)
        form, place, slot = self.slot(tree, scope, depth)
        if slot.most is None:
            raise Fault("not-a-list")
        return [(form + " list").strip(), *place], slot

    def scalar(self, tree, scope, depth):
        """A slot that is one value."""
        form, place, slot = self.slot(tree, scope, depth)
        if slot.most is not None:
            raise Fault("list-needs-index")
        return Draft([(form + " slot").strip(), *place], slot.kind, slot.bounds())

    def want_context(self):
        if not self.sight.context:
            raise Fault("no-context-here")

    # Values.

    def value(self, tree, scope, depth):
        form = tree[0]
        method = getattr(self, f"value_{form}", None)
        if method:
            return method(tree, scope, depth)
        if form in ("me", "secret", "players"):
            return self.scalar(tree, scope, depth)
        return self.built(tree, scope, depth)

    def value_number(self, tree, _scope, _depth):
        if not SMALLEST <= tree[1] <= GREATEST:
            raise Fault("out-of-range")
        return Draft(["literal", tree[1]], "number", (tree[1], tree[1]))

    def value_text(self, tree, _scope, _depth):
        return Draft(["literal", tree[1]], "text")

    def value_null(self, _tree, _scope, _depth):
        return Draft(NULL, "null")

    def value_true(self, _tree, _scope, _depth):
        return Draft(["yes"], "condition")

    def value_false(self, _tree, _scope, _depth):
        return Draft(["not", ["yes"]], "condition")

    def value_order(self, _tree, _scope, _depth):
        raise Fault("list-needs-index")

    def value_negative(self, tree, scope, depth):
        draft = self.value(tree[1], scope, depth).as_number()
        return Draft(["-", ZERO, draft.node], "number", bounds_of("-", (0, 0), draft.bounds))

    def value_not(self, tree, scope, depth):
        return Draft(["not", self.value(tree[1], scope, depth).as_condition().node], "condition")

    def value_word(self, tree, _scope, _depth):
        word, most = tree[1], self.game.most
        if word == "seats":
            return Draft(["context", word], "number", (self.game.least, most))
        if word == "seat":
            if not self.sight.seat:
                raise Fault("no-seat-here")
            return Draft(["context", word], "number", (0, most - 1))
        self.want_context()
        return Draft(["context", word], "number", {"current": (0, most - 1), "pos": (0, MOST_ORDER - 1)}.get(word, UNKNOWN))

    def value_name(self, tree, scope, depth):
        name = tree[1]
        meaning = scope.get(name)
        if isinstance(meaning, Local):
            node = ["local", meaning.place]
            return Draft(["==", node, ONE], "condition") if meaning.kind == "condition" else Draft(node, meaning.kind, meaning.bounds)
        if not meaning and self.argument(name):
            place, argument = self.argument(name)
            return Draft(["argument", place], argument.kind, (argument.least, argument.greatest))
        if not meaning and name in self.game.constants:
            if isinstance(self.game.constants[name], list):
                raise Fault("list-needs-index")
            return self.value_number(("number", self.game.constants[name]), scope, depth)
        return self.scalar(tree, scope, depth)

    def value_choose(self, tree, scope, depth):
        test = self.value(tree[1], scope, depth).as_condition()
        one, other = self.value(tree[2], scope, depth), self.value(tree[3], scope, depth)
        return Draft(["choose", test.node, one.node, other.node], same_kind(one, other), either(one.bounds, other.bounds))

    def value_let(self, tree, scope, depth):
        value = self.value(tree[2], scope, depth)
        inner = self.bind(scope, tree[1], Local(depth, value.kind, value.bounds))
        rest = self.value(tree[3], inner, depth + 1)
        return Draft(["let", value.as_value(), rest.node], rest.kind, rest.bounds)

    def value_operate(self, tree, scope, depth):
        operator, one = tree[1], self.value(tree[2], scope, depth)
        if operator in ("==", "!=") and tree[2] == ("word", "phase") and tree[3][0] == "text":
            other = Draft(["literal", self.game.place_of("phase", tree[3][1])], "number")
        else:
            other = self.value(tree[3], scope, depth)
        if operator in ("&&", "||"):
            one.as_condition(), other.as_condition()
            return Draft([{"&&": "and", "||": "or"}[operator], one.node, other.node], "condition")
        if operator in ("==", "!="):
            same_kind(one.stored(), other.stored())
            node = ["==", one.node, other.node]
            return Draft(node if operator == "==" else ["not", node], "condition")
        return self.of_numbers(operator, one.as_number(), other.as_number())

    @staticmethod
    def of_numbers(operator, one, other):
        if operator in ("<", "<="):
            return Draft([operator, one.node, other.node], "condition")
        if operator in (">", ">="):
            return Draft([operator.replace(">", "<"), other.node, one.node], "condition")
        return Draft([operator, one.node, other.node], "number", bounds_of(operator, one.bounds, other.bounds))

    def value_item(self, tree, scope, depth):
        node, slot = self.list(tree[1], scope, depth)
        index = self.value(tree[2], scope, depth).as_number()
        return Draft(["item", node, index.node], slot.kind, slot.bounds())

    def value_at(self, tree, scope, depth):
        node, slot = self.list(tree[1], scope, depth)
        if slot.columns is None:
            raise Fault("not-a-grid")
        row, column = (self.value(end, scope, depth).as_number() for end in tree[2:])
        return Draft(["at", node, row.node, column.node, slot.columns], slot.kind, slot.bounds())

    def value_len(self, tree, scope, depth):
        node, slot = self.list(tree[1], scope, depth)
        return Draft(["len", node], "number", (0, slot.most))

    def value_find(self, tree, scope, depth):
        return self.sought("first", tree, scope, depth)

    def value_has(self, tree, scope, depth):
        return self.sought("any", tree, scope, depth)

    def sought(self, form, tree, scope, depth):
        value = self.value(tree[2], scope, depth)
        outer, slot = self.list(tree[1], scope, depth + 1)
        inner, _ = self.list(tree[1], scope, depth + 2)
        node = found_in(form, outer, inner, slot.most, value.as_value(), depth)
        return Draft(node, "condition") if form == "any" else Draft(node, "number", (0, slot.most))

    def built(self, tree, scope, depth):
        form, given = tree[0], [self.value(one, scope, depth) for one in tree[1:]]
        if form == "size":
            if given[0].kind not in ("text", "null"):
                raise Fault("wants-text")
            return Draft(["size", given[0].node], "number")
        given = [one.as_number() for one in given]
        if form == "abs":
            negative = bounds_of("-", (0, 0), given[0].bounds)
            body = ["max", ["local", depth], ["-", ZERO, ["local", depth]]]
            return Draft(["let", given[0].node, body], "number", bounds_of("max", given[0].bounds, negative))
        return self.of_numbers(form, *given)

    # What goes over rounds.

    def value_gather(self, tree, scope, depth):
        _, form, binders, body = tree
        if form == "best":
            return self.best(*binders[0], body, scope, depth)
        return self.gathered(form, binders, body, scope, depth)

    def gathered(self, form, binders, body, scope, depth):
        """The first binder of a form, with the others inside of it."""
        (name, over), *rest = binders

        def inner(scope, depth):
            return self.gathered(form, rest, body, scope, depth) if rest else self.value(body, scope, depth)

        if form == "all":
            found = self.rounds("any", name, over, scope, depth, lambda *at: inner(*at).as_condition(), lambda node: ["not", node])
            return Draft(["not", found.node], "condition")
        if form == "count" and not rest:
            return self.counted(name, over, scope, depth, inner)
        if form == "least":
            found = self.rounds("greatest", name, over, scope, depth, lambda *at: inner(*at).as_number(), lambda node: ["-", ZERO, node])
            return Draft(["-", ZERO, found.node], "number")
        if form in ("any", "first"):
            return self.rounds(form, name, over, scope, depth, lambda *at: inner(*at).as_condition())
        return self.rounds("sum" if form == "count" else form, name, over, scope, depth, lambda *at: inner(*at).as_number())

    def counted(self, name, over, scope, depth, inner):
        def test(*at):
            return Draft(inner(*at).as_condition().node, "condition", (0, 1))
        return self.rounds("sum", name, over, scope, depth, test, lambda node: ["choose", node, ONE, ZERO])

    def best(self, name, over, body, scope, depth):
        greatest = self.gathered("greatest", [(name, over)], body, scope, depth)

        def is_greatest(scope, depth_inside):
            return Draft(["==", self.value(body, scope, depth_inside).as_number().node, ["local", depth]], "condition")

        many = self.counted(name, over, scope, depth + 1, is_greatest)
        first = self.rounds("first", name, over, scope, depth + 1, is_greatest)
        is_one = ["and", ["not", ["==", ["local", depth], NULL]], ["==", many.node, ONE]]
        return Draft(["let", greatest.node, ["choose", is_one, first.node, NULL]], "number")

    def rounds(self, form, name, over, scope, depth, body, wrapped=lambda node: node):
        """The node of a form over a span or a list; what is wrapped stands around the let of an item."""
        if over[0] == "span":
            first, past, most, (least, greatest) = self.span(over, scope, depth)
            inside = body(self.bind(scope, name, Local(depth, "number", (least, greatest - 1))), depth + 1)
            node = inside.node
        else:
            outer, slot = self.list(over, scope, depth)
            inner, _ = self.list(over, scope, depth + 1)
            first, past, most, (least, greatest) = ZERO, ["len", outer], slot.most, (0, slot.most)
            inside = body(self.bind(scope, name, Local(depth + 1, slot.kind, slot.bounds())), depth + 2)
            node = ["let", ["item", inner, ["local", depth]], inside.node]
        bounds = UNKNOWN
        if form == "first":
            bounds = (least, greatest)
        elif form == "sum" and None not in inside.bounds:
            bounds = (min(0, most * inside.bounds[0]), max(0, most * inside.bounds[1]))
        return Draft([form, first, past, most, wrapped(node)], "condition" if form == "any" else "number", bounds)

    def span(self, over, scope, depth):
        """The ends of a span, the second past its last number, its greatest count of rounds, and between which numbers it lies."""
        first, past = self.value(over[1], scope, depth).as_number(), self.value(over[2], scope, depth).as_number()
        node, bounds = past.node, past.bounds
        if over[3]:
            is_reckoned = node[0] == "literal" and node[1] is not None and node[1] < GREATEST
            node = ["literal", node[1] + 1] if is_reckoned else ["+", node, ONE]
            bounds = bounds_of("+", bounds, (1, 1))
        if first.bounds[0] is None or bounds[1] is None:
            raise Fault("unbounded")
        return first.node, node, max(bounds[1] - first.bounds[0], 0), (first.bounds[0], bounds[1])

    # Named code.

    def value_call(self, tree, scope, depth):
        values, rest = self.used(self.game.functions, tree, scope, depth, self.value)
        node = rest.node
        for value in reversed(values):
            node = ["let", value, node]
        return Draft(node, rest.kind, rest.bounds)

    def used(self, table, tree, scope, depth, draft):
        """What named code is given, as lets, and what it is then."""
        _, name, given = tree
        if name not in table:
            raise Fault("unknown-name", name)
        if name in self.inside:
            raise Fault("goes-round", name)
        parameters, body = table[name]
        if len(parameters) != len(given):
            raise Fault("wrong-count", name)
        values = [self.value(one, scope, depth + place) for place, one in enumerate(given)]
        inner = {parameter: Local(depth + place, value.kind, value.bounds) for place, (parameter, value) in enumerate(zip(parameters, values))}
        self.inside.append(name)
        found = draft(body, inner, depth + len(given))
        self.inside.pop()
        return [value.as_value() for value in values], found

    # Statements.

    def block(self, trees, scope, depth):
        found = []
        for tree in trees:
            form = tree[0]
            if form == "let":
                node, local = self.let(tree, scope, depth)
                scope, depth = self.bind(scope, tree[1], local), depth + 1
                found.append(node)
            elif form in ("var", "var slot"):
                node, var = self.var(tree, scope, depth)
                scope = self.bind(scope, tree[1], var)
                found.append(node)
            else:
                found.append(getattr(self, f"deed_{form}", self.change)(tree, scope, depth))
        return found

    def let(self, tree, scope, depth):
        if tree[2][0] == "die":
            return ["die", self.value(tree[2][1], scope, depth).as_number().node], Local(depth, "number")
        value = self.value(tree[2], scope, depth)
        return ["let", value.as_value()], Local(depth, value.kind, value.bounds)

    def var(self, tree, scope, depth):
        if tree[0] == "var slot":
            slot = self.game.types.slot(tree[2])
            start = ["literal", slot.start]
        else:
            value = self.value(tree[2], scope, depth).stored()
            start, slot = value.node, Slot("text", null=True) if value.kind == "text" else Slot("number", SMALLEST, GREATEST, null=True)
        place = len(self.vars)
        self.vars.append(slot)
        return ["var", place, start, slot.most or 0], Var(place, slot)

    def place(self, tree, scope, depth):
        """A place that can be assigned."""
        of = tree[1] if tree[0] in ("item", "at") else tree
        fixed = of[0] == "order" or of[0] == "name" and of[1] not in scope and (of[1] in self.game.constants or self.argument(of[1]))
        if fixed or of[0] == "name" and isinstance(scope.get(of[1]), Local):
            raise Fault("not-assignable")
        self.note_write(of)
        return self.value(tree, scope, depth)

    def note_write(self, of):
        self.writes = self.writes or of[0] in ("me", "players", "secret")

    def deed_put(self, tree, scope, depth):
        if tree[2][0] == "die":
            faces = self.value(tree[2][1], scope, depth).as_number()
            place = self.place(tree[1], scope, depth + 1)
            return ["block", [["die", faces.node], ["set", place.node, ["local", depth]]]]
        place, value = self.place(tree[1], scope, depth), self.value(tree[2], scope, depth).stored()
        same_kind(place, value)
        return ["set", place.node, value.node]

    def deed_if(self, tree, scope, depth):
        test = self.value(tree[1], scope, depth).as_condition()
        return ["if", test.node, self.block(tree[2], scope, depth), self.block(tree[3], scope, depth)]

    def deed_for(self, tree, scope, depth):
        _, name, over, body = tree
        if over[0] == "span":
            first, past, most, (least, greatest) = self.span(over, scope, depth)
            inner = self.bind(scope, name, Local(depth, "number", (least, greatest - 1)))
            return ["for", first, past, most, self.block(body, inner, depth + 1)]
        outer, slot = self.list(over, scope, depth)
        item = ["item", self.list(over, scope, depth + 1)[0], ["local", depth]]
        inner = self.bind(scope, name, Local(depth + 1, slot.kind, slot.bounds()))
        return ["for", ZERO, ["len", outer], slot.most, [["let", item], *self.block(body, inner, depth + 2)]]

    def change(self, tree, scope, depth):
        """`push` and the others."""
        form, of, given = tree
        node, slot = self.list(of, scope, depth)
        if node[0] in ("row", "order"):
            raise Fault("not-assignable")
        self.note_write(of)
        if given is None:
            return [form, node, slot.most]
        value = self.value(given, scope, depth).stored()
        return [form, node, value.node] if form == "push" else [form, node, value.node, slot.most]

    def deed_event(self, tree, scope, depth):
        _, kind, given = tree
        if not self.sight.events:
            raise Fault("no-context-here")
        if kind in code.NAMING:
            return ["event", kind, self.game.place_of({"setPhase": "phase", "setStage": "stage", "setActive": "active"}[kind], given)]
        if kind in ("endTurn", "win"):
            return ["event", kind, NULL if given is None else self.value(given, scope, depth).as_number().node]
        return ["event", kind, None]

    def deed_do(self, tree, scope, depth):
        values, block = self.used(self.game.procedures, tree, scope, depth, self.block)
        return ["block", [["let", value] for value in values] + [["block", block]]]


def found_in(form, outer, inner, most, value, depth):
    """Whether, or where, a list has a value, which is the local with this place."""
    test = ["==", ["item", inner, ["local", depth + 1]], ["local", depth]]
    return ["let", value, [form, ZERO, ["len", outer], most, test]]


def row_slot(row):
    """What a row of constants holds."""
    if isinstance(row[0], str):
        return Slot("text", most=len(row))
    return Slot("number", min(row), max(row), most=len(row))
