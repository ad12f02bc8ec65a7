"""Values of nodes, and what statements do to a state. A node is made a function of a run, once."""

from . import description

SMALLEST, GREATEST = -2**31, 2**31 - 1


class Crowded(Exception):
    """A piece of code queued a seventeenth event."""


class Run:
    """What a piece of code runs on: a state, a context, the mover, the arguments, locals, slots of work, dice, and the queue of events."""

    def __init__(self, state, context, seat=None, arguments=(), dice=None):
        self.state, self.context, self.seat, self.arguments, self.dice = state, context, seat, arguments, dice
        self.locals, self.work, self.events = [], {}, []


def is_number(value):
    return isinstance(value, int) and not isinstance(value, bool)


def narrow(number):
    return number if SMALLEST <= number <= GREATEST else None


def reckoned(operator, one, other):
    """What an operator makes of two numbers."""
    if operator in ("/", "%"):
        return None if other < 1 else one // other if operator == "/" else one % other
    if operator in ("min", "max"):
        return min(one, other) if operator == "min" else max(one, other)
    return narrow(one + other if operator == "+" else one - other if operator == "-" else one * other)


def value(node):
    """The value of a node, as a function of a run."""
    form = node[0]
    if form in ("+", "-", "*", "/", "%", "min", "max"):
        return arithmetic(form, value(node[1]), value(node[2]))
    if form in ("any", "first", "sum", "greatest"):
        return gathered(node)
    return VALUES[form](node)


def arithmetic(operator, one, other):
    def run(r):
        a, b = one(r), other(r)
        return reckoned(operator, a, b) if is_number(a) and is_number(b) else None
    return run


def literal(node):
    return lambda r: node[1]


def local(node):
    return lambda r: r.locals[node[1]]


def argument(node):
    return lambda r: r.arguments[node[1]]


def context(node):
    return (lambda r: r.seat) if node[1] == "seat" else (lambda r: r.context[node[1]])


def part(r, name):
    """A part of the state, nothing where it is hidden."""
    return r.work if name == "work" else r.state[name]


def slot(node):
    _, of, name = node

    def run(r):
        slots = part(r, of)
        return None if slots is None else slots[name]
    return run


def entry(r, seat):
    """The slots of a seat, nothing where they are hidden or the seat isn't there."""
    players = r.state["players"]
    return players[seat] if is_number(seat) and 0 <= seat < len(players) else None


def seat_slot(node):
    seat, name = value(node[1]), node[2]

    def run(r):
        slots = entry(r, seat(r))
        return None if slots is None else slots[name]
    return run


def items(node):
    """A list of a node, as a function of a run. One that isn't there is empty."""
    form = node[0]
    if form == "row":
        return lambda r: node[1]
    if form == "order":
        return lambda r: r.context["order"]
    found = slot(node) if form == "list" else seat_slot(node)

    def run(r):
        listed = found(r)
        return [] if listed is None else listed
    return run


def index(node):
    """The place in a list that an item or an item of a grid names, nothing where it is outside."""
    found = items(node[1])
    if node[0] == "item":
        at = value(node[2])
    else:
        row, column, columns = value(node[2]), value(node[3]), node[4]

        def at(r):
            y, x = row(r), column(r)
            return y * columns + x if is_number(y) and is_number(x) and y >= 0 and 0 <= x < columns else None

    def run(r):
        place, listed = at(r), found(r)
        return (listed, place) if is_number(place) and 0 <= place < len(listed) else (listed, None)
    return run


def item(node):
    found = index(node)

    def run(r):
        listed, place = found(r)
        return None if place is None else listed[place]
    return run


def length(node):
    found = items(node[1])
    return lambda r: len(found(r))


def size(node):
    of = value(node[1])

    def run(r):
        text = of(r)
        return len(text.encode()) if isinstance(text, str) else None
    return run


def equal(node):
    one, other = value(node[1]), value(node[2])
    return lambda r: one(r) == other(r)


def less(node):
    one, other, is_strict = value(node[1]), value(node[2]), node[0] == "<"

    def run(r):
        a, b = one(r), other(r)
        return is_number(a) and is_number(b) and (a < b if is_strict else a <= b)
    return run


def negated(node):
    test = value(node[1])
    return lambda r: not test(r)


def both(node):
    one, other = value(node[1]), value(node[2])
    return lambda r: one(r) and other(r)


def one_of(node):
    one, other = value(node[1]), value(node[2])
    return lambda r: one(r) or other(r)


def chosen(node):
    test, one, other = map(value, node[1:])
    return lambda r: one(r) if test(r) else other(r)


def bound(node):
    of, body = value(node[1]), value(node[2])

    def run(r):
        r.locals.append(of(r))
        result = body(r)
        r.locals.pop()
        return result
    return run


VALUES = {
    "literal": literal, "yes": lambda node: lambda r: True, "local": local, "argument": argument, "context": context, "slot": slot, "seat slot": seat_slot,
    "item": item, "at": item, "len": length, "size": size, "==": equal, "<": less, "<=": less, "not": negated, "and": both, "or": one_of, "choose": chosen,
    "let": bound,
}


def span(node):
    """The numbers of a span, as a function of a run."""
    first, past, most = value(node[1]), value(node[2]), node[3]

    def run(r):
        a, b = first(r), past(r)
        return range(a, min(b, a + most)) if is_number(a) and is_number(b) else ()
    return run


def gathered(node):
    form, numbers, body = node[0], span(node), value(node[4])

    def each(r):
        for number in numbers(r):
            r.locals.append(number)
            found = body(r)
            r.locals.pop()
            yield number, found

    def run(r):
        if form == "any":
            return any(found for _, found in each(r))
        if form == "first":
            return next((number for number, found in each(r) if found), None)
        found = [one for _, one in each(r) if is_number(one)]
        return total(found) if form == "sum" else max(found, default=None)
    return lambda r: kept_locals(r, run)


def kept_locals(r, run):
    """What a function gives, after which the locals are as before."""
    depth = len(r.locals)
    result = run(r)
    del r.locals[depth:]
    return result


def total(numbers):
    """A sum, and nothing once it hasn't 32 bits."""
    so_far = 0
    for number in numbers:
        so_far = narrow(so_far + number)
        if so_far is None:
            return None
    return so_far


class Statements:
    """Makes functions of statements; what each slot may hold is asked of the description and of the piece."""

    def __init__(self, game, piece):
        self.game, self.vars = game, piece.vars

    def block(self, nodes):
        functions = [self.statement(node) for node in nodes]

        def run(r):
            depth = len(r.locals)
            for function in functions:
                function(r)
            del r.locals[depth:]
        return run

    def statement(self, node):
        return getattr(self, f"make_{node[0]}")(node)

    def slot_of(self, node):
        """What stands in a place or a list."""
        if node[0] in ("item", "at"):
            return self.slot_of(node[1])
        if node[0] in ("seat slot", "seat list"):
            return self.game.parts["players"][node[2]]
        return self.vars[node[2]] if node[1] == "work" else self.game.parts[node[1]][node[2]]

    def make_let(self, node):
        of = value(node[1])
        return lambda r: r.locals.append(of(r))

    def make_die(self, node):
        faces = value(node[1])

        def run(r):
            count = faces(r)
            r.locals.append(r.dice.die(count) if is_number(count) and count >= 1 else None)
        return run

    def make_block(self, node):
        return self.block(node[1])

    def make_if(self, node):
        test, block, other = value(node[1]), self.block(node[2]), self.block(node[3])
        return lambda r: block(r) if test(r) else other(r)

    def make_for(self, node):
        numbers, body = span(node), self.block(node[4])

        def run(r):
            for number in numbers(r):
                r.locals.append(number)
                body(r)
                r.locals.pop()
        return run

    def make_var(self, node):
        place, start, of = node[1], value(node[2]), self.vars[node[1]]

        def run(r):
            r.work[place] = of.begun(r.context["seats"], start(r))
        return run

    def make_event(self, node):
        _, kind, given = node
        if kind not in ("endTurn", "win"):
            return lambda r: r.events.append((kind, given))
        of = value(given)

        def run(r):
            seat = of(r)
            if seat is None and kind == "endTurn" or is_number(seat) and 0 <= seat < r.context["seats"]:
                r.events.append((kind, seat))
        return run

    def make_set(self, node):
        _, place, given = node
        of, slot_type, put = value(given), self.slot_of(place), self.putting(place)

        def run(r):
            new = of(r)
            if slot_type.fits(new):
                put(r, new)
        return run

    @staticmethod
    def putting(place):
        """Puts a value into a place that is there."""
        if place[0] in ("item", "at"):
            found = index(place)

            def put(r, new):
                listed, at = found(r)
                if at is not None:
                    listed[at] = new
            return put
        name = place[2]
        holder = (lambda r: part(r, place[1])) if place[0] == "slot" else None
        seat = value(place[1]) if holder is None else None

        def put_slot(r, new):
            slots = holder(r) if holder else entry(r, seat(r))
            if slots is not None:
                slots[name] = new
        return put_slot

    def make_push(self, node):
        found, of, slot_type = items(node[1]), value(node[2]), self.slot_of(node[1])

        def run(r):
            listed, new = found(r), of(r)
            if slot_type.fits(new) and len(listed) < slot_type.most:
                listed.append(new)
        return run

    def make_fill(self, node):
        found, of, slot_type = items(node[1]), value(node[2]), self.slot_of(node[1])

        def run(r):
            listed, new = found(r), of(r)
            if slot_type.fits(new):
                listed[:] = [new] * len(listed)
        return run

    def make_remove(self, node):
        found = index(["item", node[1], node[2]])

        def run(r):
            listed, at = found(r)
            if at is not None:
                del listed[at]
        return run

    def make_clear(self, node):
        found = items(node[1])
        return lambda r: found(r).clear()

    def make_shuffle(self, node):
        found = items(node[1])

        def run(r):
            listed = found(r)
            for place in range(len(listed) - 1, 0, -1):
                other = r.dice.die(place + 1) - 1
                listed[place], listed[other] = listed[other], listed[place]
        return run


class TurnRuns:
    def __init__(self, game, turn):
        self.begin, self.end, self.move = (game.deeds(piece) for piece in (turn.begin, turn.end, turn.move))
        self.end_if = value(turn.end_if.node)


class Game:
    """A description that can be played: what the flow of a match asks a game."""

    def __init__(self, text):
        self.of = description.Description(text)
        self.setup, self.on_end = self.deeds(self.of.setup), self.deeds(self.of.on_end)
        self.moves = [(value(move.when.node), [value(group.test) for group in move.groups], self.deeds(move.do)) for move in self.of.moves]
        self.turn = TurnRuns(self, self.of.turn)
        self.turns = [TurnRuns(self, phase.turn) if phase.turn else None for phase in self.of.phases]
        self.phases = [(self.deeds(phase.begin), self.deeds(phase.end), value(phase.end_if.node)) for phase in self.of.phases]
        self.ends = [(kind, value(end.node)) for kind, end in self.of.ends]

    def deeds(self, piece):
        return Statements(self.of, piece).block(piece.block)

    def first_state(self, seats):
        def begun(name):
            return {slot_name: it.begun(seats, it.start) for slot_name, it in self.of.parts[name].items()}
        return {"common": begun("common"), "players": [begun("players") for _ in range(seats)], "secret": begun("secret")}

    def run(self, deeds, state, context, dice, seat=None, arguments=()):
        """Runs statements on a state in place, and gives the events that they queued."""
        r = Run(state, context, seat, arguments, dice)
        deeds(r)
        if len(r.events) > description.MOST_EVENTS:
            raise Crowded
        return r.events

    def allowed(self, state, context, seat, place, arguments):
        """Whether a move is allowed."""
        when, groups, _ = self.moves[place]
        rows = self.of.moves[place].arguments
        if len(arguments) != len(rows) or not all(is_right(context, row, one) for row, one in zip(rows, arguments)):
            return False
        r = Run(state, context, seat, arguments)
        return all(test(r) for test in groups) and bool(when(r))

    def offers(self, state, context, seat, moves):
        """What is offered to a seat that has some moves: pairs of a move and its arguments."""
        found = []
        for place in sorted(set(moves)):
            for arguments in self.rows(state, context, seat, self.of.moves[place]):
                if self.allowed(state, context, seat, place, arguments):
                    found.append((place, list(arguments)))
        return found

    def rows(self, state, context, seat, move):
        """The rows of offered arguments of a move, the last fastest; of a group those that its list has."""
        rows, place = [()], 0
        while place < len(move.arguments):
            group = next((group for group in move.groups if group.first == place), None)
            if group:
                listed = items(group.node)(Run(state, context, seat))
                more, place = list(listed_rows(move.arguments[group.first:group.past], listed)), group.past
            else:
                more, place = [(one,) for one in move.arguments[place].values()], place + 1
            rows = [row + one for row in rows for one in more]
        return rows

    def outcome(self, state, context):
        """How the match ends by itself, if it does."""
        r = Run(state, context)
        for kind, end in self.ends:
            found = end(r)
            if kind == "winner" and is_number(found) and 0 <= found < context["seats"]:
                return ["winner", found]
            if kind != "winner" and found:
                return [{"draw": "draw", "ended": "ended"}[kind]]
        return None


def is_right(context, row, one):
    """Whether an argument is of its kind and in its range."""
    if row.kind == "text":
        return isinstance(one, str)
    return is_number(one) and row.least <= one <= row.greatest and not (row.is_seat and one >= context["seats"])


def listed_rows(arguments, listed):
    """The rows of arguments whose numbers stand in a list, in rising order, each once."""
    for number in sorted({one for one in listed if is_number(one) and one >= 0}):
        row, rest = [], number
        for argument in reversed(arguments):
            rest, distance = divmod(rest, argument.count())
            row.append(argument.least + distance)
        if rest == 0:
            yield tuple(reversed(row))
