"""A whole description, and what it may cost."""

import math
import tomllib

from . import drafts, nodes
from .code import Fault, Reader
from .slots import Types

MOST_STEPS, MOST_END_STEPS, MOST_ACTION_STEPS, MOST_OFFER_STEPS = 1_000_000, 500_000, 2_000_000, 500_000
MOST_ROWS, MOST_WORDS, MOST_EVENTS, MOST_BYTES = 4_096, 256, 16, 8_192
ASKS, HOOKS = 65, 64


class Argument:
    """An argument of a move: its kind, the least and the greatest number, whether it is a seat, and what is offered where that is said."""

    def __init__(self, name, of, offered, types):
        self.name, self.is_seat = name, of == ("seat",)
        self.kind, self.least, self.greatest = types.range(of)
        self.offered = None if offered is None else [types.literal(one) for one in offered]

    def count(self):
        return 0 if self.kind == "text" else self.greatest - self.least + 1

    def values(self):
        """What is offered of it."""
        if self.offered is not None:
            return self.offered
        return [] if self.kind == "text" else range(self.least, self.greatest + 1)


class Group:
    """Arguments whose number is an item of a list: from the first to before the last one, the list, and the condition."""

    def __init__(self, first, past, node, most, test):
        self.first, self.past, self.node, self.most, self.test = first, past, node, most, test


class Piece:
    """Statements, with the slots of work that they use."""

    def __init__(self, block, drafter):
        self.block, self.vars = block, drafter.vars
        self.steps, self.words, self.events = nodes.block_steps(block), nodes.words(block), nodes.events(block)
        self.hidden, self.writes = drafter.hidden, drafter.writes

    def is_open(self):
        """Whether it draws no words and names nothing that is hidden."""
        return not self.hidden and not self.words


class Condition:
    """A condition, or a number, with its cost."""

    def __init__(self, node, drafter):
        self.node, self.steps, self.hidden = node, nodes.steps(node), drafter.hidden

    def is_open(self):
        return not self.hidden


class Turn:
    def __init__(self, game, row):
        self.order, self.least, self.most = row.get("order", "default"), row.get("minMoves", 0), row.get("maxMoves")
        self.active = game.place_of("active", row["activePlayers"]) if "activePlayers" in row else None
        self.begin, self.end = (game.piece(row.get(hook, ""), drafts.HOOK) for hook in ("onBegin", "onEnd"))
        self.move = game.piece(row.get("onMove", ""), drafts.MOVE)
        self.end_if = game.condition(row.get("endIf", "false"), drafts.END)


class Phase:
    def __init__(self, game, row):
        self.start, self.next = row.get("start", False), game.place_of("phase", row["next"]) if "next" in row else None
        self.moves = game.moves_named(row.get("moves"))
        self.turn = Turn(game, row["turn"]) if "turn" in row else None
        self.begin, self.end = (game.piece(row.get(hook, ""), drafts.HOOK) for hook in ("onBegin", "onEnd"))
        self.end_if = game.condition(row.get("endIf", "false"), drafts.END)


class Stage:
    def __init__(self, game, row):
        self.next = game.place_of("stage", row["next"]) if "next" in row else None
        self.moves = game.moves_named(row.get("moves"))


class Spec:
    """A spec of active players. A place is a list with the stage, or with nothing where there is none."""

    def __init__(self, game, row):
        def place(value):
            return [None if value is True else game.place_of("stage", value)]
        self.current, self.others, self.all = (place(row[name]) if name in row else None for name in ("currentPlayer", "others", "all"))
        value = row.get("value", {})
        self.slot, self.slot_place, self.seats = value.get("slot"), place(value.get("stage", True)), []
        if self.slot is None:
            self.seats = sorted((int(seat), place(where)) for seat, where in value.items())
        self.least, self.most = row.get("minMoves", 0), row.get("maxMoves")
        self.revert, self.next = row.get("revert", False), game.place_of("active", row["next"]) if "next" in row else None


class Move:
    def __init__(self, game, name, row):
        self.name = name
        self.arguments, self.groups = [], []
        lists = [self.read_arguments(game, text) for text in row.get("args", [])]
        self.when = game.condition(row.get("when", "true"), drafts.WHEN, self.arguments)
        self.groups = [self.group(game, *one) for one in lists if one]
        self.do = game.piece(row.get("do", ""), drafts.MOVE, self.arguments)
        self.no_limit, self.stale = row.get("noLimit", False), row.get("ignoreStaleStateID", False)
        self.redact = row.get("redact", False)
        if "redact" not in row and self.arguments and self.do.writes:
            raise Fault("say-redact", name)
        self.undoable, self.client = row.get("undoable"), row.get("client")

    def read_arguments(self, game, text):
        """Adds the arguments of a text, and gives their list with their places, if they have one."""
        reader = Reader(text)
        found, offered, tree = reader.whole(reader.arguments)
        first = len(self.arguments)
        self.arguments += [Argument(name, of, offered, game.types) for name, of in found]
        return (first, len(self.arguments), tree) if tree else None

    def group(self, game, first, past, tree):
        drafter = drafts.Drafter(game, drafts.WHEN, self.arguments)
        node, slot = drafter.list(tree, {}, 0)
        number = self.distance(first)
        for place in range(first + 1, past):
            number = ["+", ["*", number, ["literal", self.arguments[place].count()]], self.distance(place)]
        return Group(first, past, node, slot.most, drafts.found_in("any", node, node, slot.most, number, 0))

    def distance(self, place):
        """How far an argument is above its least value."""
        least = self.arguments[place].least
        return ["argument", place] if least == 0 else ["-", ["argument", place], ["literal", least]]

    def when_steps(self):
        return self.when.steps + sum(1 + nodes.steps(group.test) for group in self.groups)

    def rows(self):
        """How many rows of arguments are offered at most."""
        grouped = {place for group in self.groups for place in range(group.first, group.past)}
        alone = [len(argument.offered) if argument.offered is not None else argument.count()
                 for place, argument in enumerate(self.arguments) if place not in grouped]
        listed = [min(math.prod(argument.count() for argument in self.arguments[group.first:group.past]), group.most) for group in self.groups]
        return math.prod(alone) * math.prod(listed)

    def offer_steps(self):
        return self.rows() * (1 + self.when.steps) + sum(1 + nodes.steps(group.node) + group.most for group in self.groups)


class Description:
    """A description that was read. Moves, phases, stages and specs have places, in the order of their tables."""

    def __init__(self, text):
        try:
            rows = tomllib.loads(text)
        except tomllib.TOMLDecodeError as error:
            raise Fault("bad-toml", str(error)) from error
        self.name, seats = rows["game"], rows["seats"]
        self.least, self.most = (seats, seats) if isinstance(seats, int) else seats
        self.constants = rows.get("const", {})
        self.types = Types(self.constants, self.most)
        self.functions = {name: self.function(text, "body") for name, text in rows.get("fun", {}).items()}
        self.procedures = {name: self.function(text, "block") for name, text in rows.get("proc", {}).items()}
        self.parts = {part: {name: self.slot(text) for name, text in sorted(rows.get(part, {}).items())} for part in ("common", "players", "secret", "work")}
        self.names = {*self.constants, *self.functions, *self.procedures, *self.parts["common"], *self.parts["work"]}
        specs = rows.get("activePlayers", {})
        self.tables = {"move": sorted(rows["moves"]), "phase": sorted(rows.get("phases", {})), "stage": sorted(rows.get("stages", {})), "active": in_turn(specs)}
        self.read_code(rows, specs)
        self.check()

    def read_code(self, rows, specs):
        self.setup, self.on_end = self.piece(rows.get("setup", ""), drafts.SETUP), self.piece(rows.get("onEnd", ""), drafts.HOOK)
        self.moves = [Move(self, name, rows["moves"][name]) for name in self.tables["move"]]
        self.base = self.moves_named(rows.get("base", self.tables["move"]))
        self.turn = Turn(self, rows.get("turn", {}))
        self.phases = [Phase(self, rows["phases"][name]) for name in self.tables["phase"]]
        self.stages = [Stage(self, rows["stages"][name]) for name in self.tables["stage"]]
        self.specs = [Spec(self, specs[name]) for name in self.tables["active"]]
        self.events = rows.get("events", [])
        self.ends = [(kind, self.end(kind, text)) for row in rows.get("endIf", []) for kind, text in row.items()]
        self.turns = [self.turn] + [phase.turn for phase in self.phases if phase.turn]
        self.set_flags()

    @staticmethod
    def function(text, form):
        reader = Reader(joined(text))
        return reader.head(), reader.whole(getattr(reader, form))

    def slot(self, text):
        reader = Reader(text)
        return self.types.slot(reader.whole(reader.slot))

    def place_of(self, table, name):
        if name not in self.tables[table]:
            raise Fault(f"unknown-{table}", name)
        return self.tables[table].index(name)

    def moves_named(self, names):
        return None if names is None else [self.place_of("move", name) for name in names]

    def piece(self, text, sight, arguments=()):
        reader, drafter = Reader(joined(text)), drafts.Drafter(self, sight, arguments)
        return Piece(drafter.statements(reader.whole(reader.statements)), drafter)

    def condition(self, text, sight, arguments=()):
        reader, drafter = Reader(joined(text)), drafts.Drafter(self, sight, arguments)
        return Condition(drafter.condition(reader.whole(reader.body)), drafter)

    def end(self, kind, text):
        if kind != "winner":
            return self.condition(text, drafts.END)
        reader, drafter = Reader(joined(text)), drafts.Drafter(self, drafts.END)
        return Condition(drafter.number(reader.whole(reader.body)), drafter)

    def set_flags(self):
        """What `undoable` and `client` are where they aren't said."""
        asked = [end for _, end in self.ends] + [turn.end_if for turn in self.turns] + [phase.end_if for phase in self.phases]
        is_open = all(turn.move.is_open() for turn in self.turns) and all(one.is_open() for one in asked)
        for move in self.moves:
            rule = is_open and move.do.is_open()
            move.undoable = rule if move.undoable is None else move.undoable
            move.client = rule if move.client is None else move.client

    # Costs.

    def pieces(self):
        hooks = [piece for turn in self.turns for piece in (turn.begin, turn.end, turn.move)] + [p for phase in self.phases for p in (phase.begin, phase.end)]
        return [self.setup, self.on_end, *(move.do for move in self.moves), *hooks]

    def end_steps(self):
        return sum(1 + end.steps for _, end in self.ends)

    def offer_steps(self):
        return sum(move.offer_steps() for move in self.moves)

    def action_steps(self):
        seats = sum(1 + (self.parts["common"][spec.slot].most or 0) for spec in self.specs if spec.slot)
        asked = self.end_steps() + dearest(turn.end_if.steps for turn in self.turns) + dearest(phase.end_if.steps for phase in self.phases) + seats
        hooks = dearest(piece.steps for turn in self.turns for piece in (turn.begin, turn.end))
        hooks += dearest(piece.steps for phase in self.phases for piece in (phase.begin, phase.end))
        moved = dearest(move.when_steps() + move.do.steps for move in self.moves) + dearest(turn.move.steps for turn in self.turns)
        return moved + ASKS * asked + HOOKS * hooks + self.on_end.steps

    def action_words(self):
        hooks = sum(dearest(getattr(turn, hook).words for turn in self.turns) for hook in ("begin", "end", "move"))
        hooks += sum(dearest(getattr(phase, hook).words for phase in self.phases) for hook in ("begin", "end"))
        return dearest(move.do.words for move in self.moves) + hooks + self.on_end.words

    def bytes(self):
        """How many bytes the text of a state has at most."""
        def of(name):
            return 2 + sum(len(slot) + 4 + it.bytes() for slot, it in self.parts[name].items())
        sizes = {"common": of("common"), "players": 2 + (of("players") + 1) * self.most, "secret": of("secret")}
        return 2 + sum(len(name) + 4 + size for name, size in sizes.items() if self.parts[name])

    def check(self):
        """Refuses what passes a limit."""
        if self.bytes() > MOST_BYTES:
            raise Fault("state-too-long")
        if any(move.rows() > MOST_ROWS for move in self.moves):
            raise Fault("too-many-offers")
        asked = [turn.end_if for turn in self.turns] + [phase.end_if for phase in self.phases]
        dear = [piece.steps > MOST_STEPS for piece in self.pieces()] + [move.when_steps() > MOST_STEPS for move in self.moves]
        dear += [end.steps > MOST_END_STEPS for end in asked] + [self.end_steps() > MOST_END_STEPS]
        if any(dear) or self.offer_steps() > MOST_OFFER_STEPS or self.action_steps() > MOST_ACTION_STEPS:
            raise Fault("too-costly")
        if any(piece.words > MOST_WORDS for piece in self.pieces()) or self.action_words() > MOST_WORDS:
            raise Fault("too-many-words")
        if any(piece.events > MOST_EVENTS for piece in self.pieces()):
            raise Fault("too-many-events")


def dearest(costs):
    return max(costs, default=0)


def joined(text):
    return text if isinstance(text, str) else "\n".join(text)


def in_turn(specs):
    """The names of specs, each before the one that follows it."""
    def followers(name, before=()):
        if name in before:
            raise Fault("goes-round", name)
        after = specs[name].get("next") if name in specs else None
        return 0 if after is None else 1 + followers(after, (*before, name))
    return sorted(specs, key=lambda name: (-followers(name), name))
