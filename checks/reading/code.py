"""Texts of code to trees of tuples, each with the name of its form first."""
import re


class Fault(Exception):
    """An error in a description, by its name."""

    def __init__(self, name, words=""):
        super().__init__(f"{name}: {words}" if words else name)
        self.name = name


RESERVED = set("let var for in if else null true false me players secret order seat seats current turn moves pos phase".split())
CONTEXT = ("seat", "seats", "current", "turn", "moves", "pos", "phase")
GATHERS = {"any", "all", "count", "sum", "least", "greatest"}
ONE_SPAN = {"first", "best"}
BUILT = {"size": 1, "abs": 1, "min": 2, "max": 2}
OF_LISTS = {"len": 1, "find": 2, "has": 2}
CHANGES = {"push": 2, "fill": 2, "remove": 2, "clear": 1, "shuffle": 1}
NAMING = {"setPhase", "setStage", "setActive"}
EVENTS = {"endTurn": (0, 1), "win": (1, 1), "endPhase": (0, 0), "endStage": (0, 0), "draw": (0, 0), "end": (0, 0)}
CALLED = GATHERS | ONE_SPAN | set(BUILT) | set(OF_LISTS) | set(CHANGES) | NAMING | set(EVENTS) | {"die"}

TOKEN = re.compile(
    r"""[ \t\r\n]+|//[^\n]*|(?P<number>[0-9]+)|(?P<name>[A-Za-z_][A-Za-z0-9_]*)|(?P<text>"[^"\x00-\x1f]*"|'[^'\x00-\x1f]*')
    |(?P<sign>\.\.<|\.\.|==|!=|<=|>=|=>|&&|\|\||\+=|-=|[-()\[\]{},;:?.=<>+*/%!])""", re.VERBOSE)

LEVELS = [{"||"}, {"&&"}, {"==", "!=", "<", "<=", ">", ">="}, {"+", "-"}, {"*", "/", "%"}]
COMPARISONS = 2
SUMS = 3

MOST_NUMBER = 2**31 - 1
MOST_TEXT = 64


def tokens(text):
    """The tokens of a text, each its kind and its value, and one where it ends."""
    found, at = [], 0
    while at < len(text):
        match = TOKEN.match(text, at)
        if not match:
            raise Fault("bad-character", text[at:at + 10])
        at = match.end()
        if match.lastgroup == "number":
            found.append(("number", int(match.group())))
        elif match.lastgroup == "text":
            found.append(("text", short(match.group()[1:-1])))
        elif match.lastgroup:
            found.append((match.lastgroup, match.group()))
    return found + [("end", "")]


def short(text):
    if len(text.encode()) > MOST_TEXT:
        raise Fault("long-text")
    return text


class Reader:
    """Reads one text of code."""

    def __init__(self, text):
        self.tokens, self.at = tokens(text), 0

    def peek(self, ahead=0):
        return self.tokens[min(self.at + ahead, len(self.tokens) - 1)]

    def take(self):
        token = self.peek()
        self.at += 1
        return token

    def sees(self, word, ahead=0):
        return self.peek(ahead)[0] in ("sign", "name") and self.peek(ahead)[1] == word

    def eat(self, word):
        if not self.sees(word):
            return False
        self.at += 1
        return True

    def want(self, word):
        if not self.eat(word):
            raise Fault("syntax", f"`{word}` is wanted, not {self.peek()[1]}")

    def name(self):
        kind, value = self.take()
        if kind != "name" or value in RESERVED:
            raise Fault("syntax", f"a name is wanted, not {value}")
        return value

    def whole(self, form):
        """What a form reads, if nothing follows."""
        tree = form()
        if self.peek()[0] != "end":
            raise Fault("syntax", f"nothing more is wanted: {self.peek()[1]}")
        return tree

    def listed(self, item, ends):
        """Items with commas between them, up to a sign."""
        items = []
        if not self.sees(ends):
            items.append(item())
            while self.eat(","):
                items.append(item())
        self.want(ends)
        return items

    # Values.

    def body(self):
        lets = []
        while self.eat("let"):
            name = self.name()
            self.want("=")
            self.no_die()
            lets.append((name, self.value()))
            self.want(";")
        tree = self.value()
        for name, value in reversed(lets):
            tree = ("let", name, value, tree)
        return tree

    def no_die(self):
        if self.sees("die") and self.sees("(", 1):
            raise Fault("die-not-here")

    def value(self):
        test = self.row(0)
        if not self.eat("?"):
            return test
        first = self.value()
        self.want(":")
        return ("choose", test, first, self.value())

    def row(self, level):
        """Operands of one level, joined from the left; of comparisons at most two."""
        if level == len(LEVELS):
            return self.signed()
        tree = self.row(level + 1)
        while self.peek()[0] == "sign" and self.peek()[1] in LEVELS[level]:
            tree = ("operate", self.take()[1], tree, self.row(level + 1))
            if level == COMPARISONS:
                break
        return tree

    def signed(self):
        if self.eat("-"):
            return ("number", -self.take()[1]) if self.peek()[0] == "number" else ("negative", self.signed())
        if self.eat("!"):
            return ("not", self.signed())
        return self.atom()

    def atom(self):
        kind, value = self.peek()
        if kind in ("number", "text"):
            self.take()
            return (kind, value)
        if self.eat("("):
            tree = self.body()
            self.want(")")
            return tree
        if kind != "name":
            raise Fault("syntax", f"a value is wanted, not {value}")
        if value in ("null", "true", "false"):
            self.take()
            return (value,)
        if value in CONTEXT:
            self.take()
            return ("word", value)
        if value not in RESERVED and self.sees("(", 1):
            return self.called(value)
        return self.place()

    def called(self, name):
        self.no_die()
        if name in CHANGES or name in EVENTS or name in NAMING:
            raise Fault("syntax", f"`{name}` has no value")
        self.take()
        self.want("(")
        if name in GATHERS or name in ONE_SPAN:
            return self.gathered(name)
        if name in OF_LISTS:
            tree = self.list()
            sought = None
            if name != "len":
                self.want(",")
                sought = self.value()
            self.want(")")
            return (name, tree, sought)
        given = self.listed(self.value, ")")
        if name in BUILT:
            if len(given) != BUILT[name]:
                raise Fault("syntax", f"`{name}` takes {BUILT[name]}")
            return (name, *given)
        return ("call", name, given)

    def gathered(self, name):
        binders = [self.binder()]
        while self.eat(","):
            binders.append(self.binder())
        self.want(":")
        tree = self.body()
        self.want(")")
        if name in ONE_SPAN and (len(binders) > 1 or binders[0][1][0] != "span"):
            raise Fault("first-wants-one-range")
        return ("gather", name, binders, tree)

    def binder(self):
        """A name, and a span or a list."""
        name = self.name()
        self.want("in")
        mark = self.at
        tree = self.row(SUMS)
        if self.sees("..") or self.sees("..<"):
            last = self.take()[1] == ".."
            return name, ("span", tree, self.row(SUMS), last)
        self.at = mark
        return name, self.list()

    def list(self):
        """A slot or a list: a bare name, `me.NAME`, `players[e].NAME`, `secret.NAME` or `order`."""
        kind, value = self.take()
        if kind != "name":
            raise Fault("syntax", f"the name of a list is wanted, not {value}")
        if value == "order":
            return ("order",)
        if value in ("me", "secret"):
            self.want(".")
            return (value, self.name())
        if value == "players":
            self.want("[")
            seat = self.value()
            self.want("]")
            self.want(".")
            return ("players", self.name(), seat)
        if value in RESERVED:
            raise Fault("syntax", f"`{value}` is no list")
        return ("name", value)

    def place(self):
        tree = self.list()
        if not self.eat("["):
            return tree
        index = self.value()
        if self.eat(","):
            column = self.value()
            self.want("]")
            return ("at", tree, index, column)
        self.want("]")
        return ("item", tree, index)

    # Statements.

    def statements(self):
        found = []
        while not self.sees("}") and self.peek()[0] != "end":
            found.append(self.statement())
        return found

    def block(self):
        self.want("{")
        found = self.statements()
        self.want("}")
        return found

    def drawn(self):
        """A value, or a die."""
        if not (self.sees("die") and self.sees("(", 1)):
            return self.value()
        self.take()
        self.want("(")
        faces = self.value()
        self.want(")")
        return ("die", faces)

    def statement(self):
        if self.eat("if"):
            return self.conditional()
        if self.eat("for"):
            name, over = self.binder()
            return ("for", name, over, self.block())
        tree = self.simple()
        self.want(";")
        return tree

    def conditional(self):
        test, block, other = self.value(), self.block(), []
        if self.eat("else"):
            other = [self.conditional()] if self.eat("if") else self.block()
        return ("if", test, block, other)

    def simple(self):
        """A statement that ends with a semicolon."""
        if self.eat("let"):
            name = self.name()
            self.want("=")
            return ("let", name, self.drawn())
        if self.eat("var"):
            return self.var()
        kind, value = self.peek()
        if kind == "name" and value not in RESERVED and self.sees("(", 1):
            return self.deed(value)
        return self.assignment()

    def var(self):
        name = self.name()
        if self.eat(":"):
            return ("var slot", name, self.slot())
        self.want("=")
        self.no_die()
        return ("var", name, self.value())

    def deed(self, name):
        self.no_die()
        self.take()
        self.want("(")
        if name in CHANGES:
            tree, value = self.list(), None
            if CHANGES[name] == 2:
                self.want(",")
                value = self.value()
            self.want(")")
            return (name, tree, value)
        if name in NAMING:
            kind, text = self.take()
            if kind != "text":
                raise Fault("syntax", "a text is wanted")
            self.want(")")
            return ("event", name, text)
        given = self.listed(self.value, ")")
        if name in EVENTS:
            least, most = EVENTS[name]
            if not least <= len(given) <= most:
                raise Fault("syntax", f"`{name}` takes {most}")
            return ("event", name, given[0] if given else None)
        if name in CALLED:
            raise Fault("syntax", f"`{name}` is no statement")
        return ("do", name, given)

    def assignment(self):
        place = self.place()
        if self.eat("="):
            return ("put", place, self.drawn())
        for operator in "+-":
            if self.eat(operator + "="):
                self.no_die()
                return ("put", place, ("operate", operator, place, self.value()))
        raise Fault("syntax", f"`=` is wanted, not {self.peek()[1]}")

    # Heads, slots and arguments.

    def head(self):
        """The parameters of named code."""
        self.want("(")
        names = self.listed(self.name, ")")
        self.want("=>")
        return names

    def end(self):
        """An end of a range: a number, or the name of a constant with its sign."""
        negative = self.eat("-")
        kind, value = self.take()
        if kind == "number":
            return ("number", -value if negative else value)
        if kind != "name" or value in RESERVED:
            raise Fault("syntax", f"a number is wanted, not {value}")
        return ("constant", value, negative)

    def literal(self):
        if self.eat("null"):
            return ("null",)
        return self.take() if self.peek()[0] == "text" else self.end()

    def range(self):
        for word in ("seat", "text"):
            if self.eat(word):
                return (word,)
        first = self.end()
        if self.eat("..<"):
            return ("range", first, self.end(), False)
        self.want("..")
        return ("range", first, self.end(), True)

    def slot(self):
        """The type of a slot: its range, whether it may be null, how long it is, and its start."""
        is_list = self.eat("[")
        of, null, length = self.range(), self.eat("?"), None
        if is_list:
            self.want(";")
            length = self.length()
            self.want("]")
        return of, null, length, self.literal() if self.eat("=") else None

    def length(self):
        if self.eat(".."):
            return ("most", None if self.eat("seats") else self.end())
        if self.eat("seats"):
            return ("seats", self.end() if self.eat("by") else None)
        count = self.end()
        return ("grid", count, self.end()) if self.eat("by") else ("list", count)

    def arguments(self):
        """Names with their ranges, what is offered of one, and the list in which the number of all stands."""
        found = [self.argument()]
        while self.eat(","):
            found.append(self.argument())
        if self.eat("in"):
            return found, None, self.list()
        if len(found) > 1:
            raise Fault("syntax", "`in` with a list is wanted")
        offered = None
        if self.eat("offer"):
            self.want("[")
            offered = self.listed(self.literal, "]")
        return found, offered, None

    def argument(self):
        name = self.name()
        self.want(":")
        return name, self.range()
