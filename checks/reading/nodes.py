"""What nodes cost by their form.

A node is a list with the word of its form first. A list of numbers behind `row` is a row of constants. Statements stand in blocks, which are lists.
"""

LEAVES = {"literal", "local", "argument", "context", "slot", "yes", "list", "row", "order"}
TWO = {"+", "-", "*", "/", "%", "min", "max", "==", "<", "<=", "and", "or"}
ROUNDS = {"any", "first", "sum", "greatest"}


def steps(node):
    """The greatest count of steps of a value, a condition, a list or a place."""
    form = node[0]
    if form in LEAVES:
        return 1
    if form in ("seat slot", "seat list", "len", "size", "not"):
        return 1 + steps(node[1])
    if form in TWO or form in ("item", "let"):
        return 1 + steps(node[1]) + steps(node[2])
    if form == "at":
        return 1 + steps(node[1]) + steps(node[2]) + steps(node[3])
    if form == "choose":
        return 1 + steps(node[1]) + max(steps(node[2]), steps(node[3]))
    assert form in ROUNDS, form
    return 1 + steps(node[1]) + steps(node[2]) + node[3] * (1 + steps(node[4]))


def block_steps(block):
    return sum(map(statement_steps, block))


def statement_steps(node):
    """The greatest count of steps of a statement."""
    form = node[0]
    if form in ("let", "die"):
        return 1 + steps(node[1])
    if form in ("set", "push"):
        return 1 + steps(node[1]) + steps(node[2])
    if form in ("remove", "fill"):
        return 1 + steps(node[1]) + steps(node[2]) + node[3]
    if form in ("clear", "shuffle"):
        return 1 + steps(node[1]) + node[2]
    if form == "var":
        return 1 + steps(node[2]) + node[3]
    if form == "event":
        return 1 + (steps(node[2]) if isinstance(node[2], list) else 0)
    if form == "if":
        return 1 + steps(node[1]) + max(block_steps(node[2]), block_steps(node[3]))
    if form == "for":
        return 1 + steps(node[1]) + steps(node[2]) + node[3] * (1 + block_steps(node[4]))
    assert form == "block", form
    return 1 + block_steps(node[1])


def counted(block, of):
    """The greatest count of something that statements do, where `of` says how much of it one of them does by itself."""
    total = 0
    for node in block:
        form = node[0]
        if form == "if":
            total += max(counted(node[2], of), counted(node[3], of))
        elif form == "for":
            total += node[3] * counted(node[4], of)
        elif form == "block":
            total += counted(node[1], of)
        else:
            total += of(node)
    return total


def words(block):
    """How many random words statements draw at most."""
    return counted(block, lambda node: 1 if node[0] == "die" else max(node[2] - 1, 0) if node[0] == "shuffle" else 0)


def events(block):
    """How many events statements queue at most."""
    return counted(block, lambda node: int(node[0] == "event"))
