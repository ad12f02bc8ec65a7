"""A second reading of docs/LANGUAGE.md, by which the program is tried: descriptions, what they may cost, and matches of them.

It is written from the page, and shares no text with the program. It refuses less than the program does: of what is checked at load it has what code
means and costs, and leaves out most of what only refuses. It is slow, and nothing but scripts of checks/ stands on it.

    code.py          texts of code to trees
    nodes.py         what nodes cost: steps, random words, events
    drafts.py        trees to nodes: names, kinds, bounds, named code written out
    description.py   a whole file
    runs.py          values of nodes, and what statements do to a state
    dice.py          the random words of a seed
    match.py         the flow of a match
    plays.py         random matches, as `check --play` plays them
"""
