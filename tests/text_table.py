"""A text read with a table that is made from the grammar (SLR): fast enough for long texts. That the table can be made without a conflict
shows that no text has two readings. What is open is counted on the stack of what was read."""

from functools import lru_cache
from typing import NamedTuple

from grammar import MISPLACED, MOST_OPEN, OPENING, RULES, START, TOO_DEEP, Ambiguous, Misread, Node, terminals

END = "the end"
WHOLE = ("", (START,), 0)


class Table(NamedTuple):
    """By state and terminal what to do: go on to a state, or reduce by a rule; by state and name where to go on then. The states whose last
    byte opens something."""

    actions: dict
    jumps: dict
    opening: set


class Entry(NamedTuple):
    """What stands on the stack: a symbol that was read."""

    state: int
    start: int
    node: Node
    open: int


def with_rules(items):
    """To these items the beginnings of the rules of each name that one waits for."""
    found = list(items)
    for name, rule, done in found:
        symbol = rule[done] if done < len(rule) else None
        found += [(symbol, new, 0) for new in RULES.get(symbol, ()) if (symbol, new, 0) not in found]
    return frozenset(found)


def moves(items):
    """The sets of items that each symbol leads to."""
    after = {}
    for name, rule, done in items:
        if done < len(rule):
            after.setdefault(rule[done], set()).add((name, rule, done + 1))
    return {symbol: with_rules(moved) for symbol, moved in after.items()}


def grown(sets, pairs):
    """Of each pair the second set put into the first, until none grows."""
    while any(not sets[to] >= sets[of] for to, of in pairs):
        for to, of in pairs:
            sets[to] |= sets[of]
    return sets


def follows():
    """The terminals that can stand behind each name; no rule is empty."""
    every = [(name, rule) for name, rules in RULES.items() for rule in rules]
    symbols = {symbol for _, rule in every for symbol in rule}
    firsts = {symbol: set() if symbol in RULES else {symbol} for symbol in (*RULES, *symbols)}
    grown(firsts, [(name, rule[0]) for name, rule in every])
    behind = {symbol: set() for symbol in firsts}
    behind[START].add(END)
    for _, rule in every:
        for one, other in zip(rule, rule[1:]):
            behind[one] |= firsts[other]
    return grown(behind, [(rule[-1], name) for name, rule in every])


@lru_cache(maxsize=None)
def table():
    states, actions, jumps, opening = [with_rules([WHOLE])], {}, {}, set()
    behind = follows()
    for number, items in enumerate(states):
        entries = {(number, END): None} if (WHOLE[0], WHOLE[1], 1) in items else {}
        for symbol, moved in moves(items).items():
            states += [moved] if moved not in states else []
            (jumps if symbol in RULES else entries)[number, symbol] = states.index(moved)
        for name, rule, done in items:
            reductions = {(number, terminal): (name, rule) for terminal in behind.get(name, ()) if done == len(rule)}
            if reductions.keys() & entries.keys():
                raise Ambiguous(f"the table has two entries for {reductions.keys() & entries.keys()}")
            entries |= reductions
        actions |= entries
        opening |= {number} if any(rule in OPENING and done == 1 for _, rule, done in items) else set()
    return Table(actions, jumps, opening)


def reduced(stack, name, rule, end):
    """The rule's symbols taken off the stack, and the name put there."""
    taken = stack[-len(rule) :]
    del stack[-len(rule) :]
    node = Node(rule, taken[0].start, end, tuple(entry.node for entry in taken if entry.node))
    stack.append(Entry(table().jumps[stack[-1].state, name], node.start, node, stack[-1].open))


def read(text, inputs, most_open=MOST_OPEN):
    """The one tree of a text; or why it has none."""
    actions, _, opening = table()
    stack = [Entry(0, 0, None, 0)]
    for place, terminal in enumerate((*terminals(text, inputs), END)):
        while isinstance(action := actions.get((stack[-1].state, terminal), ()), tuple):
            if not action:
                raise Misread(MISPLACED, place)
            reduced(stack, *action, place)
        if action is None:
            return stack[-1].node
        stack.append(Entry(action, place, None, stack[-1].open + (action in opening)))
        if stack[-1].open > most_open:
            raise Misread(TOO_DEEP, place)
    raise AssertionError("the end was read over")
