"""A text read by a search over the grammar itself (Earley's): for each beginning of the text all rules that can be under way behind it, and
how much of each is done. The next byte goes on where some rule waits for it; where none does, no text of the grammar goes on so. Each item
has one way to it, or the search stops: then what was read has two readings. How much is open is a part of the names that are searched."""

from os.path import commonprefix
from typing import NamedTuple

from grammar import MISPLACED, MOST_OPEN, OPENING, RULES, START, TOO_DEEP, Ambiguous, Misread, Node, terminals_of_bytes


class Item(NamedTuple):
    """A rule under way from an offset on, the number of its symbols that are done, and how much is open around it."""

    name: str
    rule: tuple
    done: int
    start: int
    open: int

    def moved(self):
        return Item(self.name, self.rule, self.done + 1, self.start, self.open)


class Column(NamedTuple):
    """The items behind one beginning of the text, with the way to each: the item before, its offset, and the item that is the part between.
    Then those that wait, by the name and what is open, or by the terminal."""

    ways: dict
    waiting: dict


class Search:
    """The columns are kept for the next text, which often begins as the last one."""

    def __init__(self, inputs, most_open=MOST_OPEN):
        self.known, self.most_open = terminals_of_bytes(inputs), most_open
        self.text, self.columns = b"", []
        self.add({Item("", (START,), 0, 0, 0): None})

    def add(self, first):
        """The next column: to these items all that follow, from a rule that ended here and to a rule that begins here."""
        here, ways, waiting = len(self.columns), dict(first), {}
        items = list(ways)
        for item in items:
            if item.done == len(item.rule):
                for before in self.columns[item.start].waiting.get((item.name, item.open), ()):
                    if before.moved() in ways:
                        raise Ambiguous(self.text[:here])
                    ways[before.moved()] = before, item.start, item
                    items.append(before.moved())
                continue
            symbol = item.rule[item.done]
            key = (symbol, item.open + (item.rule in OPENING)) if symbol in RULES else symbol
            if symbol in RULES and key not in waiting:
                begun = [Item(symbol, rule, 0, here, key[1]) for rule in RULES[symbol]]
                ways.update(dict.fromkeys(begun))
                items += begun
            waiting.setdefault(key, []).append(item)
        self.columns.append(Column(ways, waiting))

    def go_on(self, byte):
        place = len(self.columns) - 1
        waited = self.columns[place].waiting.get(self.known[byte], ())
        if not waited:
            raise Misread(MISPLACED, place)
        if any(item.rule in OPENING and not item.done and item.open == self.most_open for item in waited):
            raise Misread(TOO_DEEP, place)
        self.text += bytes([byte])
        self.add({item.moved(): (item, place, None) for item in waited})

    def node(self, item, end):
        """The tree of an item that is done, from its last part to its first."""
        parts, at, offset = [], item, end
        while at.done:
            before, between, part = self.columns[offset].ways[at]
            if part:
                parts.append(self.node(part, offset))
            at, offset = before, between
        return Node(item.rule, item.start, end, tuple(reversed(parts)))

    def read(self, text):
        same = len(commonprefix((self.text, text)))
        self.text, self.columns = self.text[:same], self.columns[: same + 1]
        for byte in text[same:]:
            self.go_on(byte)
        whole = Item("", (START,), 1, 0, 0)
        if whole not in self.columns[len(text)].ways:
            raise Misread(MISPLACED, len(text))
        return self.node(whole, len(text)).parts[0]


SEARCHES = {inputs: Search(inputs) for inputs in range(17)}


def read(text, inputs):
    """The one tree of a text; or why it has none."""
    return SEARCHES[inputs].read(text)
