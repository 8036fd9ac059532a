"""The tree of a site, drawn from the packets that it sends and takes: it has the same rows as `tree` of `play` prints.

The library tells the text and not the tree. But packets say what is done to the tree (docs/WIRE.md), and docs/MODEL.md
what comes of that, so who follows them has it."""
from bisect import insort
from typing import NamedTuple

LEFT, RIGHT = 0, 1


class Slot(NamedTuple):
    """A place where rows hang: a side of the row with this identity, or where there is none the root."""
    identity: "tuple[int, int, int] | None" = None
    side: int = RIGHT


class Insert(NamedTuple):
    dot: "tuple[int, int]"
    slot: Slot
    atoms: "tuple[str, ...]"


class Delete(NamedTuple):
    dot: "tuple[int, int]"
    target: "tuple[int, int, int]"


class Propose(NamedTuple):
    dot: "tuple[int, int]"
    slot: Slot


class Commit(NamedTuple):
    dot: "tuple[int, int]"
    proposal: "tuple[int, int]"


class Abort(NamedTuple):
    dot: "tuple[int, int]"
    proposal: "tuple[int, int]"


class Vote(NamedTuple):
    voter: int
    proposal: "tuple[int, int]"
    is_yes: bool


class _Reader:
    """A packet that the library wrote, in format 2. It is not judged: the library does that."""

    def __init__(self, data):
        self.data, self.at = data, 3

    def bytes(self, count):
        self.at += count
        return self.data[self.at - count:self.at]

    def number(self, count=1):
        return int.from_bytes(self.bytes(count), "big")

    def dot(self):
        return self.number(), self.number(4)

    def identity(self):
        return *self.dot(), self.number()

    def slot(self):
        if self.number() == 0:
            return Slot()
        side = self.number()
        return Slot(self.identity(), side)

    def run(self):
        return tuple(self.bytes(length).decode() for length in self.bytes(self.number()))

    def operation(self, kind):
        dot = self.dot()
        self.bytes(4 * self.number())
        if kind == 1:
            return Insert(dot, self.slot(), self.run())
        if kind == 2:
            return Delete(dot, self.identity())
        if kind == 3:
            return Propose(dot, self.slot())
        return (Commit if kind == 4 else Abort)(dot, self.dot())


def message(data):
    """What a packet says. What its operation depends on is left out."""
    reader = _Reader(data)
    kind = data[2]
    if kind == 6:
        return Vote(reader.number(), reader.dot(), reader.number() == 1)
    return reader.operation(kind)


class Row:
    """An atom in its place. It is a tombstone where a delete names it."""
    __slots__ = ("identity", "atom", "above", "side", "below", "deletes")

    def __init__(self, identity, atom):
        self.identity, self.atom, self.deletes = identity, atom, set()
        self.above, self.side, self.below = None, RIGHT, ([], [])

    def __lt__(self, other):
        return self.identity < other.identity

    def name(self):
        site, number, offset = self.identity
        return f"{site}.{number}+{offset}" if offset else f"{site}.{number}"

    def place(self):
        return f"{self.above.name()} {('left', 'right')[self.side]}" if self.above else "root"

    def line(self):
        """The line that `play` prints for it."""
        atom = self.atom.replace("\\", "\\\\").replace('"', '\\"').replace("\n", "\\n")
        dead = "".join(f" {site}.{number}" for site, number in sorted(self.deletes))
        return f'{self.name()} {self.place()} "{atom}"' + (f" dead{dead}" if dead else "")


class Rows:
    """The rows of a site, which takes operations in an order in which each comes behind all that it depends on."""

    def __init__(self):
        self._top, self._found, self._proposed = [], {}, {}

    def __len__(self):
        return len(self._found)

    def _at(self, slot):
        """The row above a slot, and the list of what hangs in it."""
        if slot.identity is None:
            return None, self._top
        above = self._found[slot.identity]
        return above, above.below[slot.side]

    def take(self, operation):
        """Does what an operation does."""
        if isinstance(operation, Insert):
            rows = [Row((*operation.dot, offset), atom) for offset, atom in enumerate(operation.atoms)]
            self._found.update((row.identity, row) for row in rows)
            self._put(rows, operation.slot)
        elif isinstance(operation, Delete):
            self._found[operation.target].deletes.add(operation.dot)
        elif isinstance(operation, Propose):
            self._proposed[operation.dot] = operation.slot
        else:
            slot = self._proposed.pop(operation.proposal)
            if isinstance(operation, Commit):
                self._flatten(slot)

    def _put(self, rows, slot):
        """Puts rows into a slot, as an array: the middle one in the slot, the others on its two sides."""
        parts = [(rows, slot)]
        while parts:
            rows, slot = parts.pop()
            if rows:
                half = len(rows) // 2
                row = rows[half]
                row.side = slot.side
                row.above, beside = self._at(slot)
                insort(beside, row)
                parts += [(rows[:half], Slot(row.identity, LEFT)), (rows[half + 1:], Slot(row.identity, RIGHT))]

    def _flatten(self, slot):
        """Makes an array of the live rows of a slot, and drops its tombstones."""
        _, hanging = self._at(slot)
        rows = [row for row, _ in _in_order(hanging)]
        hanging.clear()
        for row in rows:
            row.below = ([], [])
            if row.deletes:
                del self._found[row.identity]
        self._put([row for row in rows if not row.deletes], slot)

    def in_order(self):
        """All rows from left to right, each with its depth."""
        return _in_order(self._top)

    def text(self):
        return "".join(row.atom for row, _ in self.in_order() if not row.deletes)

    def lines(self):
        """The lines that `play` prints for them behind the first one of `tree`."""
        return [row.line() for row, _ in self.in_order()]


def _in_order(hanging):
    """The rows of a slot from left to right, with their depths. A tree may be deep, so this is a loop."""
    left = [(row, 1, False) for row in reversed(hanging)]
    while left:
        row, depth, is_passed = left.pop()
        if is_passed:
            yield row, depth
        else:
            left += [(below, depth + 1, False) for below in reversed(row.below[RIGHT])]
            left.append((row, depth, True))
            left += [(below, depth + 1, False) for below in reversed(row.below[LEFT])]
