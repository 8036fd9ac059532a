"""A desk of editors that write one text: each is a replica of its own, and between two of them lie packets.

All calls of a desk are made on one thread, that on which it was opened: the sessions stay there. Places in a text
count characters of Python, and not atoms: who types knows nothing of atoms."""
import random
from collections import deque
from typing import NamedTuple

from rows import Abort, Commit, Propose, Rows, Vote, message
from treedoc import Put, Session, Status


class Change(NamedTuple):
    """From a place on so many characters went, and others came. `by` is the name of the edit that did it, if it was one
    of this editor, and None where it came in a packet."""
    at: int
    cut: int
    put: str
    by: "str | None" = None


class Screen:
    """The atoms that an editor shows. A place is looked for from the one that was found last."""

    def __init__(self):
        self.atoms, self.size = [], 0
        self._index, self._start = 0, 0

    def text(self):
        return "".join(self.atoms)

    def start(self, index):
        """Where the atom with this index starts."""
        if self._index < index:
            self._start += sum(map(len, self.atoms[self._index:index]))
        else:
            self._start -= sum(map(len, self.atoms[index:self._index]))
        self._index = index
        return self._start

    def atom_at(self, place):
        """The index of the atom that has the character at a place, and where it starts. At the end there is none."""
        while self._start > place:
            self._index -= 1
            self._start -= len(self.atoms[self._index])
        while self._index < len(self.atoms) and self._start + len(self.atoms[self._index]) <= place:
            self._start += len(self.atoms[self._index])
            self._index += 1
        return self._index, self._start

    def change(self, told):
        """Makes a change that a session told, and says what it is in characters."""
        at = self.start(told.index)
        if isinstance(told, Put):
            self.atoms[told.index:told.index] = told.atoms
            change = Change(at, 0, "".join(told.atoms))
        else:
            change = Change(at, len(self.atoms.pop(told.index)), "")
        self.size += len(change.put) - change.cut
        return change


def together(changes):
    """The same changes, with those that go on from one another as one. Edits with a name stay as they are."""
    joined = []
    for it in changes:
        last = joined[-1] if joined else None
        if last is None or last.by is not None or it.by is not None:
            joined.append(it)
        elif not last.cut and not it.cut and it.at == last.at + len(last.put):
            joined[-1] = Change(last.at, 0, last.put + it.put)
        elif not last.put and not it.put and it.at == last.at:
            joined[-1] = Change(last.at, last.cut + it.cut, "")
        elif not last.put and not it.put and it.at + it.cut == last.at:
            joined[-1] = Change(it.at, last.cut + it.cut, "")
        else:
            joined.append(it)
    return joined


def plain(text):
    """A text as a page shows it: its lines end in line feeds, and it has no halves of characters."""
    text = text.replace("\r\n", "\n").replace("\r", "\n")
    return text.encode("utf-16-le", "surrogatepass").decode("utf-16-le", "replace")


class Editor:
    """A session with its screen, its tree and its place at the desk."""

    def __init__(self, site, sites, post):
        self.site, self.session, self._post = site, Session(site, sites), post
        self.screen, self.rows = Screen(), Rows()
        self.changes, self.steps = [], 0
        self.is_joined = True
        self.proposal = None
        self._posted, self._waiting = 0, {}

    def version(self):
        """How many changes its text has had."""
        return len(self.changes)

    def _stepped(self, taken=None):
        """Does what is to be done behind a step: changes the screen and the tree, and posts what it sent."""
        self.steps += 1
        if taken is not None and not isinstance(taken, Vote):
            self.rows.take(taken)
        told = self.session.changed()
        while self._posted < self.session.sent():
            self._posted += 1
            packet = self.session.packet(self._posted)
            said = message(packet.data)
            if not isinstance(said, Vote):
                self.rows.take(said)
            if isinstance(said, Propose):
                self.proposal = said.dot[1]
            elif isinstance(said, (Commit, Abort)) and said.proposal == (self.site, self.proposal):
                self.proposal = None
            self._post(self.site, packet)
        return None if told is None else self.screen.change(told)

    def take(self, data):
        """Takes a packet and what waited for it. Answers what became of the packet."""
        answer, said = self.session.receive(data), message(data)
        if answer.status == Status.LATER:
            self._waiting[said.dot] = said
        status, done = answer.status, said
        while status in (Status.NEW, Status.TAKEN, Status.DROPPED):
            if status != Status.DROPPED:
                change = self._stepped(done)
                if change is not None:
                    self.changes.append(change)
            if not self.session.ready():
                break
            next_one = self.session.next()
            status, done = next_one.status, self._waiting.pop((next_one.site, next_one.number), None)
        if status == Status.MEMORY:
            raise MemoryError
        return answer

    def write(self, version, steps, by):
        """Makes edits of the text that had so many changes, each a place, how many characters go from there, and what
        comes there. Answers the status of the first that is refused, or `MADE`; or None where the text has changed."""
        if version != self.version():
            return None
        for at, cut, put in steps:
            status = self._replace(at, cut, plain(put), by)
            if status != Status.MADE:
                return status
        return Status.MADE

    def _replace(self, at, cut, put, by):
        if not 0 <= at <= at + cut <= self.screen.size:
            raise ValueError("there is no such place in the text")
        first, start = self.screen.atom_at(at)
        last, end = first, start
        while end < at + cut or start < at and last == first:
            end += len(self.screen.atoms[last])
            last += 1
        # an atom is never parted: where characters of one go, or others come between them, it is written anew
        old = "".join(self.screen.atoms[first:last])
        changes, status, index = self._put(first, old[:at - start] + put + old[at + cut - start:])
        for _ in range(last - first):
            if status == Status.MADE:
                status = self.session.delete(index).status
                if status == Status.MADE:
                    changes.append(self._stepped())
        # what was not made whole is no edit with a name: who made it is told what was made of it
        self.changes += [Change(at, cut, put, by)] if status == Status.MADE else changes
        return status

    def _put(self, index, text):
        """Puts a text at an index, run by run. Answers the changes, the last status, and the index behind them."""
        changes, status = [], Status.MADE
        while text and status == Status.MADE:
            status = self.session.paste(index, text[:256]).status
            if status == Status.BAD_TEXT:
                # what is too long for an atom is put letter by letter
                status = self.session.insert(index, text[0]).status
            if status == Status.MADE:
                atoms = len(self.screen.atoms)
                changes.append(self._stepped())
                index += len(self.screen.atoms) - atoms
                text = text[len(changes[-1].put):]
        return changes, status, index

    def flatten(self):
        """Proposes to flatten the whole text."""
        status = self.session.flatten().status
        if status == Status.MADE:
            self._stepped()
        return status

    def cancel(self):
        """Gives up the proposal that is undecided, if there is one."""
        if self.proposal is None:
            return Status.NOT_OPEN
        status = self.session.cancel(self.site, self.proposal).status
        if status == Status.CANCELLED:
            self._stepped()
        return status


class Desk:
    """So many editors, and a queue of packets from each to each other one. A packet between two that are joined is
    handed on; one that is cut off writes alone, and what it sends and is sent lies in the queues until it is back."""

    def __init__(self, sites, chance=None):
        self.queues = {(i, j): deque() for i in range(1, sites + 1) for j in range(1, sites + 1) if i != j}
        self.editors = {site: Editor(site, sites, self._post) for site in range(1, sites + 1)}
        self._chance = chance or random.Random()

    def close(self):
        for editor in self.editors.values():
            editor.session.close()

    def _post(self, site, packet):
        for other in self.editors if packet.to is None else (packet.to,):
            if other != site:
                self.queues[site, other].append(packet.data)

    def join(self, site, is_joined):
        """Cuts an editor off, or brings it back."""
        self.editors[site].is_joined = is_joined

    def deliver(self, most=None):
        """Hands on up to so many packets, now of this queue and now of that. Answers how many were handed on."""
        handed_on = 0
        while handed_on != most and (ways := [it for it, queue in self.queues.items() if queue and self._is_open(*it)]):
            way = self._chance.choice(ways)
            self.editors[way[1]].take(self.queues[way].popleft())
            handed_on += 1
        return handed_on

    def _is_open(self, site, other):
        return self.editors[site].is_joined and self.editors[other].is_joined

    def to_come(self, site):
        """How many packets lie there for an editor."""
        return sum(len(queue) for (_, other), queue in self.queues.items() if other == site)

    def to_go(self, site):
        """How many packets of an editor lie there."""
        return sum(len(queue) for (one, _), queue in self.queues.items() if one == site)
