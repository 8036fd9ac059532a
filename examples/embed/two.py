"""Two editors of one text, which send each other packets: docs/EMBEDDING.md goes through it."""
from treedoc import Cut, Session, Status


class Editor:
    """A session with a screen, here a list of the atoms, and how many of its messages were handed on."""

    def __init__(self, name, site, sites):
        self.name, self.session, self.screen, self.handed_on = name, Session(site, sites), [], 0

    def told(self, changes):
        for change in changes:
            if isinstance(change, Cut):
                del self.screen[change.index]
            else:
                self.screen[change.index:change.index] = change.atoms

    def type(self, index, text):
        answer, changes = self.session.paste_all(index, text)
        self.told(changes)
        if answer.status != Status.MADE:
            print(f"  {self.name} is refused: {answer.status.name}")

    def send(self, other):
        """Sends what was not sent yet: a network would, in any order, with losses that are sent again."""
        while self.handed_on < self.session.sent():
            packet = self.session.packet(self.handed_on + 1)
            if packet.to in (None, other.session.site()):
                _, changes = other.session.take(packet.data)
                other.told(changes)
            self.handed_on += 1

    def show(self):
        assert "".join(self.screen) == self.session.text()
        print(f'{self.name} sees "{"".join(self.screen)}"')


def main():
    ann, bob = Editor("Ann", 1, 2), Editor("Bob", 2, 2)
    ann.type(0, "tea milk")
    ann.send(bob)
    ann.type(3, ",")
    bob.type(8, "?")
    ann.show(), bob.show()
    ann.send(bob), bob.send(ann)
    ann.show(), bob.show()
    print(f"flatten: {ann.session.flatten().status.name}")
    ann.send(bob)
    bob.type(0, "x")
    bob.send(ann), ann.send(bob)
    print(f"held: {ann.session.holds()} and {bob.session.holds()}")
    ann.session.close(), bob.session.close()


if __name__ == "__main__":
    main()
