"""Tests of the Python package over the built library, for unittest or pytest."""
import os
import random
import re
import unittest

import treedoc
from treedoc import Answer, Cut, Put, Refused, Session, Status

HEADER = os.path.join(os.path.dirname(os.path.abspath(__file__)), "../../crates/treedoc_c/include/treedoc.h")


def refused(call, *arguments):
    """The status with which a call is refused."""
    try:
        call(*arguments)
    except Refused as it:
        return it.status
    return None


class Agreement(unittest.TestCase):
    def test_the_header_has_the_same_numbers(self):
        with open(HEADER, encoding="utf-8") as it:
            header = it.read()
        for kind, prefix in ((Status, "TD_"), (treedoc.Why, "TD_WHY_")):
            for status in kind:
                self.assertIn(f"    {prefix}{status.name} = {status.value}", header)
        for unit in treedoc.Unit:
            self.assertRegex(header, rf"enum td_unit {{.*\bTD_{unit.name} = {unit.value}\b")
        self.assertEqual(int(re.search(r"#define TD_VERSION (\d+)", header)[1]), treedoc.VERSION)
        self.assertEqual(int(re.search(r"#define TD_PACKET_ROOM (\d+)", header)[1]), treedoc.PACKET_ROOM)

    def test_the_header_declares_each_call(self):
        with open(HEADER, encoding="utf-8") as it:
            declared = set(re.findall(r"^\w+ (td_\w+)\(", it.read(), re.M))
        self.assertEqual(declared, set(treedoc._CALLS))


class Calls(unittest.TestCase):
    def test_each_call_on_its_happy_path(self):
        ann, bob = Session(1, 2), Session(2, 2)
        self.assertEqual((ann.site(), ann.sites(), len(ann), ann.sent()), (1, 2, 0, 0))
        self.assertEqual(ann.insert(0, "a"), Answer(Status.MADE, 1, 1))
        self.assertEqual(ann.changed(), Put(0, ("a",)))
        self.assertEqual(ann.paste(1, "e\u0301\r\nz"), Answer(Status.MADE, 1, 2))
        self.assertEqual(ann.changed(), Put(1, ("e\u0301", "\r\n", "z")))
        self.assertEqual(ann.delete(3), Answer(Status.MADE, 1, 3))
        self.assertEqual(ann.changed(), Cut(3))
        self.assertEqual((ann.text(), ann.stretch(1, 2), ann.stretch(1, 1)), ("ae\u0301\r\n", "e\u0301", ""))
        self.assertEqual((ann.sent(), ann.made(), ann.had(1), ann.had(2)), (3, 3, 3, 0))
        one, two, three = (ann.packet(k) for k in (1, 2, 3))
        self.assertEqual(bob.take(three.data), (Answer(Status.LATER), []))
        self.assertEqual(bob.receive(two.data).status, Status.LATER)
        self.assertEqual((bob.waiting(), bob.ready()), (2, False))
        self.assertEqual(bob.receive(one.data).status, Status.NEW)
        self.assertEqual((bob.changed(), bob.ready()), (Put(0, ("a",)), True))
        self.assertEqual(bob.next(), Answer(Status.TAKEN, 1, 2))
        self.assertEqual(bob.next(), Answer(Status.TAKEN, 1, 3))
        self.assertEqual(bob.next().status, Status.IDLE)
        self.assertEqual(bob.receive(one.data).status, Status.REPEAT)
        self.assertEqual((bob.text(), bob.changed()), (ann.text(), None))
        self.assertEqual(ann.flatten_side(0, True), Answer(Status.MADE, 1, 4))
        self.assertEqual(ann.cancel(1, 4).status, Status.CANCELLED)
        self.assertEqual(ann.flatten(), Answer(Status.MADE, 1, 6))
        self.assertEqual((ann.holds(), ann.insert(0, "x")), (1, Answer(Status.HELD, 1, 6)))
        for k in (4, 5, 6):
            self.assertEqual(bob.receive(ann.packet(k).data).status, Status.NEW)
        votes = [bob.packet(k) for k in range(1, bob.sent() + 1)]
        self.assertEqual([vote.to for vote in votes], [1, 1])
        self.assertEqual([ann.receive(vote.data).status for vote in votes], [Status.REPEAT, Status.NEW])
        self.assertEqual((ann.holds(), bob.receive(ann.packet(7).data).status, bob.holds()), (0, Status.NEW, 0))
        self.assertEqual(bob.receive(bob.packet(1).data), Answer(Status.UNFIT, place=treedoc.Why.ADDRESS))

    def test_places_in_each_unit(self):
        ann, text = Session(1, 1), "ae\u0301\u20ac\U0001f600\r\n"
        ann.paste(0, text)
        atoms = ("a", "e\u0301", "\u20ac", "\U0001f600", "\r\n")
        widths = {
            treedoc.Unit.BYTE: lambda s: len(s.encode()),
            treedoc.Unit.UTF16: lambda s: len(s.encode("utf-16-le")) // 2,
            treedoc.Unit.CODE_POINT: len,
        }
        for unit, width in widths.items():
            self.assertEqual(ann.len_in(unit), width(text))
            begins = [width("".join(atoms[:index])) for index in range(len(atoms) + 1)]
            self.assertEqual([ann.offset(index, unit) for index in range(len(atoms) + 1)], begins)
            lies = [max(i for i, begin in enumerate(begins) if begin <= at) for at in range(width(text) + 1)]
            self.assertEqual([ann.index(at, unit) for at in range(width(text) + 1)], lies)
        self.assertEqual((ann.len_in(), ann.offset(4), ann.index(2)), (len(text), 5, 1))
        self.assertEqual([refused(ann.offset, 6), refused(ann.index, len(text) + 1)], [Status.BAD_PLACE] * 2)
        self.assertEqual(refused(ann.len_in, 3), Status.BAD_UNIT)

    def test_what_is_refused_changes_nothing(self):
        self.assertEqual([refused(Session, *it) for it in ((0, 2), (3, 2), (1, 65), (1, 0))], [Status.BAD_SITE] * 4)
        ann = Session(1, 2)
        ann.paste(0, "tea")
        long = "e" + "\u0301" * 32
        answers = [
            (ann.insert(0, ""), Answer(Status.BAD_ATOM)), (ann.insert(0, "x" * 65), Answer(Status.BAD_ATOM)),
            (ann.paste(0, ""), Answer(Status.BAD_TEXT)), (ann.paste(0, "x" + long), Answer(Status.BAD_TEXT)),
            (ann.insert(4, "x"), Answer(Status.POSITION, place=3)), (ann.delete(3), Answer(Status.POSITION, place=3)),
            (ann.cancel(0, 1), Answer(Status.BAD_DOT)), (ann.cancel(1, 65536), Answer(Status.BAD_DOT)),
            (ann.cancel(1, 1), Answer(Status.NOT_OPEN, 1, 1)), (ann.next(), Answer(Status.IDLE)),
            (ann.receive(b""), Answer(Status.BAD_PACKET)), (ann.receive(b"T2\x09"), Answer(Status.BAD_PACKET, place=2)),
            (ann.receive(ann.packet(1).data + b"\0"), Answer(Status.BAD_PACKET, place=len(ann.packet(1).data))),
        ]
        for found, wanted in answers:
            self.assertEqual(found, wanted)
        self.assertEqual([refused(ann.packet, k) for k in (0, 2)], [Status.NO_MESSAGE] * 2)
        self.assertEqual([refused(ann.stretch, *it) for it in ((2, 1), (0, 4))], [Status.BAD_STRETCH] * 2)
        self.assertEqual([refused(ann.had, site) for site in (0, 3)], [Status.BAD_SITE] * 2)
        with self.assertRaises(ValueError):
            ann.delete(2**32)
        self.assertEqual((ann.text(), ann.sent(), ann.made()), ("tea", 1, 1))

    def test_a_closed_session_stays_closed(self):
        ann = Session(1, 2)
        ann.insert(0, "a")
        ann.close()
        ann.close()
        self.assertEqual([it.status for it in (ann.insert(0, "a"), ann.next(), ann.cancel(1, 1))], [Status.CLOSED] * 3)
        self.assertEqual([refused(it) for it in (ann.text, ann.changed)], [Status.CLOSED] * 2)
        self.assertEqual((len(ann), ann.sent(), ann.ready(), ann.site()), (0, 0, False, 0))

    def test_what_is_saved_is_loaded_and_goes_on(self):
        ann, bob = Session(1, 2), Session(2, 2)
        ann.paste_all(0, "tea \u8a9e\r\nmilk")
        ann.delete(0)
        ann.flatten()
        for k in range(1, ann.sent()):
            bob.take(ann.packet(k).data)
        later = ann.packet(ann.sent())
        with Session(2, 2, bob.save()) as again:
            self.assertEqual((again.site(), again.sites(), again.text()), (2, 2, bob.text()))
            self.assertEqual((again.changed(), again.had(1), again.holds()), (bob.changed(), bob.had(1), bob.holds()))
            self.assertEqual(again.save(), bob.save())
            self.assertEqual(again.take(later.data), bob.take(later.data))
            self.assertEqual(again.packet(1), bob.packet(1))
            self.assertEqual(again.save(), bob.save())
        self.assertEqual(refused(again.save), Status.CLOSED)
        again = Session(1, 2, ann.save())
        self.assertEqual([it.take(bob.packet(1).data) for it in (ann, again)], [(Answer(Status.NEW), [])] * 2)
        self.assertEqual((again.holds(), again.insert(0, "x")), (0, ann.insert(0, "x")))
        self.assertEqual([again.packet(k) for k in range(1, again.sent() + 1)],
                         [ann.packet(k) for k in range(1, ann.sent() + 1)])

    def test_a_spoilt_journal_is_told_at_its_place(self):
        ann = Session(1, 2)
        ann.insert(0, "a")
        ann.delete(0)
        journal = ann.save()
        # a header of 9 bytes, a record of an insert of 16, one of a delete, and the closed gate
        places = {0: 0, 2: 2, 3: 3, 4: 4, 5: 5, 8: 5, 10: 9, 12: 9, 24: 9, 26: 25, len(journal) - 2: 25}
        for spoilt, place in places.items():
            data = bytearray(journal)
            data[spoilt] ^= 16
            with self.assertRaises(Refused) as it:
                Session(1, 2, bytes(data))
            self.assertEqual((it.exception.status, it.exception.place), (Status.BAD_JOURNAL, place))
        faults = []
        for site, sites, data in ((0, 2, journal), (3, 2, journal), (1, 65, journal), (2, 2, journal), (1, 3, journal),
                                  (1, 2, b""), (1, 2, journal[:-1])):
            with self.assertRaises(Refused) as it:
                Session(site, sites, data)
            faults.append((it.exception.status, it.exception.place))
        self.assertEqual(faults, [(Status.BAD_SITE, 0)] * 3 + [
            (Status.BAD_JOURNAL, place) for place in (3, 4, 0, len(journal) - 1)])

    def test_a_long_text_is_pasted_run_by_run(self):
        ann = Session(1, 1)
        flags, family = "\U0001f1e6\U0001f1fa" * 3, "\U0001f468\u200d\U0001f469\u200d\U0001f467"
        text = f"a line of words, \u8a9e and {flags}, with {family}.\r\n" * 40
        answer, changes = ann.paste_all(0, text)
        self.assertEqual((answer.status, ann.text(), ann.made()), (Status.MADE, text, len(changes)))
        self.assertEqual("".join(atom for put in changes for atom in put.atoms), text)
        self.assertEqual(sum(len(put.atoms) for put in changes), len(ann))


class Convergence(unittest.TestCase):
    def test_packets_in_any_order_lead_to_one_text(self):
        chance = random.Random(11)
        sessions = [Session(site, 3) for site in (1, 2, 3)]
        screens, queues, posted = [[], [], []], [[], [], []], [0, 0, 0]

        def show(i, changes):
            for change in changes:
                if isinstance(change, Cut):
                    del screens[i][change.index]
                elif change is not None:
                    screens[i][change.index:change.index] = change.atoms

        def post(i):
            while posted[i] < sessions[i].sent():
                posted[i] += 1
                packet = sessions[i].packet(posted[i])
                for j in range(3):
                    if j != i and packet.to in (None, j + 1):
                        queues[j] += [packet.data] * chance.choice((1, 1, 1, 2))

        def deliver(i):
            answer, changes = sessions[i].take(queues[i].pop(chance.randrange(len(queues[i]))))
            self.assertIn(answer.status, (Status.NEW, Status.LATER, Status.REPEAT))
            show(i, changes)
            post(i)

        for _ in range(1500):
            i = chance.randrange(3)
            if queues[i] and chance.random() < 0.6:
                deliver(i)
            elif chance.random() < 0.02:
                sessions[i].flatten()
                post(i)
            else:
                size = len(screens[i])
                cuts = size and chance.random() < 0.4
                answer = sessions[i].delete(chance.randrange(size)) if cuts else sessions[i].paste(
                    chance.randrange(size + 1), chance.choice(("a", "\u00e9", "two words", "e\u0301\r\n")))
                self.assertIn(answer.status, (Status.MADE, Status.HELD))
                show(i, [sessions[i].changed()])
                post(i)
        while any(queues):
            for i in range(3):
                if queues[i]:
                    deliver(i)
        self.assertEqual(len({session.text() for session in sessions}), 1)
        for session, screen in zip(sessions, screens):
            self.assertEqual("".join(screen), session.text())


if __name__ == "__main__":
    unittest.main()
